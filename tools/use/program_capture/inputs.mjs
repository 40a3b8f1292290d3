/**
 * What a program reads that differs from run to run: clocks and random numbers. A first run notes it, and a further run
 * of the same program gets the same again, so that it takes the same way. What goes beyond the notes is read anew.
 * Works in Node.js, in pages and in workers.
 */

/** Numbers and bytes that are noted at most, of each kind. */
const MOST = 1 << 22;

/** @typedef {import('./types.mjs').Notes} Notes */
/** @typedef {(self: any, args: any[]) => any} Call what is done in place of a function */

/** The names under which modules import WASI, preview 1. */
const WASI = ['wasi_snapshot_preview1', 'wasi_unstable'];

/**
 * Which bytes WASI's functions for clocks and random numbers fill.
 * @type {Record<string, (args: any[]) => [number, number]>}
 */
const FILLED = {
  clock_time_get: ([, , at]) => [at >>> 0, 8],
  random_get: ([at, length]) => [at >>> 0, length >>> 0],
};

export class Inputs {
  /** @param {Notes | null} given the notes of the first run, or null in the first run */
  constructor(given) {
    this.given = given;
    /** @type {Notes} */
    this.notes = { numbers: {}, bytes: {} };
    /** @type {Record<string, number>} */
    this.at = {};
    /** @type {Record<string, number>} */
    this.room = {};
  }

  /**
   * The place in the notes of the next item of a kind.
   * @param {string} kind
   */
  next(kind) {
    const at = this.at[kind] ?? 0;
    this.at[kind] = at + 1;
    return at;
  }

  /**
   * Whether there is room for a note of this size.
   * @param {string} kind
   * @param {number} size
   */
  takesRoom(kind, size) {
    const left = (this.room[kind] ?? MOST) - size;
    this.room[kind] = left;
    return left >= 0;
  }

  /** @param {string} kind @param {() => number} read */
  number(kind, read) {
    if (this.given !== null) return this.given.numbers[kind]?.[this.next(kind)] ?? read();
    const value = read();
    if (this.takesRoom(kind, 1)) (this.notes.numbers[kind] ??= []).push(value);
    return value;
  }

  /**
   * The bytes of `view`, which has been filled anew, are noted, or become those of the notes.
   * @param {string} kind
   * @param {Uint8Array} view
   */
  fill(kind, view) {
    if (this.given !== null) {
      const noted = this.given.bytes[kind]?.[this.next(kind)];
      if (noted?.length === view.length) view.set(noted);
    } else if (this.takesRoom(kind, view.length + 1)) {
      (this.notes.bytes[kind] ??= []).push([...view]);
    }
  }

  install() {
    this.installDate();
    this.installMath();
    this.installPerformance();
    this.installCrypto();
    if (typeof process === 'object' && typeof process.hrtime === 'function') this.installTime();
  }

  installDate() {
    const own = Date;
    const read = own.now;
    const now = () => this.number('Date', read);
    own.now = new Proxy(read, { apply: now });
    const proxy = new Proxy(own, {
      apply: () => new own(now()).toString(),
      construct: (target, args, made) => Reflect.construct(target, args.length === 0 ? [now()] : args, made),
    });
    const hidden = { value: proxy, writable: true, enumerable: false, configurable: true };
    Object.defineProperty(own.prototype, 'constructor', hidden);
    Object.defineProperty(globalThis, 'Date', hidden);
  }

  installMath() {
    const read = Math.random;
    Math.random = new Proxy(read, { apply: () => this.number('Math.random', read) });
  }

  installPerformance() {
    if (typeof performance === 'undefined') return;
    const { prototype } = performance.constructor;
    const holder = Object.hasOwn(prototype, 'now') ? prototype : performance;
    const read = holder.now.bind(performance);
    this.replace(holder, 'now', () => this.number('performance', read));
  }

  installCrypto() {
    if (typeof crypto === 'undefined') return;
    const holder = Object.getPrototypeOf(crypto);
    const { getRandomValues, randomUUID } = holder;
    this.replace(holder, 'getRandomValues', (self, [view]) => {
      const filled = Reflect.apply(getRandomValues, self, [view]);
      this.fill('getRandomValues', new Uint8Array(filled.buffer, filled.byteOffset, filled.byteLength));
      return filled;
    });
    if (randomUUID === undefined) return;
    this.replace(holder, 'randomUUID', (self, args) => {
      const view = new Uint8Array(36);
      const made = Reflect.apply(randomUUID, self, args);
      for (let at = 0; at < 36; at++) view[at] = made.charCodeAt(at);
      this.fill('randomUUID', view);
      return String.fromCharCode(...view);
    });
  }

  /** The clock of Node.js that counts nanoseconds. */
  installTime() {
    const { hrtime } = process;
    const bigint = hrtime.bigint;
    const now = () => this.number('hrtime', () => Number(bigint()));
    const proxy = new Proxy(hrtime, {
      apply: (_, self, [before]) => {
        if (before !== undefined && !Array.isArray(before)) return Reflect.apply(hrtime, self, [before]);
        const time = now();
        let [seconds, rest] = [Math.floor(time / 1e9), time % 1e9];
        if (before !== undefined) [seconds, rest] = [seconds - before[0], rest - before[1]];
        return rest < 0 ? [seconds - 1, rest + 1e9] : [seconds, rest];
      },
    });
    hrtime.bigint = new Proxy(bigint, { apply: () => BigInt(now()) });
    process.hrtime = proxy;
  }

  /**
   * @param {any} holder
   * @param {string} name
   * @param {Call} call
   */
  replace(holder, name, call) {
    const value = new Proxy(holder[name], { apply: (_, self, args) => call(self, args) });
    Object.defineProperty(holder, name, { ...Object.getOwnPropertyDescriptor(holder, name), value });
  }

  /**
   * The imports of a module with WASI's clock and random numbers noted.
   * @param {any} imports
   * @param {() => WebAssembly.Memory | undefined} memory gives the memory as soon as there is one
   */
  ofWasi(imports, memory) {
    const found = WASI.find(name => typeof imports?.[name] === 'object' && imports[name] !== null);
    if (found === undefined) return imports;
    const own = imports[found];
    /** @type {Record<string, Function>} */
    const more = {};
    for (const [name, range] of Object.entries(FILLED)) {
      if (typeof own[name] === 'function') more[name] = this.filling(name, own[name], range, memory);
    }
    return { ...imports, [found]: { ...own, ...more } };
  }

  /**
   * A function that fills bytes of the memory, which are noted.
   * @param {string} name
   * @param {Function} call
   * @param {(args: any[]) => [number, number]} range of its arguments
   * @param {() => WebAssembly.Memory | undefined} memory
   */
  filling(name, call, range, memory) {
    return new Proxy(call, {
      apply: (target, self, args) => {
        const result = Reflect.apply(target, self, args);
        const [at, length] = range(args);
        const buffer = memory()?.buffer;
        const isWithin = buffer !== undefined && at + length <= buffer.byteLength;
        if (result === 0 && isWithin) this.fill(name, new Uint8Array(buffer, at, length));
        return result;
      },
    });
  }
}
