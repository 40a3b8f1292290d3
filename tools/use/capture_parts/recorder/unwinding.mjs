/**
 * Which functions of K an exception or a trap has ended. r3 has no such end of a function that the run goes on after,
 * so these functions are to stay outside of K in a further run.
 */
const FRAME = /(wasm:\/\/[^\s()]+):wasm-function\[(\d+)\]/;

/** So many stacks are looked at in each run; after that only each hundredth. */
const MOST = 1000;
const THEN = 100;

/**
 * The lines of the stack here, all of them.
 * @returns {string[]}
 */
function stackLines() {
  const settings = /** @type {any} */ (Error);
  const names = ['stackTraceLimit', 'prepareStackTrace'];
  const before = names.map(name => Object.getOwnPropertyDescriptor(settings, name));
  try {
    settings.stackTraceLimit = Infinity;
    settings.prepareStackTrace = undefined;
    return linesOf(new Error().stack);
  } finally {
    names.forEach((name, place) => {
      const descriptor = before[place];
      if (descriptor === undefined) delete settings[name];
      else Object.defineProperty(settings, name, descriptor);
    });
  }
}
/** @param {unknown} stack */
const linesOf = stack =>
  (typeof stack === 'string' ? stack.split('\n').filter(line => line.trimStart().startsWith('at ')) : []);

export class Unwinding {
  /**
   * @param {number[]} kept
   * @param {number} first the number of the first kept function in K
   */
  constructor(kept, first) {
    this.kept = kept;
    this.first = first;
    /**
     * K's address in stacks.
     * @type {string | null}
     */
    this.address = null;
    /**
     * The functions, with how many crossings were not recorded when they were last ended.
     * @type {Map<number, number>}
     */
    this.ended = new Map();
    this.count = 0;
  }

  /** Is called by K, to know its address. */
  probe() {
    this.address ??= stackLines().map(line => FRAME.exec(line)?.[1]).find(text => text !== undefined) ?? null;
  }

  /**
   * The functions of K in the first run of its frames.
   * @param {string[]} lines
   */
  functions(lines) {
    const frames = lines.map(line => FRAME.exec(line)).map(found =>
      (found?.[1] === this.address ? Number(found?.[2]) : null));
    const begin = frames.findIndex(number => number !== null);
    if (begin === -1) return [];
    const behind = frames.findIndex((number, place) => place > begin && number === null);
    return frames.slice(begin, behind === -1 ? undefined : behind).flatMap(number => {
      const index = this.kept[(number ?? 0) - this.first];
      return index === undefined ? [] : [index];
    });
  }

  /**
   * An error passes from a callee to K, whose frames are on the stack.
   * @param {number} after crossings that were not recorded
   */
  throughCallee(after) {
    if (++this.count > MOST && this.count % THEN !== 0) return;
    for (const index of this.functions(stackLines())) this.ended.set(index, after);
  }

  /**
   * An error comes from K itself. Its stack is looked at unless the program makes stacks.
   * @param {unknown} error
   * @param {number} after
   */
  fromKept(error, after) {
    if (/** @type {any} */ (Error).prepareStackTrace !== undefined || !(error instanceof Error)) return;
    for (const index of this.functions(linesOf(error.stack))) this.ended.set(index, after);
  }

  /**
   * Those after whose end there were more crossings.
   * @param {number} after all crossings that were not recorded
   */
  stale(after) {
    return [...this.ended].filter(([, then]) => then < after).map(([index]) => index);
  }
}
