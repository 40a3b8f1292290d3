/**
 * A reader of modules for the check alone. It shares no code with what makes K, and knows the instructions that K may
 * have and those that they stand for.
 */

/** Thrown where the check does not know something, or K is not M's. The message is one line. */
export class NotEqual extends Error {}

class Bytes {
  /**
   * @param {Uint8Array} bytes
   * @param {number} at
   * @param {number} end
   */
  constructor(bytes, at, end) {
    this.bytes = bytes;
    this.at = at;
    this.end = end;
  }

  next() {
    if (this.at >= this.end) throw new NotEqual(`the bytes end at ${this.end}`);
    return this.bytes[this.at++];
  }

  /**
   * A LEB128 number of any length, as a text that equal numbers have in common.
   * @param {boolean} isSigned
   */
  number(isSigned) {
    let [value, shift, byte] = [0n, 0n, 128];
    while (byte >= 128) {
      byte = this.next();
      value |= BigInt(byte % 128) << shift;
      shift += 7n;
    }
    return isSigned && byte >= 64 ? value - (1n << shift) : value;
  }

  count() {
    return Number(this.number(false));
  }

  /**
   * @template T
   * @param {() => T} item
   * @returns {T[]}
   */
  vector(item) {
    const list = [];
    for (let left = this.count(); left > 0; left--) list.push(item());
    return list;
  }

  raw(/** @type {number} */ length) {
    return Array.from({ length }, () => this.next());
  }

  text() {
    return new TextDecoder().decode(Uint8Array.from(this.raw(this.count())));
  }
}

/** @typedef {{ params: number[], results: number[] }} Signature */
/** @typedef {{ op: number, second: number | null, values: (bigint | bigint[] | number[])[] }} Instruction */
/** @typedef {{ locals: [number, number][], code: Instruction[] }} Body */
/** @typedef {{ offset: bigint | null, functions: number[] }} Elements */
/**
 * @typedef {object} Contents
 * @property {Signature[]} types
 * @property {{ module: string, name: string, kind: number, type: number }[]} imports
 * @property {number[]} functions the numbers of types, of all functions
 * @property {number} imported how many functions are imported
 * @property {{ type: number, mutable: number }[]} globals
 * @property {[number, number][]} bodies
 * @property {number[]} tables the types of entries
 * @property {Uint8Array} bytes
 */

/** @param {Bytes} r */
function limits(r) {
  const flags = r.next();
  r.number(false);
  if (flags % 2 === 1) r.number(false);
}
/**
 * Skips a constant expression.
 * @param {Bytes} r
 */
function skipExpression(r) {
  while (instruction(r).op !== 0x0b);
}

/**
 * @param {Bytes} r
 * @returns {Signature}
 */
function signature(r) {
  r.next();
  return { params: r.vector(() => r.next()), results: r.vector(() => r.next()) };
}
/** @param {Bytes} r */
function global(r) {
  const item = { type: r.next(), mutable: r.next() };
  skipExpression(r);
  return item;
}
/**
 * @param {Bytes} r
 * @returns {[number, number]}
 */
function range(r) {
  const length = r.count();
  r.at += length;
  return [r.at - length, r.at];
}

/**
 * The contents of a module, as far as bodies speak of them.
 * @param {Uint8Array} bytes
 * @returns {Contents}
 */
export function contents(bytes) {
  /** @type {Contents} */
  const found = { types: [], imports: [], functions: [], imported: 0, globals: [], bodies: [], tables: [], bytes };
  const whole = new Bytes(bytes, 8, bytes.length);
  while (whole.at < whole.end) {
    const id = whole.next();
    const size = whole.count();
    const r = new Bytes(bytes, whole.at, whole.at + size);
    whole.at += size;
    if (id === 1) found.types = r.vector(() => signature(r));
    else if (id === 2) readImports(r, found);
    else if (id === 3) found.functions.push(...r.vector(() => r.count()));
    else if (id === 4) found.tables.push(...r.vector(() => { const type = r.next(); limits(r); return type; }));
    else if (id === 6) found.globals.push(...r.vector(() => global(r)));
    else if (id === 10) found.bodies = r.vector(() => range(r));
  }
  return found;
}

/**
 * @param {Bytes} r
 * @param {Contents} found
 */
function readImports(r, found) {
  for (let left = r.count(); left > 0; left--) {
    const [module, name, kind] = [r.text(), r.text(), r.next()];
    let type = -1;
    if (kind === 0) found.functions.push(type = r.count());
    else if (kind === 1) { found.tables.push(r.next()); limits(r); }
    else if (kind === 2) limits(r);
    else if (kind === 3) found.globals.push({ type: r.next(), mutable: r.next() });
    else { r.next(); r.count(); }
    if (kind === 0) found.imported++;
    found.imports.push({ module, name, kind, type });
  }
}

/**
 * The immediates of an instruction: u unsigned, s signed, 4 and 8 raw bytes, v a vector of unsigned, b a block's type.
 */
function immediates(/** @type {number} */ op) {
  if (op >= 0x02 && op <= 0x04) return 'b';
  if (op === 0x0e) return 'vu';
  if (op === 0x0c || op === 0x0d || op === 0x10 || (op >= 0x20 && op <= 0x24) || op === 0x3f || op === 0x40
      || op === 0xd2) return 'u';
  if (op === 0x11 || (op >= 0x28 && op <= 0x3e)) return 'uu';
  if (op === 0x1c) return 'v';
  if (op === 0x41 || op === 0x42) return 's';
  if (op === 0x43) return '4';
  if (op === 0x44) return '8';
  if ([0x00, 0x01, 0x05, 0x0b, 0x0f, 0x1a, 0x1b].includes(op) || (op >= 0x45 && op <= 0xc4)) return '';
  throw new NotEqual(`the instruction 0x${op.toString(16)} is not one of a kept part`);
}
/**
 * The same behind the prefix 0xfc.
 * @param {number} op
 */
function immediatesBehindPrefix(op) {
  if (op < 8) return '';
  if (op === 10) return 'uu';
  if (op === 11) return 'u';
  throw new NotEqual(`the instruction 0xfc ${op} is not one of a kept part`);
}

/**
 * @param {Bytes} r
 * @param {string} form
 */
function immediate(r, form) {
  if (form === 'u') return r.number(false);
  if (form === 's' || form === 'b') return r.number(true);
  return form === 'v' ? r.vector(() => r.number(false)) : r.raw(Number(form));
}

/**
 * @param {Bytes} r
 * @returns {Instruction}
 */
function instruction(r) {
  const op = r.next();
  const second = op === 0xfc ? r.count() : null;
  const forms = second === null ? immediates(op) : immediatesBehindPrefix(second);
  return { op, second, values: [...forms].map(form => immediate(r, form)) };
}

/**
 * A body.
 * @param {Contents} m
 * @param {number} place among the defined functions
 * @returns {Body}
 */
export function bodyAt(m, place) {
  const [begin, end] = m.bodies[place];
  const r = new Bytes(m.bytes, begin, end);
  const locals = r.vector(() => /** @type {[number, number]} */ ([r.count(), r.next()]));
  const code = [];
  while (r.at < r.end) code.push(instruction(r));
  return { locals, code };
}
