/** Which mutable globals the host sets while it has control. */
import { bits, valueText } from './values.mjs';

const I32 = 0x7f;
const I64 = 0x7e;
/** @typedef {import('./module_types.mjs').GlobalType} GlobalType */
/** @typedef {import('./values.mjs').Value} Value */

/** @type {{ [type: string]: { type: number, asInteger: number, reinterpret: number } }} */
const FLOATS = {
  f32: { type: 0x7d, asInteger: I32, reinterpret: 0xbc },
  f64: { type: 0x7c, asInteger: I64, reinterpret: 0xbd },
};
/** @type {{ [type: string]: (pattern: any) => Value }} */
const UNSIGNED = { f32: pattern => pattern >>> 0, f64: pattern => BigInt.asUintN(64, pattern) };

/**
 * A function that gives the bits of a global. JavaScript makes signalling NaNs quiet when it reads a float, so a float
 * is read by a module of one function, which gives it as an integer.
 * @param {WebAssembly.Global} global
 * @param {GlobalType} globalType
 * @returns {() => Value}
 */
export function bitsReader(global, { type, mutable }) {
  const float = FLOATS[type];
  if (float === undefined) return () => global.value;
  const bytes = Uint8Array.of(
    0x00, 0x61, 0x73, 0x6d, 0x01, 0x00, 0x00, 0x00,
    0x01, 0x05, 0x01, 0x60, 0x00, 0x01, float.asInteger,
    0x02, 0x08, 0x01, 0x01, 0x67, 0x01, 0x67, 0x03, float.type, mutable ? 1 : 0,
    0x03, 0x02, 0x01, 0x00,
    0x07, 0x05, 0x01, 0x01, 0x62, 0x00, 0x00,
    0x0a, 0x07, 0x01, 0x05, 0x00, 0x23, 0x00, float.reinterpret, 0x0b,
  );
  const { exports } = new WebAssembly.Instance(new WebAssembly.Module(bytes), { g: { g: global } });
  const read = /** @type {() => Value} */ (exports.b);
  return () => UNSIGNED[type](read());
}

/**
 * The bits of an imported global as the host gives it: a WebAssembly.Global, or a number for an immutable one.
 * @param {any} given
 * @param {GlobalType} globalType
 */
export function givenBits(given, globalType) {
  if (given instanceof WebAssembly.Global) return bitsReader(given, globalType)();
  return bits(globalType.type, given);
}

export class GlobalChanges {
  constructor() {
    /** @type {{ index: number, type: GlobalType['type'], target: string, read: () => Value, noted: Value }[]} */
    this.watched = [];
  }

  /**
   * Watches a mutable global of the module, once. `target` is how a script names it.
   * @param {number} index
   * @param {WebAssembly.Global} global
   * @param {GlobalType} globalType
   * @param {string} target
   */
  watch(index, global, globalType, target) {
    if (this.watched.some(item => item.index === index)) return;
    const read = bitsReader(global, globalType);
    this.watched.push({ index, type: globalType.type, target, read, noted: read() });
  }

  look() {
    for (const item of this.watched) item.noted = item.read();
  }

  actions() {
    return this.watched.flatMap(({ type, target, read, noted }) => {
      const now = read();
      return now === noted ? [] : [`{"set_global":${target},"value":${valueText(type, now)}}`];
    });
  }
}
