/** Values of scripts and histories as JavaScript has them, in the tests. */
/** @typedef {import('../../use/capture_parts/module_types.mjs').ValueType} ValueType */
/** @typedef {{ [type: string]: number | string }} ScriptValue an object with one key, its type */

const pattern = new DataView(new ArrayBuffer(8));

/** @type {{ [type: string]: number }} */
const TYPES = { i32: 0x7f, i64: 0x7e, f32: 0x7d, f64: 0x7c };
/** @type {{ [type: string]: number[] }} */
const REINTERPRET = { i32: [], i64: [], f32: [0xbe], f64: [0xbf] };
const integerOf = (/** @type {string} */ type) => (type.endsWith('32') ? TYPES.i32 : TYPES.i64);
const PREAMBLE = [0x00, 0x61, 0x73, 0x6d, 0x01, 0x00, 0x00, 0x00];
const section = (/** @type {number} */ id, /** @type {number[]} */ bytes) => [id, bytes.length, ...bytes];

/**
 * A value of a script as JavaScript has it. An f32 that is a signalling NaN becomes quiet on the way.
 * @param {ScriptValue} value
 * @returns {number | bigint}
 */
export function number(value) {
  const [[type, bits]] = Object.entries(value);
  if (type === 'i32') return Number(bits) | 0;
  if (type === 'i64') return BigInt.asIntN(64, BigInt(bits));
  if (type === 'f32') {
    pattern.setUint32(0, Number(bits));
    return pattern.getFloat32(0);
  }
  pattern.setBigUint64(0, BigInt(bits));
  return pattern.getFloat64(0);
}

/**
 * A value of JavaScript as a history prints it.
 * @param {string} type
 * @param {any} value
 */
export function printed(type, value) {
  if (type === 'i32') pattern.setInt32(0, value);
  if (type === 'f32') pattern.setFloat32(0, value);
  if (type === 'i64') pattern.setBigInt64(0, value);
  if (type === 'f64') pattern.setFloat64(0, value);
  const digits = type.endsWith('32') ? pattern.getUint32(0).toString(16) : pattern.getBigUint64(0).toString(16);
  return `${type}:${digits.padStart(type.endsWith('32') ? 8 : 16, '0')}`;
}

/**
 * Sets a mutable global to the bits of a value, by a module of one function: JavaScript would lose those of a NaN.
 * @param {WebAssembly.Global} global
 * @param {ScriptValue} value
 */
export function setGlobal(global, value) {
  const [[type, bits]] = Object.entries(value);
  const bytes = Uint8Array.from([
    ...PREAMBLE,
    ...section(1, [1, 0x60, 1, integerOf(type), 0]),
    ...section(2, [1, 1, 0x67, 1, 0x67, 3, TYPES[type], 1]),
    ...section(3, [1, 0]),
    ...section(7, [1, 1, 0x73, 0, 0]),
    ...section(10, [1, 6 + REINTERPRET[type].length, 0, 0x20, 0, ...REINTERPRET[type], 0x24, 0, 0x0b]),
  ]);
  const { exports } = new WebAssembly.Instance(new WebAssembly.Module(bytes), { g: { g: global } });
  const set = /** @type {(bits: number | bigint) => void} */ (exports.s);
  set(integerOf(type) === TYPES.i64 ? BigInt(bits) : Number(bits));
}

/**
 * A new global with the bits of a value.
 * @param {{ type: ValueType, mutable: boolean }} globalType
 * @param {ScriptValue} value
 */
export function madeGlobal({ type, mutable }, value) {
  if (!mutable) return new WebAssembly.Global({ value: type }, number(value));
  const global = new WebAssembly.Global({ value: type, mutable: true }, type === 'i64' ? 0n : 0);
  setGlobal(global, value);
  return global;
}
