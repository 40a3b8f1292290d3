/**
 * Values of the module as JavaScript has them, and as a script gives them.
 *
 * JavaScript has an f32 as a number of 64 bits. Hardware makes a signalling NaN quiet when it widens or narrows it, so
 * an f32 argument or result that is a signalling NaN comes out of JavaScript with its highest bit of the fraction set.
 * What else becomes of the bits of a NaN is the engine's choice, and a list of numbers may lose them.
 */
/** @typedef {import('./module_types.mjs').ValueType} ValueType */
/** @typedef {number | bigint} Value */

const i32 = new Int32Array(1);
const i64 = new BigInt64Array(1);
const f32 = new Float32Array(1);
const f64 = new Float64Array(1);
/** @type {Record<ValueType, { [place: number]: any }>} */
const arrays = { i32, i64, f32, f64 };
const f32Bits = new Uint32Array(f32.buffer);
const f64Bits = new BigUint64Array(f64.buffer);

/**
 * A value of JavaScript, converted as an engine converts it for the module (ToWebAssemblyValue of the standard's
 * interface for JavaScript). Throws a TypeError where an engine does, a number for an i64 among them.
 * @param {ValueType} type
 * @param {any} value
 * @returns {Value}
 */
export function converted(type, value) {
  arrays[type][0] = value;
  return arrays[type][0];
}

/**
 * The bits of a converted value: an integer with its sign, or the pattern of a float as an unsigned number.
 * @param {ValueType} type
 * @param {any} value
 * @returns {Value}
 */
export function bits(type, value) {
  if (type === 'f32') {
    f32[0] = value;
    return f32Bits[0];
  }
  if (type === 'f64') {
    f64[0] = value;
    return f64Bits[0];
  }
  return value;
}

/**
 * A value as a script gives it, of its bits.
 * @param {ValueType} type
 * @param {Value} itsBits
 */
export function valueText(type, itsBits) {
  return `{"${type}":${itsBits}}`;
}
