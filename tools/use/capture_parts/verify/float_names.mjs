/** The names of the instructions that calculate with floats, in the order of their numbers: those that K may import. */
const names = (/** @type {number} */ first, /** @type {string} */ text) =>
  text.split(' ').map((word, place) => /** @type {[number, string]} */ ([first + place, word]));

/**
 * @param {string} type
 * @param {string} text
 */
const of = (type, text) => text.split(' ').map(word => `${type}.${word}`).join(' ');
const COMPARED = 'eq ne lt gt le ge';
const CALCULATED = 'abs neg ceil floor trunc nearest sqrt add sub mul div min max copysign';

/** By the opcodes without a prefix. */
export const FLOATS = new Map([
  ...names(0x5b, of('f32', COMPARED)), ...names(0x61, of('f64', COMPARED)), ...names(0x8b, of('f32', CALCULATED)),
  ...names(0x99, of('f64', CALCULATED)), ...names(0xa8, of('i32', 'trunc_f32_s trunc_f32_u trunc_f64_s trunc_f64_u')),
  ...names(0xae, of('i64', 'trunc_f32_s trunc_f32_u trunc_f64_s trunc_f64_u')),
  ...names(0xb2, of('f32', 'convert_i32_s convert_i32_u convert_i64_s convert_i64_u demote_f64')),
  ...names(0xb7, of('f64', 'convert_i32_s convert_i32_u convert_i64_s convert_i64_u promote_f32')),
]);

/** By the numbers behind the prefix 0xfc. */
export const SATURATING =
  new Map(names(0, `${of('i32', 'trunc_sat_f32_s trunc_sat_f32_u trunc_sat_f64_s trunc_sat_f64_u')} ${
  of('i64', 'trunc_sat_f32_s trunc_sat_f32_u trunc_sat_f64_s trunc_sat_f64_u')}`));
