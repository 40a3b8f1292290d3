/** The texts of values, from their bits. */
import { isFloat, isWide, typeName } from '../../wasm/value_types.mjs';

/**
 * @param {number} type
 * @param {number | bigint} bits
 */
const unsigned = (type, bits) => (isWide(type) ? BigInt.asUintN(64, BigInt(bits)) : Number(bits) >>> 0);

/**
 * A value as a script has it.
 * @param {number} type
 * @param {number | bigint} bits
 */
export const scriptValue = (type, bits) => `{"${typeName(type)}":${isFloat(type) ? unsigned(type, bits) : bits}}`;

/**
 * A value as a history has it.
 * @param {number} type
 * @param {number | bigint} bits
 */
export const historyValue = (type, bits) =>
  `${typeName(type)}:${unsigned(type, bits).toString(16).padStart(isWide(type) ? 16 : 8, '0')}`;
