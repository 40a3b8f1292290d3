/** The instructions that a kept part needs to know: by their numbers, and what they load, store and calculate. */
import { F32, F64, I32, I64 } from '../../wasm/value_types.mjs';
import { instructionNumber } from '../../wasm/instruction_names.mjs';

/** @typedef {import('../../wasm/value_types.mjs').FunctionType} FunctionType */

export const OP = {
  unreachable: 0x00, block: 0x02, if: 0x04, else: 0x05, end: 0x0b, br: 0x0c, brIf: 0x0d, brTable: 0x0e, return: 0x0f,
  call: 0x10,
  callIndirect: 0x11, select: 0x1b, selectTyped: 0x1c, localGet: 0x20, localSet: 0x21, localTee: 0x22, globalGet: 0x23,
  globalSet: 0x24, firstLoad: 0x28, firstStore: 0x36, lastStore: 0x3e, memorySize: 0x3f, memoryGrow: 0x40,
  i32Const: 0x41,
  i64Const: 0x42, f32Const: 0x43, f64Const: 0x44, refFunc: 0xd2, memoryInit: 0xfc008, dataDrop: 0xfc009,
  memoryCopy: 0xfc00a,
  memoryFill: 0xfc00b,
};

/** The types that loads push and stores take, by how far the instruction is behind the first one. */
export const LOADED = [I32, I64, F32, F64, I32, I32, I32, I32, I64, I64, I64, I64, I64, I64];
export const STORED = [I32, I64, F32, F64, I32, I32, I64, I64, I64];
/** How many bytes they load and store. */
export const LOADED_BYTES = [4, 8, 4, 8, 1, 1, 2, 2, 1, 1, 2, 2, 4, 4];
export const STORED_BYTES = [4, 8, 4, 8, 1, 2, 1, 2, 4];

/**
 * K owns whole blocks of the memory, of so many bytes, for a visit: their bytes are those that K knows, so that its
 * accesses need no watch.
 */
export const BLOCK_BITS = 10;
export const BLOCK = 1 << BLOCK_BITS;

/** What the visit begins with, and moves on by: it is above the addresses. */
export const FIRST_VISIT = 1n << 32n;

/** Of a number of all that is loaded, in order, for tests. */
export const HASH_FACTOR = 0x100000001b3n;

/** The types of the instructions that calculate with floats, by ranges of numbers. */
const RANGES = /** @type {[string, string, number[], number][]} */ ([
  ['f32.eq', 'f32.ge', [F32, F32], I32], ['f64.eq', 'f64.ge', [F64, F64], I32], ['f32.abs', 'f32.sqrt', [F32], F32],
  ['f32.add', 'f32.copysign', [F32, F32], F32], ['f64.abs', 'f64.sqrt', [F64], F64],
  ['f64.add', 'f64.copysign', [F64, F64], F64], ['i32.trunc_f32_s', 'i32.trunc_f32_u', [F32], I32],
  ['i32.trunc_f64_s', 'i32.trunc_f64_u', [F64], I32], ['i64.trunc_f32_s', 'i64.trunc_f32_u', [F32], I64],
  ['i64.trunc_f64_s', 'i64.trunc_f64_u', [F64], I64], ['f32.convert_i32_s', 'f32.convert_i32_u', [I32], F32],
  ['f32.convert_i64_s', 'f32.convert_i64_u', [I64], F32], ['f32.demote_f64', 'f32.demote_f64', [F64], F32],
  ['f64.convert_i32_s', 'f64.convert_i32_u', [I32], F64], ['f64.convert_i64_s', 'f64.convert_i64_u', [I64], F64],
  ['f64.promote_f32', 'f64.promote_f32', [F32], F64], ['i32.trunc_sat_f32_s', 'i32.trunc_sat_f32_u', [F32], I32],
  ['i32.trunc_sat_f64_s', 'i32.trunc_sat_f64_u', [F64], I32],
  ['i64.trunc_sat_f32_s', 'i64.trunc_sat_f32_u', [F32], I64],
  ['i64.trunc_sat_f64_s', 'i64.trunc_sat_f64_u', [F64], I64],
]);

/** @type {Map<number, FunctionType>} */
export const FLOAT_TYPES = new Map(RANGES.flatMap(([first, last, params, result]) => {
  const [from, to] = [instructionNumber(first), instructionNumber(last)];
  return Array.from({ length: to - from + 1 }, (_, place) => /** @type {[number, FunctionType]} */ (
    [from + place, { params, results: [result] }]));
}));

/**
 * Whether an instruction is a numeric one that r3 takes, without immediates: on integers, or between their bits and
 * floats.
 * @param {number} op
 */
export function isIntegerOperation(op) {
  if (op >= 0x45 && op <= 0x5a) return true;
  if (op >= 0x67 && op <= 0x8a) return true;
  return op === 0xa7 || op === 0xac || op === 0xad || (op >= 0xbc && op <= 0xc4);
}
