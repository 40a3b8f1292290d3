/** The instructions that profiling inserts, as parts of the binary format. */
import { s32, s64, u32 } from '../wasm/index.mjs';

/** @import { Part } from '../wasm/encoding.mjs' */

/** Numbers of instructions. */
export const OP = {
  unreachable: 0x00, block: 0x02, loop: 0x03, if: 0x04, else: 0x05, end: 0x0b, br: 0x0c, brIf: 0x0d, brTable: 0x0e,
  return: 0x0f, call: 0x10, callIndirect: 0x11, drop: 0x1a, localGet: 0x20, localSet: 0x21, localTee: 0x22,
  globalGet: 0x23, globalSet: 0x24, tableSet: 0x26, i32Load: 0x28, i64Load: 0x29, firstLoad: 0x28, i32Store: 0x36,
  i64Store: 0x37, f32Store: 0x38, f64Store: 0x39, i32Store8: 0x3a, i32Store16: 0x3b, i64Store8: 0x3c, i64Store16: 0x3d,
  lastStore: 0x3e, memorySize: 0x3f, memoryGrow: 0x40, i32Const: 0x41, i64Const: 0x42, f32Const: 0x43, f64Const: 0x44,
  i32Eqz: 0x45, i32Eq: 0x46, i32Ne: 0x47, i64Eqz: 0x50, i32Add: 0x6a, i32Sub: 0x6b, i32Mul: 0x6c, i32DivS: 0x6d,
  i32DivU: 0x6e, i32RemS: 0x6f, i32RemU: 0x70, i32And: 0x71, i32Xor: 0x73, i32Shl: 0x74, i32ShrU: 0x76,
  i64Add: 0x7c, i64Sub: 0x7d, i64DivS: 0x7f,
  i64DivU: 0x80, i64RemS: 0x81, i64RemU: 0x82, f64ConvertI64S: 0xb9, refNull: 0xd0, refFunc: 0xd2,
  tableGrow: 0xfc00f, tableSize: 0xfc010, memoryCopy: 0xfc00a, memoryFill: 0xfc00b,
};

export const EMPTY = 0x40;

/** @type {(index: number) => Part[]} */
export const get = index => [OP.localGet, u32(index)];
/** @type {(index: number) => Part[]} */
export const set = index => [OP.localSet, u32(index)];
/** @type {(index: number) => Part[]} */
export const tee = index => [OP.localTee, u32(index)];
/** @type {(index: number) => Part[]} */
export const globalGet = index => [OP.globalGet, u32(index)];
/** @type {(index: number) => Part[]} */
export const globalSet = index => [OP.globalSet, u32(index)];
/** @type {(value: number) => Part[]} */
export const i32 = value => [OP.i32Const, s32(value)];
/** @type {(value: number | bigint) => Part[]} */
export const i64 = value => [OP.i64Const, s64(BigInt(value))];
/** @type {(index: number) => Part[]} */
export const call = index => [OP.call, u32(index)];

/** A load or a store with an offset, for an address that is aligned to 4 bytes. */
/** @type {(op: number, offset: number) => Part[]} */
export const access = (op, offset) => [op, 2, u32(offset)];
