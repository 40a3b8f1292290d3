/** The instructions of bodies and constant expressions, with all prefixes that V8 of Node.js 20 takes. */
import { PREFIX_BITS } from './instruction_names.mjs';
import { UnknownFormat } from './reader.mjs';

/** @typedef {import('./reader.mjs').Reader} Reader */

/**
 * An instruction. Those behind a prefix have the number `prefix << 12 | number`.
 * @typedef {object} Instruction
 * @property {number} op
 * @property {number} [index] a local, global, function, table, type, tag, label or segment: the first index
 * @property {number} [second] the second index: the table of `call_indirect`, the memory of `memory.init`, ..
 * @property {number[]} [labels] those of `br_table`, but the last one, which is `index`
 * @property {number | bigint} [value] of `i32.const` and `i64.const`, and the heap type of `ref.null`
 * @property {Uint8Array} [bytes] of `f32.const`, `f64.const`, `v128.const` and shuffles
 * @property {number} [align]
 * @property {number} [offset]
 * @property {number} [memory] the memory of a load or store
 * @property {number} [lane]
 * @property {number | null} [type] a block's type where it is one byte: that of a value, or 0x40 for none
 * @property {number | null} [typeIndex] a block's type where it is the number of a function type
 * @property {number[]} [types] of `select`
 * @property {{ kind: number, tag: number | null, label: number }[]} [catches] of `try_table`
 */

/** @typedef {(reader: Reader) => Omit<Instruction, 'op'>} Immediates */

const MEMORY_INDEX = 64;

/** @type {Immediates} */
const none = () => ({});
/** @type {Immediates} */
const index = reader => ({ index: reader.u32() });
/** @type {Immediates} */
const pair = reader => ({ index: reader.u32(), second: reader.u32() });
/** @type {Immediates} */
function memoryArgument(reader) {
  const align = reader.u32();
  const memory = align & MEMORY_INDEX ? reader.u32() : 0;
  return { align: align & ~MEMORY_INDEX, memory, offset: reader.u32() };
}
/** @type {Immediates} */
function block(reader) {
  const byte = reader.bytes[reader.at];
  if (byte === 0x63 || byte === 0x64) throw new UnknownFormat('a block of a typed reference');
  if (byte >= 0x40 && byte < 0x80) return { type: reader.byte(), typeIndex: null };
  return { type: null, typeIndex: Number(reader.s64()) };
}
/** @type {Immediates} */
function catching(reader) {
  const type = block(reader);
  const catches = reader.list(() => {
    const kind = reader.byte();
    return { kind, tag: kind < 2 ? reader.u32() : null, label: reader.u32() };
  });
  return { ...type, catches };
}

/** What follows each number without a prefix, by ranges. */
const FOLLOWING = /** @type {(Immediates | undefined)[]} */ (new Array(256).fill(undefined));
/** @type {[number, number, Immediates][]} */
const RANGES = [
  [0x00, 0x01, none], [0x02, 0x04, block], [0x05, 0x05, none], [0x06, 0x06, block], [0x07, 0x09, index],
  [0x0a, 0x0b, none], [0x0c, 0x0d, index],
  [0x0e, 0x0e, reader => ({ labels: reader.list(() => reader.u32()), index: reader.u32() })], [0x0f, 0x0f, none],
  [0x10, 0x10, index], [0x11, 0x11, pair], [0x12, 0x12, index], [0x13, 0x13, pair], [0x14, 0x15, index],
  [0x18, 0x18, index], [0x19, 0x1b, none], [0x1c, 0x1c, reader => ({ types: reader.list(() => reader.byte()) })],
  [0x1f, 0x1f, catching], [0x20, 0x26, index], [0x28, 0x3e, memoryArgument], [0x3f, 0x40, index],
  [0x41, 0x41, reader => ({ value: reader.s32() })], [0x42, 0x42, reader => ({ value: reader.s64() })],
  [0x43, 0x43, reader => ({ bytes: reader.take(4) })], [0x44, 0x44, reader => ({ bytes: reader.take(8) })],
  [0x45, 0xc4, none], [0xd0, 0xd0, reader => ({ value: reader.s64() })], [0xd1, 0xd1, none], [0xd2, 0xd2, index],
];
for (const [first, last, read] of RANGES) FOLLOWING.fill(read, first, last + 1);

/**
 * Saturating conversions, bulk memory and tables.
 * @param {number} number
 * @returns {Immediates | undefined}
 */
function followingBulk(number) {
  if (number < 8) return none;
  if ([8, 10, 12, 14].includes(number)) return pair;
  return number < 18 ? index : undefined;
}
/**
 * Vectors, also relaxed ones.
 * @param {number} number
 * @returns {Immediates | undefined}
 */
function followingVector(number) {
  if (number <= 11 || number === 92 || number === 93) return memoryArgument;
  if (number === 12 || number === 13) return reader => ({ bytes: reader.take(16) });
  if (number >= 21 && number <= 34) return reader => ({ lane: reader.byte() });
  if (number >= 84 && number <= 91) return reader => ({ ...memoryArgument(reader), lane: reader.byte() });
  return number <= 0x113 ? none : undefined;
}
/**
 * Threads.
 * @param {number} number
 * @returns {Immediates | undefined}
 */
function followingAtomic(number) {
  if (number === 3) return reader => ({ bytes: reader.take(1) });
  return number <= 0x4e ? memoryArgument : undefined;
}
const PREFIXED = new Map([[0xfc, followingBulk], [0xfd, followingVector], [0xfe, followingAtomic]]);

/**
 * Reads the next instruction. Throws `UnknownFormat` where it is not known, as those of garbage collection.
 * @param {Reader} reader
 * @returns {Instruction}
 */
export function readInstruction(reader) {
  const first = reader.byte();
  const prefixed = PREFIXED.get(first);
  const number = prefixed === undefined ? 0 : reader.u32();
  const op = prefixed === undefined ? first : first << PREFIX_BITS | number;
  const immediates = prefixed === undefined ? FOLLOWING[first] : prefixed(number);
  if (immediates === undefined) throw new UnknownFormat(`the instruction 0x${op.toString(16)}`);
  return { op, ...immediates(reader) };
}
