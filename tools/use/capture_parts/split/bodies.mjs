/**
 * The bodies of kept functions in K: M's instructions with the numbers of K. In K as it runs, loads, stores and calls
 * by the table are watched.
 */
import { constant, flat, s32, u32, vector } from '../../wasm/encoding.mjs';
import { PREFIX_BITS } from '../../wasm/instruction_names.mjs';
import { readInstruction } from '../../wasm/instructions.mjs';
import { bodyOf } from '../../wasm/module.mjs';
import { F32, F64, I32, I64, isWide } from '../../wasm/value_types.mjs';
import { BLOCK, FLOAT_TYPES, HASH_FACTOR, LOADED, LOADED_BYTES, OP, STORED, STORED_BYTES } from './operations.mjs';

/** @typedef {import('../../wasm/module.mjs').Module} Module */
/** @typedef {import('../../wasm/instructions.mjs').Instruction} Instruction */
/** @typedef {import('../../wasm/encoding.mjs').Part} Part */
/** @typedef {import('../../wasm/value_types.mjs').FunctionType} FunctionType */

/**
 * The numbers in K.
 * @typedef {object} Places
 * @property {(index: number) => number} function of a function of M
 * @property {(op: number) => number} float of the import for a float instruction
 * @property {(index: number) => number} global
 * @property {(type: FunctionType) => number} type
 * @property {(index: number) => number[]} results the globals that the results of a callee come through, if it has
 *   several
 */

/**
 * The numbers of what watches a body in K as it runs.
 * @typedef {object} Watch
 * @property {number[]} load
 * @property {number[]} store
 * @property {number} copies
 * @property {number} fills
 * @property {number} grown
 * @property {number} entry
 * @property {number} visit the global of the present visit
 * @property {() => number} site a global for one more access
 * @property {number | null} hash the global with a number of all that is loaded, for tests
 * @property {number} entered the global that says whether this function was entered
 * @property {number | null} floats the global that counts its float instructions
 */

const AS_INTEGER = new Map([[F32, 0xbc], [F64, 0xbd]]);

/** The further locals of a watched body: the operands of stores, copies and fills. */
const FURTHER = [[3, I32], [1, I64], [1, F32], [1, F64]];

const get = (/** @type {number} */ place) => [OP.localGet, u32(place)];
const set = (/** @type {number} */ place) => [OP.localSet, u32(place)];
const tee = (/** @type {number} */ place) => [OP.localTee, u32(place)];
const call = (/** @type {number} */ index) => [OP.call, u32(index)];
const prefixed = (/** @type {number} */ op) => [op >> PREFIX_BITS, u32(op & ((1 << PREFIX_BITS) - 1))];

/** The instructions of one body. */
class Spelling {
  /**
   * @param {Module} m
   * @param {Places} places
   */
  constructor(m, places) {
    this.m = m;
    this.places = places;
  }

  /**
   * An instruction with the numbers of K, or null where it stays as it is.
   * @param {Instruction} item
   * @returns {Part | null}
   */
  instruction(item) {
    const { op, index = 0 } = item;
    if (FLOAT_TYPES.has(op)) return this.float(op);
    if (op >= OP.block && op <= OP.if) return this.block(item);
    if (op === OP.call) return this.call(index);
    if (op === OP.callIndirect) return this.callIndirect(index);
    if (op === OP.selectTyped) return OP.select;
    if (op === OP.globalGet || op === OP.globalSet) return [op, u32(this.places.global(index))];
    if (op >= OP.firstLoad && op < OP.firstStore) return this.load(item);
    if (op >= OP.firstStore && op <= OP.lastStore) return this.store(item);
    if (op === OP.memoryGrow) return this.grow();
    if (op === OP.memoryCopy || op === OP.memoryFill) return this.range(op);
    return null;
  }

  /**
   * @param {number} index
   * @returns {Part}
   */
  call(index) {
    const results = this.places.results(index).map(place => [OP.globalGet, u32(place)]);
    return [call(this.places.function(index)), results];
  }

  /**
   * @param {number} op
   * @returns {Part}
   */
  float(op) {
    return call(this.places.float(op));
  }

  /**
   * @param {Instruction} item
   * @returns {Part | null}
   */
  block({ op, typeIndex }) {
    if (typeof typeIndex !== 'number') return null;
    return [op, this.m.types[typeIndex].results[0] ?? 0x40];
  }

  /**
   * @param {number} type
   * @returns {Part}
   */
  callIndirect(type) {
    return [OP.callIndirect, u32(this.places.type(this.m.types[type])), 0];
  }

  /**
   * @param {Instruction} item
   * @returns {Part}
   */
  load({ op, align = 0, offset = 0 }) {
    return [op, u32(align), u32(offset)];
  }

  /**
   * @param {Instruction} item
   * @returns {Part}
   */
  store({ op, align = 0, offset = 0 }) {
    return [op, u32(align), u32(offset)];
  }

  /** @returns {Part} */
  grow() {
    return [OP.memoryGrow, 0];
  }

  /**
   * @param {number} op
   * @returns {Part}
   */
  range(op) {
    return op === OP.memoryCopy ? [prefixed(op), 0, 0] : [prefixed(op), 0];
  }
}

/** The instructions of one body as it runs, watched. */
class WatchedSpelling extends Spelling {
  /**
   * @param {Module} m
   * @param {Places} places
   * @param {Watch} watch
   * @param {number} first the first further local
   */
  constructor(m, places, watch, first) {
    super(m, places);
    this.watch = watch;
    this.address = first;
    this.second = first + 1;
    this.third = first + 2;
    this.values = new Map([[I32, first + 1], [I64, first + 3], [F32, first + 4], [F64, first + 5]]);
  }

  /**
   * @param {number} op
   * @returns {Part}
   */
  float(op) {
    const { floats } = this.watch;
    const count = floats === null ? [] : [OP.globalGet, u32(floats), OP.i32Const, 1, 0x6a, OP.globalSet, u32(floats)];
    return [count, super.float(op)];
  }

  /**
   * @param {number} type
   * @returns {Part}
   */
  callIndirect(type) {
    return [call(this.watch.entry), super.callIndirect(type)];
  }

  /**
   * Code that calls a watch where an access of so many bytes is not within the block that K owned when the site's
   * global was set. The global has the block's address, and the visit above it. `args` are those before the visit.
   * @param {number} offset
   * @param {number} bytes
   * @param {(address: Part) => Part} args
   * @param {number} watch
   * @returns {Part}
   */
  watched(offset, bytes, args, watch) {
    const address = [get(this.address), offset === 0 ? [] : [OP.i32Const, s32(offset), 0x6a]];
    const site = u32(this.watch.site());
    const visit = [OP.globalGet, u32(this.watch.visit)];
    const isOutside = [address, 0xad, visit, 0x84, OP.globalGet, site, 0x7d, OP.i64Const, s32(BLOCK - bytes), 0x56];
    return [isOutside, OP.if, 0x40, args(address), visit, call(watch), OP.globalSet, site, OP.end];
  }

  /**
   * @param {number} type
   * @param {number} value
   * @returns {Part}
   */
  hashed(type, value) {
    const { hash } = this.watch;
    if (hash === null) return [];
    const bits = [get(value), AS_INTEGER.get(type) ?? [], isWide(type) ? [] : 0xad];
    return [OP.globalGet, u32(hash), bits, 0x85, constant(I64, HASH_FACTOR), 0x7e, OP.globalSet, u32(hash)];
  }

  /**
   * @param {Instruction} item
   * @returns {Part}
   */
  load(item) {
    const place = item.op - OP.firstLoad;
    const value = this.values.get(LOADED[place]) ?? 0;
    const watched = this.watched(item.offset ?? 0, LOADED_BYTES[place], address => [get(value), address],
      this.watch.load[place]);
    return [tee(this.address), super.load(item), tee(value), watched, this.hashed(LOADED[place], value)];
  }

  /**
   * @param {Instruction} item
   * @returns {Part}
   */
  store(item) {
    const place = item.op - OP.firstStore;
    const value = this.values.get(STORED[place]) ?? 0;
    const watched = this.watched(item.offset ?? 0, STORED_BYTES[place], address => [address, get(value)],
      this.watch.store[place]);
    return [set(value), tee(this.address), get(value), super.store(item), watched];
  }

  /** @returns {Part} */
  grow() {
    return [super.grow(), call(this.watch.grown)];
  }

  /**
   * What a copy or a fill does is known before it is done.
   * @param {number} op
   * @returns {Part}
   */
  range(op) {
    const { address, second, third, watch } = this;
    const operands = [get(address), get(second), get(third)];
    const known = call(op === OP.memoryCopy ? watch.copies : watch.fills);
    return [set(third), set(second), set(address), operands, known, operands, super.range(op)];
  }
}

/**
 * The bytes of a kept function's body, without its size. Instructions that have no numbers of M are copied.
 * @param {Module} m
 * @param {number} index
 * @param {Places} places
 * @param {Watch | null} watch
 */
export function bodyBytes(m, index, places, watch) {
  const { locals, reader } = bodyOf(m, index);
  const first = m.functions[index].params.length + locals.reduce((sum, { count }) => sum + count, 0);
  const spelling = watch === null ? new Spelling(m, places) : new WatchedSpelling(m, places, watch, first);
  /** @type {Part[]} */
  const out = watch === null ? [] : [OP.i32Const, 1, OP.globalSet, u32(watch.entered)];
  let copied = reader.at;
  while (!reader.isAtEnd) {
    const begin = reader.at;
    const spelt = spelling.instruction(readInstruction(reader));
    if (spelt === null) continue;
    out.push(m.bytes.subarray(copied, begin), spelt);
    copied = reader.at;
  }
  out.push(m.bytes.subarray(copied, reader.at));
  const groups = locals.map(({ count, type }) => [u32(count), type]);
  const further = watch === null ? [] : FURTHER.map(([count, type]) => [u32(count), type]);
  return flat([vector([...groups, ...further]), out]);
}
