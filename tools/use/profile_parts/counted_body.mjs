/**
 * A function of the original that counts its turns. Instructions are counted by basic blocks, in a local at the head of
 * each block. The local is written to the global `now` before a block that may trap or calls, so that the global is
 * right when the run traps or another function goes on. What a trap left undone of its block is taken off afterwards.
 */
import { bodyOf, readInstruction, u32 } from '../wasm/index.mjs';
import { OPEN_SIZE } from './call_paths.mjs';
import { EMPTY, OP, call, get, globalGet, globalSet, i32, i64, set, tee } from './code.mjs';

/** @import { Part } from '../wasm/encoding.mjs' */
/** @import { Instruction } from '../wasm/instructions.mjs' */
/** @import { Module } from '../wasm/module.mjs' */

/**
 * Where the instrumented module has what a body uses.
 * @typedef {object} Places
 * @property {number} now a global: the turns so far
 * @property {number} begin a global: the turn at which the last activation began
 * @property {number} node a global: the node of the innermost activation that has called a function
 * @property {number} top a global: where the list of open activations ends
 * @property {number} counts a global for each function that is defined, and two more: the node above, and the turns and
 *   the calls that are not yet added to the function's node
 * @property {number} imports how many functions the original imports
 * @property {number} enter an imported function
 * @property {number} add
 * @property {number} shift by how much the numbers of functions are greater
 */

const I32_TYPE = 0x7f;
const I64_TYPE = 0x7e;

/** Instructions that may trap, beside loads and stores. */
const TRAPPING = new Set([OP.unreachable, OP.i32DivS, OP.i32DivU, OP.i32RemS, OP.i32RemU, OP.i64DivS, OP.i64DivU,
  OP.i64RemS, OP.i64RemU, OP.memoryCopy, OP.memoryFill]);

const isCall = op => op === OP.call || op === OP.callIndirect;

/** Whether an instruction may trap, or leads into another function. r3 takes no conversions that trap. */
const needsNow = op => (op >= OP.firstLoad && op <= OP.lastStore) || isCall(op) || TRAPPING.has(op);

const isBranch = op => op === OP.br || op === OP.brTable || op === OP.return || op === OP.unreachable;
const opensBlock = op => op === OP.block || op === OP.loop || op === OP.if;

/**
 * The instructions of a body with their places, and which of its blocks a branch leads to the end of.
 * @param {Module} module
 * @param {number} index the function's number
 */
function readBody(module, index) {
  const { locals, reader } = bodyOf(module, index);
  const items = [];
  const open = [null];
  const joined = new Set();
  const branch = label => joined.add(open[open.length - 1 - label]);
  while (!reader.isAtEnd) {
    const begin = reader.at;
    const item = readInstruction(reader);
    items.push({ item, begin, end: reader.at });
    if (opensBlock(item.op)) open.push(items.length - 1);
    if (item.op === OP.br || item.op === OP.brIf || item.op === OP.brTable) branch(item.index);
    item.labels?.forEach(branch);
    if (item.op === OP.end) open.pop();
  }
  return { locals, items, joined };
}

/** Writes the body of one function. */
class BodyWriter {
  /**
   * @param {Module} module
   * @param {number} index
   * @param {Places} places
   */
  constructor(module, index, places) {
    const { params, results } = module.functions[index];
    Object.assign(this, { bytes: module.bytes, places, key: index + 1 }, readBody(module, index));
    this.result = results.length === 0 ? EMPTY : results[0];
    const first = params.length + this.locals.reduce((sum, { count }) => sum + count, 0);
    [this.count, this.begun, this.above] = [first, first + 1, first + 2];
    this.counts = places.counts + 3 * (index - places.imports);
    this.calls = this.items.some(({ item }) => isCall(item.op));
    /** @type {Part[]} */
    this.written = [];
    /** The blocks that are open, each by the number of the instruction that opens it. */
    this.open = [];
    /** How many turns of its block come behind an instruction, and the parts that are an instruction as it was. */
    this.behind = new Map();
    this.copies = new Map();
    this.startBlock(0, false);
  }

  startBlock(turns, isBehindCall) {
    this.block = { turns, isBehindCall, needsNow: false, parts: [], members: [], isDead: false };
  }

  /** Writes the block that ends here, with what counts it at its head. */
  endBlock() {
    const { turns, isBehindCall, parts, members, isDead } = this.block;
    if (!isDead && (turns > 0 || isBehindCall)) this.written.push(this.counter());
    this.written.push(parts);
    members.forEach((place, before) => this.behind.set(place, members.length - 1 - before));
  }

  counter() {
    const { turns, isBehindCall } = this.block;
    const { now } = this.places;
    const before = isBehindCall ? globalGet(now) : get(this.count);
    const added = turns > 0 ? [before, i64(turns), OP.i64Add] : before;
    return this.block.needsNow ? [added, tee(this.count), globalSet(now)] : [added, set(this.count)];
  }

  /** Adds an instruction to the block, which takes a turn. */
  take(place, part) {
    const { op } = this.items[place].item;
    this.block.turns++;
    this.block.members.push(place);
    this.block.needsNow ||= needsNow(op);
    this.block.parts.push(part);
  }

  /** The bytes of an instruction as they are. */
  same(place) {
    const { begin, end } = this.items[place];
    const copy = this.bytes.subarray(begin, end);
    this.copies.set(copy, place);
    return copy;
  }

  next(place, isBehindCall = false) {
    this.endBlock();
    this.startBlock(0, isBehindCall);
  }

  /** An activation gets its node before its first call. The node above it is then in a local, which is 0 before. */
  entry() {
    const { node, top, enter } = this.places;
    return [get(this.above), OP.i32Eqz, OP.if, EMPTY,
      i32(this.key), get(this.begun), globalGet(node), tee(this.above), globalGet(top), call(enter), globalSet(node),
      globalGet(top), i32(OPEN_SIZE), OP.i32Add, globalSet(top), OP.end];
  }

  callPart(place) {
    const { item } = this.items[place];
    return item.op === OP.call ? call(item.index + this.places.shift) : this.same(place);
  }

  end(place) {
    const opener = this.open.pop();
    const op = opener === undefined ? OP.block : this.items[opener].item.op;
    const isJoined = opener === undefined || op === OP.if || (op === OP.block && this.joined.has(opener));
    if (!isJoined) {
      this.block.parts.push(OP.end);
      return;
    }
    this.block.parts.push(OP.end);
    this.next(place);
  }

  instruction(place) {
    const { item: { op } } = this.items[place];
    if (op === OP.end) return this.end(place);
    if (op === OP.else) {
      this.block.parts.push(OP.else);
      return this.next(place);
    }
    if (opensBlock(op)) this.open.push(place);
    if (op === OP.loop) {
      this.block.parts.push(this.same(place));
      this.next(place);
      return this.take(place, []);
    }
    if (isCall(op)) {
      this.take(place, [this.entry(), this.callPart(place)]);
      return this.next(place, true);
    }
    if (op === OP.return) this.take(place, [OP.br, u32(this.open.length)]);
    else this.take(place, this.same(place));
    if (isBranch(op)) {
      this.next(place);
      this.block.isDead = true;
    } else if (op === OP.if || op === OP.brIf) {
      this.next(place);
    }
  }

  prologue() {
    const { now, begin } = this.places;
    return [globalGet(now), tee(this.begun), tee(this.count), globalSet(begin), OP.block, this.result];
  }

  /** Leaves the node that the activation got. */
  exit() {
    const { node, top } = this.places;
    return [get(this.above), OP.if, EMPTY, get(this.above), globalSet(node),
      globalGet(top), i32(OPEN_SIZE), OP.i32Sub, globalSet(top), OP.end];
  }

  /** Counts the activation. What is counted under another node above is added to its node before. */
  epilogue() {
    const { now, node, add } = this.places;
    const [above, turns, calls] = [this.counts, this.counts + 1, this.counts + 2];
    const change = [globalGet(node), globalGet(above), OP.i32Ne, OP.if, EMPTY,
      i32(this.key), globalGet(above), globalGet(turns), globalGet(calls), call(add),
      globalGet(node), globalSet(above), i64(0), globalSet(turns), i64(0), globalSet(calls), OP.end];
    return [get(this.count), globalSet(now), this.calls ? this.exit() : [], change,
      globalGet(turns), get(this.count), get(this.begun), OP.i64Sub, OP.i64Add, globalSet(turns),
      globalGet(calls), i64(1), OP.i64Add, globalSet(calls), OP.end];
  }

  /** The whole body, without its size. */
  body() {
    this.items.forEach((_, place) => this.instruction(place));
    this.endBlock();
    const groups = this.locals.map(({ count, type }) => [u32(count), type]);
    const more = this.calls ? [[u32(2), I64_TYPE], [u32(1), I32_TYPE]] : [[u32(2), I64_TYPE]];
    return [u32(groups.length + more.length), groups, more, this.prologue(), this.written, this.epilogue()];
  }
}

/**
 * The body of a function of the original that counts, without its size.
 * @param {Module} module
 * @param {number} index
 * @param {Places} places
 * @returns {Part[]}
 */
export const countedBody = (module, index, places) => new BodyWriter(module, index, places).body();

/**
 * How many turns of its block come behind the instruction of the original that is in a counting body at a place. A trap
 * has that place.
 * @param {Module} module
 * @param {number} index
 * @param {Places} places
 * @param {number} at how many bytes are before it in the body, without its size
 */
export function turnsBehind(module, index, places, at) {
  const writer = new BodyWriter(module, index, places);
  let left = at;
  /** @param {Part} part @returns {number | undefined} */
  const find = part => {
    if (typeof part === 'number' || part instanceof Uint8Array) {
      if (left === 0 && writer.copies.has(part)) return writer.behind.get(writer.copies.get(part));
      left -= typeof part === 'number' ? 1 : part.length;
      return undefined;
    }
    for (const item of part) {
      const found = find(item);
      if (found !== undefined || left < 0) return found;
    }
    return undefined;
  };
  const found = find(writer.body());
  if (found === undefined) throw new Error(`no instruction of function ${index} is ${at} bytes behind its beginning`);
  return found;
}
