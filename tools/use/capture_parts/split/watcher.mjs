/**
 * The modules that watch K as it runs. One has a shadow of the memory as K knows it, and of the globals: a load that
 * finds other bytes in the memory than in the shadow calls `miss`. One looks at entries of the table before K calls by
 * them. One answers float instructions, and writes them to the log by itself.
 */
import { KIND, TypeList, exportItem, importItem, moduleBytes } from '../../wasm/assembler.mjs';
import { constant, flat, s32, u32 } from '../../wasm/encoding.mjs';
import { PREFIX_BITS } from '../../wasm/instruction_names.mjs';
import { F32, F64, I32, I64, integerOf, isFloat, isWide } from '../../wasm/value_types.mjs';
import { IMPORT_CALL, IMPORT_RETURN, LOG } from '../recorder/log_layout.mjs';
import { BLOCK, BLOCK_BITS, LOADED, LOADED_BYTES, OP, STORED, STORED_BYTES } from './operations.mjs';
import { MOST_PAGES, floatType } from './plan.mjs';
import { LOAD_NAMES, STORE_NAMES } from './watched.mjs';

/** @typedef {import('./plan.mjs').Plan} Plan */
/** @typedef {import('../../wasm/encoding.mjs').Part} Part */

const get = (/** @type {number} */ place) => [OP.localGet, u32(place)];
const set = (/** @type {number} */ place) => [OP.localSet, u32(place)];
const call = (/** @type {number} */ index) => [OP.call, u32(index)];
const i32 = (/** @type {number} */ value) => [OP.i32Const, s32(value)];
const VOID_BLOCK = 0x40;
const NOT_EQUAL = new Map([[I32, 0x47], [I64, 0x52]]);
const AS_INTEGER = new Map([[F32, 0xbc], [F64, 0xbd]]);
const asInteger = (/** @type {number} */ type) => AS_INTEGER.get(type) ?? [];
const notEqual = (/** @type {number} */ type) => NOT_EQUAL.get(integerOf(type)) ?? [];
const LOAD = { [I32]: 0x28, [I64]: 0x29 };
const STORE = { [I32]: 0x36, [I64]: 0x37 };
const I32_ADD = 0x6a;

/** A module whose functions are exported by names. */
class Functions {
  constructor() {
    this.types = new TypeList();
    /** @type {Part[]} */
    this.imports = [];
    this.importedFunctions = 0;
    /** @type {number[]} */
    this.functions = [];
    /** @type {Part[]} */
    this.bodies = [];
    /** @type {Part[]} */
    this.exports = [];
  }

  /**
   * @param {string} module
   * @param {string} text
   * @param {number[]} params
   * @param {number[]} results
   */
  importFunction(module, text, params, results) {
    this.imports.push(importItem(module, text, KIND.function, u32(this.types.index({ params, results }))));
    return this.importedFunctions++;
  }

  /**
   * @param {string} text
   * @param {number[]} params
   * @param {number[]} results
   * @param {Part} code
   * @param {Part} locals
   */
  add(text, params, results, code, locals = 0) {
    this.exports.push(exportItem(text, KIND.function, this.importedFunctions + this.functions.length));
    this.functions.push(this.types.index({ params, results }));
    this.bodies.push(flat([locals, code, OP.end]));
  }

  /** @param {import('../../wasm/assembler.mjs').ModuleParts} parts */
  bytes(parts) {
    return moduleBytes({ types: this.types.list, imports: this.imports, functions: this.functions, bodies: this.bodies,
      exports: this.exports, ...parts });
  }
}

/* The blocks of the shadow: each has a word with the visit, above the bits that say what is known of the block. */

/** The shadow lies behind the words of all blocks that a memory of r3's may have. */
export const SHADOW_PAGES = MOST_PAGES * 4 >> BLOCK_BITS;
const SHADOW = SHADOW_PAGES * 65536;
/** Below the visit a word has so many bits. */
export const STATE_BITS = 8;
export const STATE = (1 << STATE_BITS) - 1;
/** After so many accesses in a visit a block is owned: what it has is compared, and loads are not watched. */
export const ACCESSES = 24;
export const OWNED = STATE - 1;
/** Stores are not watched either: what the block has is known anew when control goes to the host. */
export const OWNED_FOR_STORES = STATE;

const isLess = 0x49;
const [SHIFT_LEFT, SHIFT_RIGHT, AND, OR_64, IF, ELSE, RETURN] = [0x74, 0x76, 0x71, 0x84, 0x04, 0x05, 0x0f];

/**
 * What a site is set to: the visit and the block's address.
 * @param {number} address
 * @param {number} visit
 * @returns {Part[]}
 */
const siteOf = (address, visit) => [get(visit), get(address), i32(-BLOCK), AND, 0xad, OR_64];

/**
 * The beginning of a function for an access, whose further locals are the block's word, its place, and the visit in it.
 * Accesses over the end of a block go another way.
 * @param {{ address: number, visit: number, bytes: number, over: Part, off: number }} access
 * @returns {Part[]}
 */
function beginning({ address, visit, bytes, over, off }) {
  const [word, place, now] = [3, 4, 5];
  return [
    [OP.globalGet, u32(off), IF, VOID_BLOCK, siteOf(address, visit), RETURN, OP.end],
    bytes === 1 ? [] : [get(address), i32(BLOCK - 1), AND, i32(BLOCK - bytes), 0x4b, IF, VOID_BLOCK, over, OP.i64Const,
      0, RETURN, OP.end],
    [get(address), i32(BLOCK_BITS), SHIFT_RIGHT, i32(2), SHIFT_LEFT, OP.localTee, place, LOAD[I32], 2, 0, set(word)],
    [get(visit), OP.i64Const, s32(32), 0x88, 0xa7, i32(STATE_BITS), SHIFT_LEFT, set(now)],
    [get(word), i32(~STATE), AND, get(now), 0x47, IF, VOID_BLOCK, get(now), set(word), OP.end],
  ];
}

/**
 * The end: one more access, and no block for the site; or the block, which `own` makes K's first.
 * @param {number} accesses
 * @param {Part} own
 * @param {Part} site
 */
const ending = (accesses, own, site) => [get(3), i32(STATE), AND, i32(accesses), isLess, IF, I64,
  get(4), get(3), i32(1), I32_ADD, STORE[I32], 2, 0, OP.i64Const, 0, ELSE, own, site, OP.end];

/**
 * Adds the functions for loads and stores.
 * @param {Functions} functions
 * @param {{ miss: number, over: number, own: number, ownForStores: number }} js
 * @param {number} off
 * @param {number} accesses
 */
function addAccesses(functions, js, off, accesses) {
  const locals = [1, 3, I32];
  LOAD_NAMES.forEach((text, place) => {
    const [type, bytes] = [LOADED[place], LOADED_BYTES[place]];
    const noted = [get(1), OP.firstLoad + place - (isFloat(type) ? 2 : 0), 0, u32(SHADOW)];
    const isOwned = [get(3), i32(STATE), AND, i32(OWNED), 0x4f, IF, VOID_BLOCK, siteOf(1, 2), RETURN, OP.end];
    const compared = [get(0), asInteger(type), noted, notEqual(type), IF, VOID_BLOCK, get(1), i32(bytes), call(js.miss),
      OP.end];
    const begin = beginning({ address: 1, visit: 2, bytes, over: [get(1), i32(bytes), call(js.over)], off });
    functions.add(text, [type, I32, I64], [I64],
      [begin, isOwned, compared, ending(accesses, [get(1), call(js.own)], siteOf(1, 2))], locals);
  });
  STORE_NAMES.forEach((text, place) => {
    const [type, bytes] = [STORED[place], STORED_BYTES[place]];
    const known = [get(0), get(1), OP.firstStore + place, 0, u32(SHADOW)];
    const isOwned = [get(3), i32(STATE), AND, i32(OWNED_FOR_STORES), 0x46, IF, VOID_BLOCK, siteOf(0, 2), RETURN,
      OP.end];
    const begin = beginning({ address: 0, visit: 2, bytes, over: known, off });
    functions.add(text, [I32, type, I64], [I64],
      [begin, isOwned, known, ending(accesses, [get(0), call(js.ownForStores)], siteOf(0, 2))], locals);
  });
}

/**
 * Adds what compares globals: numbers `0..` are imported, and their shadows follow.
 * @param {Functions} functions
 * @param {Plan} p
 */
function addGlobals(functions, p) {
  const { unsteadyGlobals, m } = p;
  const count = unsteadyGlobals.length;
  const type = (/** @type {number} */ index) => m.globals[index].type;
  const bits = (/** @type {number} */ place) => [OP.globalGet, u32(place), asInteger(type(unsteadyGlobals[place]))];
  functions.add('note', [], [], unsteadyGlobals.map((_, place) => [bits(place), OP.globalSet, u32(count + place)]));
  const differs = unsteadyGlobals.map((index, place) =>
    [bits(place), OP.globalGet, u32(count + place), notEqual(type(index)), 0x72]);
  functions.add('changed', [], [I32], [i32(0), differs]);
  unsteadyGlobals.forEach((index, place) => {
    functions.add(`now ${index}`, [], [integerOf(type(index))], bits(place));
    functions.add(`noted ${index}`, [], [integerOf(type(index))], [OP.globalGet, u32(count + place)]);
  });
  return unsteadyGlobals.map(index => [integerOf(type(index)), 1, constant(integerOf(type(index)), 0n), OP.end]);
}

/**
 * The shadow of memory and globals. `off` is set where nothing is watched any more.
 * @param {Plan} p
 * @param {number} pages
 * @param {number} accesses after how many in a visit a block is owned
 */
export function shadowBytes(p, pages, accesses) {
  const functions = new Functions();
  const js = { miss: functions.importFunction('js', 'miss', [I32, I32], []),
    over: functions.importFunction('js', 'over', [I32, I32], []),
    own: functions.importFunction('js', 'own', [I32], []),
    ownForStores: functions.importFunction('js', 'ownForStores', [I32], []) };
  for (const index of p.unsteadyGlobals) {
    functions.imports.push(importItem('rest', `global ${index}`, KIND.global, [p.m.globals[index].type, 1]));
  }
  const off = 2 * p.unsteadyGlobals.length;
  addAccesses(functions, js, off, accesses);
  const globals = addGlobals(functions, p);
  functions.exports.push(exportItem('memory', KIND.memory, 0), exportItem('off', KIND.global, off));
  return functions.bytes({ memories: [[0, u32(SHADOW_PAGES + pages)]],
    globals: [...globals, [I32, 1, i32(0), OP.end]] });
}

/**
 * `entry(i)` gives i. It calls `js.entry` first if the word of the entry is not the present epoch, the first word of
 * the memory. The words of entries follow it.
 * @param {number} pages
 */
export function entriesBytes(pages) {
  const functions = new Functions();
  const look = functions.importFunction('js', 'entry', [I32], []);
  const word = [get(0), i32(2), 0x74, LOAD[I32], 2, u32(4)];
  const isNew = [get(0), 0x3f, 0, i32(14), 0x74, i32(1), 0x6b, 0x4f];
  const changed = [isNew, 0x04, I32, i32(1), OP.else, word, i32(0), LOAD[I32], 2, 0, 0x47, OP.end];
  functions.add('entry', [I32], [I32], [changed, 0x04, VOID_BLOCK, get(0), call(look), OP.end, get(0)]);
  functions.exports.push(exportItem('memory', KIND.memory, 0));
  return functions.bytes({ memories: [[0, u32(pages)]] });
}

/**
 * Code that writes a word or two to the log, at the address in local `at`.
 * @param {number} type
 * @param {Part} value
 * @param {number} at
 * @param {number} offset
 */
function logged(type, value, at, offset) {
  return [get(at), value, asInteger(type), STORE[/** @type {0x7f | 0x7e} */ (integerOf(type))], 2, u32(offset)];
}
const wordsOf = (/** @type {number[]} */ types) => types.reduce((sum, type) => sum + (isWide(type) ? 2 : 1), 0);

/**
 * Code that moves the log's position on.
 * @param {number} at
 * @param {number} words
 */
const movedOn = (at, words) => [i32(0), get(at), i32(4 * words), I32_ADD, STORE[I32], 2, u32(4 * LOG.position)];

/**
 * The functions that answer float instructions of K, by their places among K's imports. They write the call before they
 * calculate: a conversion may trap.
 * @param {Plan} p
 */
export function floatBytes(p) {
  const functions = new Functions();
  const flush = functions.importFunction('js', 'flush', [], []);
  functions.imports.push(importItem('log', 'memory', KIND.memory, [1, u32(LOG.pages), u32(LOG.pages)]));
  const read = (/** @type {number} */ word) => [i32(0), LOAD[I32], 2, u32(4 * word)];
  p.floats.forEach((op, number) => {
    const { params, results: [result] } = floatType(op);
    const place = p.callees.length + number;
    const [value, at] = [params.length, params.length + 1];
    const code = [params.map((_, index) => get(index)),
      op >= 1 << PREFIX_BITS ? [op >> PREFIX_BITS, u32(op & 0xfff)] : op];
    let offset = 4;
    const args = params.map((type, index) => {
      const part = logged(type, get(index), at, offset);
      offset += isWide(type) ? 8 : 4;
      return part;
    });
    const words = 1 + wordsOf(params);
    const isFull = [read(LOG.position), read(LOG.limit), 0x4b, 0x04, VOID_BLOCK, call(flush), OP.end];
    const before = [read(LOG.isOver), 0x45, 0x04, VOID_BLOCK, isFull, read(LOG.position), set(at),
      get(at), i32(place * 8 + IMPORT_CALL), STORE[I32], 2, 0, args, movedOn(at, words),
      i32(0), read(LOG.crossings), i32(1), I32_ADD, STORE[I32], 2, u32(4 * LOG.crossings), OP.end];
    const after = [read(LOG.isOver), 0x45, 0x04, VOID_BLOCK, read(LOG.position), set(at),
      get(at), i32(place * 8 + IMPORT_RETURN), STORE[I32], 2, 0, logged(result, get(value), at, 4),
      movedOn(at, 1 + wordsOf([result])), OP.end];
    functions.add(`float ${place}`, params, [result], [before, code, set(value), after, get(value)],
      [2, 1, result, 1, I32]);
  });
  return functions.bytes({});
}
