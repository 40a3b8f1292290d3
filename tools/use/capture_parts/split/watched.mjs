/** K as V8 runs it: with memory and globals of R, a table of its own, and calls that watch its loads and stores. */
import { KIND, TypeList, exportItem, importItem, limits, moduleBytes } from '../../wasm/assembler.mjs';
import { constant, u32 } from '../../wasm/encoding.mjs';
import { FUNCREF, I32, I64 } from '../../wasm/value_types.mjs';
import { bodyBytes } from './bodies.mjs';
import { FIRST_VISIT, LOADED, OP, STORED } from './operations.mjs';
import { calleeTypes } from './plan.mjs';

/** @typedef {import('./plan.mjs').Plan} Plan */
/** @typedef {import('../../wasm/value_types.mjs').FunctionType} FunctionType */
/** @typedef {import('../../wasm/encoding.mjs').Part} Part */

export const LOAD_NAMES = LOADED.map((_, place) => `load ${place}`);
export const STORE_NAMES = STORED.map((_, place) => `store ${place}`);

/**
 * The functions that watch K, by their names, with their types. Those of loads and stores give what a site is set to.
 */
const HELPERS = /** @type {[string, FunctionType][]} */ ([
  ...LOAD_NAMES.map((text, place) => [text, { params: [LOADED[place], I32, I64], results: [I64] }]),
  ...STORE_NAMES.map((text, place) => [text, { params: [I32, STORED[place], I64], results: [I64] }]),
  ['copies', { params: [I32, I32, I32], results: [] }], ['fills', { params: [I32, I32, I32], results: [] }],
  ['grown', { params: [I32], results: [I32] }], ['entry', { params: [I32], results: [I32] }],
  ['probe', { params: [], results: [] }],
]);

/** At most so many accesses have a site of their own; further ones share them. */
const MOST_SITES = 100000;

/** The names by which K exports what the recorder needs. */
export const KEPT_NAMES = {
  table: 'table', probe: 'probe', visited: 'visited', hash: 'hash',
  /** @param {number} slot */ function: slot => `function ${slot}`,
  /** @param {number} slot */ entered: slot => `entered ${slot}`,
  /** @param {number} slot */ floats: slot => `floats ${slot}`,
  /** @param {number} place */ callee: place => `callee ${place}`,
};

/**
 * The numbers of K's globals: those of M, then one for each function, one for each function with floats, the visit, a
 * number of what was loaded, and the sites of accesses.
 */
class Globals {
  /** @param {Plan} p */
  constructor(p) {
    this.places = new Map(p.globals.map((index, place) => [index, place]));
    this.firstEntered = p.globals.length;
    const withFloats = p.kept.filter(index => p.needs(index).floats.size > 0);
    const firstCount = this.firstEntered + p.kept.length;
    this.counts = new Map(withFloats.map((index, place) => [index, firstCount + place]));
    this.visit = firstCount + withFloats.length;
    this.hash = this.visit + 1;
    this.sites = 0;
  }

  /** A global for one more access. */
  site() {
    return this.hash + 1 + this.sites++ % MOST_SITES;
  }

  /** The globals that K defines. */
  items() {
    const zero = [I32, 1, OP.i32Const, 0, OP.end];
    const first = [I64, 1, constant(I64, FIRST_VISIT), OP.end];
    const none = [I64, 1, OP.i64Const, 0, OP.end];
    return [...Array.from({ length: this.visit - this.firstEntered }, () => zero), first, none,
      ...Array.from({ length: Math.min(this.sites, MOST_SITES) }, () => none)];
  }
}

/**
 * @param {Plan} p
 * @param {TypeList} types
 * @returns {Part[]}
 */
function imports(p, types) {
  const { m } = p;
  const callees = calleeTypes(p).map((type, place) =>
    importItem('callee', String(place), KIND.function, u32(types.index(type))));
  const helpers = HELPERS.map(([text, type]) => importItem('watch', text, KIND.function, u32(types.index(type))));
  const memory = p.usesMemory ? [importItem('rest', 'memory', KIND.memory, limits(m.memories[0]))] : [];
  const globals = p.globals.map(index => {
    const { type, mutable } = m.globals[index];
    return importItem('rest', `global ${index}`, KIND.global, [type, mutable ? 1 : 0]);
  });
  return [...callees, ...helpers, ...memory, ...globals];
}

/**
 * @param {Plan} p
 * @param {Globals} globals
 * @param {number} first the number of the first kept function
 * @returns {Part[]}
 */
function exports(p, globals, first) {
  const list = [exportItem(KEPT_NAMES.probe, KIND.function, first + p.kept.length),
    exportItem(KEPT_NAMES.visited, KIND.function, first + p.kept.length + 1),
    exportItem(KEPT_NAMES.hash, KIND.global, globals.hash)];
  p.kept.forEach((index, slot) => {
    list.push(exportItem(KEPT_NAMES.function(slot), KIND.function, first + slot));
    list.push(exportItem(KEPT_NAMES.entered(slot), KIND.global, globals.firstEntered + slot));
    const count = globals.counts.get(index);
    if (count !== undefined) list.push(exportItem(KEPT_NAMES.floats(slot), KIND.global, count));
  });
  if (!p.usesTable) return list;
  list.push(exportItem(KEPT_NAMES.table, KIND.table, 0));
  p.callees.forEach((index, place) => {
    const isInTable = p.held.has(index) && p.m.functions[index].results.length <= 1;
    if (isInTable) list.push(exportItem(KEPT_NAMES.callee(place), KIND.function, place));
  });
  return list;
}

/**
 * @param {Plan} p
 * @param {Globals} globals
 * @param {TypeList} types
 * @param {number} first
 * @param {boolean} isHashing
 * @returns {Part[]}
 */
function bodies(p, globals, types, first, isHashing) {
  const at = (/** @type {string} */ text) => first - HELPERS.length + HELPERS.findIndex(([other]) => other === text);
  const watch = { load: LOAD_NAMES.map(at), store: STORE_NAMES.map(at), copies: at('copies'), fills: at('fills'),
    grown: at('grown'), entry: at('entry'), visit: globals.visit, site: () => globals.site(),
    hash: isHashing ? globals.hash : null };
  const floats = new Map(p.floats.map((op, place) => [op, p.callees.length + place]));
  const callees = new Map(p.callees.map((index, place) => [index, place]));
  const places = {
    function: (/** @type {number} */ index) => callees.get(index) ?? first + (p.slots.get(index) ?? NaN),
    float: (/** @type {number} */ op) => floats.get(op) ?? NaN,
    global: (/** @type {number} */ index) => globals.places.get(index) ?? NaN,
    type: (/** @type {FunctionType} */ type) => types.index(type),
    results: () => [],
  };
  return [...p.kept.map((index, slot) => bodyBytes(p.m, index, places,
    { ...watch, entered: globals.firstEntered + slot, floats: globals.counts.get(index) ?? null })),
  [0, OP.call, u32(at('probe')), OP.end],
  [0, OP.globalGet, u32(globals.visit), constant(I64, FIRST_VISIT), 0x7c, OP.globalSet, u32(globals.visit), OP.end]];
}

/**
 * The bytes of K as it runs. With `isHashing` it has a number of all that it has loaded.
 * @param {Plan} p
 * @param {boolean} isHashing
 */
export function watchedBytes(p, isHashing) {
  const types = new TypeList();
  const globals = new Globals(p);
  const imported = imports(p, types);
  const first = calleeTypes(p).length + HELPERS.length;
  const own = types.index({ params: [], results: [] });
  const functions = [...p.kept.map(index => types.index(p.m.functions[index])), own, own];
  const code = bodies(p, globals, types, first, isHashing);
  return moduleBytes({ types: types.list, imports: imported, functions, bodies: code,
    tables: p.usesTable ? [[FUNCREF, 0, 0]] : [],
    globals: globals.items(), exports: exports(p, globals, first) });
}

/**
 * The number of the first kept function in K as it runs, by which the frames of a stack are known.
 * @param {Plan} p
 */
export const firstKept = p => calleeTypes(p).length + HELPERS.length;
