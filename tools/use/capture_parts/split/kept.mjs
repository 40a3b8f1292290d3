/** K as it is written for r3: what ran, with the memory, the table and the globals as instantiation has left them. */
import { KIND, TypeList, exportItem, importItem, limits, moduleBytes } from '../../wasm/assembler.mjs';
import { constant, flat, s32, u32, vector } from '../../wasm/encoding.mjs';
import { nameSection } from '../../wasm/name_section.mjs';
import { FUNCREF } from '../../wasm/value_types.mjs';
import { OTHER_TYPE } from './bridges.mjs';
import { bodyBytes } from './bodies.mjs';
import { OP } from './operations.mjs';
import { floatType } from './plan.mjs';

/** @typedef {import('./trimmed.mjs').Trimmed} Trimmed */
/** @typedef {import('../recorder/initial_state.mjs').State} State */
/** @typedef {import('../record/contents.mjs').Contents} Contents */
/** @typedef {import('../../wasm/encoding.mjs').Part} Part */
/** @typedef {import('../../wasm/value_types.mjs').FunctionType} FunctionType */

/**
 * The type by which K imports a callee: several results come through globals.
 * @param {FunctionType} type
 */
export const importedType = type => (type.results.length > 1 ? { params: type.params, results: [] } : type);

/**
 * The types of K's imports.
 * @param {Trimmed} k
 */
const importTypes = k => [...k.callees.map(index => importedType(k.plan.m.functions[index])),
  ...k.floats.map(floatType),
  ...k.hasOther ? [OTHER_TYPE] : []];

/** @param {Trimmed} k */
const globalPlaces = k => new Map(k.plan.globals.map((index, place) => [index, place]));

/**
 * Runs of entries that follow one another.
 * @param {Map<number, number>} entries
 * @returns {[number, number[]][]}
 */
function runs(entries) {
  /** @type {[number, number[]][]} */
  const found = [];
  for (const [place, index] of [...entries].sort(([one], [other]) => one - other)) {
    const last = found[found.length - 1];
    if (last !== undefined && last[0] + last[1].length === place) last[1].push(index);
    else found.push([place, [index]]);
  }
  return found;
}

/**
 * @param {Trimmed} k
 * @param {Contents} contents
 * @returns {Part[]}
 */
function elements(k, contents) {
  const place = (/** @type {number} */ index) => u32(index < 0 ? k.imports - 1 : k.places.get(index) ?? NaN);
  return runs(contents.firstEntries).map(([begin, list]) =>
    [0, OP.i32Const, s32(begin), OP.end, vector(list.map(place))]);
}

/**
 * What K has used of the data segments.
 * @param {Trimmed} k
 * @param {State} state
 * @param {[number, number][][]} used
 * @returns {Part[]}
 */
function data(k, state, used) {
  return k.plan.m.data.flatMap(({ bytes }, place) => {
    const offset = state.offsets[place] ?? 0;
    return (used[place] ?? []).map(([begin, end]) =>
      [0, OP.i32Const, s32(begin), OP.end, u32(end - begin), bytes.subarray(begin - offset, end - offset)]);
  });
}

/**
 * @param {Trimmed} k
 * @param {State} state
 * @returns {Part[]}
 */
function globals(k, state) {
  const { m } = k.plan;
  const bits = new Map(state.globals);
  const ofModule = k.plan.globals.map(index => {
    const { type, mutable } = m.globals[index];
    return [type, mutable ? 1 : 0, constant(type, BigInt(bits.get(index) ?? 0)), OP.end];
  });
  return [...ofModule, ...k.results.map(({ type }) => [type, 1, constant(type, 0), OP.end])];
}

/**
 * @param {Trimmed} k
 * @param {boolean} usesMemory
 * @param {boolean} usesTable
 * @returns {Part[]}
 */
function exports(k, usesMemory, usesTable) {
  const places = globalPlaces(k);
  return [
    ...[...k.functionNames].map(([index, text]) => exportItem(text, KIND.function, k.places.get(index) ?? NaN)),
    ...k.hasOther ? [exportItem(k.otherName, KIND.function, k.imports - 1)] : [],
    ...[...k.globalNames].map(([index, text]) => exportItem(text, KIND.global, places.get(index) ?? 0)),
    ...k.results.map(({ name }, place) => exportItem(name, KIND.global, k.plan.globals.length + place)),
    ...usesMemory ? [exportItem(k.freeName('memory'), KIND.memory, 0)] : [],
    ...usesTable ? [exportItem(k.freeName('table'), KIND.table, 0)] : [],
  ];
}

/**
 * The bodies of K; one that did not run is a trap.
 * @param {Trimmed} k
 * @param {TypeList} types
 */
function bodies(k, types) {
  const { m } = k.plan;
  const places = globalPlaces(k);
  const result = (/** @type {number} */ type, /** @type {number} */ place) =>
    k.plan.globals.length + k.results.findIndex(item => item.type === type && item.place === place);
  const to = {
    function: (/** @type {number} */ index) => k.places.get(index) ?? NaN,
    float: (/** @type {number} */ op) => k.floatPlaces.get(op) ?? NaN,
    global: (/** @type {number} */ index) => places.get(index) ?? NaN,
    type: (/** @type {FunctionType} */ type) => types.index(type),
    results: (/** @type {number} */ index) =>
      (m.functions[index].results.length > 1 ? m.functions[index].results.map(result) : []),
  };
  return k.kept.map(index =>
    (k.entered.has(index) ? bodyBytes(m, index, to, null) : flat([0, OP.unreachable, OP.end])));
}

/**
 * The bytes of K.
 * @param {Trimmed} k
 * @param {State} state
 * @param {Contents} contents
 * @param {[number, number][][]} used for each data segment, the runs of addresses that K has used
 */
export function keptBytes(k, state, contents, used) {
  const { plan } = k;
  const types = new TypeList();
  const usesMemory = [...k.entered].some(index => plan.needs(index).memory) || contents.writtenBytes > 0
    || contents.grows;
  const usesTable = plan.usesTable && [...k.entered].some(index => plan.needs(index).table);
  const imports = importTypes(k).map((type, place) =>
    importItem(k.importNames[place][0], k.importNames[place][1], KIND.function, u32(types.index(type))));
  const functions = k.kept.map(index => types.index(plan.m.functions[index]));
  const code = bodies(k, types);
  const names = [...k.places].map(([index, place]) => /** @type {[number, string]} */ ([place, plan.names[index]]));
  for (const place of k.floatPlaces.values()) names.push([place, k.importNames[place].join(' ')]);
  return moduleBytes({ types: types.list, imports, functions, bodies: code, globals: globals(k, state),
    tables: usesTable ? [[FUNCREF, 0, u32(state.entries)]] : [],
    memories: usesMemory ? [limits({ min: state.pages, max: state.maximum })] : [],
    exports: exports(k, usesMemory, usesTable), elements: usesTable ? elements(k, contents) : [],
    data: usesMemory ? data(k, state, used) : [], custom: [nameSection(names)] });
}
