/** Which functions of a module are kept, and what the kept part needs of the rest. */
import { instructionName } from '../../wasm/instruction_names.mjs';
import { KIND } from '../../wasm/assembler.mjs';
import { functionNames, readModule } from '../../wasm/module.mjs';
import { UnknownFormat } from '../../wasm/reader.mjs';
import { FUNCREF, typeKey } from '../../wasm/value_types.mjs';
import { isCore, isImportable, needsOf } from './needs.mjs';
import { FLOAT_TYPES, OP } from './operations.mjs';

/** @typedef {import('../../wasm/module.mjs').Module} Module */
/** @typedef {import('../../wasm/value_types.mjs').FunctionType} FunctionType */
/** @typedef {import('./needs.mjs').Needs} Needs */

/**
 * Which functions a user wants, by names or numbers; null for all that r3 takes.
 * @typedef {object} Choice
 * @property {string[] | null} [keep]
 * @property {string[] | null} [under] these functions and all that they reach
 * @property {string[]} [drop]
 * @property {'few' | 'all' | 'none'} [floats]
 */

/**
 * A split of the module `m`.
 * @typedef {object} Plan
 * @property {Module} m
 * @property {Choice} choice
 * @property {string[]} names of all functions
 * @property {number} table the number of the first table of functions, or -1
 * @property {number[]} kept the functions of K
 * @property {Map<number, number>} slots the places of functions in `kept`
 * @property {number[]} callees the functions of R and the imports that K may call
 * @property {number[]} floats the float instructions that K calls as imports
 * @property {number[]} globals the globals that K has
 * @property {number[]} unsteadyGlobals those of them that R or the host may change
 * @property {boolean} usesTable
 * @property {boolean} usesMemory
 * @property {boolean} restChangesTable whether code of R may change the table
 * @property {Set<number>} held the functions that a table may hold
 * @property {FunctionType[]} indirect the types that K calls by the table
 * @property {(index: number) => Needs} needs
 * @property {Map<number, string>} why why functions are not kept
 * @property {string} prefix of the names that R exports for the recorder
 */

/** The flags of memories. */
const SHARED = 2;
const WIDE = 4;
/** r3 takes memories of at most so many pages. */
export const MOST_PAGES = 4096;

/** Thrown where a module is not split. The message is one line. */
export class NotSplit extends Error {}

/**
 * The numbers of the functions that names or numbers stand for.
 * @param {Module} m
 * @param {string[]} list
 */
function numbersOf(m, list) {
  /** @type {Map<string, number[]>} */
  const places = new Map();
  /**
   * @param {string} text
   * @param {number} index
   */
  const add = (text, index) => places.set(text, [...places.get(text) ?? [], index]);
  for (const item of m.exports) if (item.kind === KIND.function) add(item.name, item.index);
  m.names.forEach((text, index) => add(text, index));
  return new Set(list.flatMap(item => {
    const found = places.get(item) ?? (/^(func )?\d+$/.test(item) ? [Number(item.replace('func ', ''))] : []);
    if (found.length === 0 || found[0] >= m.functions.length) throw new NotSplit(`the module has no function ${item}`);
    return found;
  }));
}

/**
 * The functions in segments.
 * @param {Module} m
 */
const inSegments = m => m.elements.flatMap(item => item.functions.filter(index => index !== null));

/**
 * The functions that these roots reach by calls, and by the table where the types fit.
 * @param {Module} m
 * @param {Needs[]} all of the defined functions
 * @param {Iterable<number>} roots
 */
function reached(m, all, roots) {
  const inTable = /** @type {number[]} */ (inSegments(m));
  /** @type {Set<number>} */
  const found = new Set();
  const waiting = [...roots];
  for (let index = waiting.pop(); index !== undefined; index = waiting.pop()) {
    const own = all[index - m.importedFunctions];
    if (own === undefined || found.has(index)) continue;
    found.add(index);
    const types = new Set([...own.indirect].map(type => typeKey(m.types[type])));
    waiting.push(...own.calls, ...inTable.filter(other => types.has(typeKey(m.functions[other]))));
  }
  return found;
}

/**
 * The functions that a table may hold: those of segments, of exports and of constants.
 * @param {Module} m
 */
function heldFunctions(m) {
  const held = new Set(/** @type {number[]} */ (inSegments(m)));
  for (const item of m.exports) if (item.kind === KIND.function) held.add(item.index);
  for (const { op, index = 0 } of m.globals.flatMap(({ init }) =>
      init?.all ?? [])) if (op === OP.refFunc) held.add(index);
  return held;
}

/**
 * A prefix that no export of the module has.
 * @param {Module} m
 */
function freePrefix(m) {
  let prefix = 'r3:';
  while (m.exports.some(item => item.name.startsWith(prefix))) prefix = `_${prefix}`;
  return prefix;
}

/**
 * The kept functions, and why the others are not kept.
 * @param {Module} m
 * @param {Choice} choice
 * @param {Needs[]} all
 */
function division(m, choice, all) {
  const drop = numbersOf(m, choice.drop ?? []);
  const keep = choice.keep == null ? null : numbersOf(m, choice.keep);
  const under = choice.under == null ? null : reached(m, all, numbersOf(m, choice.under));
  /** @type {number[]} */
  const kept = [];
  /** @type {Map<number, string>} */
  const why = new Map();
  all.forEach((needs, defined) => {
    const index = m.importedFunctions + defined;
    const isWanted = !drop.has(index) && (keep === null || keep.has(index)) && (under === null || under.has(index));
    if (needs.why !== null) why.set(index, needs.why);
    else if (!isWanted) why.set(index, drop.has(index) ? 'dropped' : 'not chosen');
    else kept.push(index);
  });
  return { kept, why };
}

/**
 * The globals of K that code outside of K may change: mutable, and imported, exported or set by R.
 * @param {Module} m
 * @param {number[]} globals
 * @param {Needs[]} rest the functions of R
 */
function unsteady(m, globals, rest) {
  const isUnknown = rest.some(needs => needs.isUnknown);
  const exported = new Set(m.exports.filter(item => item.kind === KIND.global).map(item => item.index));
  return globals.filter(index => m.globals[index].mutable
    && (isUnknown || index < m.importedGlobals || exported.has(index)
    || rest.some(needs => needs.setGlobals.has(index))));
}

/**
 * The split of a module that a choice says. Throws `NotSplit` where there is none.
 * @param {Uint8Array} bytes
 * @param {Choice} choice
 * @returns {Plan}
 */
export function planOf(bytes, choice) {
  const m = moduleOf(bytes);
  refuseMemories(m);
  const table = m.tables.findIndex(item => item.type === FUNCREF);
  const isOutlined = choice.floats !== 'none';
  const all = m.bodies.map((_, defined) => needsOf(m, m.importedFunctions + defined, table, isOutlined));
  const { kept, why } = division(m, choice, all);
  if (kept.length === 0) throw new NotSplit(`no function of it can be kept${firstReasons(why)}`);
  return { m, choice, names: functionNames(m), table, kept, why,
    slots: new Map(kept.map((index, slot) => [index, slot])),
    ...border(m, all, kept), prefix: freePrefix(m) };
}

/** @param {Uint8Array} bytes */
function moduleOf(bytes) {
  try {
    return readModule(bytes);
  } catch (error) {
    if (!(error instanceof UnknownFormat)) throw error;
    throw new NotSplit(`it has ${error.message}, which is not known here`);
  }
}

/**
 * The most frequent reasons, in words.
 * @param {Map<number, string>} why
 */
function firstReasons(why) {
  const counts = countsOf(why);
  return counts.length === 0 ? '' : `: ${counts.slice(0, 3).map(([text, count]) => `${text} (${count})`).join(', ')}`;
}

/**
 * How many functions there are for each reason, the most frequent first.
 * @param {Map<number, string>} why
 */
export function countsOf(why) {
  /** @type {Map<string, number>} */
  const counts = new Map();
  for (const text of why.values()) counts.set(text, (counts.get(text) ?? 0) + 1);
  return [...counts].sort(([, one], [, other]) => other - one);
}

/**
 * Throws where the module has memories that r3 has no like of.
 * @param {Module} m
 */
function refuseMemories(m) {
  for (const { flags, min } of m.memories) {
    if (flags & SHARED) throw new NotSplit('its memory is shared, as threads have it');
    if (flags & WIDE) throw new NotSplit('its memory has addresses of 64 bits');
    if (min > MOST_PAGES) throw new NotSplit(`its memory has ${min} pages, and r3 takes at most ${MOST_PAGES}`);
  }
}

/**
 * What K needs besides its functions.
 * @param {Module} m
 * @param {Needs[]} all of the defined functions
 * @param {number[]} kept
 */
function border(m, all, kept) {
  const isKept = new Set(kept);
  /** @param {number} index */
  const needs = index => all[index - m.importedFunctions];
  const rest = all.filter((_, defined) => !isKept.has(m.importedFunctions + defined));
  const held = heldFunctions(m);
  const callees = new Set(kept.flatMap(index => [...needs(index).calls].filter(other => !isKept.has(other))));
  const usesTable = kept.some(index => needs(index).table);
  if (usesTable) for (const index of held) if (!isKept.has(index) && isCore(m.functions[index])) callees.add(index);
  /** @type {Map<string, FunctionType>} */
  const indirect = new Map();
  for (const type of kept.flatMap(index => [...needs(index).indirect])) indirect.set(typeKey(m.types[type]),
      m.types[type]);
  /** @param {Iterable<number>} list */
  const sorted = list => [...list].sort((one, other) => one - other);
  const globals = sorted(new Set(kept.flatMap(index => [...needs(index).globals])));
  return { callees: sorted(callees), floats: sorted(new Set(kept.flatMap(index => [...needs(index).floats]))), globals,
    unsteadyGlobals: unsteady(m, globals, rest), usesTable, usesMemory: kept.some(index => needs(index).memory),
    restChangesTable: rest.some(item => item.changesTable), held, indirect: [...indirect.values()], needs };
}

/**
 * The types of K's imports in order: functions, then float instructions.
 * @param {Plan} p
 */
export const calleeTypes = p => [...p.callees.map(index => p.m.functions[index]), ...p.floats.map(floatType)];

/** @param {number} op */
export function floatType(op) {
  const type = FLOAT_TYPES.get(op);
  if (type === undefined) throw new TypeError(`${instructionName(op)} calculates no floats`);
  return type;
}

export { isCore, isImportable };
