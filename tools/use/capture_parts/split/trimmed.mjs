/** The part of a split that a run needs, with the names and numbers of K as it is written. */
import { instructionName } from '../../wasm/instruction_names.mjs';
import { typeName } from '../../wasm/value_types.mjs';

/** @typedef {import('./plan.mjs').Plan} Plan */
/** @typedef {import('../record/contents.mjs').Contents} Contents */

/** What stands for functions in the table whose type K does not call. */
const OTHER_NAME = 'a function of another type';

/** r3 has these names for functions of the host's own and for hooks. */
const RESERVED = ['foreign', 'r3'];

/** Names that are given once: a second one gets a number. */
class Names {
  constructor() {
    /** @type {Set<string>} */
    this.taken = new Set();
  }

  /**
   * @param {string} wanted
   * @param {string} more what makes it another name
   */
  free(wanted, more) {
    let text = this.taken.has(wanted) ? `${wanted} (${more})` : wanted;
    while (this.taken.has(text)) text += '\'';
    this.taken.add(text);
    return text;
  }
}

/**
 * K as it is written. The functions of K are numbered as r3 numbers them: imports, then those of K; functions of the
 * host's own are counted between them in a history.
 * @typedef {object} Trimmed
 * @property {Plan} plan
 * @property {number[]} kept
 * @property {number[]} callees
 * @property {number[]} floats
 * @property {boolean} hasOther whether one more import stands for functions of a type that K does not call
 * @property {Set<number>} entered
 * @property {Map<number, number>} places in K, of the functions of M
 * @property {Map<number, number>} floatPlaces
 * @property {number} imports how many imports K has
 * @property {string[][]} importNames of each import of K, in order
 * @property {Map<number, string>} functionNames the exports of functions of M
 * @property {Map<number, string>} globalNames the exports of globals of M
 * @property {{ place: number, type: number, name: string }[]} results the globals by which several results come
 * @property {string} otherName the export of what stands for functions of a type that K does not call
 * @property {(wanted: string) => string} freeName a name that no export of K has
 */

/**
 * The two names by which K imports a callee.
 * @param {Plan} plan
 * @param {number} index
 */
function calleeNames({ m, names }, index) {
  const item = m.imports.find(other => other.kind === 0 && other.index === index);
  if (item === undefined) return ['rest', names[index]];
  return [RESERVED.includes(item.module) ? `${item.module} of the module` : item.module, item.name];
}

/**
 * The module name of float instructions, which no import of M has.
 * @param {Plan} plan
 */
const floatModule = ({ m }) => (m.imports.some(item => item.module === 'float') ? 'float instructions' : 'float');

/**
 * @param {string[][]} wanted pairs of names
 * @param {(place: number) => string} more
 */
function freePairs(wanted, more) {
  const names = new Names();
  return wanted.map(([module, text], place) => {
    const key = names.free(JSON.stringify([module, text]), more(place));
    return key === JSON.stringify([module, text]) ? [module, text] : [module, `${text} (${more(place)})`];
  });
}

/**
 * The globals that results come through, of all callees that have several.
 * @param {Plan} plan
 * @param {number[]} callees
 */
function resultGlobals(plan, callees) {
  /** @type {Map<string, { place: number, type: number, name: string }>} */
  const found = new Map();
  for (const { results } of callees.map(index => plan.m.functions[index]).filter(type => type.results.length > 1)) {
    results.forEach((type, place) =>
      found.set(`${place} ${type}`, { place, type, name: `result ${place} ${typeName(type)}` }));
  }
  return [...found.values()];
}

/**
 * What K has for a run: the functions that ran and those that the run, their bodies and the table name.
 * @param {Plan} plan
 * @param {Set<number>} slots the places of the functions that ran
 * @param {Contents} contents
 * @returns {Trimmed}
 */
export function trimmedPlan(plan, slots, contents) {
  const entered = new Set([...slots].map(slot => plan.kept[slot]));
  const called = [...contents.importCalls.keys()].flatMap(place =>
    (place < plan.callees.length ? [plan.callees[place]] : []));
  const hostCalled = [...contents.hostCalls.keys()].map(slot => plan.kept[slot]);
  const ofBodies = [...entered].flatMap(index => [...plan.needs(index).calls]);
  const needed = new Set([...entered, ...called, ...hostCalled, ...contents.entryFunctions, ...ofBodies]);
  const kept = plan.kept.filter(index => needed.has(index));
  const callees = plan.callees.filter(index => needed.has(index));
  const ops = new Set([...entered].flatMap(index => [...plan.needs(index).floats]));
  const floats = plan.floats.filter(op => ops.has(op));
  const { hasOther } = contents;
  const imports = callees.length + floats.length + Number(hasOther);
  const wanted = [...callees.map(index => calleeNames(plan, index)),
    ...floats.map(op => [floatModule(plan), instructionName(op)]),
    ...hasOther ? [['rest', OTHER_NAME]] : []];
  const names = new Names();
  const exported = new Set([...hostCalled, ...contents.setFunctions]);
  return { plan, kept, callees, floats, hasOther, entered, imports,
    places: new Map([...callees.map((index, place) => entry(index, place)),
      ...kept.map((index, place) => entry(index, imports + place))]),
    floatPlaces: new Map(floats.map((op, place) => [op, callees.length + place])),
    importNames: freePairs(wanted, place => `func ${callees[place] ?? place}`),
    functionNames: new Map([...exported].map(index => [index, names.free(plan.names[index], `func ${index}`)])),
    globalNames: new Map([...contents.setGlobals].map(index =>
      [index, names.free(`global ${index}`, 'of the module')])),
    results: resultGlobals(plan, callees).map(item => ({ ...item, name: names.free(item.name, 'of the border') })),
    otherName: names.free(OTHER_NAME, 'of the border'), freeName: wantedName =>
      names.free(wantedName, 'of the border') };
}

/**
 * @param {number} key
 * @param {number} value
 * @returns {[number, number]}
 */
const entry = (key, value) => [key, value];
