/** How a script names what the module has, where r3 takes the module as it is and all of it is kept. */
import { KIND } from '../../wasm/assembler.mjs';
import { offsetOf } from '../recorder/initial_state.mjs';
import { NO_FUNCTION } from '../recorder/log_layout.mjs';
import { NotWhole } from './script.mjs';
import { scriptValue } from './values.mjs';

/** @typedef {import('./events.mjs').Events} Events */
/** @typedef {import('./contents.mjs').Contents} Contents */
/** @typedef {import('./script.mjs').View} View */
/** @typedef {import('../../wasm/module.mjs').Module} Module */

/**
 * The first export of each function or global.
 * @param {Module} m
 * @param {number} kind
 */
function exportNames(m, kind) {
  const names = new Map();
  for (const item of m.exports) if (item.kind === kind && !names.has(item.index)) names.set(item.index, item.name);
  return /** @type {Map<number, string>} */ (names);
}

/**
 * The table as instantiation has left it, as far as the module says so.
 * @param {Events} events
 */
function firstTable({ record: { plan: { m }, state } }) {
  /** @type {Map<number, number | null>} */
  const table = new Map();
  const bits = new Map(state.globals);
  for (const { offset, functions } of m.elements) {
    if (offset === null) continue;
    const begin = offsetOf(offset, index => Number(bits.get(index)));
    functions.forEach((index, place) => table.set(begin + place, index));
  }
  return table;
}

/** @implements {View} */
export class WholeView {
  /**
   * @param {Events} events
   * @param {Contents} contents
   */
  constructor(events, contents) {
    const { plan, state } = events.record;
    const { m } = plan;
    if (plan.kept.length < m.bodies.length || plan.floats.length > 0) throw new NotWhole('not all functions are kept');
    if (events.foreignTypes().length > 0 || m.imports.some(item => item.module === 'foreign')) {
      throw new NotWhole('functions of the host\'s own');
    }
    if (contents.hasOther) throw new NotWhole('entries of another type');
    this.plan = plan;
    this.m = m;
    this.state = state;
    this.isWhole = true;
    this.module = m.bytes;
    this.functionNames = exportNames(m, KIND.function);
    this.globalNames = exportNames(m, KIND.global);
    this.table = firstTable(events);
    this.imports = m.imports.filter(item => item.kind === KIND.function);
    this.refuseSharedNames(contents);
    this.supplied = this.supply();
  }

  /**
   * Imports of equal names share their answers.
   * @param {Contents} contents
   */
  refuseSharedNames({ importCalls }) {
    const called = [...importCalls.keys()].map(place => this.imports[this.plan.callees[place]]);
    for (const { module, name } of called) {
      const same = this.imports.filter(item => item.module === module && item.name === name);
      if (same.length > 1) throw new NotWhole(`several imports ${module}.${name}`);
    }
  }

  /** What the script supplies, as parts of its text. */
  supply() {
    const { m, state } = this;
    const has = (/** @type {number} */ kind) => m.imports.some(item => item.kind === kind);
    const most = (/** @type {number | null} */ max) => (max === null ? '' : `,"max":${max}`);
    return [
      ...has(KIND.memory) ? [`"memory":{"pages":${state.pages}${most(state.maximum)}}`] : [],
      ...has(KIND.table) ? [`"table":{"size":${state.entries}${most(state.mostEntries)}}`] : [],
      ...has(KIND.global) ? [`"globals":${this.suppliedGlobals()}`] : [],
    ];
  }

  suppliedGlobals() {
    const bits = new Map(this.state.globals);
    /** @type {Map<string, Map<string, string>>} */
    const modules = new Map();
    for (const { module, name, index } of this.m.imports.filter(item => item.kind === KIND.global)) {
      const names = modules.get(module) ?? new Map();
      const value = scriptValue(this.m.globals[index].type, BigInt(bits.get(index) ?? 0));
      if ((names.get(name) ?? value) !== value) throw new NotWhole(`several imports ${module}.${name}`);
      modules.set(module, names.set(name, value));
    }
    const inner = (/** @type {Map<string, string>} */ names) =>
      [...names].map(([name, value]) => `${JSON.stringify(name)}:${value}`);
    const texts = [...modules].map(([module, names]) => `${JSON.stringify(module)}:{${inner(names).join(',')}}`);
    return `{${texts.join(',')}}`;
  }

  declarations() {
    return null;
  }

  counts() {
    return { imports: this.m.importedFunctions, functions: this.m.bodies.length };
  }

  startsItself() {
    return this.m.start !== null && this.m.start >= this.m.importedFunctions;
  }

  /** @param {number} slot */
  call(slot) {
    const index = this.plan.kept[slot];
    const name = this.functionNames.get(index);
    if (name !== undefined) return `"call":${JSON.stringify(name)}`;
    const place = [...this.table].find(([, other]) => other === index)?.[0];
    if (place === undefined || !this.reaches(KIND.table)) {
      throw new NotWhole(`the host calls ${this.plan.names[index]}, which no export has`);
    }
    return `"call_table":${place}`;
  }

  /**
   * Whether the host reaches the memory or the table.
   * @param {number} kind
   */
  reaches(kind) {
    return this.m.exports.some(item => item.kind === kind) || this.m.imports.some(item => item.kind === kind);
  }

  /** @param {number} place */
  importNames(place) {
    const { module, name } = this.imports[this.plan.callees[place]];
    return [module, name];
  }

  /**
   * @param {number} place
   * @param {number[]} types
   * @param {(number | bigint)[]} values
   */
  response(place, types, values) {
    return { actions: /** @type {string[]} */ ([]),
      result: types.length === 0 ? '' : `"return":${scriptValue(types[0], values[0])}` };
  }

  /**
   * @param {number} index
   * @param {string} value
   */
  setGlobal(index, value) {
    const name = this.globalNames.get(index);
    const item = this.m.imports.filter(other => other.kind === KIND.global)[index];
    if (name === undefined && item === undefined) throw new NotWhole(`global ${index}, which no export has`);
    const target = name === undefined ? `{"import":${JSON.stringify([item.module, item.name])}}` : JSON.stringify(name);
    return `{"set_global":${target},"value":${value}}`;
  }

  /**
   * @param {number} place
   * @param {number} index
   * @param {boolean} isFirst
   */
  setEntry(place, index, isFirst) {
    if (isFirst && this.table.get(place) === index) return null;
    const name = index === NO_FUNCTION ? null : this.functionNames.get(index);
    if (name === undefined) throw new NotWhole(`entry ${place} has ${this.plan.names[index]}, which no export has`);
    this.table.set(place, index === NO_FUNCTION ? null : index);
    return `{"set_table":${place},"func":${JSON.stringify(name)}}`;
  }

  /** @param {number} slot */
  hostNumber(slot) {
    return this.plan.kept[slot];
  }

  /** @param {number} place */
  importNumber(place) {
    return this.plan.callees[place];
  }

  /**
   * @param {number} place
   * @param {number[]} types
   */
  shownResults(place, types) {
    return types;
  }
}
