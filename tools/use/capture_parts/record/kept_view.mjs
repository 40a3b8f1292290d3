/** How a script names what K has, where K is written on its own. */
import { keptBytes } from '../split/kept.mjs';
import { trimmedPlan } from '../split/trimmed.mjs';
import { typeName } from '../../wasm/value_types.mjs';
import { FIRST_FOREIGN, NO_FUNCTION, OTHER_FUNCTION } from '../recorder/log_layout.mjs';
import { scriptValue } from './values.mjs';

/** @typedef {import('./events.mjs').Events} Events */
/** @typedef {import('./contents.mjs').Contents} Contents */
/** @typedef {import('./script.mjs').View} View */

/**
 * The name of a function of the host's own.
 * @param {number} number
 */
const foreignName = number => `the host's function ${number}`;

/** @implements {View} */
export class KeptView {
  /**
   * @param {Events} events
   * @param {Contents} contents
   */
  constructor(events, contents) {
    const { plan, entered, state, used } = events.record;
    this.plan = plan;
    this.isWhole = false;
    this.trimmed = trimmedPlan(plan, entered, contents);
    this.foreign = events.foreignTypes();
    this.firstForeign = plan.callees.length + plan.floats.length;
    this.module = keptBytes(this.trimmed, state, contents, used);
    /** @type {string[]} */
    this.supplied = [];
  }

  /** The declarations of the host's own functions, or null. */
  declarations() {
    if (this.foreign.length === 0) return null;
    const lines = this.foreign.map(({ params, results }, number) => JSON.stringify({ name: foreignName(number),
      params: params.map(typeName), results: results.map(typeName) }));
    return `[${lines.join(',\n')}]\n`;
  }

  counts() {
    return { imports: this.trimmed.imports + this.foreign.length, functions: this.trimmed.kept.length };
  }

  /** Whether the first call by the host is that of the start function, which r3 makes by itself. */
  startsItself() {
    return false;
  }

  /** @param {number} slot */
  call(slot) {
    return `"call":${JSON.stringify(this.trimmed.functionNames.get(this.plan.kept[slot]))}`;
  }

  /**
   * The two names of an import or a function of the host's own.
   * @param {number} place
   */
  importNames(place) {
    if (place >= this.firstForeign) return ['foreign', foreignName(place - this.firstForeign)];
    return this.trimmed.importNames[this.placeInKept(place)];
  }

  /** @param {number} place */
  placeInKept(place) {
    const { callees } = this.plan;
    const found = place < callees.length ? this.trimmed.places.get(callees[place])
      : this.trimmed.floatPlaces.get(this.plan.floats[place - callees.length]);
    return found ?? NaN;
  }

  /**
   * The result of a callee, as parts of a response.
   * @param {number} place
   * @param {number[]} types
   * @param {(number | bigint)[]} values
   */
  response(place, types, values) {
    if (types.length === 0) return { actions: [], result: '' };
    if (types.length === 1) return { actions: [], result: `"return":${scriptValue(types[0], values[0])}` };
    const actions = types.map((type, index) => {
      const global = this.trimmed.results.find(item => item.place === index && item.type === type);
      return `{"set_global":${JSON.stringify(global?.name)},"value":${scriptValue(type, values[index])}}`;
    });
    return { actions, result: '' };
  }

  /**
   * @param {number} index
   * @param {string} value
   */
  setGlobal(index, value) {
    return `{"set_global":${JSON.stringify(this.trimmed.globalNames.get(index))},"value":${value}}`;
  }

  /**
   * @param {number} place
   * @param {number} index
   * @param {boolean} isFirst as instantiation has left it
   */
  setEntry(place, index, isFirst) {
    if (isFirst && index > FIRST_FOREIGN && index !== NO_FUNCTION) return null;
    return `{"set_table":${place},"func":${JSON.stringify(this.entryName(index))}}`;
  }

  /** @param {number} index */
  entryName(index) {
    if (index === NO_FUNCTION) return null;
    if (index === OTHER_FUNCTION) return this.trimmed.otherName;
    return index <= FIRST_FOREIGN ? foreignName(FIRST_FOREIGN - index) : this.trimmed.functionNames.get(index);
  }

  /**
   * The number of a function of K in a history: those of the host's own are counted between imports and others.
   * @param {number} slot
   */
  hostNumber(slot) {
    return (this.trimmed.places.get(this.plan.kept[slot]) ?? NaN) + this.foreign.length;
  }

  /** @param {number} place */
  importNumber(place) {
    return place >= this.firstForeign ? this.trimmed.imports + place - this.firstForeign : this.placeInKept(place);
  }

  /**
   * The results that a history shows for a callee.
   * @param {number} place
   * @param {number[]} types
   */
  shownResults(place, types) {
    return types.length > 1 ? [] : types;
  }
}
