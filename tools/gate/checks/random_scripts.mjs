/** Random scripts for random modules, as text: the host writes, grows, sets, and calls within calls. */
import { randomBits, randomGlobalBits } from './random_modules.mjs';
import { valueText } from '../../use/capture_parts/values.mjs';

const BYTES = ['00', '7f', 'ff', '01', 'c0', '2a'];

/** @typedef {import('./random_modules.mjs').Module} Module */
/** @typedef {import('./random_modules.mjs').Place} Place */
/** @typedef {import('./random_modules.mjs').GlobalImport} GlobalImport */
/** @typedef {import('./module_bytes.mjs').ValueType} ValueType */

class Host {
  /**
   * @param {import('./random.mjs').Random} random
   * @param {Module} module
   */
  constructor(random, module) {
    this.random = random;
    this.module = module;
    const reached = (/** @type {Place} */ place) => place.imported !== undefined || place.exported === true;
    this.reachesMemory = module.hasMemory && reached(module.memory);
    this.reachesTable = module.tableSize !== null && reached(module.table);
    this.functions = module.exports.filter(item => item.kind === 'function');
    this.callable = this.functions.filter(item => item.index >= module.imported.length);
    this.importedGlobals = /** @type {GlobalImport[]} */ (module.imports.filter(item => item.kind === 'global'));
    this.globals = this.settable();
  }

  /** Mutable globals that are exported, or the first ones that are imported by their names. */
  settable() {
    const { exports, allGlobals } = this.module;
    const exported = exports.filter(item => item.kind === 'global' && allGlobals[item.index].mutable)
      .map(item => ({ target: JSON.stringify(item.name), type: allGlobals[item.index].type }));
    const imported = this.importedGlobals.filter(item => item.mutable)
      .map(({ module, name, type }) => ({ target: JSON.stringify({ import: [module, name] }), type }));
    return [...exported, ...imported];
  }

  /** @param {ValueType} type */
  value(type) {
    return valueText(type, randomBits(this.random, type));
  }

  /** @param {number} type */
  args(type) {
    const { params } = this.module.types[type];
    return params.length === 0 ? '' : `,"args":[${params.map(param => this.value(param)).join(',')}]`;
  }

  call() {
    const { name, index } = this.random.pick(this.callable);
    return `{"call":${JSON.stringify(name)}${this.args(this.module.functionType(index))}}`;
  }

  /**
   * Actions that the host can do; none of them calls where `calls` is false.
   * @param {number} most
   * @param {boolean} calls
   */
  actions(most, calls) {
    return this.random.list(most, () => this.action(calls)).filter(text => text !== null);
  }

  /** @param {boolean} calls */
  action(calls) {
    const { random } = this;
    const kind = random.below(10);
    const bytes = Array.from({ length: 1 + random.below(12) }, () => random.pick(BYTES)).join('');
    if (kind < 3 && this.reachesMemory) return `{"write":${random.below(65000)},"bytes":"${bytes}"}`;
    if (kind === 3 && this.reachesMemory) {
      return `{"copy":${random.below(60000)},"from":${random.below(60000)},"count":${random.below(99)}}`;
    }
    if (kind === 4 && this.reachesMemory && random.chance(30)) return '{"grow":1}';
    if (kind === 5 && this.reachesTable) {
      const func = random.chance(20) ? 'null' : JSON.stringify(random.pick(this.functions).name);
      return random.chance(20) ? '{"grow_table":1}' : `{"set_table":${random.below(4)},"func":${func}}`;
    }
    if (kind === 6 && this.globals.length > 0) {
      const { target, type } = random.pick(this.globals);
      return `{"set_global":${target},"value":${valueText(type, randomGlobalBits(random, type))}}`;
    }
    if (kind > 6 && calls) return this.reachesTable && random.chance(30) ? this.tableCall() : this.call();
    return null;
  }

  /** A call of an entry, whose function may be another one then: the test takes another host if it is. */
  tableCall() {
    return `{"call_table":${this.random.below(4)}${this.args(this.random.below(this.module.types.length))}}`;
  }

  /**
   * @param {number} type
   * @param {boolean} calls
   */
  response(type, calls) {
    const [result] = this.module.types[type].results;
    const actions = this.actions(4, calls);
    const parts = actions.length === 0 ? [] : [`"do":[${actions.join(',')}]`];
    if (this.random.chance(1)) parts.push('"trap":true');
    else if (result !== undefined) parts.push(`"return":${this.value(result)}`);
    return `{${parts.join(',')}}`;
  }

  answers() {
    /** @type {Map<string, Map<string, string>>} */
    const modules = new Map();
    for (const { module, name, type } of this.module.imported) {
      const names = modules.get(module) ?? new Map();
      modules.set(module, names);
      const calls = this.random.list(6, () => this.response(type, true)).join(',');
      names.set(name, `{"calls":[${calls}],"rest":${this.response(type, false)}}`);
    }
    return objectText(modules);
  }

  supplies() {
    const { memory, table } = this.module;
    /** @type {Map<string, Map<string, string>>} */
    const globals = new Map();
    for (const { module, name, type } of this.importedGlobals) {
      const names = globals.get(module) ?? new Map();
      globals.set(module, names.set(name, this.value(type)));
    }
    /** @type {(limits: import('./module_bytes.mjs').Limits) => string} */
    const max = ({ max: most }) => (most === undefined ? '' : `,"max":${most - 1}`);
    const parts = [`"globals":${objectText(globals)}`];
    const { imported } = memory;
    if (imported !== undefined) parts.push(`"memory":{"pages":${imported.min + 1}${max(imported)}}`);
    if (table.imported !== undefined) parts.push(`"table":{"size":${table.imported.min}${max(table.imported)}}`);
    return parts;
  }

  text() {
    const main = [this.call(), ...this.actions(8, true), this.call()];
    return `{${[...this.supplies(), `"imports":${this.answers()}`, `"main":[${main.join(',')}]`].join(',')}}`;
  }
}

/** @param {Map<string, Map<string, string>>} modules */
function objectText(modules) {
  /** @type {(items: Map<string, string>) => string} */
  const names = items => [...items].map(([name, text]) => `${JSON.stringify(name)}:${text}`).join(',');
  return `{${[...modules].map(([module, items]) => `${JSON.stringify(module)}:{${names(items)}}`).join(',')}}`;
}

/**
 * @param {import('./random.mjs').Random} random
 * @param {Module} module
 */
export function randomScript(random, module) {
  return new Host(random, module).text();
}
