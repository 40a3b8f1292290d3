/** What the host gives for the imports: as a script supplies it, and as the engine gets it. */
import { givenBits } from './global_changes.mjs';
import { engine } from './javascript_interface.mjs';
import { MemoryChanges, PAGE } from './memory_changes.mjs';
import { refuse } from './refusal.mjs';
import { TableChanges } from './table_changes.mjs';
import { valueText } from './values.mjs';

/** @typedef {import('./module_types.mjs').Import} Import */
/** @typedef {import('./module_types.mjs').GlobalImport} GlobalImport */
/** @typedef {import('./memory_changes.mjs').Range} Range */

/** @type {(item: Import) => string} */
const where = ({ index, module, name }) => `import ${index} (${module}.${name})`;

/**
 * `,"max":N`, or nothing where the object has no maximum.
 * @param {Import} item
 * @param {object} object
 * @param {import('./javascript_interface.mjs').JavascriptInterface} interface_
 */
function maximumText(item, object, interface_) {
  const maximum = interface_.maxima.get(object);
  if (maximum === undefined) {
    refuse(`${where(item)}: its maximum is not known, since new WebAssembly has not made it under the capture`);
  }
  return maximum === null ? '' : `,"max":${maximum}`;
}

/** Takes what the host gives, and is asked for what the engine is to get for each import. */
export class Supply {
  /**
   * @param {import('./module_types.mjs').ModuleTypes} types
   * @param {import('./script_text.mjs').Script} script
   * @param {import('./host_changes.mjs').HostChanges} changes
   * @param {import('./crossings.mjs').Crossings} crossings
   * @param {import('./module_functions.mjs').ModuleFunctions} functions
   * @param {import('./host_functions.mjs').HostFunctions} hostFunctions
   * @param {import('./javascript_interface.mjs').JavascriptInterface} interface_
   */
  constructor(types, script, changes, crossings, functions, hostFunctions, interface_) {
    this.types = types;
    this.script = script;
    this.changes = changes;
    this.crossings = crossings;
    this.functions = functions;
    this.hostFunctions = hostFunctions;
    this.interface_ = interface_;
    /** @type {Range[]} */
    this.filled = [];
    this.functionCount = 0;
    this.globalCount = 0;
    /** @type {Map<WebAssembly.Global, number>} */
    this.mutableGlobals = new Map();
  }

  /**
   * The imports for the engine. It asks for each one once, in order, so that those of equal names are kept apart by how
   * often they have been asked for.
   * @param {any} given
   */
  imports(given) {
    /** @type {Map<string, unknown[]>} */
    const waiting = new Map();
    const modules = Object.create(null);
    for (const item of this.types.imports) {
      const { module, name } = item;
      const key = JSON.stringify([module, name]);
      const value = this.taken(item, given?.[module]?.[name]);
      waiting.set(key, [...waiting.get(key) ?? [], value]);
      modules[module] ??= Object.create(null);
      Object.defineProperty(modules[module], name, { get: () => waiting.get(key)?.shift(), configurable: true });
    }
    return modules;
  }

  /**
   * @param {Import} item
   * @param {unknown} value
   */
  taken(item, value) {
    if (value === undefined) refuse(`${where(item)}: the host gives nothing for it`);
    return item.kind === 'global' ? this.global(item, value) : this[item.kind](item, value);
  }

  /**
   * @param {Import} item
   * @param {any} value
   */
  function(item, value) {
    if (typeof value !== 'function') refuse(`${where(item)}: the host gives no function for it`);
    return this.crossings.importedFunction(this.functionCount++, value);
  }

  /**
   * @param {Import} item
   * @param {unknown} memory
   */
  memory(item, memory) {
    if (!(memory instanceof WebAssembly.Memory)) refuse(`${where(item)}: the host gives no memory for it`);
    const pages = memory.buffer.byteLength / PAGE;
    this.script.supply('memory', `{"pages":${pages}${maximumText(item, memory, this.interface_)}}`);
    this.changes.memory = new MemoryChanges(memory, null);
    this.filled = this.changes.memory.filledRuns();
    if (this.filled.length > 0 && this.types.startIsDefined) {
      refuse(`${where(item)}: not zero at ${this.filled[0][0]}, before the start function runs`);
    }
    return memory;
  }

  /**
   * @param {Import} item
   * @param {unknown} table
   */
  table(item, table) {
    if (!(table instanceof WebAssembly.Table)) refuse(`${where(item)}: the host gives no table for it`);
    this.script.supply('table', `{"size":${table.length}${maximumText(item, table, this.interface_)}}`);
    const entries = Array.from({ length: table.length }, (_, index) => engine.entry(table, index));
    const own = entries.findIndex(func => func !== null && this.hostFunctions.has(func));
    if (own !== -1 && this.types.startIsDefined) {
      refuse(`${where(item)}: entry ${own} is a function of the host's own before the start function runs`);
    }
    this.changes.table = new TableChanges(
      table, this.functions, this.hostFunctions, this.interface_, new Set(entries),
    );
    return table;
  }

  /**
   * @param {GlobalImport} item
   * @param {any} value
   */
  global(item, value) {
    const index = this.globalCount++;
    const isGlobal = value instanceof WebAssembly.Global;
    if (!isGlobal && (item.mutable || !['number', 'bigint'].includes(typeof value))) {
      refuse(`${where(item)}: the host gives no global for it`);
    }
    if (item.mutable) this.mutableGlobal(item, index, value);
    const bits = this.bits(item, value);
    const text = valueText(item.type, bits);
    const earlier = this.script.supplyGlobal(item.module, item.name, text);
    if (earlier !== text) refuse(`${where(item)}: another value than an import of the same names has, ${earlier}`);
    return value;
  }

  /**
   * @param {GlobalImport} item
   * @param {unknown} value
   */
  bits(item, value) {
    try {
      return givenBits(value, item);
    } catch (/** @type {any} */ error) {
      return refuse(`${where(item)}: the host gives another global: ${error.message}`);
    }
  }

  /**
   * @param {GlobalImport} item
   * @param {number} index
   * @param {WebAssembly.Global} value
   */
  mutableGlobal(item, index, value) {
    if (this.mutableGlobals.has(value)) {
      refuse(`${where(item)}: the same mutable global as import ${this.mutableGlobals.get(value)}`);
    }
    this.mutableGlobals.set(value, item.index);
    const target = `{"import":[${JSON.stringify(item.module)},${JSON.stringify(item.name)}]}`;
    this.changes.globals.watch(index, value, item, target);
  }
}
