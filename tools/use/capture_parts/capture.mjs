/** Captures the run of a module with a host: runs both once, and gives the script that does what the host did. */
import { Crossings } from './crossings.mjs';
import { HostChanges } from './host_changes.mjs';
import { HostFunctions } from './host_functions.mjs';
import { JavascriptInterface, engine } from './javascript_interface.mjs';
import { fixedAddress } from './addresses.mjs';
import { markedModule } from './marked_module.mjs';
import { MemoryChanges } from './memory_changes.mjs';
import { ModuleFunctions } from './module_functions.mjs';
import { moduleTypes } from './module_types.mjs';
import { Refusal, refuse } from './refusal.mjs';
import { Script } from './script_text.mjs';
import { Supply } from './supply.mjs';
import { TableChanges } from './table_changes.mjs';

/** Thrown where the host calls process.exit, which then ends the run and not the capture. */
class HostExit extends Error {}

/** @typedef {import('./module_functions.mjs').Func} Func */
/** @typedef {import('./crossings.mjs').Options} Options */

class Capture {
  /**
   * @param {WebAssembly.Module} module
   * @param {Uint8Array} bytes
   * @param {Options} options
   */
  constructor(module, bytes, options) {
    this.types = moduleTypes(bytes);
    this.marked = this.types.hostReachesMemory ? markedModule(bytes, this.types) : null;
    this.module = this.marked?.module ?? module;
    this.script = new Script(this.types);
    this.changes = new HostChanges();
    this.functions = new ModuleFunctions(this.types);
    this.crossings = new Crossings(this.types, this.script, this.changes, this.functions, options);
    this.hostFunctions = new HostFunctions(this.types, this.crossings, options.isDeclaring);
    this.interface = new JavascriptInterface();
    /** @type {import('./memory_changes.mjs').Regions | null} */
    this.regions = null;
    this.functions.onKnown = (func, index) => {
      if (index < this.types.importedFunctions) return;
      this.interface.pair(func, this.crossings.definedFunction(func, index));
    };
  }

  /**
   * Instantiates the module among what the host gives. Gives the exports for the host, or null after a trap.
   * @param {unknown} given
   */
  instantiated(given) {
    const { types, script, changes, crossings, functions, hostFunctions } = this;
    const supply = new Supply(types, script, changes, crossings, functions, hostFunctions, this.interface);
    const imports = supply.imports(given);
    const instance = this.linked(imports);
    if (instance === null) return null;
    this.regions = this.marked?.regions(instance) ?? null;
    if (changes.memory !== null) changes.memory.regions = this.regions;
    const exports = this.exportsForHost(instance);
    if (!crossings.hostHasControl) crossings.enterHost();
    crossings.instantiating = false;
    script.main.unshift(...changes.memory?.writes(supply.filled, fixedAddress) ?? []);
    script.main.unshift(...changes.table?.filled ?? []);
    return exports;
  }

  /**
   * The instance, or null where the start function has trapped.
   * @param {unknown} imports
   */
  linked(imports) {
    const { types, crossings } = this;
    try {
      return engine.instance(this.module, imports);
    } catch (/** @type {any} */ error) {
      if (crossings.refusal !== null) throw crossings.refusal;
      if (error instanceof WebAssembly.LinkError || /\bsegment\b/.test(error.message)) refuse(`link: ${error.message}`);
      if (types.startIsImported) refuse(`the start function, an import, threw: ${error.message}`);
      if (error instanceof RangeError) refuse(`the start function: ${error.message}`);
      crossings.over ??= `the start function trapped: ${error.message}`;
      return null;
    }
  }

  /**
   * The exports as the host gets them, and what of them it can change is watched from here on.
   * @param {WebAssembly.Instance} instance
   */
  exportsForHost(instance) {
    const exports = Object.create(null);
    for (const item of this.types.exports) {
      const value = /** @type {any} */ (instance.exports[item.name]);
      this[item.kind](item, value);
      const forHost = item.kind === 'function' ? this.interface.wrapper(value) : value;
      Object.defineProperty(exports, item.name, { value: forHost, enumerable: true });
    }
    return Object.freeze(exports);
  }

  /**
   * @param {import('./module_types.mjs').Export} item
   * @param {Func} func
   */
  function({ index }, func) {
    this.functions.know(func, index);
  }

  /**
   * @param {unknown} _
   * @param {WebAssembly.Memory} memory
   */
  memory(_, memory) {
    if (this.changes.memory === null) {
      this.changes.memory = new MemoryChanges(memory, this.regions);
      this.changes.memory.look();
    }
  }

  /**
   * @param {unknown} _
   * @param {WebAssembly.Table} table
   */
  table(_, table) {
    if (this.changes.table === null) {
      this.changes.table = new TableChanges(table, this.functions, this.hostFunctions, this.interface, new Set());
      this.changes.table.begin();
    }
  }

  /**
   * @param {import('./module_types.mjs').Export} item
   * @param {WebAssembly.Global} global
   */
  global({ name, index }, global) {
    const type = this.types.globals[index];
    if (type.mutable) this.changes.globals.watch(index, global, type, JSON.stringify(name));
  }

  /**
   * Runs what the host does by itself. An error of the host is not a trap of the module.
   * @param {(exports: any) => unknown} main
   * @param {unknown} exports
   */
  async main(main, exports) {
    const { crossings } = this;
    try {
      await main(exports);
    } catch (/** @type {any} */ error) {
      if (crossings.refusal === null && crossings.over === null && !(error instanceof HostExit)) {
        refuse(`the host threw outside of the module: ${error?.stack?.split('\n', 2).join('') ?? String(error)}`);
      }
    }
    if (crossings.refusal !== null) throw crossings.refusal;
    if (crossings.over === null) crossings.addChanges();
  }
}

/** @typedef {(context: any) => any} Host */

/**
 * The function `host` of a file of JavaScript.
 * @param {string} file
 * @returns {Promise<Host>}
 */
async function hostOf(file) {
  const found = await import(file).catch(error => refuse(`the host's file: ${error.message}`));
  const host = found.host ?? found.default?.host;
  return typeof host === 'function' ? host : refuse("the host's file exports no function host(context)");
}

/**
 * Runs the module of `bytes` once with the host of `hostFile`, which gets `context`, and gives the script, the
 * declarations of the host's own functions and, where the run ended by a trap, a line that says so. `options` are
 * `relative`, `isDeclaring` and `progress`. Throws a `Refusal` where the run cannot be written as a script.
 * @param {Uint8Array} bytes
 * @param {string} hostFile
 * @param {any} context
 * @param {Options} options
 */
export async function captured(bytes, hostFile, context, options) {
  let module;
  try {
    module = new WebAssembly.Module(bytes);
  } catch (/** @type {any} */ error) {
    refuse(`the module: ${error.message}`);
  }
  const capture = new Capture(module, bytes, options);
  capture.interface.install();
  process.exit = code => { throw new HostExit(`process.exit(${code ?? ''})`); };
  const host = await hostOf(hostFile);
  /** @type {(name: string, type: import('./host_functions.mjs').Type | undefined, func: Func) => Func} */
  const hostFunction = (name, type, func) => capture.hostFunctions.make(name, type, func);
  Object.assign(context, { module, hostFunction, instance: undefined });
  const { imports, main } = await hostCalled(host, context);
  const exports = capture.instantiated(imports);
  if (exports !== null) {
    context.instance = Object.freeze({ exports });
    await capture.main(main ?? (() => {}), exports);
  }
  return { script: capture.script, declarations: capture.hostFunctions.text(), over: capture.crossings.over };
}

/**
 * @param {Host} host
 * @param {unknown} context
 */
async function hostCalled(host, context) {
  try {
    return await host(context) ?? {};
  } catch (/** @type {any} */ error) {
    if (error instanceof Refusal) throw error;
    return refuse(`host(context) threw: ${error?.stack?.split('\n', 2).join('') ?? String(error)}`);
  }
}
