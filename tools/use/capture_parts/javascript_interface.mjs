/**
 * What a capture changes in WebAssembly's interface for JavaScript, before the host's file is read:
 *
 * - `new WebAssembly.Memory` and `new WebAssembly.Table` remember the maximum that they are given, which no object
 *   gives back;
 * - a function of the module that the host takes out of a table is handed out as its wrapper, which records calls, and
 *   a wrapper that the host puts into a table goes in as the function;
 * - tables that the host gives to other instances are noted: code of such an instance could call the module unseen.
 */
/** @typedef {import('./module_functions.mjs').Func} Func */

const { Instance, Memory, Table } = WebAssembly;
const { get, set, grow } = Table.prototype;

/** What the capture itself uses, as the engine has it. */
export const engine = {
  instance: (/** @type {WebAssembly.Module} */ module, /** @type {any} */ imports) => new Instance(module, imports),
  /** @type {(table: WebAssembly.Table, index: number) => Func | null} */
  entry: (table, index) => get.call(table, index),
};

export class JavascriptInterface {
  constructor() {
    /** @type {WeakMap<object, number | null>} */
    this.maxima = new WeakMap();
    /** @type {WeakSet<WebAssembly.Table>} */
    this.shared = new WeakSet();
    /** @type {Map<Func, Func>} */
    this.wrappers = new Map();
    /** @type {Map<Func, Func>} */
    this.functions = new Map();
    /** @type {WeakSet<WebAssembly.Table>} */
    this.touched = new WeakSet();
  }

  /**
   * The wrapper of a function of the module is from now on what the host gets for it.
   * @param {Func} func
   * @param {Func} wrapper
   */
  pair(func, wrapper) {
    this.wrappers.set(func, wrapper);
    this.functions.set(wrapper, func);
  }

  /**
   * @template Item
   * @param {Item} func
   * @returns {Item | Func}
   */
  wrapper(func) {
    return this.wrappers.get(/** @type {any} */ (func)) ?? func;
  }

  /** @param {any} wrapper */
  function(wrapper) {
    return this.functions.get(wrapper) ?? wrapper;
  }

  /**
   * Whether the host has changed a table since this was last asked.
   * @param {WebAssembly.Table} table
   */
  takeTouched(table) {
    return this.touched.delete(table);
  }

  install() {
    WebAssembly.Memory = this.remembering(Memory);
    WebAssembly.Table = this.remembering(Table);
    this.watchTables();
    this.watchInstances();
  }

  /**
   * A constructor that remembers the maximum in the description that it is given, or that there is none.
   * @template {Function} Constructor
   * @param {Constructor} constructor
   */
  remembering(constructor) {
    return new Proxy(constructor, {
      construct: (target, [description, ...rest], newTarget) => {
        const made = Reflect.construct(target, [description, ...rest.map(value => this.function(value))], newTarget);
        this.maxima.set(made, description.maximum === undefined ? null : Number(description.maximum));
        return made;
      },
    });
  }

  watchTables() {
    const self = this;
    Table.prototype.get = function (/** @type {number} */ index) {
      return self.wrapper(get.call(this, index));
    };
    Table.prototype.set = function (/** @type {number} */ index, /** @type {any[]} */ ...value) {
      self.touched.add(this);
      const values = value.map(item => self.function(item));
      return set.call(this, index, .../** @type {[any]} */ (values));
    };
    Table.prototype.grow = function (/** @type {number} */ count, /** @type {any[]} */ ...value) {
      self.touched.add(this);
      const values = value.map(item => self.function(item));
      return grow.call(this, count, .../** @type {[any]} */ (values));
    };
  }

  watchInstances() {
    const note = (/** @type {any} */ imports) => {
      for (const names of Object.values(imports ?? {})) {
        for (const value of Object.values(/** @type {any} */ (names) ?? {})) {
          if (value instanceof Table) this.shared.add(value);
        }
      }
    };
    WebAssembly.Instance = new Proxy(Instance, {
      construct: (target, [module, imports], newTarget) => {
        note(imports);
        return Reflect.construct(target, [module, imports], newTarget);
      },
    });
    const makers = /** @type {{ [name: string]: Function | undefined }} */ (/** @type {unknown} */ (WebAssembly));
    for (const name of ['instantiate', 'instantiateStreaming']) {
      const make = makers[name];
      if (make === undefined) continue;
      makers[name] = (/** @type {any} */ source, /** @type {any} */ imports) => {
        note(imports);
        return make.call(WebAssembly, source, imports);
      };
    }
  }
}
