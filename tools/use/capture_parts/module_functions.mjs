/** The functions of the module that the host holds, as the engine gives them, with their numbers and export names. */
/** @typedef {(...values: any[]) => any} Func */

export class ModuleFunctions {
  /** @param {import('./module_types.mjs').ModuleTypes} types */
  constructor(types) {
    /** @type {Map<Func, number>} */
    this.indices = new Map();
    /** @type {Map<number, string>} */
    this.names = new Map();
    for (const { name, kind, index } of types.exports) {
      if (kind === 'function' && !this.names.has(index)) this.names.set(index, name);
    }
    /** @type {(func: Func, index: number) => void} */
    this.onKnown = () => {};
  }

  /**
   * Takes a function of the module, with its number.
   * @param {Func} func
   * @param {number} index
   */
  know(func, index) {
    if (this.indices.has(func)) return;
    this.indices.set(func, index);
    this.onKnown(func, index);
  }

  /** @param {Func} func */
  has(func) {
    return this.indices.has(func);
  }

  /**
   * The number of a function that is known.
   * @param {Func} func
   */
  index(func) {
    return /** @type {number} */ (this.indices.get(func));
  }

  /**
   * The first name that a function is exported by, or null.
   * @param {Func} func
   */
  exportName(func) {
    return this.names.get(this.index(func)) ?? null;
  }
}
