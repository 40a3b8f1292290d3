/**
 * Functions of the host's own that are no imports: the host puts them into the table, and the module calls them there.
 * `--decls` declares them for r3, and the script answers them under the module name `foreign`.
 */
import { engine } from './javascript_interface.mjs';
import { number } from './marked_module.mjs';
import { TYPE_BYTES } from './module_types.mjs';
import { refuse } from './refusal.mjs';
import { FOREIGN } from './script_text.mjs';

/** @typedef {import('./module_functions.mjs').Func} Func */
/** @typedef {import('./module_types.mjs').ValueType} ValueType */
/** @typedef {{ params?: ValueType[], results?: ValueType[] }} Type */
/** @typedef {{ name: string, params: ValueType[], results: ValueType[] }} Declaration */

const MOST_PARAMS = 1000;

const section = (/** @type {number} */ id, /** @type {number[]} */ bytes) => [id, ...number(bytes.length), ...bytes];

/**
 * A module that exports as `f` the function `h.f`, which it imports with this type.
 * @param {Required<Type>} type
 */
function passingModule({ params, results }) {
  const types = (/** @type {ValueType[]} */ list) => [...number(list.length), ...list.map(type => TYPE_BYTES[type])];
  return new WebAssembly.Module(Uint8Array.from([
    0x00, 0x61, 0x73, 0x6d, 0x01, 0x00, 0x00, 0x00,
    ...section(1, [1, 0x60, ...types(params), ...types(results)]),
    ...section(2, [1, 1, 0x68, 1, 0x66, 0, 0]),
    ...section(7, [1, 1, 0x66, 0, 0]),
  ]));
}

/** @type {(list: any, most: number) => boolean} */
const areTypes = (list, most) => Array.isArray(list) && list.length <= most && list.every(type => type in TYPE_BYTES);

export class HostFunctions {
  /**
   * @param {import('./module_types.mjs').ModuleTypes} types
   * @param {import('./crossings.mjs').Crossings} crossings
   * @param {boolean} isDeclaring
   */
  constructor(types, crossings, isDeclaring) {
    this.types = types;
    this.crossings = crossings;
    this.isDeclaring = isDeclaring;
    /**
     * The declarations, by the functions as a table takes them.
     * @type {Map<Func, Declaration>}
     */
    this.made = new Map();
  }

  /**
   * What the host's file calls as `context.hostFunction`: gives `func` as a function that a table takes.
   * @param {string} name
   * @param {Type | undefined} type
   * @param {Func} func
   * @returns {Func}
   */
  make(name, { params = [], results = [] } = {}, func) {
    return this.crossings.guarded(() => {
      this.refuseFault(name, params, results, func);
      const type = { params, result: results[0] ?? null };
      const answering = this.crossings.functionInTable(name, type, func);
      const { exports } = engine.instance(passingModule({ params, results }), { h: { f: answering } });
      const f = /** @type {Func} */ (exports.f);
      this.made.set(f, { name, params, results });
      return f;
    });
  }

  /**
   * @param {unknown} name
   * @param {unknown} params
   * @param {unknown} results
   * @param {unknown} func
   */
  refuseFault(name, params, results, func) {
    const where = `the host's function ${JSON.stringify(name)}`;
    if (!this.isDeclaring) refuse(`${where}: --decls FILE captures it`);
    if (typeof name !== 'string' || /\p{Surrogate}/u.test(name)) refuse(`${where}: its name is no text`);
    if (!areTypes(params, MOST_PARAMS) || !areTypes(results, 1)) {
      refuse(`${where}: it has at most ${MOST_PARAMS} params and one of results, each i32, i64, f32 or f64`);
    }
    if (typeof func !== 'function') refuse(`${where}: no function is given for it`);
    const reserved = this.types.imports.find(item => item.module === FOREIGN);
    if (reserved !== undefined) {
      refuse(`import ${reserved.index} (${FOREIGN}.${reserved.name}): the host's own functions have this module name`);
    }
    const isTaken = [...this.types.exports, ...this.made.values()].some(item => item.name === name);
    if (isTaken) refuse(`${where}: an export or an earlier one of these functions has its name`);
  }

  /** @param {Func} func */
  has(func) {
    return this.made.has(func);
  }

  /** @param {Func} func */
  name(func) {
    return /** @type {Declaration} */ (this.made.get(func)).name;
  }

  /** The declarations as r3 reads them, one a line. */
  text() {
    const lines = [...this.made.values()].map(declaration => `\n${JSON.stringify(declaration)}`);
    return `[${lines.join(',')}]\n`;
  }
}
