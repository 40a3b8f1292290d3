/** What the host changes in the table while it has control: growth, and entries that are another function or empty. */
import { engine } from './javascript_interface.mjs';
import { refuse } from './refusal.mjs';

/** @typedef {import('./module_functions.mjs').Func} Func */

const MOST_ENTRIES = 1000000;

export class TableChanges {
  /**
   * `table` is imported or exported. `functions` knows the module's functions, and `hostFunctions` those of the host's
   * own. `before` has the functions that an imported table had before the module was instantiated.
   * @param {WebAssembly.Table} table
   * @param {import('./module_functions.mjs').ModuleFunctions} functions
   * @param {import('./host_functions.mjs').HostFunctions} hostFunctions
   * @param {import('./javascript_interface.mjs').JavascriptInterface} interface_
   * @param {Set<Func | null>} before
   */
  constructor(table, functions, hostFunctions, interface_, before) {
    this.table = table;
    this.functions = functions;
    this.hostFunctions = hostFunctions;
    this.interface_ = interface_;
    this.before = before;
    /**
     * The entries as they were last, or null before instantiation is over.
     * @type {(Func | null)[] | null}
     */
    this.noted = null;
    /** @type {Map<Func, number>} */
    this.places = new Map();
    /**
     * The actions that put functions of the host's own where instantiation has left them.
     * @type {string[]}
     */
    this.filled = [];
  }

  entries() {
    return Array.from({ length: this.table.length }, (_, index) => engine.entry(this.table, index));
  }

  /** Notes the table as instantiation leaves it: each function in it is of the module, but for those from before. */
  begin() {
    this.noted = this.entries();
    this.noted.forEach((func, index) => {
      if (func === null) return;
      if (this.before.has(func)) {
        this.filled.push(this.setting(index, func));
      } else {
        this.functions.know(func, Number(func.name));
      }
    });
    this.interface_.takeTouched(this.table);
  }

  /** @param {number} index */
  refuseForeign(index) {
    const cure = '--decls FILE captures those that context.hostFunction makes';
    refuse(`entry ${index} of the table: a function of the host's own; ${cure}`);
  }

  /**
   * The place of a function in the table, or -1.
   * @param {Func} func
   */
  place(func) {
    const last = this.places.get(func) ?? -1;
    if (last !== -1 && engine.entry(this.table, last) === func) return last;
    const place = this.entries().indexOf(func);
    this.places.set(func, place);
    return place;
  }

  actions() {
    if (this.interface_.shared.has(this.table)) {
      refuse('the host gives the table to another instance, which may call the module unseen');
    }
    if (!this.interface_.takeTouched(this.table)) return [];
    const now = this.entries();
    if (now.length > MOST_ENTRIES) {
      refuse(`the table has grown to ${now.length} entries, where r3 takes at most ${MOST_ENTRIES}`);
    }
    /** @type {(Func | null)[]} */
    const noted = this.noted ?? [];
    const grown = now.length - noted.length;
    const changed = (/** @type {Func | null} */ func, /** @type {number} */ index) => func !== (noted[index] ?? null);
    const sets = now.flatMap((func, index) => (changed(func, index) ? [this.setting(index, func)] : []));
    this.noted = now;
    return grown > 0 ? [`{"grow_table":${grown}}`, ...sets] : sets;
  }

  /**
   * @param {number} index
   * @param {Func | null} func
   */
  setting(index, func) {
    const name = func === null ? null : this.name(index, func);
    return `{"set_table":${index},"func":${JSON.stringify(name)}}`;
  }

  /**
   * The name of the function of an entry, as a script gives it.
   * @param {number} index
   * @param {Func} func
   */
  name(index, func) {
    if (this.hostFunctions.has(func)) return this.hostFunctions.name(func);
    if (!this.functions.has(func)) this.refuseForeign(index);
    const number = this.functions.index(func);
    const otherwise = () => refuse(`entry ${index} of the table: function ${number}, which the module does not export`);
    return this.functions.exportName(func) ?? otherwise();
  }
}
