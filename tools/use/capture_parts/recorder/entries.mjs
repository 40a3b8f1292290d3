/**
 * The table. K has one of its own, with K's functions where the program's has trampolines. An entry is looked at when K
 * calls by it: if the host has changed it, the change is added to what the host did last, since K has not called by it
 * before.
 */
import { OTHER_TYPE, bridgeBytes, isBridged, takingBytes } from '../split/bridges.mjs';
import { KEPT_NAMES } from '../split/watched.mjs';
import { entriesBytes } from '../split/watcher.mjs';
import { ENTRY, FIRST_ENTRY, FIRST_FOREIGN, FOREIGN, GROW_TABLE, NO_FUNCTION, OTHER_FUNCTION } from './log_layout.mjs';
import { native } from './native.mjs';

/** @typedef {import('../split/plan.mjs').Plan} Plan */
/** @typedef {import('../../wasm/value_types.mjs').FunctionType} FunctionType */
/** @typedef {import('./observers.mjs').Call} Call */

const PAGE_WORDS = 16384;

/** @param {number} entries */
const pagesFor = entries => Math.ceil((entries + 1) / PAGE_WORDS);

/**
 * What the entries need of the recorder.
 * @typedef {object} Surroundings
 * @property {Plan} plan
 * @property {(index: number) => Function} functionOfRest
 * @property {(number: number, following: number[]) => void} action
 * @property {(place: number, type: FunctionType, calls: Call[]) => Function} importObserver `calls` has what is called
 * @property {<T>(step: () => T, otherwise: T) => T} guarded
 */

export class Entries {
  /**
   * @param {Surroundings} surroundings
   * @param {WebAssembly.Table | null} table the program's
   */
  constructor(surroundings, table) {
    this.surroundings = surroundings;
    this.plan = surroundings.plan;
    this.table = table;
    const size = table === null ? 0 : native.size(table);
    /**
     * The functions as K has called by them, or as instantiation has left them.
     * @type {(Function | null)[]}
     */
    this.noted = Array.from({ length: size }, (_, place) => native.entry(/** @type {WebAssembly.Table} */ (table),
      place));
    /**
     * Entries that K has called by.
     * @type {Set<number>}
     */
    this.called = new Set();
    this.watch = native.exports(entriesBytes(pagesFor(size)),
      { js: { entry: (/** @type {number} */ place) => this.look(place) } });
    this.epochs = new Int32Array(this.watch.memory.buffer);
    this.epochs[0] = 1;
    this.size = size;
    /** Whether the table may change unseen, so that it is looked at anew after each crossing to K. */
    this.isUnsteady = this.plan.restChangesTable;
    /** @type {Function | null} */
    this.other = null;
    /** @type {any} */
    this.kept = null;
    /** @type {Map<Function, { number: number, own: Function }>} */
    this.foreign = new Map();
    /** @type {Map<Function, number> | null} */
    this.indices = null;
    /** @type {Map<FunctionType, WebAssembly.Module>} */
    this.taking = new Map();
  }

  /** @param {any} kept the exports of K */
  connect(kept) {
    this.kept = kept;
    if (this.table !== null && this.plan.usesTable) native.growTable(kept[KEPT_NAMES.table], this.size);
  }

  /** All entries may have changed. */
  changed() {
    this.epochs[0]++;
  }

  /**
   * K is about to call by an entry.
   * @param {number} given
   */
  look(given) {
    const place = given >>> 0;
    this.surroundings.guarded(() => this.lookAt(place), undefined);
  }

  /** @param {number} place */
  lookAt(place) {
    const table = /** @type {WebAssembly.Table} */ (this.table);
    this.grow(native.size(table) - this.size);
    if (place >= this.size) return;
    const func = native.entry(table, place);
    const isFirst = !this.called.has(place);
    const isOther = func !== this.noted[place];
    if (isOther || isFirst) this.set(place, func, isOther ? ENTRY : FIRST_ENTRY);
    this.epochs[place + 1] = this.epochs[0];
  }

  /** @param {number} count */
  grow(count) {
    if (count <= 0) return;
    native.growTable(this.kept[KEPT_NAMES.table], count);
    this.surroundings.action(GROW_TABLE, [count]);
    for (let added = 0; added < count; added++) this.noted.push(null);
    this.size += count;
    const pages = pagesFor(this.size) - this.epochs.length / PAGE_WORDS;
    if (pages > 0) this.watch.memory.grow(pages);
    this.epochs = new Int32Array(this.watch.memory.buffer);
  }

  /**
   * @param {number} place
   * @param {Function | null} func
   * @param {number} action
   */
  set(place, func, action) {
    this.called.add(place);
    this.noted[place] = func;
    const { number, own } = this.functionOfKept(func);
    native.setEntry(this.kept[KEPT_NAMES.table], place, own);
    if (action === ENTRY || number !== NO_FUNCTION) this.surroundings.action(action, [place, number]);
  }

  /**
   * What K has for a function of the program's table.
   * @param {Function | null} func
   * @returns {{ number: number, own: Function | null }}
   */
  functionOfKept(func) {
    if (func === null) return { number: NO_FUNCTION, own: null };
    const index = this.indexOf(func);
    if (index === undefined) return this.foreignFunction(func);
    const slot = this.plan.slots.get(index);
    const place = this.plan.callees.indexOf(index);
    const own = slot === undefined ? this.kept[KEPT_NAMES.callee(place)] : this.kept[KEPT_NAMES.function(slot)];
    return own === undefined ? { number: OTHER_FUNCTION, own: this.otherFunction() } : { number: index, own };
  }

  /** @param {Function} func */
  indexOf(func) {
    const { plan, surroundings } = this;
    this.indices ??= new Map([...plan.held, ...plan.callees].map(index => [surroundings.functionOfRest(index), index]));
    return this.indices.get(func);
  }

  /** A function whose type no kept function calls. */
  otherFunction() {
    this.other ??= /** @type {Function} */ (native.exports(takingBytes(OTHER_TYPE), { h: { f: () => {} } }).f);
    return this.other;
  }

  /**
   * A function in the table that is none of M's. Its type is found by trying which of the types that K calls by the
   * table it has. If it has none of them, a call by its entry traps.
   * @param {Function} func
   */
  foreignFunction(func) {
    const found = this.foreign.get(func);
    if (found !== undefined) return found;
    const type = this.plan.indirect.find(item => this.hasType(func, item));
    if (type === undefined) return { number: OTHER_FUNCTION, own: this.otherFunction() };
    const { params, results } = type;
    const place = this.plan.callees.length + this.plan.floats.length + this.foreign.size;
    const number = FIRST_FOREIGN - this.foreign.size;
    const calls = [/** @type {Call} */ (func)];
    const observer = this.surroundings.importObserver(place, type, calls);
    const bridge = native.exports(bridgeBytes([type], false), { js: { 0: observer }, target: { 0: func } });
    if (isBridged(type)) calls[0] = bridge['in.0'];
    this.foreign.set(func, { number, own: bridge['out.0'] });
    this.surroundings.action(FOREIGN, [params.length, results.length, ...params, ...results]);
    return { number, own: bridge['out.0'] };
  }

  /**
   * @param {Function} func
   * @param {FunctionType} type
   */
  hasType(func, type) {
    const module = this.taking.get(type) ?? new native.Module(takingBytes(type));
    this.taking.set(type, module);
    try {
      new native.Instance(module, { h: { f: func } });
      return true;
    } catch (error) {
      if (error instanceof native.LinkError) return false;
      throw error;
    }
  }
}
