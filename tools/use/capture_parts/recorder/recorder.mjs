/** Runs K and R together in place of M, and records what happens between them. `engine.mjs` says how it is used. */
import { bridgeBytes, isBridged } from '../split/bridges.mjs';
import { MOST_PAGES, calleeTypes } from '../split/plan.mjs';
import { REST_NAMES, restBytes } from '../split/rest.mjs';
import { KEPT_NAMES, firstKept, watchedBytes } from '../split/watched.mjs';
import { ACCESSES, floatBytes, shadowBytes } from '../split/watcher.mjs';
import { CHUNK, chunk, jsonChunk } from './chunks.mjs';
import { Entries } from './entries.mjs';
import { initialState } from './initial_state.mjs';
import { Log } from './log.mjs';
import { GLOBAL, GROW } from './log_layout.mjs';
import { native } from './native.mjs';
import { hostObserver, importObserver } from './observers.mjs';
import { Shadow } from './shadow.mjs';
import { Unwinding } from './unwinding.mjs';

/** @typedef {import('../split/plan.mjs').Plan} Plan */

/** The recorder itself has failed before any code of the program ran. */
export class OwnFault extends Error {}

/**
 * How the record ended before the program did.
 * @typedef {object} Over
 * @property {'trap' | 'exception' | 'overflow' | 'limit' | 'stopped' | 'fault'} by
 * @property {string} text
 * @property {number | null} place of the callee that an exception passed, or null
 * @property {number | null} slot of the function of K that a trap passed, or null
 */

/**
 * What an error says, whatever it is.
 * @param {any} error
 */
function textOf(error) {
  try {
    return String(error?.message ?? error);
  } catch {
    return 'an error without words';
  }
}
const isOverflow = (/** @type {any} */ error) => error instanceof RangeError && /call stack/i.test(textOf(error));

export class Recorder {
  /**
   * @param {Plan} plan
   * @param {{ sink?: (chunk: Uint8Array) => void, until?: number | null, isHashing?: boolean, accesses?: number }}
   *   [options] without a sink the chunks are kept in `chunks`
   */
  constructor(plan, options = {}) {
    this.plan = plan;
    this.options = options;
    this.until = options.until ?? Infinity;
    /** @type {Uint8Array[]} */
    this.chunks = [];
    /** @type {Over | null} */
    this.over = null;
    this.isOver = false;
    /** @type {string | null} */
    this.fault = null;
    /** Crossings after the end of the record. */
    this.after = 0;
    this.hasEnded = false;
    /**
     * The exports of R, of K, and of what watches K; undefined until they are there.
     * @type {any}
     */
    this.rest = undefined;
    /** @type {any} */
    this.kept = undefined;
    /** @type {any} */
    this.watch = undefined;
    /**
     * The kept functions that are known to be entered.
     * @type {Set<number>}
     */
    this.entered = new Set();
    this.log = new Log(bytes => this.sink(bytes), () => this.marks());
    this.unwinding = new Unwinding(plan.kept, firstKept(plan));
  }

  /** @param {Uint8Array} bytes */
  sink(bytes) {
    if (this.options.sink !== undefined) this.options.sink(bytes);
    else this.chunks.push(bytes);
  }

  /** The bytes of R and of K. */
  parts() {
    return [restBytes(this.plan), watchedBytes(this.plan, this.options.isHashing ?? false)];
  }

  /**
   * Instantiates R with the program's imports, and K. Gives R's exports.
   * @param {any} imports
   * @param {WebAssembly.Module[]} modules those of `parts`
   * @param {{ memoryMaximum?: number | null, tableMaximum?: number | null }} [given]
   */
  instantiate(imports, [restModule, keptModule], given = {}) {
    const { exports } = new native.Instance(restModule, imports);
    try {
      this.connect(exports, keptModule, given);
    } catch (error) {
      throw new OwnFault(textOf(error), { cause: error });
    }
    const { start } = this.plan.m;
    if (start !== null) this.ofRest(REST_NAMES.function(start))();
    return exports;
  }

  /** @param {string} name */
  ofRest(name) {
    return this.rest[this.plan.prefix + name];
  }

  /**
   * @param {any} rest
   * @param {WebAssembly.Module} keptModule
   * @param {object} given
   */
  connect(rest, keptModule, given) {
    const { plan } = this;
    this.rest = rest;
    const state = initialState(plan, rest, given);
    this.state = state;
    this.memory = plan.usesMemory ? this.ofRest(REST_NAMES.memory) : null;
    this.table = plan.usesTable ? this.ofRest(REST_NAMES.table) : null;
    this.connectShadow(state);
    this.entries = new Entries({ plan, functionOfRest: index => this.ofRest(REST_NAMES.function(index)),
      action: (number, following) => this.action(number, following),
      importObserver: (place, type, calls) => importObserver(this, place, type, calls, 0),
      guarded: (step, otherwise) => this.guarded(step, otherwise) }, this.table);
    this.kept = this.keptInstance(keptModule);
    this.entries.connect(this.kept);
    this.kept[KEPT_NAMES.probe]();
    this.trampolines();
    this.watch.note();
    this.sink(chunk(CHUNK.module, plan.m.bytes));
    this.sink(jsonChunk(CHUNK.head, { version: 1, choice: plan.choice, state, until: this.options.until ?? null }));
  }

  /** @param {import('./initial_state.mjs').State} state */
  connectShadow(state) {
    const { plan } = this;
    const globals = Object.fromEntries(plan.unsteadyGlobals.map(index =>
      [`global ${index}`, this.ofRest(REST_NAMES.global(index))]));
    const pages = plan.usesMemory ? state.pages : 0;
    if (pages > MOST_PAGES) throw new Error(`the memory has ${pages} pages, and r3 takes ${MOST_PAGES}`);
    /** @param {(shadow: Shadow, address: number, count: number) => void} step */
    const ofShadow = step => (/** @type {number} */ address, /** @type {number} */ count) =>
      this.guarded(() => step(/** @type {Shadow} */ (this.shadow), address >>> 0, count), undefined);
    const js = { miss: ofShadow((shadow, address, count) => shadow.miss(address, count)),
      over: ofShadow((shadow, address, count) => shadow.reads(address, count)),
      own: ofShadow((shadow, address) => shadow.own(address)),
      ownForStores: ofShadow((shadow, address) => shadow.ownForStores(address)) };
    this.watch = native.exports(shadowBytes(plan, pages, this.options.accesses ?? ACCESSES), { js, rest: globals });
    this.shadow = new Shadow(this.memory, this.watch.memory, (address, bytes) => {
      if (!this.isOver) this.log.write(address, bytes);
    });
    if (!plan.usesMemory) return;
    plan.m.data.forEach(({ bytes }, place) => {
      const offset = state.offsets[place];
      if (offset !== null) this.shadow?.known.set(bytes, offset);
    });
  }

  /** @param {WebAssembly.Module} module */
  keptInstance(module) {
    const { plan } = this;
    const types = calleeTypes(plan).slice(0, plan.callees.length);
    const targets = plan.callees.map(index => this.ofRest(REST_NAMES.function(index)));
    const calls = [...targets];
    const observers = types.map((type, place) => importObserver(this, place, type, calls, place));
    const bridge = native.exports(bridgeBytes(types, false), { js: { ...observers }, target: { ...targets } });
    types.forEach((type, place) => { if (isBridged(type)) calls[place] = bridge[`in.${place}`]; });
    const floats = native.exports(floatBytes(plan),
      { js: { flush: () => this.guarded(() => this.log.flush(), undefined) },
      log: { memory: this.log.memory } });
    const callee = Object.fromEntries([...types.map((_, place) => [place, bridge[`out.${place}`]]),
      ...plan.floats.map((_, number) => [types.length + number, floats[`float ${types.length + number}`]])]);
    const globals = plan.globals.map(index => [`global ${index}`, this.ofRest(REST_NAMES.global(index))]);
    const rest = Object.fromEntries([...globals, ...this.memory === null ? [] : [['memory', this.memory]]]);
    return new native.Instance(module, { callee, watch: this.watchFunctions(), rest }).exports;
  }

  watchFunctions() {
    return { ...this.watch, entry: this.entries?.watch.entry, probe: () => this.unwinding.probe(),
      copies: (/** @type {number} */ to, /** @type {number} */ from, /** @type {number} */ count) =>
        this.guarded(() => this.shadow?.copies(to >>> 0, from >>> 0, count >>> 0), undefined),
      fills: (/** @type {number} */ to, /** @type {number} */ value, /** @type {number} */ count) =>
        this.guarded(() => this.shadow?.fills(to >>> 0, value, count >>> 0), undefined),
      grown: (/** @type {number} */ before) => this.grown(before) };
  }

  trampolines() {
    const { plan, kept } = this;
    const types = plan.kept.map(index => plan.m.functions[index]);
    const calls = plan.kept.map((_, slot) => kept[KEPT_NAMES.function(slot)]);
    const observers = types.map((type, slot) => hostObserver(this, slot, type, calls));
    const bridge = native.exports(bridgeBytes(types, true), { js: { ...observers }, target: { ...calls },
      rest: { trampolines: this.ofRest(REST_NAMES.trampolines) } });
    types.forEach((type, slot) => { if (isBridged(type)) calls[slot] = bridge[`in.${slot}`]; });
  }

  /* What the observers call. */

  /** Control goes from the host to K: growth and globals are looked at now, memory and table when K does. */
  toKept() {
    const pages = this.shadow?.grownPages() ?? 0;
    if (pages > 0) this.action(GROW, [pages]);
    if (this.entries?.isUnsteady) this.entries.changed();
    if (this.isOver) return;
    if (this.memory !== null) {
      for (let visits = this.shadow?.enter() ?? 0; visits > 0; visits--) this.kept[KEPT_NAMES.visited]();
    }
    if (this.plan.unsteadyGlobals.length > 0 && this.watch.changed() !== 0) this.changedGlobals();
  }

  /** Control goes from K to the host. */
  toHost() {
    this.shadow?.leave();
    if (this.plan.unsteadyGlobals.length > 0) this.watch.note();
    if (this.log.crossings >= this.until) this.stop(`after ${this.until} crossings`);
  }

  changedGlobals() {
    for (const index of this.plan.unsteadyGlobals) {
      const bits = this.watch[`now ${index}`]();
      if (bits === this.watch[`noted ${index}`]()) continue;
      this.log.wide[0] = BigInt(bits);
      this.action(GLOBAL, [index, this.log.pair[0], this.log.pair[1]]);
    }
  }

  /**
   * @param {number} number
   * @param {number[]} following
   */
  action(number, following) {
    if (!this.isOver) this.log.action(number, following);
  }

  unrecorded() {
    this.after++;
  }

  /**
   * K has grown the memory.
   * @param {number} before
   */
  grown(before) {
    this.guarded(() => {
      this.shadow?.grownPages();
      const pages = (this.shadow?.real.length ?? 0) / 65536;
      const text = `the memory has ${pages} pages, and r3 takes ${MOST_PAGES}`;
      if (pages > MOST_PAGES) this.finish({ by: 'limit', text, place: null, slot: null });
    }, undefined);
    return before;
  }

  /**
   * @param {unknown} error
   * @param {number} place
   */
  passesToKept(error, place) {
    this.guarded(() => {
      this.finish({ by: isOverflow(error) ? 'overflow' : 'exception', text: textOf(error), place, slot: null });
      this.unwinding.throughCallee(this.after);
    }, undefined);
  }

  /**
   * @param {unknown} error
   * @param {number} slot
   */
  passesFromKept(error, slot) {
    this.guarded(() => {
      if (this.isOver) return;
      this.finish({ by: isOverflow(error) ? 'overflow' : 'trap', text: textOf(error), place: null, slot });
      this.unwinding.fromKept(error, this.after);
    }, undefined);
  }

  /* The end. */

  /**
   * Nothing is recorded from here on; the program goes on.
   * @param {Over} over
   */
  finish(over) {
    if (this.isOver) return;
    this.over = over;
    this.isOver = true;
    this.log.close();
    this.watch.off.value = 1;
  }

  /**
   * Ends the record, and lets the program run on.
   * @param {string} text
   */
  stop(text) {
    this.finish({ by: 'stopped', text, place: null, slot: null });
  }

  /**
   * A fault of the recorder ends the record, and never reaches the program.
   * @param {unknown} fault
   */
  ownFault(fault) {
    this.fault ??= textOf(fault);
    this.finish({ by: 'fault', text: textOf(fault), place: null, slot: null });
  }

  /**
   * @template T
   * @param {() => T} step
   * @param {T} otherwise
   */
  guarded(step, otherwise) {
    try {
      return step();
    } catch (fault) {
      this.ownFault(fault);
      return otherwise;
    }
  }

  /** What has been entered since the last marks, and how often float instructions ran, goes to the sink. */
  marks() {
    const { kept, plan } = this;
    /** @type {number[]} */
    const entered = [];
    /** @type {[number, number][]} */
    const floats = [];
    plan.kept.forEach((index, slot) => {
      if (!this.entered.has(slot) && kept[KEPT_NAMES.entered(slot)].value !== 0) {
        entered.push(slot);
        this.entered.add(slot);
      }
      const count = plan.needs(index).floats.size > 0 ? kept[KEPT_NAMES.floats(slot)].value >>> 0 : 0;
      if (count > 0) floats.push([slot, count]);
    });
    const used = plan.m.data.map(({ bytes }, place) => {
      const offset = this.state?.offsets[place] ?? null;
      return offset === null || this.memory === null ? [] : this.shadow?.used(offset, offset + bytes.length) ?? [];
    });
    this.sink(jsonChunk(CHUNK.marks, { crossings: this.log.crossings, entered, floats, used }));
  }

  /** Gives the sink what it does not have yet. */
  flush() {
    if (this.kept !== undefined && !this.hasEnded) this.guarded(() => this.log.flush(), undefined);
  }

  /**
   * The program is at its end: all that is left goes to the sink.
   * @param {string} why
   */
  end(why) {
    if (this.hasEnded) return;
    this.hasEnded = true;
    if (this.kept === undefined) return;
    this.guarded(() => {
      this.log.flush();
      this.marks();
    }, undefined);
    this.sink(jsonChunk(CHUNK.end, { why, over: this.over, after: this.after, fault: this.fault,
      stale: this.unwinding.stale(this.after) }));
  }

  /** By what an instance is chosen among others. */
  summary() {
    const ran = (/** @type {number} */ slot) => this.kept !== undefined
      && this.kept[KEPT_NAMES.entered(slot)].value !== 0;
    const entered = this.plan.kept.filter((_, slot) => ran(slot)).length;
    return { crossings: this.log.crossings, entered, over: this.over };
  }

  /* What the interceptor reports. */

  /**
   * A table was changed by JavaScript.
   * @param {WebAssembly.Table} table
   */
  tableChanged(table) {
    if (table === this.table) this.entries?.changed();
  }

  /** Another instance was made: it may have changed the table, and its code may change it again. */
  instanceMade() {
    if (this.entries === undefined) return;
    this.entries.changed();
    const { m, table } = this.plan;
    const isShared = table < m.importedTables || m.exports.some(item => item.kind === 1 && item.index === table);
    if (isShared) this.entries.isUnsteady = true;
  }
}
