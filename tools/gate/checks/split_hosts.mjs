/** Runs an instance of a random module under a host that does what a seed says, and gives all that could be seen. */
import { exportItem, importItem, KIND, moduleBytes } from '../../use/wasm/assembler.mjs';
import { I32, I64 } from '../../use/wasm/value_types.mjs';
import { Random } from './random.mjs';
import { IMPORTS } from './split_modules.mjs';

const FUEL = 40;
const STEPS = 6;
const DEEPEST = 3;
const KEPT_BYTES = 72;

const shown = value => {
  if (Array.isArray(value)) return value.map(shown).join(' ');
  if (typeof value !== 'number') return String(value);
  return Number.isNaN(value) ? 'nan' : Object.is(value, -0) ? '-0' : String(value);
};

/**
 * A host of a random module. `hooks.tableChanged(table)` and `hooks.instanceMade()` are called as an interceptor would,
 * and `hooks.flush()` now and then.
 */
export class RandomHost {
  constructor(module, seed, hooks) {
    this.module = module;
    this.random = new Random(seed ^ 0x5bd1e995);
    this.hooks = hooks;
    this.seen = [];
    this.exports = null;
    this.depth = 0;
    this.throws = this.random.chance(30) ? 40 : 400;
    /** Bytes of the memory as they were, by their addresses. */
    this.kept = new Map();
    /** Functions of the host's own, by the imports whose types they have. */
    this.own = new Map();
    this.memory = module.importsMemory ? new WebAssembly.Memory({ initial: 1, maximum: 4 }) : null;
    this.table = module.importsTable
      ? new WebAssembly.Table({ element: 'anyfunc', initial: module.tableSize, maximum: 16 }) : null;
    if (this.memory !== null) new Uint8Array(this.memory.buffer).set([1, 2, 3, 4, 5], 400);
    if (this.table !== null) this.fillTable();
  }

  /** The table has functions of the host's own before the module is there. */
  fillTable() {
    for (let place = 0; place < this.module.tableSize; place++) this.table.set(place,
        this.ownFunction(place % IMPORTS));
  }

  imports() {
    const h = { memory: this.memory, table: this.table };
    for (let index = 0; index < IMPORTS; index++) h[`f${index}`] = (...args) => this.answer(index, args);
    return { h };
  }

  value(type) {
    const { random } = this;
    if (type === I64) return BigInt(random.bits());
    return type === I32 ? random.below(2000) : random.below(1000) / 8;
  }

  /** A function of the host's own, made by another module as programs do it. */
  ownFunction(index) {
    if (!this.own.has(index)) {
      const bytes = moduleBytes({ types: [this.module.signatures[index]],
        imports: [importItem('h', 'f', KIND.function, 0)],
        exports: [exportItem('f', KIND.function, 0)] });
      const instance = new WebAssembly.Instance(new WebAssembly.Module(bytes),
        { h: { f: (...args) => this.answer(index, args) } });
      this.hooks.instanceMade();
      this.own.set(index, instance.exports.f);
    }
    return this.own.get(index);
  }

  /** What the host does while it has control. */
  act() {
    if (this.exports === null) return;
    if (this.random.chance(10)) this.hooks.flush();
    for (let count = this.random.below(4); count > 0; count--) this.action();
  }

  action() {
    const kind = this.random.below(10);
    if (kind <= 2 || (this.module.isOfCells && kind <= 6)) this.writeBytes();
    else if (kind === 3) this.setGlobal();
    else if (kind === 4) this.growMemory();
    else if (kind <= 6) this.setEntries();
    else if (kind === 7) this.growTable();
    else if (kind === 8) this.callEntry();
    else if (this.depth < DEEPEST) this.callExport();
  }

  writeBytes() {
    const { random } = this;
    const bytes = new Uint8Array(this.exports.memory.buffer);
    if (random.chance(40)) return this.writeBack(bytes);
    const begin = random.pick(this.module.places) + random.below(random.chance(60) ? 60 : 900);
    const isZero = random.chance(30);
    for (let count = random.below(30); count >= 0; count--) bytes[begin + count] = isZero ? 0 : random.bits();
  }

  /** Writes bytes back that were at a place before, or keeps what is there for a later time. */
  writeBack(bytes) {
    const begin = this.random.pick(this.module.places);
    const kept = this.kept.get(begin);
    if (kept === undefined) this.kept.set(begin, bytes.slice(begin, begin + KEPT_BYTES));
    else bytes.set(kept, begin);
    if (this.random.chance(30)) this.kept.delete(begin);
  }

  setGlobal() {
    const { exportedGlobals, globals } = this.module;
    if (exportedGlobals.length === 0) return;
    const place = this.random.pick(exportedGlobals);
    this.exports[`g${place}`].value = this.value(globals[place]);
  }

  growMemory() {
    if (!this.random.chance(20)) return;
    try {
      this.seen.push(`grown ${this.exports.memory.grow(1)}`);
    } catch {
      this.seen.push('not grown');
    }
  }

  setEntries() {
    if (!this.module.exportsTable) return;
    for (let count = 1 + this.random.below(4); count > 0; count--) this.setEntry();
  }

  setEntry() {
    const { random, exports: { table } } = this;
    const place = random.below(table.length);
    table.set(place, random.chance(50) ? this.fittingFunction(place) : this.someFunction(table));
    this.hooks.tableChanged(table);
  }

  /** A function of the type that an entry had at first, if there is one: of the host's own, or of the module. */
  fittingFunction(place) {
    const { entries, signatures, exported } = this.module;
    const type = item => `${item.params}>${item.results}`;
    const first = entries[place] ?? this.random.below(IMPORTS);
    const fits = index => type(signatures[index]) === type(signatures[first]);
    const own = signatures.slice(0, IMPORTS).findIndex((_, index) => fits(index));
    if (own !== -1 && this.random.chance(60)) return this.ownFunction(own);
    const others = exported.filter(fits);
    return others.length > 0 ? this.exports[`e${this.random.pick(others)}`] : null;
  }

  someFunction(table) {
    const { random } = this;
    if (random.chance(20)) return null;
    if (random.chance(25)) return this.ownFunction(random.below(IMPORTS));
    return random.chance(50)
      ? table.get(random.below(table.length)) : this.exports[`e${random.pick(this.module.exported)}`];
  }

  growTable() {
    if (!this.module.exportsTable || !this.random.chance(15)) return;
    try {
      this.exports.table.grow(1);
      this.hooks.tableChanged(this.exports.table);
    } catch {
      this.seen.push('table not grown');
    }
  }

  callEntry() {
    if (!this.module.exportsTable || !this.random.chance(50)) return;
    const { table } = this.exports;
    const func = table.get(this.random.below(table.length));
    if (func === null) return;
    const own = [...this.own].find(([, other]) => other === func)?.[0];
    this.seen.push(`entry ${own ?? func.name} ${func.length}`);
    if (this.depth < DEEPEST) this.call(func, this.module.signatures[own ?? Number(func.name)].params);
  }

  callExport() {
    const index = this.random.pick(this.module.exported);
    this.call(this.exports[`e${index}`], this.module.signatures[index].params);
  }

  call(func, params) {
    const args = params.map(type => this.value(type));
    let text;
    this.depth++;
    try {
      text = shown(func(...args));
    } catch (error) {
      text = `threw ${error.message}`;
      if (this.depth > 1 && this.random.chance(50)) throw error;
    } finally {
      this.depth--;
    }
    this.seen.push(`${func.name} ${args.map(shown)} gives ${text}`);
  }

  answer(index, args) {
    this.seen.push(`import ${index} ${args.map(shown)}`);
    this.act();
    if (this.random.below(this.throws) === 0) throw new Error('the host throws');
    const { results } = this.module.signatures[index];
    const values = results.map(type => this.value(type));
    return results.length > 1 ? values : values[0];
  }

  /** Runs the instance that `instantiate` gives for the imports. */
  run(instantiate) {
    try {
      this.exports = instantiate(this.imports());
    } catch (error) {
      this.seen.push(`instantiation: ${error.message}`);
      return this.seen;
    }
    for (let step = 0; step < STEPS; step++) {
      this.exports.fuel.value = FUEL;
      this.act();
      this.callExport();
    }
    this.seen.push(...this.rest());
    return this.seen;
  }

  /** What can be seen at the end: the memory, and the exported globals. */
  rest() {
    const bytes = new Uint8Array(this.exports.memory.buffer);
    const hash = bytes.reduce((sum, byte) => Math.imul(sum ^ byte, 0x01000193), 0);
    const globals = this.module.exportedGlobals.map(place => `g${place} ${shown(this.exports[`g${place}`].value)}`);
    return [`memory ${bytes.length} ${hash}`, ...globals];
  }
}
