/** Random modules for the tests: valid ones, whose functions call imports, each other and the table. */
import { TYPES, constant, moduleBytes, number } from './module_bytes.mjs';

/** @typedef {import('./random.mjs').Random} Random */
/** @typedef {import('./module_bytes.mjs').ValueType} ValueType */
/** @typedef {import('./module_bytes.mjs').Limits} Limits */
/** @typedef {{ params: ValueType[], results: ValueType[] }} Type */
/** @typedef {{ type: number, index: number, locals: ValueType[], body: number[] }} Func */
/** @typedef {{ type: ValueType, mutable: boolean }} GlobalType */
/** @typedef {{ kind: 'function', module: string, name: string, type: number }} FunctionImport */
/** @typedef {{ kind: 'global', module: string, name: string } & GlobalType} GlobalImport */
/** @typedef {{ kind: 'memory' | 'table', module: string, name: string } & Limits} LimitsImport */
/** @typedef {FunctionImport | GlobalImport | LimitsImport} Import */
/** @typedef {{ defined?: Limits, imported?: Limits, exported?: boolean }} Place */
/** @typedef {NonNullable<import('./module_bytes.mjs').Parts['exports']>} Exports */
/**
 * @typedef {object} Module
 * @property {Type[]} types
 * @property {Import[]} imports
 * @property {FunctionImport[]} imported
 * @property {Func[]} functions
 * @property {GlobalType[]} allGlobals
 * @property {Place} memory
 * @property {Place} table
 * @property {boolean} hasMemory
 * @property {number | null} tableSize
 * @property {(index: number) => number} functionType
 * @property {Exports} exports
 * @property {Uint8Array} bytes
 */

const VALUE_TYPES = /** @type {ValueType[]} */ (Object.keys(TYPES));
const NAMES = ['f', 'g', 'a "b"', 'é', '__proto__', '', 'x/y~z', '\\'];
const MODULES = ['h', 'env', '__proto__', 'ü'];
const LOADS = { i32: [0x28, 0x2c, 0x2d, 0x2f], i64: [0x29, 0x30, 0x35], f32: [0x2a], f64: [0x2b] };
const STORES = { i32: [0x36, 0x3a, 0x3b], i64: [0x37, 0x3e], f32: [0x38], f64: [0x39] };
/** @type {{ [type: string]: number[] }} */
const OPERATIONS = { i32: [0x6a, 0x6b, 0x6c, 0x73], i64: [0x7c, 0x7d, 0x7e, 0x85] };

/**
 * Bits of interest: among the floats quiet NaNs with a payload, which JavaScript keeps.
 * @type {Record<ValueType, (number | bigint)[]>}
 */
const BITS = {
  i32: [0, 1, -1, 0x7fffffff, -0x80000000, 300],
  i64: [0n, 1n, -1n, 0x7fffffffffffffffn, -0x8000000000000000n, 1n << 53n],
  f32: [0, 0x80000000, 0x3fc00000, 0x7fc00001, 0xffc12345, 0xff800000],
  f64: [0n, 1n << 63n, 0x3ff8000000000000n, 0x7ff8000000000001n, 0xfffc000000000001n, 0xfff0000000000000n],
};

/**
 * Signalling NaNs, which JavaScript makes quiet: a host has them in globals and in the memory alone.
 * @type {Record<ValueType, (number | bigint)[]>}
 */
const SIGNALLING = { i32: [], i64: [], f32: [0x7fa00001, 0xff800001], f64: [0x7ff0000000000001n, 0xfff4000000000001n] };

/** @type {(random: Random, type: ValueType) => number | bigint} */
export const randomBits = (random, type) => random.pick(BITS[type]);
/** @type {(random: Random, type: ValueType) => number | bigint} */
export const randomGlobalBits = (random, type) => random.pick([...BITS[type], ...SIGNALLING[type]]);

/** Writes the body of one function: each expression leaves one value, each statement none. */
class Body {
  /**
   * @param {Random} random
   * @param {Module} module
   * @param {Func} func
   */
  constructor(random, module, func) {
    this.random = random;
    this.module = module;
    this.func = func;
    const { params } = module.types[func.type];
    this.locals = [...params, ...func.locals];
  }

  /** @param {ValueType} type */
  local(type) {
    return number(this.random.pick(this.locals.flatMap((its, index) => (its === type ? [index] : []))));
  }

  address() {
    const far = this.random.chance(1) ? 0x7ffffff0 : this.random.below(60000);
    if (this.random.chance(70)) return constant('i32', far);
    return [0x20, ...this.local('i32'), ...constant('i32', 0xffff), 0x71];
  }

  /**
   * @param {ValueType} type
   * @returns {number[]}
   */
  expression(type, depth = 0) {
    const globals = this.module.allGlobals.flatMap((global, index) => (global.type === type ? [index] : []));
    const kind = this.random.below(depth > 2 ? 2 : 6);
    if (kind === 0) return constant(type, randomBits(this.random, type));
    if (kind === 2 && this.module.hasMemory) {
      return [...this.address(), this.random.pick(LOADS[type]), 0, ...number(this.random.below(64))];
    }
    if (kind === 3 && globals.length > 0) return [0x23, ...number(this.random.pick(globals))];
    if (kind === 4 && OPERATIONS[type] !== undefined) {
      const operands = [...this.expression(type, depth + 1), ...this.expression(type, depth + 1)];
      return [...operands, this.random.pick(OPERATIONS[type])];
    }
    return [0x20, ...this.local(type)];
  }

  /**
   * The arguments of a call, the call, and what becomes of its result.
   * @param {number} type
   * @param {number[]} instruction
   * @param {number[]} index
   */
  call(type, instruction, index = []) {
    const { params, results } = this.module.types[type];
    const left = results.length === 0 ? [] : this.random.chance(80) ? [0x21, ...this.local(results[0])] : [0x1a];
    return [...params.flatMap(param => this.expression(param)), ...index, ...instruction, ...left];
  }

  /** A call of an import, or of a function with a lower number, so that no chain of calls is without end. */
  directCall() {
    const callee = this.random.below(this.func.index);
    return this.call(this.module.functionType(callee), [0x10, ...number(callee)]);
  }

  indirectCall() {
    const type = this.random.below(this.module.types.length);
    const near = this.random.chance(80);
    const size = this.module.tableSize ?? 0;
    const index = near ? constant('i32', this.random.below(size + 1)) : [0x20, ...this.local('i32')];
    return this.call(type, [0x11, ...number(type), 0], index);
  }

  /** @returns {number[]} */
  statement() {
    const { random, module } = this;
    const type = random.pick(VALUE_TYPES);
    const kind = random.below(100);
    if (kind < 35 && this.func.index > 0) return this.directCall();
    if (kind < 40 && module.tableSize !== null) return this.indirectCall();
    if (kind < 60 && module.hasMemory) {
      return [...this.address(), ...this.expression(type), random.pick(STORES[type]), 0, ...number(random.below(64))];
    }
    if (kind < 65 && module.hasMemory) {
      return [...constant('i32', random.below(2)), 0x40, 0, 0x21, ...this.local('i32')];
    }
    if (kind < 75) {
      const mutable = module.allGlobals.flatMap((global, index) => (global.mutable ? [index] : []));
      if (mutable.length > 0) {
        const index = random.pick(mutable);
        return [...this.expression(module.allGlobals[index].type), 0x24, ...number(index)];
      }
    }
    if (kind < 80) return [...this.expression('i32'), 0x04, 0x40, ...this.statement(), 0x0b];
    return [...this.expression(type), 0x21, ...this.local(type)];
  }

  bytes() {
    const { results } = this.module.types[this.func.type];
    const statements = Array.from({ length: 2 + this.random.below(6) }, () => this.statement()).flat();
    return [...statements, ...results.flatMap(type => this.expression(type))];
  }
}

/**
 * @param {Random} random
 * @returns {Type}
 */
function randomType(random) {
  const types = (/** @type {number} */ most) => random.list(most, () => random.pick(VALUE_TYPES));
  return { params: types(3), results: types(1) };
}

/**
 * @param {Random} random
 * @param {Type[]} types
 * @returns {Import[]}
 */
function importsOf(random, types) {
  /** @type {FunctionImport[]} */
  const functions = Array.from({ length: 1 + random.below(4) }, () => ({
    kind: 'function', module: random.pick(MODULES), name: random.pick(NAMES), type: random.below(types.length),
  }));
  // Imports of equal names share their answers, so they have one type.
  for (const item of functions) item.type = functions.find(other => sameNames(item, other))?.type ?? item.type;
  /** @type {GlobalImport[]} */
  const globals = random.list(3, index => ({
    kind: 'global', module: 'globals', name: `g${index ?? ''}${random.below(1000)}`, type: random.pick(VALUE_TYPES),
    mutable: random.chance(60),
  }));
  return [...functions, ...globals];
}

/** @type {(one: Import, other: Import) => boolean} */
const sameNames = (one, other) => one.module === other.module && one.name === other.name;

/**
 * A memory or a table: none, defined, or imported, and then maybe exported too.
 * @param {Random} random
 * @param {'memory' | 'table'} kind
 * @param {Limits} description
 * @param {Import[]} imports
 * @returns {Place}
 */
function placed(random, kind, description, imports) {
  const place = random.below(10);
  if (place === 0) return {};
  const exported = place < 7 || random.chance(50);
  if (place > 3) return { defined: description, exported };
  imports.push({ kind, module: 'shared', name: kind, ...description });
  return { imported: description, exported };
}

/**
 * A random module: its bytes, and what a host has to know of it.
 * @param {Random} random
 * @returns {Module}
 */
export function randomModule(random) {
  /** @type {Type[]} */
  const types = [{ params: [], results: [] }, ...Array.from({ length: 3 }, () => randomType(random))];
  const imports = importsOf(random, types);
  const memory = placed(random, 'memory', { min: 1, max: random.chance(50) ? 6 : undefined }, imports);
  const table = placed(random, 'table', { min: 4, max: random.chance(50) ? 12 : undefined }, imports);
  const imported = /** @type {FunctionImport[]} */ (imports.filter(item => item.kind === 'function'));
  const globals = random.list(4, () => {
    const type = random.pick(VALUE_TYPES);
    return { type, mutable: random.chance(70), bits: randomGlobalBits(random, type) };
  });
  /** @type {Func[]} */
  const functions = Array.from({ length: 2 + random.below(4) }, (_, place) => ({
    type: place === 0 ? 0 : random.below(types.length), index: imported.length + place,
    locals: VALUE_TYPES.flatMap(type => [type, type]), body: [],
  }));
  const importedGlobals = /** @type {GlobalImport[]} */ (imports.filter(item => item.kind === 'global'));
  const allGlobals = [...importedGlobals, ...globals];
  /** @type {Module} */
  const module = {
    types, imports, imported, functions, allGlobals, memory, table,
    hasMemory: memory.defined !== undefined || memory.imported !== undefined,
    tableSize: (table.defined ?? table.imported)?.min ?? null,
    functionType: index => [...imported, ...functions][index].type,
    exports: [], bytes: new Uint8Array(0),
  };
  for (const func of functions) func.body = new Body(random, module, func).bytes();
  module.exports = exportsOf(random, module);
  module.bytes = bytesOf(random, module, globals);
  return module;
}

/**
 * @param {Random} random
 * @param {Module} module
 */
function exportsOf(random, { imported, functions, allGlobals, memory, table }) {
  /** @type {Exports} */
  const exports = [];
  functions.forEach(({ index }, place) => {
    const name = `${random.pick(NAMES)}${place}`;
    if (place < 2 || random.chance(50)) exports.push({ name, kind: 'function', index });
  });
  if (random.chance(50)) exports.push({ name: 'own', kind: 'function', index: random.below(imported.length) });
  if (memory.exported) exports.push({ name: 'memory', kind: 'memory', index: 0 });
  if (table.exported) exports.push({ name: 'table', kind: 'table', index: 0 });
  allGlobals.forEach((_, index) => {
    if (random.chance(60)) exports.push({ name: `global ${index}`, kind: 'global', index });
  });
  return exports;
}

/** @type {(item: () => number) => number[]} */
const threeTimes = item => Array.from({ length: 3 }, item);

/**
 * @param {Random} random
 * @param {Module} module
 * @param {NonNullable<import('./module_bytes.mjs').Parts['globals']>} globals
 */
function bytesOf(random, module, globals) {
  const { types, imports, imported, functions, memory, table, exports, hasMemory, tableSize } = module;
  const count = imported.length + functions.length;
  return moduleBytes({
    types, imports, functions, globals, exports, memory: memory.defined, table: table.defined,
    start: random.chance(20) ? imported.length : undefined,
    elements: tableSize === null ? [] : [{ offset: 0, functions: threeTimes(() => random.below(count)) }],
    data: hasMemory ? [{ offset: random.below(1000), bytes: threeTimes(() => random.below(256)) }] : [],
  });
}
