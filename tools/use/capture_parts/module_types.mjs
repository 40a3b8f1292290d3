/**
 * The types of a module's functions, memory, table and globals, its imports and its exports, read from its bytes, since
 * JavaScript gives names and kinds alone. The engine has found the module valid before it is read here.
 */
import { refuse } from './refusal.mjs';

/** @typedef {'i32' | 'i64' | 'f32' | 'f64'} ValueType */
/** @typedef {{ params: ValueType[], result: ValueType | null }} FunctionType */
/** @typedef {{ type: ValueType, mutable: boolean }} GlobalType */
/** @typedef {{ min: number, max: number | null }} Limits */
/** @typedef {'function' | 'table' | 'memory' | 'global'} Kind */
/** @typedef {{ index: number, module: string, name: string }} ImportNames */
/** @typedef {ImportNames & { kind: 'function', type: number }} FunctionImport */
/** @typedef {ImportNames & Limits & { kind: 'table' | 'memory' }} LimitsImport */
/** @typedef {ImportNames & GlobalType & { kind: 'global' }} GlobalImport */
/** @typedef {FunctionImport | LimitsImport | GlobalImport} Import */
/** @typedef {{ name: string, kind: Kind, index: number }} Export */
/** @typedef {ReturnType<typeof moduleTypes>} ModuleTypes */

/**
 * The bytes of the value types.
 * @type {Record<ValueType, number>}
 */
export const TYPE_BYTES = { i32: 0x7f, i64: 0x7e, f32: 0x7d, f64: 0x7c };

/** @type {Map<number, ValueType>} */
const VALUE_TYPES = new Map();
for (const [type, byte] of Object.entries(TYPE_BYTES)) VALUE_TYPES.set(byte, /** @type {ValueType} */ (type));
/** @type {Kind[]} */
const KINDS = ['function', 'table', 'memory', 'global'];
export const SECTION = {
  type: 1, import: 2, function: 3, table: 4, memory: 5, global: 6, export: 7, start: 8, code: 10, dataCount: 12,
};
const FUNCTION_TYPE = 0x60;
const FUNCTION_REFERENCE = 0x70;

const hex = (/** @type {number} */ byte) => `0x${byte.toString(16).padStart(2, '0')}`;

/** Reads the parts of the binary format from a place on. */
export class Reader {
  /** @param {Uint8Array} bytes */
  constructor(bytes) {
    this.bytes = bytes;
    this.at = 8;
  }

  byte() {
    return this.bytes[this.at++];
  }

  /** An unsigned LEB128 number of at most 32 bits. */
  number() {
    let result = 0;
    for (let factor = 1; ; factor *= 128) {
      const byte = this.byte();
      result += (byte & 127) * factor;
      if (byte < 128) return result;
    }
  }

  name() {
    const length = this.number();
    this.at += length;
    return new TextDecoder().decode(this.bytes.subarray(this.at - length, this.at));
  }

  /**
   * @template Item
   * @param {(index: number) => Item} item
   * @returns {Item[]}
   */
  list(item) {
    return Array.from({ length: this.number() }, (_, index) => item(index));
  }

  /**
   * @param {string} where
   * @returns {ValueType}
   */
  valueType(where) {
    const byte = this.byte();
    return VALUE_TYPES.get(byte) ?? refuse(`${where}: the value type ${hex(byte)} is not of Core 1.0`);
  }

  /**
   * @param {number} index
   * @returns {FunctionType}
   */
  functionType(index) {
    const where = `type ${index}`;
    const form = this.byte();
    if (form !== FUNCTION_TYPE) refuse(`${where}: the form ${hex(form)} is not of Core 1.0`);
    const params = this.list(() => this.valueType(where));
    const results = this.list(() => this.valueType(where));
    if (results.length > 1) refuse(`${where}: ${results.length} results, where a script gives at most one`);
    return { params, result: results[0] ?? null };
  }

  /**
   * @param {string} where
   * @returns {Limits}
   */
  limits(where) {
    const flags = this.byte();
    if (flags & 2) refuse(`${where}: a shared memory`);
    if (flags > 1) refuse(`${where}: limits of the form ${hex(flags)} are not of Core 1.0`);
    const min = this.number();
    return { min, max: flags === 1 ? this.number() : null };
  }

  /** @param {string} where */
  tableType(where) {
    const element = this.byte();
    if (element !== FUNCTION_REFERENCE) refuse(`${where}: entries of the type ${hex(element)} are not of Core 1.0`);
    return this.limits(where);
  }

  /**
   * @param {string} where
   * @returns {GlobalType}
   */
  globalType(where) {
    return { type: this.valueType(where), mutable: this.byte() === 1 };
  }

  /**
   * @param {number} index
   * @returns {Import}
   */
  importItem(index) {
    const module = this.name();
    const name = this.name();
    const kind = KINDS[this.byte()];
    const where = `import ${index}`;
    const read = {
      function: () => ({ type: this.number() }),
      table: () => this.tableType(where),
      memory: () => this.limits(where),
      global: () => this.globalType(where),
    }[kind];
    if (read === undefined) refuse(`${where}: its kind is not of Core 1.0`);
    return /** @type {Import} */ ({ index, module, name, kind, ...read() });
  }

  /**
   * @param {number} index
   * @returns {Export}
   */
  exportItem(index) {
    const name = this.name();
    const kind = KINDS[this.byte()];
    if (kind === undefined) refuse(`export ${index}: its kind is not of Core 1.0`);
    return { name, kind, index: this.number() };
  }

  /** A constant expression is one instruction with a number, and an end. */
  skipConstant() {
    const skipNumber = () => { while (this.byte() >= 128); };
    /** @type {{ [opcode: number]: () => void }} */
    const skips = { 0x41: skipNumber, 0x42: skipNumber, 0x23: skipNumber, 0x43: () => { this.at += 4; },
      0x44: () => { this.at += 8; } };
    const place = this.at;
    (skips[this.byte()] ?? (() => refuse(`byte ${place}: a constant expression that is not of Core 1.0`)))();
    if (this.byte() !== 0x0b) refuse(`byte ${place}: a constant expression that is not of Core 1.0`);
  }

  /** @param {number} index */
  definedGlobal(index) {
    const type = this.globalType(`defined global ${index}`);
    this.skipConstant();
    return type;
  }
}

/**
 * @typedef {object} Sections
 * @property {FunctionType[]} types
 * @property {Import[]} imports
 * @property {number[]} functions
 * @property {Limits[]} tables
 * @property {Limits[]} memories
 * @property {GlobalType[]} globals
 * @property {Export[]} exports
 * @property {number | null} start
 */

/**
 * The sections that say what the module has, each as a list.
 * @param {Uint8Array} bytes
 */
function sections(bytes) {
  const reader = new Reader(bytes);
  /** @type {Sections} */
  const found = {
    types: [], imports: [], functions: [], tables: [], memories: [], globals: [], exports: [], start: null,
  };
  while (reader.at < bytes.length) {
    const id = reader.byte();
    const end = reader.number() + reader.at;
    if (id === SECTION.type) found.types = reader.list(index => reader.functionType(index));
    else if (id === SECTION.import) found.imports = reader.list(index => reader.importItem(index));
    else if (id === SECTION.function) found.functions = reader.list(() => reader.number());
    else if (id === SECTION.table) found.tables = reader.list(() => reader.tableType('the table section'));
    else if (id === SECTION.memory) found.memories = reader.list(() => reader.limits('the memory section'));
    else if (id === SECTION.global) found.globals = reader.list(index => reader.definedGlobal(index));
    else if (id === SECTION.export) found.exports = reader.list(index => reader.exportItem(index));
    else if (id === SECTION.start) found.start = reader.number();
    reader.at = end;
  }
  return found;
}

/**
 * What a module has: `imports` and `exports` in order; `functions`, `globals` and their types by index, imported ones
 * first; `importedFunctions`, how many of the functions are imported; `hostReachesMemory`, whether the memory is
 * imported or exported; `start`, the start function's number or null, of which `startIsImported` and `startIsDefined`
 * say more.
 * @param {Uint8Array} bytes
 */
export function moduleTypes(bytes) {
  const found = sections(bytes);
  const imported = (/** @type {Kind} */ kind) => found.imports.filter(item => item.kind === kind);
  /** @type {[Kind, Limits[]][]} */
  const single = [['table', found.tables], ['memory', found.memories]];
  for (const [kind, defined] of single) {
    const count = imported(kind).length + defined.length;
    if (count > 1) refuse(`the module has ${count} of the kind ${kind}, where Core 1.0 has one`);
  }
  const functionImports = /** @type {FunctionImport[]} */ (imported('function'));
  const globalImports = /** @type {GlobalImport[]} */ (imported('global'));
  const importedFunctions = functionImports.length;
  return {
    imports: found.imports,
    exports: found.exports,
    functions: [...functionImports.map(item => item.type), ...found.functions].map(type => found.types[type]),
    importedFunctions,
    globals: [...globalImports, ...found.globals].map(({ type, mutable }) => ({ type, mutable })),
    hostReachesMemory: [...found.imports, ...found.exports].some(item => item.kind === 'memory'),
    start: found.start,
    startIsImported: found.start !== null && found.start < importedFunctions,
    startIsDefined: found.start !== null && found.start >= importedFunctions,
  };
}
