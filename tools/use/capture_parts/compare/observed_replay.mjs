/**
 * Runs a replay module in V8 with its border observed. The function in an import's place becomes one that reports the
 * call and its result; so does each function that the host's own code calls. Nothing is renumbered: they call by one
 * more table.
 */
import { KIND, SECTION, exportItem, functionType } from '../../wasm/assembler.mjs';
import { flat, s32, section, sized, u32, vector } from '../../wasm/encoding.mjs';
import { readInstruction } from '../../wasm/instructions.mjs';
import { bodyOf, readModule } from '../../wasm/module.mjs';
import { Reader } from '../../wasm/reader.mjs';
import { FUNCREF } from '../../wasm/value_types.mjs';
import { HOST_CALL, HOST_RETURN, IMPORT_CALL, IMPORT_RETURN } from '../recorder/log_layout.mjs';
import { bridgeBytes } from '../split/bridges.mjs';
import { OP } from '../split/operations.mjs';

/** @typedef {import('../../wasm/module.mjs').Module} Module */
/** @typedef {import('../../wasm/encoding.mjs').Part} Part */
/** @typedef {import('../../wasm/value_types.mjs').FunctionType} FunctionType */
/** @typedef {(kind: number, number: number, types: number[], values: (number | bigint)[]) => void} Report */

const OBSERVERS = 'r3:observers';

/** What is appended to a replay module: types, functions with their bodies, and the observers that they call. */
class Observed {
  /**
   * @param {Module} m
   * @param {number} imports
   * @param {number} functions
   */
  constructor(m, imports, functions) {
    this.m = m;
    this.imports = imports;
    this.functions = functions;
    /** @type {FunctionType[]} */
    this.types = [];
    /** @type {{ type: number, body: Part }[]} */
    this.added = [];
    /** @type {{ kind: number, number: number, types: number[] }[]} */
    this.observers = [];
    /** @type {Map<number, number>} */
    this.hostCalls = new Map();
  }

  /**
   * The number of a function that is added.
   * @param {number} type
   * @param {Part} body
   */
  add(type, body) {
    return this.m.functions.length + this.added.push({ type, body }) - 1;
  }

  /**
   * Code that reports values in locals from `first` on.
   * @param {number} kind
   * @param {number} number
   * @param {number[]} types
   * @param {number} first
   * @returns {Part[]}
   */
  reporting(kind, number, types, first) {
    this.observers.push({ kind, number, types });
    this.types.push({ params: types, results: [] });
    const typeIndex = this.m.types.length + this.types.length - 1;
    return [types.map((_, place) => [OP.localGet, u32(first + place)]), OP.i32Const, s32(this.observers.length - 1),
      OP.callIndirect, u32(typeIndex), u32(this.m.tables.length)];
  }

  /**
   * A body that reports, calls a function, and reports.
   * @param {[number, number]} kinds
   * @param {number} number
   * @param {number} target
   * @returns {Part}
   */
  body(kinds, number, target) {
    const { params, results } = this.m.functions[number];
    const keep = results.map((_, place) => [OP.localSet, u32(params.length + place)]);
    const give = results.map((_, place) => [OP.localGet, u32(params.length + place)]);
    return [vector(results.map(type => [1, type])), this.reporting(kinds[0], number, params, 0),
      params.map((_, place) => [OP.localGet, u32(place)]), OP.call, u32(target), keep,
      this.reporting(kinds[1], number, results, params.length), give, OP.end];
  }

  /**
   * The function that reports a call by the host.
   * @param {number} number
   */
  hostCall(number) {
    const found = this.hostCalls.get(number);
    if (found !== undefined) return found;
    const made = this.add(this.m.functionTypes[number], this.body([HOST_CALL, HOST_RETURN], number, number));
    this.hostCalls.set(number, made);
    return made;
  }

  /**
   * Whether a call is one of the host's: from its own code to a function of the module.
   * @param {number} from
   * @param {number} to
   */
  isHostCall(from, to) {
    const behind = this.imports + this.functions;
    return from >= behind && to >= this.imports && to < behind;
  }

  /** The bodies of the module, with its host's calls changed, and what is added. */
  bodies() {
    const old = this.m.bodies.map(([begin, end], index) => {
      if (index < this.imports) {
        const moved = this.add(this.m.functionTypes[index], this.m.bytes.subarray(begin, end));
        return this.body([IMPORT_CALL, IMPORT_RETURN], index, moved);
      }
      return index < this.imports + this.functions ? this.m.bytes.subarray(begin, end) : this.hostBody(index);
    });
    return [...old, ...this.added.map(({ body }) => body)].map(sized);
  }

  /**
   * @param {number} index
   * @returns {Part}
   */
  hostBody(index) {
    const { reader } = bodyOf(this.m, index);
    const [begin] = this.m.bodies[index];
    /** @type {Part[]} */
    const parts = [];
    let copied = begin;
    while (!reader.isAtEnd) {
      const at = reader.at;
      const item = readInstruction(reader);
      if (item.op !== OP.call || !this.isHostCall(index, item.index ?? 0)) continue;
      parts.push(this.m.bytes.subarray(copied, at), OP.call, u32(this.hostCall(item.index ?? 0)));
      copied = reader.at;
    }
    return [...parts, this.m.bytes.subarray(copied, reader.at)];
  }

  /** The bytes of the observed module. */
  bytes() {
    const code = this.bodies();
    /** @type {Map<number, Part[]>} */
    const items = new Map([[SECTION.type, this.types.map(functionType)],
      [SECTION.function, this.added.map(({ type }) => u32(type))],
      [SECTION.table, [[FUNCREF, 0, u32(this.observers.length)]]],
      [SECTION.export, [exportItem(OBSERVERS, KIND.table, this.m.tables.length)]]]);
    const known = new Set(this.m.sections.map(item => item.id));
    /** @type {Part[]} */
    const parts = [this.m.bytes.subarray(0, 8)];
    for (const { id, begin, end } of this.m.sections.filter(item => item.id !== SECTION.custom)) {
      if (id > SECTION.table && !known.has(SECTION.table)) {
        known.add(SECTION.table);
        parts.push(section(SECTION.table, vector(items.get(SECTION.table) ?? [])));
      }
      const added = items.get(id);
      if (id === SECTION.code) parts.push(section(id, vector(code)));
      else if (added !== undefined) parts.push(lengthened(this.m.bytes, id, begin, end, added));
      else parts.push(section(id, this.m.bytes.subarray(begin, end)));
    }
    return flat(parts);
  }
}

/**
 * @param {Uint8Array} bytes
 * @param {number} id
 * @param {number} begin
 * @param {number} end
 * @param {Part[]} items
 */
function lengthened(bytes, id, begin, end, items) {
  const reader = new Reader(bytes, begin, end);
  const count = reader.u32();
  return section(id, [u32(count + items.length), bytes.subarray(reader.at, end), items]);
}

/**
 * Runs a replay module of a module with so many imports and functions, and reports each crossing as a history numbers
 * it. Gives how the run ended.
 * @param {Uint8Array} bytes
 * @param {{ imports: number, functions: number }} counts declared functions of the host count as imports
 * @param {Report} report floats come as integers of their bits
 * @returns {'returned' | 'trapped'}
 */
export function runObserved(bytes, { imports, functions }, report) {
  const observed = new Observed(readModule(bytes), imports, functions);
  const instance = new WebAssembly.Instance(new WebAssembly.Module(observed.bytes()));
  const exports = /** @type {any} */ (instance.exports);
  const types = observed.observers.map(item => ({ params: item.types, results: [] }));
  const js = observed.observers.map(({ kind, number, types: list }) =>
    (/** @type {(number | bigint)[]} */ ...values) => report(kind, number, list, values));
  const target = types.map(() => () => {});
  new WebAssembly.Instance(new WebAssembly.Module(bridgeBytes(types, true)),
    /** @type {any} */ ({ js: { ...js }, target: { ...target }, rest: { trampolines: exports[OBSERVERS] } }));
  try {
    exports._start();
    return 'returned';
  } catch (error) {
    if (error instanceof WebAssembly.RuntimeError) return 'trapped';
    throw error;
  }
}
