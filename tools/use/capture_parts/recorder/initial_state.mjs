/** What was there when R had been instantiated, before any code of the module ran. */
import { REST_NAMES } from '../split/rest.mjs';
import { moduleBytes, exportItem, importItem, KIND } from '../../wasm/assembler.mjs';
import { F32, I32, I64, integerOf, isNumeric } from '../../wasm/value_types.mjs';
import { flat } from '../../wasm/encoding.mjs';
import { native } from './native.mjs';

/** @typedef {import('../split/plan.mjs').Plan} Plan */

/**
 * The initial state. Globals are bits as texts of whole numbers, by the numbers of globals.
 * @typedef {object} State
 * @property {number} pages
 * @property {number | null} maximum of the memory
 * @property {number} entries
 * @property {number | null} mostEntries
 * @property {[number, string][]} globals
 * @property {(number | null)[]} offsets of the data segments, null for passive ones
 */

/**
 * The bits of a global of R, whatever it is: floats are not read by JavaScript.
 * @param {WebAssembly.Global} global
 * @param {number} type
 * @param {boolean} mutable
 */
function bitsOf(global, type, mutable) {
  if (type === I32 || type === I64) return String(global.value);
  const convert = type === F32 ? 0xbc : 0xbd;
  const bytes = moduleBytes({ types: [{ params: [], results: [integerOf(type)] }], functions: [0],
    imports: [importItem('g', 'g', KIND.global, [type, mutable ? 1 : 0])], exports: [exportItem('f', KIND.function, 0)],
    bodies: [flat([0, 0x23, 0, convert, 0x0b])] });
  return String(native.exports(bytes, { g: { g: global } }).f());
}

/**
 * The offset of an active segment.
 * @param {import('../../wasm/module.mjs').Constant} offset
 * @param {(index: number) => number} valueOfGlobal
 */
export function offsetOf({ all }, valueOfGlobal) {
  /** @type {number[]} */
  const stack = [];
  const pop = () => stack.pop() ?? 0;
  for (const { op, value = 0, index = 0 } of all) {
    if (op === 0x41) stack.push(Number(value));
    else if (op === 0x23) stack.push(valueOfGlobal(index));
    else if (op === 0x6a) stack.push(pop() + pop());
    else if (op === 0x6b) stack.push(-pop() + pop());
    else if (op === 0x6c) stack.push(Math.imul(pop(), pop()));
    else throw new Error(`the offset of a segment has the instruction 0x${op.toString(16)}`);
  }
  return pop() >>> 0;
}

/**
 * The numbers of the globals whose bits are noted: those of K, and imported ones.
 * @param {Plan} p
 */
export const notedGlobals = ({ m, globals }) => [...new Set([...globals,
  ...m.globals.flatMap(({ type }, index) => (index < m.importedGlobals && isNumeric(type) ? [index] : []))])];

/**
 * The initial state, of R's exports.
 * @param {Plan} p
 * @param {any} rest
 * @param {{ memoryMaximum?: number | null, tableMaximum?: number | null }} given
 * @returns {State}
 */
export function initialState(p, rest, given) {
  const { m } = p;
  const own = (/** @type {string} */ name) => rest[p.prefix + name];
  const memory = m.memories.length > 0 ? own(REST_NAMES.memory) : null;
  const table = p.table >= 0 ? own(REST_NAMES.table) : null;
  const valueOfGlobal = (/** @type {number} */ index) => Number(own(REST_NAMES.global(index)).value);
  return {
    pages: memory === null ? 0 : native.buffer(memory).byteLength / 65536,
    maximum: given.memoryMaximum === undefined ? m.memories[0]?.max ?? null : given.memoryMaximum,
    entries: table === null ? 0 : native.size(table),
    mostEntries: given.tableMaximum === undefined ? m.tables[p.table]?.max ?? null : given.tableMaximum,
    globals: notedGlobals(p).map(index =>
      [index, bitsOf(own(REST_NAMES.global(index)), m.globals[index].type, m.globals[index].mutable)]),
    offsets: m.data.map(({ offset }) => (offset === null ? null : offsetOf(offset, valueOfGlobal))),
  };
}
