/**
 * R, the rest: the module itself, not renumbered. Bodies that are not kept are copied byte by byte, so they may have
 * instructions that are not known here. A kept function's body becomes a trampoline.
 */
import { KIND, SECTION, exportItem } from '../../wasm/assembler.mjs';
import { flat, s32, section, sized, u32, vector } from '../../wasm/encoding.mjs';
import { Reader } from '../../wasm/reader.mjs';
import { FUNCREF, isNumeric } from '../../wasm/value_types.mjs';
import { OP } from './operations.mjs';

/** @typedef {import('./plan.mjs').Plan} Plan */
/** @typedef {import('../../wasm/encoding.mjs').Part} Part */

/** The places of sections among each other, where their numbers do not say so. */
const ORDER = new Map([[SECTION.tag, SECTION.memory + 0.5], [SECTION.dataCount, SECTION.element + 0.5]]);
const order = (/** @type {number} */ id) => ORDER.get(id) ?? id;

/** The names by which R exports what the recorder needs, without the prefix. */
export const REST_NAMES = {
  trampolines: 'trampolines', table: 'table', memory: 'memory',
  /** @param {number} index */ function: index => `function ${index}`,
  /** @param {number} index */ global: index => `global ${index}`,
};

/**
 * @param {Plan} p
 * @returns {Part[]}
 */
function furtherExports(p) {
  const { m, prefix } = p;
  const functions = new Set([...p.held, ...p.callees, ...m.start === null ? [] : [m.start]]);
  const imported = m.globals.flatMap(({ type }, index) =>
    (index < m.importedGlobals && isNumeric(type) ? [index] : []));
  const globals = new Set([...p.globals, ...imported]);
  return [
    exportItem(prefix + REST_NAMES.trampolines, KIND.table, m.tables.length),
    ...p.table >= 0 ? [exportItem(prefix + REST_NAMES.table, KIND.table, p.table)] : [],
    ...m.memories.length > 0 ? [exportItem(prefix + REST_NAMES.memory, KIND.memory, 0)] : [],
    ...[...functions].map(index => exportItem(prefix + REST_NAMES.function(index), KIND.function, index)),
    ...[...globals].map(index => exportItem(prefix + REST_NAMES.global(index), KIND.global, index)),
  ];
}

/**
 * A trampoline: the arguments, the function's place among the kept ones, and a call by the further table.
 * @param {Plan} p
 * @param {number} index
 * @param {number} slot
 * @returns {Part[]}
 */
function trampoline({ m }, index, slot) {
  const args = m.functions[index].params.map((_, place) => [OP.localGet, u32(place)]);
  const call = [OP.callIndirect, u32(m.functionTypes[index]), u32(m.tables.length)];
  return sized([0, args, OP.i32Const, s32(slot), call, OP.end]);
}

/** @param {Plan} p */
function bodies(p) {
  const { m } = p;
  return m.bodies.map(([begin, end], defined) => {
    const slot = p.slots.get(m.importedFunctions + defined);
    if (slot === undefined) return [u32(end - begin), m.bytes.subarray(begin, end)];
    return trampoline(p, m.importedFunctions + defined, slot);
  });
}

/**
 * A section with more items at its end; `old` is null where the module has none.
 * @param {Uint8Array} bytes
 * @param {number} id
 * @param {import('../../wasm/module.mjs').Section | null} old
 * @param {Part[]} items
 */
function longer(bytes, id, old, items) {
  if (old === null) return section(id, vector(items));
  const reader = new Reader(bytes, old.begin, old.end);
  const count = reader.u32();
  return section(id, [u32(count + items.length), bytes.subarray(reader.at, old.end), items]);
}

/**
 * R: M with trampolines for the kept functions, which call through one more table; with more exports, by names that
 * begin with the plan's prefix; and without a start function, which is called by its export when the further table is
 * filled.
 * @param {Plan} p
 */
export function restBytes(p) {
  const { m } = p;
  /** @type {Map<number, Part[]>} */
  const added = new Map([[SECTION.table, [[FUNCREF, 0, u32(p.kept.length)]]], [SECTION.export, furtherExports(p)]]);
  /** @type {Part[]} */
  const parts = [m.bytes.subarray(0, 8)];
  /** @param {number} before */
  const addMissing = before => {
    for (const [id, items] of added) if (id < before && added.delete(id)) parts.push(longer(m.bytes, id, null, items));
  };
  for (const item of m.sections) {
    if (item.id !== SECTION.custom) addMissing(order(item.id));
    const items = added.get(item.id);
    if (items !== undefined && added.delete(item.id)) parts.push(longer(m.bytes, item.id, item, items));
    else if (item.id === SECTION.code) parts.push(section(item.id, vector(bodies(p))));
    else if (item.id !== SECTION.start) parts.push(section(item.id, m.bytes.subarray(item.begin, item.end)));
  }
  addMissing(Infinity);
  return flat(parts);
}
