/** The bytes of small modules for the tests, of parts given as lists of bytes. */
/** @typedef {'i32' | 'i64' | 'f32' | 'f64'} ValueType */
/** @typedef {{ min: number, max?: number }} Limits */
/** @typedef {'function' | 'table' | 'memory' | 'global'} Kind */
/**
 * @typedef {object} Parts
 * @property {{ params: ValueType[], results: ValueType[] }[]} [types]
 * @property {any[]} [imports]
 * @property {{ type: number, locals: ValueType[], body: number[] }[]} [functions]
 * @property {Limits} [table]
 * @property {Limits} [memory]
 * @property {{ type: ValueType, mutable: boolean, bits: number | bigint }[]} [globals]
 * @property {{ name: string, kind: Kind, index: number }[]} [exports]
 * @property {number} [start]
 * @property {{ offset: number, functions: number[] }[]} [elements]
 * @property {{ offset: number, bytes: number[] }[]} [data]
 */

/** @type {Record<ValueType, number>} */
export const TYPES = { i32: 0x7f, i64: 0x7e, f32: 0x7d, f64: 0x7c };
/** @type {Record<Kind, number>} */
const KINDS = { function: 0, table: 1, memory: 2, global: 3 };

/**
 * An unsigned LEB128 number.
 * @param {number} value
 */
export function number(value) {
  /** @type {number[]} */
  const bytes = [];
  for (let left = value >>> 0; ; left >>>= 7) {
    if (left < 128) return [...bytes, left];
    bytes.push((left & 127) | 128);
  }
}

/**
 * A signed LEB128 number, of a BigInt.
 * @param {bigint} value
 */
export function signed(value) {
  /** @type {number[]} */
  const bytes = [];
  for (let left = value; ; left >>= 7n) {
    const low = Number(left & 127n);
    if ((left < 64n && left >= -64n)) return [...bytes, low];
    bytes.push(low | 128);
  }
}

/** @param {string} text */
export function name(text) {
  const bytes = [...Buffer.from(text)];
  return [...number(bytes.length), ...bytes];
}

/** @type {(items: (number | number[])[]) => number[]} */
export const list = items => [...number(items.length), ...items.flat()];

/** @type {(limits: Limits) => number[]} */
export const limits = ({ min, max }) => (max === undefined ? [0, ...number(min)] : [1, ...number(min), ...number(max)]);

/** @type {(globalType: { type: ValueType, mutable: boolean }) => number[]} */
export const globalType = ({ type, mutable }) => [TYPES[type], mutable ? 1 : 0];

/**
 * A constant instruction with the bits of a value.
 * @param {ValueType} type
 * @param {number | bigint} bits
 */
export function constant(type, bits) {
  if (type === 'i32') return [0x41, ...signed(BigInt.asIntN(32, BigInt(bits)))];
  if (type === 'i64') return [0x42, ...signed(BigInt.asIntN(64, BigInt(bits)))];
  const bytes = Buffer.alloc(8);
  bytes.writeBigUInt64LE(BigInt.asUintN(64, BigInt(bits)));
  return type === 'f32' ? [0x43, ...bytes.subarray(0, 4)] : [0x44, ...bytes];
}

/** @type {{ [kind in Kind]: (item: any) => number[] }} */
const DESCRIPTIONS = {
  function: item => number(item.type),
  table: item => [0x70, ...limits(item)],
  memory: item => limits(item),
  global: item => globalType(item),
};

/**
 * @param {number} id
 * @param {number[][]} items
 */
function section(id, items) {
  if (items.length === 0) return [];
  const bytes = list(items);
  return [id, ...number(bytes.length), ...bytes];
}

/**
 * The bytes of a module: `types` ({ params, results }), `imports` ({ module, name, kind, and its description }),
 * `functions` ({ type, locals: list of value types, body }), `table`, `memory`, `globals` ({ type, mutable, bits }),
 * `exports` ({ name, kind, index }), `start`, `elements` ({ offset, functions }), `data` ({ offset, bytes }).
 * @param {Parts} given
 */
export function moduleBytes(given) {
  const parts = { types: [], imports: [], functions: [], globals: [], exports: [], elements: [], data: [], ...given };
  const values = (/** @type {ValueType[]} */ types) => list(types.map(type => [TYPES[type]]));
  const start = parts.start === undefined ? [] : number(parts.start);
  const bodies = parts.functions.map(({ locals, body }) => {
    const bytes = [...list(locals.map(type => [1, TYPES[type]])), ...body, 0x0b];
    return [...number(bytes.length), ...bytes];
  });
  return Buffer.from([
    0x00, 0x61, 0x73, 0x6d, 0x01, 0x00, 0x00, 0x00,
    ...section(1, parts.types.map(({ params, results }) => [0x60, ...values(params), ...values(results)])),
    ...section(2, parts.imports.map(item =>
      [...name(item.module), ...name(item.name), KINDS[/** @type {Kind} */ (item.kind)],
        ...DESCRIPTIONS[/** @type {Kind} */ (item.kind)](item)])),
    ...section(3, parts.functions.map(({ type }) => number(type))),
    ...section(4, parts.table === undefined ? [] : [[0x70, ...limits(parts.table)]]),
    ...section(5, parts.memory === undefined ? [] : [limits(parts.memory)]),
    ...section(6, parts.globals.map(item => [...globalType(item), ...constant(item.type, item.bits), 0x0b])),
    ...section(7, parts.exports.map(item => [...name(item.name), KINDS[item.kind], ...number(item.index)])),
    ...(start.length === 0 ? [] : [8, start.length, ...start]),
    ...section(9, parts.elements.map(({ offset, functions }) =>
      [0, ...constant('i32', offset), 0x0b, ...list(functions.map(number))])),
    ...section(10, bodies),
    ...section(11, parts.data.map(({ offset, bytes }) =>
      [0, ...constant('i32', offset), 0x0b, ...number(bytes.length), ...bytes])),
  ]);
}
