/**
 * Bridges between K and R and the observers in JavaScript. JavaScript sees floats as the integers of their bits, so
 * that no NaN changes on its way.
 */
import { KIND, TypeList, exportItem, importItem, moduleBytes } from '../../wasm/assembler.mjs';
import { flat, u32, vector } from '../../wasm/encoding.mjs';
import { F32, F64, FUNCREF, I64, integerOf, isFloat } from '../../wasm/value_types.mjs';
import { OP } from './operations.mjs';

/** @typedef {import('../../wasm/value_types.mjs').FunctionType} FunctionType */
/** @typedef {import('../../wasm/encoding.mjs').Part} Part */

const TO_FLOAT = new Map([[F32, 0xbe], [F64, 0xbf]]);
const TO_INTEGER = new Map([[F32, 0xbc], [F64, 0xbd]]);

/**
 * Whether a function of this type has floats at its border.
 * @param {FunctionType} type
 */
export const isBridged = ({ params, results }) => [...params, ...results].some(isFloat);

/**
 * The same type with integers in place of floats.
 * @param {FunctionType} type
 * @returns {FunctionType}
 */
export const integerType = ({ params, results }) =>
  ({ params: params.map(integerOf), results: results.map(integerOf) });

/**
 * A body that converts its arguments, calls a function, and converts the results.
 * @param {FunctionType} type of the arguments that the body gets and the results that it gives, or of the function's
 * @param {number} target
 * @param {Map<number, number>} before the conversions of arguments
 * @param {Map<number, number>} after those of results
 * @param {number[]} given the types of the results that the function gives
 * @returns {Part}
 */
function converting({ params, results }, target, before, after, given) {
  const args = params.map((type, place) => [OP.localGet, u32(place), before.get(type) ?? []]);
  const call = [OP.call, u32(target)];
  if (results.length < 2) return flat([0, args, call, results.map(type => after.get(type) ?? []), OP.end]);
  const place = (/** @type {number} */ index) => u32(params.length + index);
  const kept = results.map((_, index) => [OP.localSet, place(index)]).reverse();
  const converted = results.map((type, index) => [OP.localGet, place(index), after.get(type) ?? []]);
  return flat([vector(given.map(type => [1, type])), args, call, kept, converted, OP.end]);
}

/**
 * A module for functions of these types. It imports as `js.N` the observer, which has integers, and as `target.N` what
 * the observer calls, where that has floats. It exports `out.N`, what the caller gets, and `in.N`, what the observer
 * calls where there are floats. With `isTable` the entries of the imported table `rest.trampolines` are set to what the
 * callers get, in place of exports.
 * @param {FunctionType[]} list
 * @param {boolean} isTable
 */
export function bridgeBytes(list, isTable) {
  const types = new TypeList();
  /** @type {{ imports: Part[], functions: number[], bodies: Part[], exports: Part[] }} */
  const { imports, functions, bodies, exports } = { imports: [], functions: [], bodies: [], exports: [] };
  /**
   * @param {string} module
   * @param {number} place
   * @param {FunctionType} type
   */
  const imported = (module, place, type) =>
    imports.push(importItem(module, String(place), KIND.function, u32(types.index(type)))) - 1;
  const observers = list.map((type, place) => imported('js', place, integerType(type)));
  const targets = list.map((type, place) => (isBridged(type) ? imported('target', place, type) : -1));
  const count = imports.length;
  if (isTable) imports.push(importItem('rest', 'trampolines', KIND.table, [FUNCREF, 0, u32(list.length)]));
  /**
   * @param {FunctionType} type
   * @param {Part} body
   */
  const add = (type, body) => {
    bodies.push(body);
    return count + functions.push(types.index(type)) - 1;
  };
  const outs = list.map((type, place) => {
    if (!isBridged(type)) return observers[place];
    const integers = integerType(type);
    const inward = converting(type, targets[place], TO_FLOAT, TO_INTEGER, type.results);
    exports.push(exportItem(`in.${place}`, KIND.function, add(integers, inward)));
    return add(type, converting(type, observers[place], TO_INTEGER, TO_FLOAT, integers.results));
  });
  if (!isTable) outs.forEach((index, place) => exports.push(exportItem(`out.${place}`, KIND.function, index)));
  const elements = isTable && outs.length > 0 ? [[0, OP.i32Const, 0, OP.end, vector(outs.map(u32))]] : [];
  return moduleBytes({ types: types.list, imports, functions, bodies, exports, elements });
}

/**
 * A module that takes a function of this type alone, and exports it.
 * @param {FunctionType} type
 */
export const takingBytes = type => moduleBytes({ types: [type], imports: [importItem('h', 'f', KIND.function, 0)],
  exports: [exportItem('f', KIND.function, 0)] });

/** A type that no kept function calls by the table. */
export const OTHER_TYPE = { params: /** @type {number[]} */ (new Array(9).fill(I64)), results: [] };
