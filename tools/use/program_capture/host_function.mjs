/** `context.hostFunction` of a host file: a function of JavaScript as one that a table takes. */
import { KIND, exportItem, importItem, moduleBytes } from '../wasm/assembler.mjs';
import { F32, F64, I32, I64 } from '../wasm/value_types.mjs';
import { native } from './interface.mjs';

/** @type {Map<string, number>} */
const TYPES = new Map([['i32', I32], ['i64', I64], ['f32', F32], ['f64', F64]]);

/**
 * The types of these names.
 * @param {string[]} list
 */
const typesOf = list => list.map(type => TYPES.get(type) ?? 0);

/**
 * @param {string} name is not needed here: functions in the table have names of the capture's own
 * @param {{params?: string[], results?: string[]}} type
 * @param {Function} func
 */
export function functionOfHost(name, { params = [], results = [] } = {}, func) {
  if ([...params, ...results].some(type => !TYPES.has(type)) || params.length > 1000 || results.length > 1) {
    const most = 'it has at most 1000 params and one of results, each i32, i64, f32 or f64';
    throw new TypeError(`the host's function ${name}: ${most}`);
  }
  if (typeof func !== 'function') throw new TypeError(`the host's function ${name}: no function is given for it`);
  const bytes = moduleBytes({
    types: [{ params: typesOf(params), results: typesOf(results) }],
    imports: [importItem('h', 'f', KIND.function, 0)],
    exports: [exportItem('f', KIND.function, 0)],
  });
  return new native.Instance(new native.Module(bytes), { h: { f: /** @type {any} */ (func) } }).exports.f;
}
