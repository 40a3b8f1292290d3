/** The causes of `unsupported: ..`, `limit: ..` and `reserved: ..`: valid modules that r3 does not take. */
import { KIND, bodyOf, instructionName } from '../wasm/index.mjs';
import { callersText, counted, definedFunctions, functionLabel, moduleView, neighbourLines, placesIn, troubles,
  troublesText } from './module_view.mjs';
import { byteText } from './report.mjs';

/** @typedef {import('./report.mjs').Finding} Finding */
/** @typedef {import('./module_view.mjs').Module} Module */

/**
 * The class of an instruction that calculates with floats, in the words of the status line, or null.
 * @param {number} op
 */
export function floatClass(op) {
  if (op >= 0x5b && op <= 0x66) return 'comparison';
  if (op >= 0x8b && op <= 0xa6) return 'arithmetic';
  return (op >= 0xa8 && op <= 0xab) || (op >= 0xae && op <= 0xbb) ? 'conversion' : null;
}

/**
 * @param {Uint8Array} bytes
 * @param {number} index the function
 * @param {number} number the instruction
 * @param {string} kind arithmetic, comparison or conversion
 * @returns {Finding}
 */
export function floatFinding(bytes, index, number, kind) {
  const m = moduleView(bytes);
  const label = functionLabel(m, index);
  if (m.bodies[index - m.importedFunctions] === undefined) {
    return { paragraphs: [], disagrees: `this module has no body of a function ${index}` };
  }
  const { places } = placesIn(m, index);
  const chosen = places.findIndex(place => place.number === number);
  if (chosen < 0) return { paragraphs: [], disagrees: `${label} has no instruction ${number}` };
  const { op } = places[chosen].item;
  const found = troubles(m, ({ item }) => floatClass(item.op) !== null);
  const callers = callersText(m, index);
  /** @type {Finding['paragraphs']} */
  const paragraphs = [
    ['section', 'code'],
    ['function', `${label}, instruction ${number} at ${byteText(places[chosen].at)}`,
      ...(callers === null ? [] : [`it is called by ${callers}`])],
    ['there', ...neighbourLines(m, places, chosen)],
    ['cause', `${instructionName(op)} calculates with floats (float ${floatClass(op)})`],
    ['feature', 'none: compilers make such instructions of float and double, in the source or in the C library'],
    ['how many', troublesText(m, found)],
  ];
  if (floatClass(op) === kind) return { paragraphs, disagrees: null };
  const is = floatClass(op) === null ? 'calculates with no floats' : `is a float ${floatClass(op)}`;
  return { paragraphs, disagrees: `instruction ${number} of ${label} is ${instructionName(op)}, which ${is}` };
}

/**
 * The number of locals of a function, without its parameters.
 * @param {Module} m
 * @param {number} index
 */
const localsOf = (m, index) => bodyOf(m, index).locals.reduce((sum, { count }) => sum + count, 0);

/**
 * What has a quantity of this value, as text; null if nothing has it.
 * @param {Module} m
 * @param {string} which
 * @param {number} value
 */
function holderText(m, which, value) {
  if (which === 'parameters') {
    const type = m.types.findIndex(({ params }) => params.length === value);
    const users = m.functionTypes.map((_, index) => index).filter(index => m.functionTypes[index] === type);
    const who = users.length === 0 ? 'no function' : users.slice(0, 5).map(index => functionLabel(m, index)).join(', ');
    return type < 0 ? null : `the section type: type ${type} has ${counted(value, 'parameter')}; it is that of ${who}`;
  }
  if (which === 'locals') {
    const index = definedFunctions(m).find(one => localsOf(m, one) === value);
    return index === undefined ? null : `the section code: ${functionLabel(m, index)} has ${counted(value, 'local')}`;
  }
  const isTable = which === 'table';
  const all = isTable ? m.tables : m.memories;
  const index = all.findIndex(({ min }) => min === value);
  const kind = isTable ? KIND.table : KIND.memory;
  const imported = m.imports.find(item => item.kind === kind && item.index === index);
  const section = imported ? `import, ${imported.module}.${imported.name}` : which;
  const unit = isTable ? counted(value, 'entry').replace('entrys', 'entries') : counted(value, 'page');
  return index < 0 ? null : `the section ${section}: the ${which} has ${unit} at its beginning`;
}

/**
 * @param {Uint8Array} bytes
 * @param {string} which
 * @param {number} value
 * @param {number} most
 * @returns {Finding}
 */
export function limitFinding(bytes, which, value, most) {
  const text = holderText(moduleView(bytes), which, value);
  if (text === null) return { paragraphs: [], disagrees: `nothing of this module has ${value} ${which}` };
  return { paragraphs: [['there', text], ['cause', `r3 takes at most ${most.toLocaleString('en-US')}`]], disagrees: null };
}

const KINDS = ['function', 'table', 'memory', 'global', 'tag'];

/**
 * An import by its number.
 * @param {Uint8Array} bytes
 * @param {number} index
 * @returns {Finding}
 */
export function importFinding(bytes, index) {
  const { imports } = moduleView(bytes);
  const item = imports[index];
  if (item === undefined) return { paragraphs: [], disagrees: `this module has only ${counted(imports.length, 'import')}` };
  const text = `import ${index} is the ${KINDS[item.kind]} ${item.name} of the module ${item.module}`;
  return { paragraphs: [['section', 'import'], ['there', text]], disagrees: null };
}
