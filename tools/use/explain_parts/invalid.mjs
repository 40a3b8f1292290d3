/**
 * The causes of `invalid: ..`. V8 says what is wrong if it refuses the module too; if it takes the module, something in
 * it is not of Core 1.0.
 */
import { SECTION, instructionName, typeName } from '../wasm/index.mjs';
import { sectionsOf } from './core_form.mjs';
import { featureText, instructionFeature } from './features.mjs';
import { counted, functionLabel, moduleView, neighbourLines, placesIn } from './module_view.mjs';
import { byteText } from './report.mjs';

/** @typedef {import('./report.mjs').Finding} Finding */
/** @typedef {import('./report.mjs').Paragraph} Paragraph */
/** @typedef {import('./module_view.mjs').Module} Module */

/**
 * What V8 says of a module that it refuses: the function if it names one, the place, and why. Null if it takes it.
 * @param {Uint8Array} bytes
 */
function verdict(bytes) {
  try {
    new WebAssembly.Module(bytes);
    return null;
  } catch (error) {
    const text = error instanceof Error ? error.message.replace('WebAssembly.Module(): ', '') : String(error);
    const named = /^Compiling function #(\d+)(?::".*?")? failed: ([\s\S]*?)(?: @\+(\d+))?$/.exec(text);
    if (named) return { index: Number(named[1]), reason: named[2], at: Number(named[3]) };
    const [, reason, at] = /^([\s\S]*?)(?: @\+(\d+))?$/.exec(text) ?? ['', text, ''];
    return { index: null, reason, at: Number(at) };
  }
}

/**
 * @param {Module} m
 * @param {number} index
 * @param {number} at a byte of the instruction
 * @returns {Paragraph[]}
 */
function instructionParagraphs(m, index, at) {
  const { places } = placesIn(m, index);
  const chosen = places.findIndex(place => at >= place.at && at < place.at + place.bytes.length);
  if (chosen < 0) return [['function', functionLabel(m, index)]];
  const { number, at: begin, item } = places[chosen];
  const what = `${number === null ? `the ${instructionName(item.op)}` : `instruction ${number}`} at ${byteText(begin)}`;
  return [['function', `${functionLabel(m, index)}, ${what}`], ['there', ...neighbourLines(m, places, chosen)]];
}

/**
 * @param {Uint8Array} bytes
 * @param {number} index
 * @returns {Finding}
 */
export function invalidFunctionFinding(bytes, index) {
  const m = moduleView(bytes);
  if (m.bodies[index - m.importedFunctions] === undefined) {
    return { paragraphs: [], disagrees: `this module has no body of a function ${index}` };
  }
  const said = verdict(bytes);
  if (said !== null && said.index === index) {
    const paragraphs = instructionParagraphs(m, index, said.at);
    return { paragraphs: [['section', 'code'], ...paragraphs, ['cause', `V8 refuses it too: ${said.reason}`]],
      disagrees: null };
  }
  const { places } = placesIn(m, index);
  const chosen = places.findIndex(({ item, bytes: own }) => instructionFeature(item, own) !== null);
  if (chosen >= 0) {
    const { item, bytes: own, at } = places[chosen];
    return { paragraphs: [['section', 'code'], ...instructionParagraphs(m, index, at),
      ['feature', featureText(instructionFeature(item, own) ?? '')]], disagrees: null };
  }
  const other = said === null ? 'V8 takes this module' : `V8 refuses another part of it: ${said.reason}`;
  return { paragraphs: [['function', functionLabel(m, index)]],
    disagrees: `explain finds no fault in ${functionLabel(m, index)}, and ${other}` };
}

/**
 * What a section of the number `id` has, where it begins.
 * @param {Uint8Array} bytes
 * @param {number} id
 * @param {string} name
 * @returns {Paragraph}
 */
function sectionParagraph(bytes, id, name) {
  const section = sectionsOf(bytes).find(one => one.id === id);
  return ['section', section === undefined ? name : `${name}, which begins at ${byteText(section.at)}`];
}

/**
 * The types with several results, and the functions that have them.
 * @param {Uint8Array} bytes
 * @param {Module} m
 * @returns {Paragraph[] | null}
 */
function severalResults(bytes, m) {
  const types = m.types.map((_, place) => place).filter(place => m.types[place].results.length > 1);
  if (types.length === 0) return null;
  const users = m.functionTypes.map((_, index) => index).filter(index => types.includes(m.functionTypes[index]));
  const names = users.slice(0, 6).map(index => functionLabel(m, index));
  const text = m.types[types[0]].results.map(typeName).join(' ');
  return [
    sectionParagraph(bytes, SECTION.type, 'type'),
    ['cause', `type ${types[0]} has the results ${text}, and a function of Core 1.0 has at most one`],
    ['how many', `${counted(types.length, 'type')} with several results, of ${counted(users.length, 'function')}`
      + `${names.length > 0 ? `: ${names.join(', ')}` : ''}${users.length > 6 ? ', ..' : ''}`],
    ['feature', featureText('multivalue')],
  ];
}

/**
 * @param {Uint8Array} bytes
 * @param {Module} m
 * @returns {Paragraph[] | null}
 */
function severalMemories(bytes, m) {
  if (m.memories.length > 1) {
    return [sectionParagraph(bytes, SECTION.memory, 'memory'),
      ['cause', `the module has ${m.memories.length} memories, and one of Core 1.0 has at most one`],
      ['feature', featureText('multimemory')]];
  }
  if (m.tables.length < 2) return null;
  return [sectionParagraph(bytes, SECTION.table, 'table'),
    ['cause', `the module has ${m.tables.length} tables, and one of Core 1.0 has at most one`],
    ['feature', featureText('reference-types')]];
}

/**
 * Constant expressions that are not those of Core 1.0: one constant, or one imported global that does not change.
 * @param {Uint8Array} bytes
 * @param {Module} m
 * @returns {Paragraph[] | null}
 */
function extendedConstants(bytes, m) {
  /** @type {[string, number, import('../wasm/module.mjs').Constant | null | undefined][]} */
  const all = [
    ...m.globals.map((item, place) => /** @type {any} */ ([`global ${place}`, SECTION.global, item.init])),
    ...m.elements.map((item, place) => /** @type {any} */ ([`element segment ${place}`, SECTION.element, item.offset])),
    ...m.data.map((item, place) => /** @type {any} */ ([`data segment ${place}`, SECTION.data, item.offset])),
  ];
  for (const [what, id, constant] of all) {
    if (!constant) continue;
    const name = id === SECTION.global ? 'global' : id === SECTION.element ? 'element' : 'data';
    const begin = sectionParagraph(bytes, id, name);
    if (constant.only === null) {
      return [begin, ['cause', `the constant of ${what} is calculated by ${constant.all.length} instructions`],
        ['feature', featureText('extended-const')]];
    }
    if (constant.only.op === 0x23 && (constant.only.index ?? 0) >= m.importedGlobals) {
      return [begin, ['cause', `the constant of ${what} is that of global ${constant.only.index}, which is not imported`],
        ['feature', featureText('gc')]];
    }
  }
  return null;
}

/**
 * @param {Uint8Array} bytes
 * @returns {Finding}
 */
export function invalidModuleFinding(bytes) {
  const m = moduleView(bytes);
  const said = verdict(bytes);
  /** @type {Paragraph[]} */
  const refused = said !== null && said.index === null ? [['cause', `V8 refuses it too: ${said.reason}`
    + `${Number.isNaN(said.at) ? '' : `, at ${byteText(said.at)}`}`]] : [];
  const found = severalResults(bytes, m) ?? severalMemories(bytes, m) ?? extendedConstants(bytes, m);
  if (found !== null || refused.length > 0) return { paragraphs: [...found ?? [], ...refused], disagrees: null };
  const other = said === null ? 'V8 takes this module' : `V8 refuses func ${said.index}: ${said.reason}`;
  return { paragraphs: [], disagrees: `explain finds no fault outside the bodies, and ${other}` };
}
