/** A module as `explain` looks at it, also if parts of it cannot be read: its functions, names and instructions. */
import { KIND, MAGIC, SECTION, UnknownFormat, bodyOf, readInstruction, readModule } from '../wasm/index.mjs';
import { sectionsOf } from './core_form.mjs';
import { instructionText } from './instruction_text.mjs';

/** @typedef {import('../wasm/module.mjs').Module} Module */
/** @typedef {import('../wasm/instructions.mjs').Instruction} Instruction */

/**
 * An instruction of a body. `number` is that of r3: `else` and `end` have none.
 * @typedef {{ number: number | null, at: number, bytes: Uint8Array, item: Instruction }} Place
 */

/** How many instructions before and behind one are shown. */
const NEIGHBOURS = 3;
/** How many functions a list has. */
const LISTED = 6;

/** @param {Uint8Array} bytes */
function isReadable(bytes) {
  try {
    readModule(bytes);
    return true;
  } catch (error) {
    if (error instanceof UnknownFormat || error instanceof RangeError || error instanceof TypeError) return false;
    throw error;
  }
}

/**
 * The module of a file. A section that cannot be read counts as a custom one, at its place.
 * @param {Uint8Array} bytes
 * @returns {Module}
 */
export function moduleView(bytes) {
  if (isReadable(bytes)) return readModule(bytes);
  const sections = sectionsOf(bytes).filter(({ end }) => end <= bytes.length);
  const whole = bytes.slice(0, sections[sections.length - 1]?.end ?? MAGIC.length);
  for (const { at, end } of sections) {
    if (!isReadable(Buffer.concat([MAGIC, bytes.subarray(at, end)]))) whole[at] = SECTION.custom;
  }
  return isReadable(whole) ? readModule(whole) : readModule(MAGIC);
}

/**
 * The numbers of the functions that have bodies.
 * @param {Module} m
 */
export const definedFunctions = m => m.bodies.map((_, place) => m.importedFunctions + place);

/**
 * A function by its number, and its name in the section `name`, or that of its import or export.
 * @param {Module} m
 * @param {number} index
 */
export function functionLabel(m, index) {
  const name = m.names.get(index);
  if (name !== undefined) return `func ${index} <${name}>`;
  const imported = m.imports.find(item => item.kind === KIND.function && item.index === index);
  if (imported) return `func ${index} (import ${imported.module}.${imported.name})`;
  const exported = m.exports.find(item => item.kind === KIND.function && item.index === index);
  return exported ? `func ${index} (export ${exported.name})` : `func ${index}`;
}

/**
 * The instructions of a body, up to the first that is not known; `unknown` says what that one is.
 * @param {Module} m
 * @param {number} index
 * @returns {{ places: Place[], unknown: { at: number, message: string } | null }}
 */
export function placesIn(m, index) {
  /** @type {Place[]} */
  const places = [];
  let at = m.bodies[index - m.importedFunctions][0];
  try {
    const { reader } = bodyOf(m, index);
    for (let count = 0; !reader.isAtEnd;) {
      at = reader.at;
      const item = readInstruction(reader);
      const isNumbered = item.op !== 0x05 && item.op !== 0x0b;
      places.push({ number: isNumbered ? count++ : null, at, bytes: m.bytes.subarray(at, reader.at), item });
    }
    return { places, unknown: null };
  } catch (error) {
    if (!(error instanceof UnknownFormat)) throw error;
    return { places, unknown: { at, message: error.message } };
  }
}

/**
 * Lines of an instruction and its neighbours, with their numbers; the one is marked.
 * @param {Module} m
 * @param {Place[]} places
 * @param {number} chosen its place in the list
 */
export function neighbourLines(m, places, chosen) {
  const names = Array.from({ length: m.functionTypes.length }, (_, index) => m.names.get(index) ?? `func ${index}`);
  const first = Math.max(0, chosen - NEIGHBOURS);
  const shown = places.slice(first, chosen + NEIGHBOURS + 1);
  const width = Math.max(...shown.map(({ number }) => String(number ?? '').length));
  return shown.map(({ number, at, item }, place) => [
    first + place === chosen ? '>' : ' ', at.toString(16).padStart(6, '0'), String(number ?? '').padStart(width),
    instructionText(item, names),
  ].join(' '));
}

/**
 * How many instructions of each function have some trouble, the most first.
 * @param {Module} m
 * @param {(place: Place) => boolean} hasTrouble
 */
export function troubles(m, hasTrouble) {
  return definedFunctions(m).map(index => ({ index, count: placesIn(m, index).places.filter(hasTrouble).length }))
    .filter(({ count }) => count > 0).sort((left, right) => right.count - left.count);
}

/**
 * @param {number} count
 * @param {string} what
 */
export const counted = (count, what) => `${count.toLocaleString('en-US')} ${what}${count === 1 ? '' : 's'}`;

/**
 * What `troubles` gives, as text.
 * @param {Module} m
 * @param {{ index: number, count: number }[]} found
 */
export function troublesText(m, found) {
  const total = found.reduce((sum, { count }) => sum + count, 0);
  const listed = found.slice(0, LISTED).map(({ index, count }) => `${functionLabel(m, index)} has ${count}`);
  const more = found.length > LISTED ? `, and ${found.length - LISTED} more` : '';
  return `${counted(total, 'instruction')} in ${counted(found.length, 'function')}: ${listed.join(', ')}${more}`;
}

/**
 * The functions that call a function by its number, as text; null if none does.
 * @param {Module} m
 * @param {number} callee
 */
export function callersText(m, callee) {
  const found = definedFunctions(m).filter(index =>
    placesIn(m, index).places.some(({ item }) => (item.op === 0x10 || item.op === 0x12) && item.index === callee));
  if (found.length === 0) return null;
  const more = found.length > LISTED ? `, and ${found.length - LISTED} more` : '';
  return found.slice(0, LISTED).map(index => functionLabel(m, index)).join(', ') + more;
}
