/** The cause of `malformed: at P`, where P is the beginning of a section: what in the section r3 does not read. */
import { SECTION } from '../wasm/index.mjs';
import { SECTION_NAMES, firstStop, sectionsOf } from './core_form.mjs';
import { featureText, instructionFeature } from './features.mjs';
import { definedFunctions, functionLabel, moduleView, neighbourLines, placesIn, troubles, troublesText }
  from './module_view.mjs';
import { byteText } from './report.mjs';

/** @typedef {import('./report.mjs').Finding} Finding */
/** @typedef {import('./report.mjs').Paragraph} Paragraph */
/** @typedef {import('./core_form.mjs').Stop} Stop */
/** @typedef {import('./module_view.mjs').Module} Module */

/**
 * The function with a byte, and its instructions up to it.
 * @param {Module} m
 * @param {number} at
 * @returns {Paragraph[]}
 */
function functionParagraphs(m, at) {
  const index = definedFunctions(m).find((_, place) => at >= m.bodies[place][0] && at < m.bodies[place][1]);
  if (index === undefined) return [];
  const { places, unknown } = placesIn(m, index);
  const chosen = places.findIndex(place => place.at === at);
  if (chosen < 0) {
    const shown = places.length > 0 ? neighbourLines(m, places, places.length - 1).map(line => ` ${line.slice(1)}`) : [];
    const last = unknown === null ? [] : [`> ${unknown.at.toString(16).padStart(6, '0')} ${unknown.message}`];
    return [['function', functionLabel(m, index)], ['there', ...shown, ...last, ...(unknown ? [] : ['among the locals'])]];
  }
  const number = places[chosen].number;
  return [
    ['function', `${functionLabel(m, index)}, instruction ${number}`], ['there', ...neighbourLines(m, places, chosen)],
  ];
}

/**
 * How often each feature that r3 does not read is in the bodies.
 * @param {Module} m
 * @returns {string[]}
 */
function countLines(m) {
  const features = new Set();
  for (const index of definedFunctions(m)) {
    for (const { item, bytes } of placesIn(m, index).places) features.add(instructionFeature(item, bytes));
  }
  features.delete(null);
  return [...features].map(feature => {
    const found = troubles(m, ({ item, bytes }) => instructionFeature(item, bytes) === feature);
    return `${feature}: ${troublesText(m, found)}`;
  });
}

/**
 * What the section `target_features` says of a feature.
 * @param {Uint8Array} bytes
 * @returns {string[]}
 */
function targetFeatures(bytes) {
  for (const { id, begin, end } of sectionsOf(bytes)) {
    const text = Buffer.from(bytes.subarray(begin, end)).toString('latin1');
    if (id === SECTION.custom && text.slice(1).startsWith('target_features')) {
      return [...text.matchAll(/\+[\x01-\x40]([a-z0-9-]+)/g)].map(found => found[1]);
    }
  }
  return [];
}

/**
 * @param {Uint8Array} bytes
 * @param {Stop} stop
 * @returns {Paragraph[]}
 */
function contentParagraphs(bytes, stop) {
  const { section, cause } = stop;
  if (section === null) return [['cause', cause.message]];
  const name = SECTION_NAMES[section.id] ?? `of the number ${section.id}`;
  /** @type {Paragraph[]} */
  const found = [['section', `${name}, which begins at ${byteText(section.at)} and has its content from `
    + `${byteText(section.begin)} on`]];
  const m = moduleView(bytes);
  const isCode = section.id === SECTION.code;
  if (isCode) found.push(...functionParagraphs(m, cause.at));
  found.push(['cause', `${cause.message}, at ${byteText(cause.at)}`]);
  if (cause.feature !== null) {
    const isNamed = targetFeatures(bytes).includes(cause.feature);
    found.push(['feature', featureText(cause.feature),
      ...(isNamed ? ['the section target_features names it, so the compiler was given it'] : [])]);
  }
  const counts = countLines(m);
  if (counts.length > 0) found.push([isCode ? 'how many' : 'behind it', ...counts]);
  return found;
}

/**
 * The section at a place, for the row of the page.
 * @param {Uint8Array} bytes
 * @param {number} at
 */
export function sectionNameAt(bytes, at) {
  const section = sectionsOf(bytes).find(one => one.at === at);
  return section === undefined ? '' : SECTION_NAMES[section.id] ?? '';
}

/**
 * @param {Uint8Array} bytes
 * @param {number} at
 * @returns {Finding}
 */
export function malformedFinding(bytes, at) {
  const stop = firstStop(bytes);
  if (stop === null) return { paragraphs: [], disagrees: 'explain reads no fault in the form of this module' };
  const paragraphs = contentParagraphs(bytes, stop);
  if (stop.at === at) return { paragraphs, disagrees: null };
  return { paragraphs, disagrees: `explain stops reading at ${byteText(stop.at)}, and not at ${byteText(at)}` };
}

