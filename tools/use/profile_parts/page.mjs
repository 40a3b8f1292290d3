/** The page of a profile: one file with its styles, its scripts and its numbers. */
import fs from 'node:fs';
import { sentences } from './texts.mjs';

/** @import { Report } from './report.mjs' */

/** The most call paths that the page draws. The others are too narrow to be seen. */
const MOST_PATHS = 20000;

/** The scripts in the order in which the page has them. */
const SCRIPTS = ['format.js', 'elements.js', 'flame_graph.js', 'time_line.js', 'tables.js', 'memory_map.js', 'page.js'];

const part = name => fs.readFileSync(new URL(`page/${name}`, import.meta.url), 'utf8');

/** A text of JSON that can be within an element of a page. */
const embedded = value => JSON.stringify(value).replaceAll('<', '\\u003c').replaceAll('\u2028', '\\u2028');

const escaped = text => text.replaceAll('&', '&amp;').replaceAll('<', '&lt;');

/** The paths with the most turns, as lists. A path's parent has as many turns at least, and comes before it. */
function widePaths({ paths }) {
  const order = paths.map((_, index) => index).sort((one, other) => paths[other].all - paths[one].all || one - other);
  const kept = order.slice(0, MOST_PATHS).sort((one, other) => one - other);
  const places = new Map(kept.map((index, place) => [index, place]));
  const list = read => kept.map(index => read(paths[index]));
  return {
    parent: list(({ parent }) => (parent < 0 ? -1 : places.get(parent))), func: list(({ func }) => func),
    self: list(({ self }) => self), all: list(({ all }) => all), calls: list(({ calls }) => calls),
    left: paths.length - kept.length,
  };
}

/** The calls of the time line, as lists. */
function lineOf({ line }) {
  const list = read => line.calls.map(read);
  return {
    isImport: list(({ isImport }) => (isImport ? 1 : 0)), index: list(({ index }) => index),
    depth: list(({ depth }) => depth), begin: list(({ begin }) => begin), end: list(({ end }) => end),
    all: line.all, isThinned: line.isThinned,
  };
}

/**
 * The text of the page, in pieces.
 * @param {Report} report
 * @param {string[]} names of functions, imported ones first
 */
export function* page(report, names) {
  const { file, turns, functions, imports, host, memory } = report;
  const called = functions.filter(({ calls }) => calls > 0);
  const data = { file, turns, names, functions: called, imports: [host, ...imports], memory, paths: widePaths(report),
    line: lineOf(report), sentences: sentences(report) };
  const scripts = SCRIPTS.map(part).join('\n');
  const filled = { TITLE: escaped(file), STYLE: part('page.css'), DATA: embedded(data), SCRIPT: scripts };
  yield part('page.html').replace(/\{\{(\w+)\}\}/g, (_, name) => filled[name]);
}
