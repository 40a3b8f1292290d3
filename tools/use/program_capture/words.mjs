/** The words of `capture -o FOLDER`, which captures a program as it is. */
import { WordsFault } from '../capture_parts/words.mjs';

/** @typedef {import('./types.mjs').Words} Words */

export const usage = `usage: tools/capture -o FOLDER [OPTIONS] PROGRAM.js [WORDS..]        a program of Node.js
       tools/capture -o FOLDER [OPTIONS] MODULE.wasm [WORDS..]       a program of WASI, preview 1
       tools/capture -o FOLDER [OPTIONS] PAGE.html                   a page, in headless Chromium
       tools/capture -o FOLDER [OPTIONS] --host HOST MODULE [WORD..] a module with a host file
       tools/capture [-o FOLDER] --from-log FOLDER                   what a run that was killed left behind

Runs the program as it is, and writes to FOLDER a module, a script, their replay, and a report. FOLDER is missing,
empty or an earlier capture. The program has this process's standard streams.

--keep NAME,..     keeps these functions alone in the module of the capture; NAME is a name or a number
--under NAME,..    keeps these functions and all that they reach
--drop NAME,..     does not keep these functions
--floats few       float instructions of kept functions are calls of the host; functions in which they run often are
                   not kept, and the program is run again; this is the default
--floats all       the same for all functions
--floats none      functions with float instructions are not kept
--fit              leaves out functions, and runs the program again, until the script is short enough for r3
--module N|NAME    takes instance N, counted from 0, or the instance whose module exports NAME
--all              takes all instances, each in a folder of its own in FOLDER
--until N          ends the record after N crossings; the program runs on
--no-make          makes no replay module
--dir FOLDER[::NAME], --env NAME=VALUE   one more folder, one more variable of a program of WASI
--browser FILE     the browser for a page; else chromium, chromium-browser or google-chrome
--seconds N        a page that neither closes itself nor calls r3.done() runs so long; else 10 seconds
`;

/**
 * Options without a value: the property that they set, and to what.
 * @type {Record<string, [string, boolean]>}
 */
const FLAGS = {
  '--help': ['help', true], '--fit': ['fit', true], '--all': ['all', true], '--no-make': ['make', false],
  '--relative': ['relative', true],
};
/**
 * Options with a value that is kept as text.
 * @type {Record<string, string>}
 */
const TEXTS = {
  '-o': 'output', '--from-log': 'fromLog', '--host': 'host', '--module': 'module', '--browser': 'browser',
};
/** @type {Record<string, string>} */
const LISTS = { '--keep': 'keep', '--under': 'under', '--drop': 'drop' };
/** @type {Record<string, string>} */
const NUMBERS = { '--until': 'until', '--seconds': 'seconds' };
const FLOATS = ['few', 'all', 'none'];

/** Options that only this form of the command has, which say which form it is. */
const OWN = ['-o', '--from-log', '--host'];
const WITH_VALUE = [
  ...Object.keys(TEXTS), ...Object.keys(LISTS), ...Object.keys(NUMBERS), '--floats', '--dir', '--env', '--decls',
];

/** @returns {Words} */
const blank = () => ({
  help: false, relative: false, output: null, fromLog: null, kind: 'node', program: '', words: [], host: null,
  keep: null, under: null, drop: [], fit: false, floats: 'few', module: null, all: false, until: null, browser: null,
  seconds: 10, make: true, folders: [['.', '.']], environment: {},
});

/**
 * Whether the words, up to the first that is no option, have one of this form alone.
 * @param {string[]} given
 */
export function isProgramForm(given) {
  for (let at = 0; given[at]?.startsWith('-'); at += WITH_VALUE.includes(given[at]) ? 2 : 1) {
    if (OWN.includes(given[at])) return true;
  }
  return false;
}

/** @param {string[]} left */
function value(left) {
  const text = left.shift();
  if (text === undefined || text === '') throw new WordsFault();
  return text;
}

/** @param {string} text */
function number(text) {
  if (!/^[1-9]\d{0,14}$/.test(text)) throw new WordsFault();
  return Number(text);
}

/**
 * Reads `FOLDER[::NAME]` or `NAME=VALUE` as a pair.
 * @param {string} text
 * @param {string} separator
 * @returns {[string, string | null]}
 */
function pair(text, separator) {
  const [name, ...rest] = text.split(separator);
  if (name === '') throw new WordsFault();
  return [name, rest.length > 0 ? rest.join(separator) : null];
}

/**
 * Reads one option with its value.
 * @param {string} word
 * @param {string[]} left
 * @param {any} words
 */
function readOption(word, left, words) {
  if (word in FLAGS) {
    const [name, flag] = FLAGS[word];
    words[name] = flag;
  } else if (word in TEXTS) words[TEXTS[word]] = value(left);
  else if (word in LISTS) {
    words[LISTS[word]] = [...words[LISTS[word]] ?? [], ...value(left).split(',').filter(name => name !== '')];
  } else if (word in NUMBERS) words[NUMBERS[word]] = number(value(left));
  else if (word === '--floats') {
    words.floats = value(left);
    if (!FLOATS.includes(words.floats)) throw new WordsFault();
  } else if (word === '--dir') {
    const [folder, name] = pair(value(left), '::');
    words.folders.push([name ?? folder, folder]);
  } else if (word === '--env') {
    const [name, text] = pair(value(left), '=');
    words.environment[name] = text ?? '';
  } else throw new WordsFault();
}

/**
 * Whether a program is the address of a page that is served already.
 * @param {string} program
 */
export const isAddress = program => /^http:\/\/(127\.0\.0\.1|localhost)[:/]/.test(program);

/**
 * What runs a program, by the name of its file.
 * @param {string} program
 * @param {string | null} host
 */
function kindOf(program, host) {
  if (host !== null) return 'host';
  if (isAddress(program) || /\.html?$/i.test(program)) return 'page';
  return /\.wasm$/i.test(program) ? 'wasi' : 'node';
}

/** @param {string[]} given */
export function readProgramWords(given) {
  const words = blank();
  const left = [...given];
  while (left[0]?.startsWith('-')) readOption(/** @type {string} */ (left.shift()), left, words);
  if (words.help) return words;
  if (words.fromLog === null && (words.output === null || left.length === 0)) throw new WordsFault();
  words.program = left.shift() ?? '';
  words.words = left;
  words.kind = kindOf(words.program, words.host);
  return words;
}
