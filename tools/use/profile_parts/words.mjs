/** The words of the command `profile`. */
export const usage = `usage: ./r3 profile [--names ORIGINAL] [--folded | --trace | --json] [--html FILE] REPLAY_MODULE
       ./r3 profile [--names ORIGINAL] [--folded | --trace | --json] [--html FILE] MODULE SCRIPT

Runs a replay module once in V8, without a host, and prints where its turns, its calls and its weight are. Of a module
and a script the replay is made first, and all actions of the host are counted. The numbers are exact. Without options
a table is printed.

--names   the names of functions are those of this module, which has the functions of the replay
--folded  prints a line for each call path, with its turns, as flamegraph.pl, inferno and speedscope take them
--trace   prints the calls between host and module in the Trace Event Format, as Perfetto and Chromium take it;
          a microsecond there is a turn
--json    prints all numbers
--html    writes a page that needs no network: call paths, time line, functions, imports, memory
`;

/** Thrown where the words are none of the command's. */
export class WordsFault extends Error {}

const FORMATS = { '--folded': 'folded', '--trace': 'trace', '--json': 'json' };
const FILES = { '--names': 'names', '--html': 'html' };

/**
 * `script` is null where one word is a replay module. `format` is null where nothing but a page is asked for.
 * @typedef {{ help: boolean, names: string | null, html: string | null, format: string | null, module: string,
 *   script: string | null }} Words
 */

/**
 * @param {string[]} given
 * @returns {Words}
 */
export function readWords(given) {
  const words = { help: false, names: null, html: null, format: null, module: '', script: null };
  const left = [...given];
  const files = [];
  while (left.length > 0) {
    const word = left.shift();
    if (word === '--help') words.help = true;
    else if (word in FORMATS && words.format === null) words.format = FORMATS[word];
    else if (word in FILES && words[FILES[word]] === null && left.length > 0) words[FILES[word]] = left.shift();
    else if (word.startsWith('--')) throw new WordsFault();
    else files.push(word);
  }
  if (words.help) return words;
  if (files.length < 1 || files.length > 2) throw new WordsFault();
  [words.module, words.script = null] = files;
  if (words.format === null && words.html === null) words.format = 'table';
  return words;
}
