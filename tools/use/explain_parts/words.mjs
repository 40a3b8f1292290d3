/** The words of the command `explain`. */
export const usage = `usage: ./r3 explain FILE.wasm [--line LINE]

Says why r3 refuses a module: what is at the place that its status line gives, and what to do. The functions have the
numbers of wasm-objdump; instructions are counted from 0, without else and end.

FILE.wasm   the module; r3 is asked for its line, by ./r3 instrument FILE.wasm
--line      takes this line, which r3 has printed for the module, and does not run r3

The status is 0 if the cause is printed or r3 takes the module, 2 for other words, and 1 for everything else, with one
line on standard error.
`;

/** Thrown where the words are none of the command's. */
export class WordsFault extends Error {}

/** @typedef {{ help: boolean, file: string, line: string | null }} Words */

/**
 * @param {string[]} given
 * @returns {Words}
 */
export function readWords(given) {
  /** @type {Words} */
  const words = { help: false, file: '', line: null };
  const files = [];
  for (let at = 0; at < given.length; at++) {
    const word = given[at];
    if (word === '--help') {
      words.help = true;
    } else if (word === '--line') {
      if (words.line !== null) throw new WordsFault('--line is given twice');
      if (at + 1 === given.length) throw new WordsFault('--line needs a line');
      words.line = given[++at].trim();
    } else if (word.startsWith('-') && word !== '-') {
      throw new WordsFault(`there is no option ${word}`);
    } else {
      files.push(word);
    }
  }
  if (words.help) return words;
  if (files.length !== 1) throw new WordsFault(files.length === 0 ? 'which module?' : 'one module at a time');
  if (words.line === '') throw new WordsFault('--line needs a line');
  return { ...words, file: files[0] };
}
