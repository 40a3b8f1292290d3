/** The command `explain`: reads its words, and prints why r3 refuses a module. */
import fs from 'node:fs';
import path from 'node:path';
import { Refusal, finding } from './explain.mjs';
import { reportText } from './report.mjs';
import { statusLine } from './status_line.mjs';
import { WordsFault, readWords, usage } from './words.mjs';

/** @param {string} line */
const report = line => fs.writeSync(2, Buffer.from(`explain: ${line.replace(/[\r\n]+/g, ' ')}\n`));

/**
 * Prints all of a text, also to a pipe that is full for a while.
 * @param {string} text
 */
function print(text) {
  const bytes = Buffer.from(text);
  for (let at = 0; at < bytes.length;) {
    try {
      at += fs.writeSync(1, bytes, at);
    } catch (error) {
      if (!(error instanceof Error) || !/EAGAIN/.test(error.message)) throw error;
    }
  }
}

/** @param {string} file */
function contents(file) {
  try {
    return fs.readFileSync(file);
  } catch (error) {
    throw new Refusal(`the module: ${error instanceof Error ? error.message : error}`);
  }
}

/**
 * Explains a module, and gives the status.
 * @param {import('./words.mjs').Words} words
 */
function explain(words) {
  const bytes = contents(words.file);
  // A name that begins with a hyphen would be a word of r3.
  const line = words.line ?? statusLine(path.resolve(words.file));
  if (line === null) {
    print('r3 takes this module\n');
    return 0;
  }
  const { paragraphs, disagrees } = finding(bytes, line);
  print(reportText(paragraphs));
  if (disagrees === null) return 0;
  report(`its own reading disagrees with the line: ${disagrees}`);
  return 1;
}

function main() {
  try {
    const words = readWords(process.argv.slice(2));
    if (!words.help) return explain(words);
    print(usage);
    return 0;
  } catch (error) {
    if (error instanceof WordsFault) {
      report(`${error.message}: explain --help prints the words`);
      return 2;
    }
    report(error instanceof Error ? (error instanceof Refusal ? error.message : error.stack ?? error.message) : String(error));
    return 1;
  }
}

process.exit(main());
