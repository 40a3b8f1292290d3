/** The module, the script and the replay of a capture in a folder, and which limit of r3 they pass. */
import fs from 'node:fs';
import path from 'node:path';
import { STATUS, outputTo } from '../capture_parts/result.mjs';
import { OwnFault } from './own_fault.mjs';
import { MOST, program } from './r3_program.mjs';

/** @typedef {import('./types.mjs').Limit} Limit */
/** @typedef {import('../capture_parts/record/capture.mjs').Capture} Capture */

const PIECE = 1 << 20;

/**
 * Writes the pieces of a text. Gives the number of bytes.
 * @param {string} file
 * @param {Iterable<string>} pieces
 */
function writePieces(file, pieces) {
  const descriptor = fs.openSync(file, 'w');
  let [text, length] = ['', 0];
  const flush = () => {
    length += fs.writeSync(descriptor, text);
    text = '';
  };
  for (const piece of pieces) {
    text += piece;
    if (text.length > PIECE) flush();
  }
  flush();
  fs.closeSync(descriptor);
  return length;
}

const CURE = '--fit finds such a part by itself; --until N ends the record after N crossings';

/** @param {number | null} length null where it was not written @returns {Limit} */
const scriptLimit = length => ({
  passed: 'script', text: `the script has ${length ?? 'far too many'} bytes, and r3 reads ${MOST.script}; ${CURE}`,
});
/** @param {string} line @returns {Limit} */
const weightLimit = line => ({
  passed: 'weight',
  text: `${line}: what the run needs of its host weighs more than ${MOST.weight}; ${CURE}, and so does less input`,
});
/** @returns {Limit} */
const turnsLimit = () => ({
  passed: 'turns',
  text: `the run has more than ${MOST.turns} turns; ${CURE}; --under NAME keeps a part of the functions`,
});

/**
 * The words by which r3 makes the replay.
 * @param {string} folder
 * @param {Capture} made
 */
function makeWords(folder, made) {
  const file = (/** @type {string} */ name) => path.join(folder, name);
  const declared = made.declarations === null ? [] : ['decls.json'];
  const inputs = ['module.wasm', ...declared, 'script.json'].map(file);
  return [made.declarations === null ? 'make' : 'foreign', ...inputs, String(MOST.turns)];
}

/**
 * Makes the replay.
 * @param {string} folder
 * @param {Capture} made
 * @returns {Limit | null}
 */
function makeReplay(folder, made) {
  const file = path.join(folder, 'replay.wasm');
  const { status, line } = outputTo(program, makeWords(folder, made), file);
  if (status === STATUS.done) return null;
  fs.rmSync(file);
  if (status === STATUS.tapeLimit) return weightLimit(line);
  if (status === STATUS.turnsSpent) return turnsLimit();
  throw new OwnFault(`r3 refuses what was captured, with status ${status}: ${line}`);
}

/**
 * Writes what was made of a record to an empty folder.
 * @param {Capture} made
 * @param {string} folder
 * @param {boolean} isMaking whether the replay is made
 * @returns {import('./types.mjs').Packed}
 */
export function packed(made, folder, isMaking) {
  fs.rmSync(folder, { recursive: true, force: true });
  fs.mkdirSync(folder);
  fs.writeFileSync(path.join(folder, 'module.wasm'), made.module);
  if (made.declarations !== null) fs.writeFileSync(path.join(folder, 'decls.json'), made.declarations);
  const length = made.script === null ? null : writePieces(path.join(folder, 'script.json'), made.script.pieces());
  if (length === null || length > MOST.script) return { folder, limit: scriptLimit(length), hasReplay: false };
  const limit = isMaking ? makeReplay(folder, made) : null;
  return { folder, limit, hasReplay: isMaking && limit === null };
}
