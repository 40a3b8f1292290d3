/** Calls of the program r3. */
import fs from 'node:fs';
import { spawn, spawnSync } from 'node:child_process';

/** The statuses of r3 that a caller looks at. */
export const STATUS = { done: 0, tooLong: 4, unsupported: 7, turnsSpent: 12, tapeLimit: 18 };

const MOST_OUTPUT = 1 << 16;

/** @typedef {{ status: number, line: string }} Outcome the status, and the line of standard error */

/**
 * A call whose output goes to a file.
 * @param {string} r3
 * @param {string[]} words
 * @param {string} file
 * @returns {Outcome}
 */
export function outputTo(r3, words, file) {
  const output = fs.openSync(file, 'w');
  try {
    const { status, stderr, error } =
      spawnSync(r3, words, { stdio: ['ignore', output, 'pipe'], maxBuffer: MOST_OUTPUT });
    if (error !== undefined) throw error;
    return { status: status ?? -1, line: String(stderr).trim() };
  } finally {
    fs.closeSync(output);
  }
}

/**
 * Whether r3 takes a module as it is.
 * @param {string} r3
 * @param {string} file
 */
export const isTaken = (r3, file) => outputTo(r3, ['instrument', file], '/dev/null').status === STATUS.done;

/**
 * A call whose output is taken line by line. `take` says whether it wants more.
 * @param {string} r3
 * @param {string[]} words
 * @param {(line: string) => boolean} take
 * @returns {Promise<Outcome>}
 */
export async function outputLines(r3, words, take) {
  const child = spawn(r3, words, { stdio: ['ignore', 'pipe', 'pipe'] });
  let [left, line, wantsMore] = ['', '', true];
  child.stderr.setEncoding('utf8').on('data', (/** @type {string} */ text) => { line += text; });
  child.stdout.setEncoding('latin1').on('data', (/** @type {string} */ text) => {
    if (!wantsMore) return;
    const pieces = (left + text).split('\n');
    left = pieces.pop() ?? '';
    wantsMore = pieces.every(take);
    if (!wantsMore) child.kill();
  });
  const status = await new Promise((resolve, reject) => {
    child.on('error', reject);
    child.on('close', (/** @type {number | null} */ code) => resolve(code ?? -1));
  });
  return { status: wantsMore ? status : STATUS.done, line: line.trim() };
}
