/** The instances of a run, as their files have them, and which of them is taken. */
import fs from 'node:fs';
import path from 'node:path';

/** @typedef {import('./types.mjs').Instance} Instance */

/**
 * @param {string} file
 * @returns {any}
 */
const contents = file => (fs.existsSync(file) ? fs.readFileSync(file) : null);

/**
 * The instances of a run in the order of their numbers.
 * @param {string} folder of the run
 */
export function instancesOf(folder) {
  /** @type {Instance[]} */
  const found = [];
  for (const name of /** @type {string[]} */ (fs.readdirSync(folder)).filter(item => /^instance-\d+$/.test(item))) {
    const text = contents(path.join(folder, name, 'instance.json'));
    const record = contents(path.join(folder, name, 'record'));
    if (text !== null) found.push({ ...JSON.parse(text.toString()), record });
  }
  return found.sort((one, other) => one.number - other.number);
}

/**
 * The faults of ours that the program did not see.
 * @param {string} folder
 */
export function faultsOf(folder) {
  /** @type {string | null} */
  const text = contents(path.join(folder, 'faults.txt'))?.toString() ?? null;
  return text;
}
