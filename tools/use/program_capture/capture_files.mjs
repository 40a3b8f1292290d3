/** Writes the files of one capture, with a report, after r3's run was compared with what was seen. */
import fs from 'node:fs';
import path from 'node:path';
import { checkBodies, compared } from '../capture_parts/result.mjs';
import { OwnFault } from './own_fault.mjs';
import { packed } from './packed.mjs';
import { program } from './r3_program.mjs';
import { reportOf } from './report.mjs';
import { reportText } from './report_text.mjs';

/** @typedef {import('./types.mjs').Packed} Packed */
/** @typedef {import('../capture_parts/record/capture.mjs').Capture} Capture */

/**
 * The bodies of K are those of M, by a check that shares no code with the split.
 * @param {Capture} made
 */
function checkModule(made) {
  const fault = checkBodies(made);
  if (fault !== null) throw new OwnFault(`module.wasm has not the program's instructions: ${fault}`);
}

/**
 * r3's run against what was seen, or null if there is no replay.
 * @param {Capture} made
 * @param {Packed} pack
 */
async function comparison(made, { folder, hasReplay }) {
  if (!hasReplay) return null;
  const file = (/** @type {string} */ name) => path.join(folder, name);
  const declarations = made.declarations === null ? null : file('decls.json');
  const files = { module: file('module.wasm'), declarations, script: file('script.json'), replay: file('replay.wasm') };
  const found = await compared(program, files, made);
  if (found.difference !== null) throw new OwnFault(`r3 does not do what was seen: ${found.difference}`);
  return found;
}

/**
 * The sizes of the files of a folder.
 * @param {string} folder
 * @returns {Record<string, number>}
 */
function sizes(folder) {
  const names = /** @type {string[]} */ (fs.readdirSync(folder));
  return Object.fromEntries(names.map(name => [name, fs.statSync(path.join(folder, name)).size]));
}

/**
 * A report as JSON, a line for each of its parts.
 * @param {object} report
 */
function lines(report) {
  const parts = Object.entries(report).map(([name, part]) => `${JSON.stringify(name)}: ${JSON.stringify(part)}`);
  return `{\n${parts.join(',\n')}\n}\n`;
}

/**
 * Writes the files of an instance that is taken, and gives the report.
 * @param {import('./types.mjs').Words} words
 * @param {import('./types.mjs').Round} round
 * @param {import('./chosen.mjs').Chosen} item
 * @param {{log: string, to: string}} folders
 */
export async function captureFiles(words, round, item, { log, to }) {
  const { made } = item;
  if (made.report.fault !== null) throw new OwnFault(`the recording ended early: ${made.report.fault}`);
  checkModule(made);
  const pack = item.packed ?? packed(made, path.join(log, `packed-${item.instance.number}`), words.make);
  const compare = await comparison(made, pack);
  for (const name of fs.readdirSync(pack.folder)) fs.renameSync(path.join(pack.folder, name), path.join(to, name));
  const put = (/** @type {string} */ name, /** @type {string | Uint8Array} */ contents) =>
    fs.writeFileSync(path.join(to, name), contents);
  if (round.ending.picture !== null) put('page.png', round.ending.picture);
  const report = reportOf(words, round, item, { files: sizes(to), limit: pack.limit, comparison: compare });
  put('report.json', lines(report));
  put('report.txt', reportText(report));
  return report;
}
