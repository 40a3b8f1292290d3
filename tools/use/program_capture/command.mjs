/** `capture -o FOLDER`: runs a program, and writes a module, a script, their replay and a report. */
import fs from 'node:fs';
import path from 'node:path';
import { Refusal, refuse } from '../capture_parts/refusal.mjs';
import { WordsFault } from '../capture_parts/words.mjs';
import { browserFile } from './devtools.mjs';
import { captureFiles } from './capture_files.mjs';
import { OutputFolder } from './output_folder.mjs';
import { OwnFault } from './own_fault.mjs';
import { Rounds, roundOfLog } from './rounds.mjs';
import { OUTPUT } from './standard_streams.mjs';
import { isAddress, readProgramWords, usage } from './words.mjs';

/** @typedef {import('./types.mjs').Words} Words */
/** @typedef {import('./types.mjs').Round} Round */
/** @typedef {import('./report.mjs').Report} Report */
/** @typedef {(line: string) => void} Say prints a line of ours */

const OLDEST = 20;

/** The file of the log's folder that has the words of the command. */
const WORDS = 'words.json';

function refuseOldNode() {
  if (Number(process.versions.node.split('.')[0]) >= OLDEST) return;
  const why = `Node.js ${OLDEST} or later is needed with -o, this is ${process.version}`;
  refuse(`${why}; docs/GUIDE.md says how it is installed`);
}

/**
 * Refuses a file that cannot be read.
 * @param {string} file
 */
function refuseUnread(file) {
  try {
    fs.closeSync(fs.openSync(file, 'r'));
  } catch (error) {
    refuse(/** @type {Error} */ (error).message);
  }
  if (!fs.statSync(file).isFile()) refuse(`${file} is no file`);
}

/**
 * Refuses files that are not there, and a module that the engine does not take.
 * @param {Words} words
 */
async function refuseFaults({ kind, program, words, host, relative, browser }) {
  if (relative) refuse('--relative is for the form without -o: with -o the script is for its module alone');
  if (kind === 'page') {
    if (words.length > 0) refuse('a page takes no words');
    if (!isAddress(program)) refuseUnread(program);
    browserFile(browser);
    return;
  }
  if (host !== null) refuseUnread(host);
  refuseUnread(program);
  if (kind === 'node') return;
  await WebAssembly.compile(fs.readFileSync(program)).catch(error => refuse(`the module ${program}: ${error.message}`));
}

/**
 * What a captured folder has, in a line.
 * @param {string} folder
 * @param {Report} report
 */
function summary(folder, { sizes, comparison, limit }) {
  const files = [['module', 'module.wasm'], ['script', 'script.json'], ['replay', 'replay.wasm']];
  const listed = files.filter(([, name]) => name in sizes).map(([what, name]) => `a ${what} of ${sizes[name]} bytes`);
  const seen = comparison === null ? '' : `; r3 does exactly what was seen, compared by ${comparison.by}`;
  return `${folder}: ${listed.join(', ')}${seen}${limit === null ? '' : `; ${limit}`}`;
}

/**
 * Says how the program ended, if it did not end well.
 * @param {Round} round
 * @param {Say} say
 */
function sayEnding({ ending: { status, signal }, faults }, say) {
  if (signal !== null) say(`the program was ended by ${signal}`);
  else if (status !== null && status !== 0) say(`the program ended with status ${status}`);
  if (faults !== null) say(`an error of capture that the program did not see: ${faults.split('\n', 1)[0]}`);
}

/**
 * Writes what a run gives, and says what it is. Gives whether it is within r3's limits.
 * @param {Words} words
 * @param {OutputFolder} folder
 * @param {Round} round
 * @param {Say} say
 */
async function write(words, folder, round, say) {
  /** @type {[string, Report][]} */
  const reports = [];
  const beside = folder.beside();
  for (const item of round.chosen) {
    const inner = words.all ? `/instance-${item.instance.number}` : '';
    fs.mkdirSync(beside + inner, { recursive: true });
    const report = await captureFiles(words, round, item, { log: folder.log, to: beside + inner });
    reports.push([`${folder.name}${inner}`, report]);
  }
  if (words.all) {
    fs.copyFileSync(`${beside}/instance-${round.chosen[0].instance.number}/report.json`, `${beside}/report.json`);
  }
  folder.commit();
  sayEnding(round, say);
  for (const [inner, report] of reports) say(summary(inner, report));
  return reports.every(([, { limit }]) => limit === null);
}

/**
 * Captures into a folder. The log stays where it may be asked for again.
 * @param {Words} words
 * @param {OutputFolder} folder
 * @param {() => Promise<Round>} rounds
 * @param {Say} say
 */
async function capture(words, folder, rounds, say) {
  let keepsLog = true;
  try {
    keepsLog = !await write(words, folder, await rounds(), say);
    if (keepsLog) say(`the log is in ${folder.log}: --from-log takes it with --until N or --fit`);
  } catch (error) {
    if (error instanceof Refusal && words.fromLog === null) keepsLog = false;
    if (!(error instanceof OwnFault)) throw error;
    throw new Refusal(`a fault of capture itself: ${error.message}; the log is in ${folder.log}`);
  } finally {
    folder.leave(keepsLog);
  }
}

/**
 * Makes a capture of what a run has left behind.
 * @param {Words} words
 * @param {string} name
 * @param {Say} say
 */
function fromLog(words, name, say) {
  const given = path.resolve(name);
  const log = fs.existsSync(path.join(given, WORDS)) ? given : `${given}.log`;
  let first;
  try {
    first = JSON.parse(fs.readFileSync(path.join(log, WORDS), 'utf8'));
  } catch {
    refuse(`${name} is no log of a capture`);
  }
  const { until, fit, make } = words;
  const output = words.output ?? log.replace(/\.log$/, '');
  const all = { ...first, output, fromLog: log, until: until ?? first.until, fit, make };
  const folder = new OutputFolder(output);
  folder.log = log;
  return capture(all, folder, async () => roundOfLog(all, log), say);
}

/**
 * @param {string[]} given the words of the command
 * @param {Say} say
 * @returns {Promise<number>} the status
 */
export async function captureProgram(given, say) {
  const words = readProgramWords(given);
  if (words.help) {
    fs.writeSync(OUTPUT, usage);
    return 0;
  }
  refuseOldNode();
  if (words.fromLog !== null) {
    if (words.program !== '') throw new WordsFault();
    await fromLog(words, words.fromLog, say);
    return 0;
  }
  await refuseFaults(words);
  const folder = new OutputFolder(words.output ?? '');
  folder.begin();
  fs.writeFileSync(path.join(folder.log, WORDS), JSON.stringify(words));
  await capture(words, folder, () => new Rounds(words, folder.log, say).run(), say);
  return 0;
}
