#!/usr/bin/env node
/**
 * The tests of `tools/capture`. The one word is the program r3. Prints a line for each group, and at the end how many
 * checks passed and failed; the status is 1 if any failed. A program with a C library is compiled by each clang that is
 * there and finds one for WASI.
 */
import fs from 'node:fs';
import path from 'node:path';
import { cases } from './capture_cases.mjs';
import { hostFunctionCases } from './capture_host_functions.mjs';
import { markCases } from './capture_marks.mjs';
import { refusals } from './capture_refusals.mjs';
import { Random } from './random.mjs';
import { randomModule } from './random_modules.mjs';
import { randomScript } from './random_scripts.mjs';
import { Runner, Tally, crossings, difference, root, scriptHost } from './running.mjs';
import { NO_EXPORTS } from './script_host.mjs';
import { wasiCases } from './capture_wasi_cases.mjs';

const ENDING = '.history.txt';
const RANDOM_MODULES = 20;

/** @typedef {import('./running.mjs').Check} Check */
/** @typedef {{ module: string, history: string, captured: import('./running.mjs').Answer, lines: string }} Run */

/**
 * The module of an example: a script with a longer name is another script for the module whose name it begins with.
 * @param {string} example
 */
function moduleOf(example) {
  for (let name = example; name !== ''; name = name.slice(0, Math.max(0, name.lastIndexOf('_')))) {
    const file = path.join(root, 'examples', `${name}.wasm`);
    if (fs.existsSync(file)) return file;
  }
  throw new Error(`${example} has no module`);
}

/**
 * For each example of one module alone with a history: the captured host that plays its script has this history.
 * @param {Runner} runner
 * @returns {Check[]}
 */
function examples(runner) {
  const folder = path.join(root, 'examples');
  const all = fs.readdirSync(folder).filter(file => file.endsWith(ENDING)).map(file => file.slice(0, -ENDING.length));
  /** @type {(name: string) => string[]} */
  const besides = name => ['decls.json', 'left.wasm'].map(ending => path.join(folder, `${name}.${ending}`));
  const names = all.filter(name => !besides(name).some(file => fs.existsSync(file)));
  return names.map(name => [name, () => {
    const module = moduleOf(name);
    const captured = runner.capture([module, scriptHost, path.join(folder, `${name}.json`)]);
    const expected = fs.readFileSync(path.join(folder, name + ENDING), 'utf8');
    return difference(runner.historyOfCaptured(module, captured), expected);
  }]);
}

/**
 * A line without the bits of its NaNs, which JavaScript may change on the way to a host.
 * @param {string} line
 */
function withoutNans(line) {
  return line
    .replace(/f32:[7f]f(?!800000)[89a-f]\w{5}/g, 'f32:nan')
    .replace(/f64:[7f]ff(?!0{13})\w{13}/g, 'f64:nan');
}

/**
 * A random module and host, or null where the host cannot do what the script says, or a host in JavaScript cannot: call
 * exports while the start function runs, or answer imports of equal names in ways that differ by what was there before.
 * @param {Runner} runner
 * @param {number} seed
 * @returns {Run | null}
 */
function randomRun(runner, seed) {
  const random = new Random(seed);
  const module = randomModule(random);
  const files = [runner.file('wasm', module.bytes), runner.file('json', randomScript(random, module))];
  const lines = runner.file('lines', '');
  const played = runner.history(files[0], files[1], '20000');
  if (played.status !== 0) return null;
  const captured = runner.capture([files[0], scriptHost, files[1], lines]);
  if (captured.errors.includes(NO_EXPORTS) || captured.errors.includes('are both imported as')) return null;
  return { module: files[0], history: played.output.toString(), captured, lines };
}

/**
 * What is wrong with what was captured of a random host: its history, or the calls and returns that the host saw.
 * @param {Runner} runner
 * @param {Run} run
 */
function randomFault(runner, { module, history, captured, lines }) {
  const fault = difference(runner.historyOfCaptured(module, captured), history);
  const seen = fs.readFileSync(lines, 'utf8').split('\n').slice(0, -1);
  return fault ?? difference(seen.map(withoutNans).join('\n'), crossings(history).map(withoutNans).join('\n'));
}

/** @param {Runner} runner */
function randomModules(runner) {
  /** @type {Check[]} */
  const checks = [];
  for (let seed = 1; checks.length < RANDOM_MODULES; seed++) {
    const run = randomRun(runner, seed);
    if (run !== null) checks.push([`seed ${seed}`, () => randomFault(runner, run)]);
  }
  return checks;
}

/**
 * Each run that cannot be written gives its line, the status 1, and nothing on standard output.
 * @param {Runner} runner
 * @returns {Check[]}
 */
function refused(runner) {
  return refusals.map(([name, module, host, line]) => [name, () => {
    const { status, output, errors } = runner.capture([runner.file('wasm', module), runner.file('mjs', host)]);
    const said = errors.replace(/^capture: /, '').replace(/\n$/, '');
    if (status !== 1 || output.length > 0) return `status ${status}, ${output.length} bytes printed: ${said}`;
    return (line instanceof RegExp ? line.test(said) : line === said) ? null : `says ${JSON.stringify(said)}`;
  }]);
}

/** @param {(string | undefined)[]} words */
function main([program]) {
  if (program === undefined) {
    console.error('usage: tools/gate/checks/capture.mjs PROGRAM');
    return 2;
  }
  const runner = new Runner(path.resolve(program));
  const tally = new Tally();
  tally.group('examples, each played and captured', examples(runner));
  tally.group('random modules with random hosts', randomModules(runner));
  tally.group('what no script can say is refused', refused(runner));
  tally.group('what a host does', cases(runner));
  tally.group("functions of the host's own in the table", hostFunctionCases(runner));
  tally.group('what a module writes', markCases());
  tally.group('programs for WASI', wasiCases(runner));
  runner.remove();
  console.log(`${tally.passed} passed, ${tally.failed} failed`);
  return tally.failed === 0 ? 0 : 1;
}

process.exit(main(process.argv.slice(2)));
