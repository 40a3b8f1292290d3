/**
 * The numbers of `profile` are those of r3: turns by function and by path are the lines of a history, and all turns of
 * a module and a script are the least budget of `make`.
 */
import fs from 'node:fs';
import path from 'node:path';
import { Random } from './random.mjs';
import { randomModule } from './random_modules.mjs';
import { randomScript } from './random_scripts.mjs';
import { difference, root } from './running.mjs';
import { KIND } from '../../use/wasm/index.mjs';
import { moduleOf, replayOf } from '../../use/profile_parts/replay_module.mjs';
import { countsOf } from '../../use/profile_parts/run.mjs';
import { ScriptActions } from '../../use/profile_parts/script_actions.mjs';

const ENDING = '.history.txt';
const BUDGET = '1000000';
const RANDOM_MODULES = Number(process.env.R3_PROFILE_MODULES ?? '300');
const BUDGET_SPENT = 12;

/** The entries of a history that are compared: words, by which the lines begin. */
const CROSSINGS = ['import-call', 'import-return', 'host-call', 'host-return'];

const still = { watch() {}, done() {} };

/** The turns of each function by a history: a line for each instruction. */
function turnsByHistory(lines) {
  const turns = new Map();
  for (const line of lines) {
    const [, func] = /^(?:step|trap) (\d+) /.exec(line) ?? [];
    if (func !== undefined) turns.set(Number(func), (turns.get(Number(func)) ?? 0) + 1);
  }
  return turns;
}

/** The turns of each call path by a history: functions by their numbers, imports among them. */
function pathsByHistory(lines) {
  const [turns, open] = [new Map(), []];
  for (const line of lines) {
    const [word, func] = line.split(' ');
    if (['host-call', 'import-call', 'enter'].includes(word)) open.push(func);
    else if (['host-return', 'import-return', 'exit'].includes(word)) open.pop();
    else if (word === 'step' || word === 'trap') turns.set(open.join(';'), (turns.get(open.join(';')) ?? 0) + 1);
  }
  return turns;
}

/** The same by a profile. */
function pathsOf(nodes, imports) {
  const texts = [''];
  const turns = new Map();
  for (let index = 1; index < nodes.length; index++) {
    const { parent, func, self } = nodes[index];
    texts.push(parent === 0 ? String(func) : `${texts[parent]};${func}`);
    if (func >= imports && self > 0) turns.set(texts[index], self);
  }
  return turns;
}

function turnsOf(nodes, imports) {
  const turns = new Map();
  for (const { func, self } of nodes) {
    if (func !== null && func >= imports && self > 0) turns.set(func, (turns.get(func) ?? 0) + self);
  }
  return turns;
}

const shown = turns => [...turns].map(([key, count]) => `${key}: ${count}`).sort().join('\n');

/** What of a profile differs from a history, or null. */
function historyFault(counts, imports, history) {
  const lines = history.trimEnd().split('\n');
  const crossings = CROSSINGS.map(word => lines.filter(line => line.startsWith(`${word} `)).length);
  const { calls, returns } = counts.border;
  const found = [calls.import, returns.import, calls.host, returns.host];
  const sum = counts.nodes.reduce((all, { self }) => all + self, 0);
  return difference(counts.outcome, lines.at(-1))
    ?? difference(shown(turnsOf(counts.nodes, imports)), shown(turnsByHistory(lines)))
    ?? difference(shown(pathsOf(counts.nodes, imports)), shown(pathsByHistory(lines)))
    ?? difference(found.join(), crossings.join())
    ?? (sum === counts.turns ? null : `the paths have ${sum} turns of ${counts.turns}`);
}

/** A run of a replay module, and of a module and its script where these are known. */
function counted(replayBytes, moduleBytes = null, script = null) {
  const replay = replayOf(replayBytes, 'the replay');
  if (moduleBytes === null) return { replay, counts: countsOf(replay, null, 'the replay', still) };
  const { imports, start, importedFunctions } = moduleOf(moduleBytes, 'the module');
  const functions = imports.filter(({ kind }) => kind === KIND.function);
  const actions = new ScriptActions(script, functions, start !== null && start >= importedFunctions);
  return { replay, counts: countsOf(replay, actions, 'the replay', still) };
}

/** Null if a number of turns is the least one for which r3 makes the replay of these files. */
function budgetFault(runner, files, turns) {
  const make = budget => runner.run(runner.program, ['make', ...files, String(budget)]).status;
  if (turns > 0 && make(turns) !== 0) return `${turns} turns are too few`;
  return turns > 1 && make(turns - 1) !== BUDGET_SPENT ? `${turns - 1} turns are enough` : null;
}

/** What of the profile of a module and a script differs from what r3 says of them, or null. */
function runFault(runner, files, history) {
  const [module, script] = files.map(file => fs.readFileSync(file));
  const made = runner.run(runner.program, ['make', ...files, BUDGET]);
  const { replay, counts } = counted(made.output, module, script.toString());
  return historyFault(counts, replay.imports, history) ?? budgetFault(runner, files, counts.turns);
}

const examples = path.join(root, 'examples');

/** The module of an example: a script with a longer name is another script for the module whose name it begins with. */
function moduleFile(example) {
  for (let name = example; name !== ''; name = name.slice(0, Math.max(0, name.lastIndexOf('_')))) {
    const file = path.join(examples, `${name}.wasm`);
    if (fs.existsSync(file)) return file;
  }
  return null;
}

/** How the replay of an example is made that has more files than a module and a script. */
function otherFiles(name) {
  const file = ending => path.join(examples, `${name}.${ending}`);
  if (fs.existsSync(file('decls.json'))) return ['foreign', file('wasm'), file('decls.json'), file('json')];
  if (fs.existsSync(file('left.wasm'))) return ['pair', file('left.wasm'), file('right.wasm'), file('json')];
  return null;
}

/** Each example with a history, against that. */
export function exampleCases(runner) {
  const files = fs.readdirSync(examples).filter(file => file.endsWith(ENDING));
  return files.map(file => file.slice(0, -ENDING.length)).map(name => [name, () => {
    const history = fs.readFileSync(path.join(examples, name + ENDING), 'utf8');
    const words = otherFiles(name);
    if (words === null) return runFault(runner, [moduleFile(name), path.join(examples, `${name}.json`)], history);
    const { replay, counts } = counted(runner.run(runner.program, [...words, BUDGET]).output);
    return historyFault(counts, replay.imports, history);
  }]);
}

/** Each program of bench/: its turns in programs.json, which `bench/run` compares with the budget, and its weight. */
export function benchCases() {
  const folder = path.join(root, 'bench');
  const programs = JSON.parse(fs.readFileSync(path.join(folder, 'programs.json'), 'utf8'));
  const readme = fs.readFileSync(path.join(folder, 'README.md'), 'utf8');
  return programs.map(({ name, turns }) => [name, () => {
    const [replay, module, script] = ['replay.wasm', 'wasm', 'json']
      .map(ending => fs.readFileSync(path.join(folder, `${name}.${ending}`)));
    const { counts } = counted(replay, module, script.toString());
    const row = readme.split('\n').find(line => line.startsWith(`| \`${name}\` | `) && line.split('|').length > 10);
    const cells = row.split('|').map(cell => cell.trim());
    const found = [counts.outcome, counts.turns, counts.border.calls.import, counts.weights.total()].join(' ');
    return difference(found, ['ended', turns, cells[7], cells[8]].join(' '));
  }]);
}

/** Random modules with random hosts, whose calls nest, and which trap. */
export function randomCases(runner) {
  const checks = [];
  for (let seed = 1; checks.length < RANDOM_MODULES; seed++) {
    const random = new Random(seed);
    const module = randomModule(random);
    const files = [runner.file('wasm', module.bytes), runner.file('json', randomScript(random, module))];
    const played = runner.history(...files, BUDGET);
    if (played.status === 0) checks.push([`seed ${seed}`, () => runFault(runner, files, played.output.toString())]);
  }
  return checks;
}
