/** What `profile` prints in its formats, and the lines by which it refuses. */
import { spawnSync } from 'node:child_process';
import fs from 'node:fs';
import path from 'node:path';
import { root } from './running.mjs';
import { bodyOf, readInstruction, readModule } from '../../use/wasm/index.mjs';

const example = name => path.join(root, 'examples', name);
const bench = name => path.join(root, 'bench', name);
const MATCHER = [bench('matcher.wasm'), bench('matcher.json')];
const MATCHER_TURNS = 4855757;
const I32_CONST = 0x41;

/** Runs `profile` with these words. */
export function profile(runner, words, options = {}) {
  const environment = { ...process.env, R3_PROGRAM: runner.program };
  return runner.run(path.join(root, 'tools', 'use', 'profile'), words, { env: environment, ...options });
}

/** What a call prints, which must end well. */
function printed(runner, words) {
  const { status, output, errors } = profile(runner, words);
  if (status !== 0 || errors !== '') throw new Error(`status ${status}: ${errors}`);
  return output.toString();
}

function folded(runner) {
  const lines = printed(runner, ['--folded', ...MATCHER]).trimEnd().split('\n');
  const wrong = lines.find(line => !/^[^;]+(;[^;]+)* [1-9]\d*$/.test(line));
  if (wrong !== undefined) return `the line ${wrong}`;
  if (new Set(lines.map(line => line.replace(/ \d+$/, ''))).size !== lines.length) return 'a path has two lines';
  const turns = lines.reduce((sum, line) => sum + Number(line.split(' ').at(-1)), 0);
  return turns === MATCHER_TURNS ? null : `${turns} turns`;
}

/** The events of a trace are nested: each one ends before those that it is within. */
function trace(runner) {
  const { traceEvents } = JSON.parse(printed(runner, ['--trace', ...MATCHER]));
  const events = traceEvents.filter(({ ph }) => ph === 'X');
  const open = [];
  let at = 0;
  for (const { ts, dur } of events) {
    while (open.length > 0 && open.at(-1) < ts + dur) open.pop();
    if (ts < at || (open.length === 0 && ts > 0)) return `an event at ${ts}`;
    open.push(ts + dur);
    at = ts;
  }
  return events.length === 1 + 829 + 441 && events[0].dur === MATCHER_TURNS ? null : `${events.length} events`;
}

function json(runner) {
  const found = JSON.parse(printed(runner, ['--json', ...MATCHER]));
  const sum = (list, key) => list.reduce((all, item) => all + item[key], 0);
  const hosts = [found.host, ...found.imports];
  const turns = [found.turns, sum(found.paths, 'self'), found.instructions + found.actions,
    sum(found.functions, 'self') + found.actions];
  const weights = [found.weight, sum(hosts, 'weight'), sum(found.memory.pages, 'bytes')];
  const numbers = [...turns, ...weights, sum(found.imports, 'calls')];
  const expected = [...turns.map(() => MATCHER_TURNS), 7737, 7737, sum(hosts, 'bytes'), 829];
  return numbers.join() === expected.join() ? null : `${numbers.join()}, and not ${expected.join()}`;
}

/** Of a replay module alone the turns are instructions and calls by the host, and the table says so. */
function replayAlone(runner) {
  const lines = printed(runner, [bench('matcher.replay.wasm')]).split('\n');
  if (!lines[0].endsWith(': 4,855,308 instructions and 441 calls by the host; the run ended')) return lines[0];
  return lines[1] === 'other actions of the host are not counted: a replay module does not have them' ? null : lines[1];
}

/** A page is written as a whole, with nothing beside it. */
function pageFile(runner) {
  const folder = fs.mkdtempSync(path.join(runner.folder, 'page'));
  const file = path.join(folder, 'page.html');
  if (printed(runner, ['--html', file, ...MATCHER]) !== '') return 'something is printed';
  const text = fs.readFileSync(file, 'utf8');
  if (fs.readdirSync(folder).join() !== 'page.html') return `the folder has ${fs.readdirSync(folder)}`;
  const outside = text.replace(/<script type="application\/json".*<\/script>/, '').match(/https?:|src=|@import|url\(/);
  return outside === null && text.endsWith('</html>\n') ? null : `the page has ${outside}`;
}

/** Without standard output nothing is said but one line, and a file that cannot be written leaves none behind. */
function failedOutputs(runner) {
  const full = fs.openSync('/dev/full', 'w');
  const { status, errors } = profile(runner, ['--json', ...MATCHER], { stdio: ['ignore', full, 'pipe'] });
  fs.closeSync(full);
  if (status !== 1 || !/^profile: the output: .*\n$/.test(errors)) return `status ${status}: ${errors}`;
  const missing = profile(runner, ['--html', path.join(runner.folder, 'no such folder', 'x.html'), ...MATCHER]);
  const isRefused = missing.status === 1 && /^profile: .*\n$/.test(missing.errors);
  return isRefused ? null : `status ${missing.status}: ${missing.errors}`;
}

const NOT_ITS_WORDS = 'these are not its words: ./r3 profile --help lists them';

/** A module of two functions with a layout, whose functions are not those of a replay module. */
const withLayout = () => Buffer.concat([fs.readFileSync(example('two_answers.wasm')),
  Buffer.from([0, 12, 9, ...Buffer.from('r3.layout'), 1, 1])]);

/** Rows of words, a status, and the line. */
const rows = runner => [
  ['no words', [], 2, NOT_ITS_WORDS],
  ['three files', ['a', 'b', 'c'], 2, NOT_ITS_WORDS],
  ['an unknown word', ['--fast', 'a'], 2, NOT_ITS_WORDS],
  ['two formats', ['--json', '--trace', 'a'], 2, NOT_ITS_WORDS],
  ['a word without its file', ['a', '--html'], 2, NOT_ITS_WORDS],
  ['no such file', ['nothing.wasm'], 1, /^nothing\.wasm: ENOENT/],
  ['no module', [runner.file('wasm', 'no module')], 1, /: expected magic word/],
  ['a module that is no replay', [example('two_answers.wasm')], 1,
    /: no replay module that r3 made: it has no section r3\.layout$/],
  ['a replay that another tool made', [example('replay_two_answers.wasm')], 1, /: no replay module that r3 made: /],
  ['a module with a layout that is no replay', [runner.file('wasm', withLayout())], 1,
    /: no replay module that r3 made: its functions are not those that r3 writes$/],
  ['a module that r3 refuses', [example('float_body.wasm'), example('float_body.json')], 1,
    /^r3 make: unsupported: function \d+ instruction \d+ float/],
  ['a script with a fault', [example('two_answers.wasm'), runner.file('json', '{"jump":1}')], 1,
    /^r3 make: script: shape/],
  ['names of another module', ['--names', bench('sort.wasm'), bench('matcher.replay.wasm')], 1,
    /: its functions are not those of the replay: it has 3 imported and 4 defined functions/],
];

const refused = (runner, words, status, line) => () => {
  const { status: found, output, errors } = profile(runner, words);
  const said = /^profile: (.*)\n$/.exec(errors)?.[1];
  if (found !== status || output.length > 0 || said === undefined) {
    return `status ${found}, ${output.length} bytes printed: ${errors}`;
  }
  return (line instanceof RegExp ? line.test(said) : line === said) ? null : `says ${JSON.stringify(said)}`;
};

/** A module in which one constant of a function is another one. */
function otherConstant(file) {
  const bytes = Buffer.from(fs.readFileSync(file));
  const m = readModule(bytes);
  for (let index = m.importedFunctions; index < m.functions.length; index++) {
    const { reader } = bodyOf(m, index);
    for (let begin = reader.at; !reader.isAtEnd; begin = reader.at) {
      const { op, value } = readInstruction(reader);
      if (op !== I32_CONST || value < 1 || value > 63) continue;
      bytes[begin + 1]--;
      return bytes;
    }
  }
  throw new Error(`${file} has no such constant`);
}

/** Names are refused if one function of the module is another one. */
function otherFunction(runner) {
  const words = ['--names', runner.file('wasm', otherConstant(bench('matcher.wasm'))), bench('matcher.replay.wasm')];
  const line = /: its functions are not those of the replay: function \d+ is another one$/;
  const fault = refused(runner, words, 1, line)();
  const same = printed(runner, ['--names', bench('matcher.wasm'), '--folded', bench('matcher.replay.wasm')]);
  return fault ?? (same.includes('env.test') ? null : 'no names');
}

/** Where Node.js is missing or old, one line says what to install. */
function otherNode(runner) {
  const folder = fs.mkdtempSync(path.join(runner.folder, 'node'));
  const script = path.join(root, 'tools', 'use', 'profile');
  for (const tool of ['bash', 'dirname', 'readlink']) {
    fs.symlinkSync(spawnSync('sh', ['-c', `command -v ${tool}`]).stdout.toString().trim(), path.join(folder, tool));
  }
  const call = () => runner.run(script, ['--help'], { env: { PATH: folder } });
  const isOneLine = ({ status, output, errors }) => status === 1 && output.length === 0
    && /^profile: Node\.js 20 or later is needed: .*\n$/.test(errors);
  const missing = call();
  if (!isOneLine(missing)) return `without Node.js: status ${missing.status}: ${missing.errors}`;
  fs.writeFileSync(path.join(folder, 'node'), '#!/bin/sh\necho v18.20.4\n', { mode: 0o755 });
  const old = call();
  return isOneLine(old) ? null : `with an old Node.js: status ${old.status}: ${old.errors}`;
}

export const formatCases = runner => [
  ['folded stacks', () => folded(runner)], ['a trace', () => trace(runner)], ['all numbers', () => json(runner)],
  ['a replay module alone', () => replayAlone(runner)], ['a page', () => pageFile(runner)],
  ['outputs that fail', () => failedOutputs(runner)],
  ['--help', () => (printed(runner, ['--help']).startsWith('usage: ./r3 profile ') ? null : 'another text')],
];

export const refusalCases = runner => [
  ...rows(runner).map(([what, words, status, line]) => [what, refused(runner, words, status, line)]),
  ['names of a module with another function', () => otherFunction(runner)],
  ['another Node.js', () => otherNode(runner)],
];
