/**
 * Functions of the host's own in the table, captured with `--decls`: the scripts and declarations, written by hand but
 * for those of examples/callback; and their histories, as r3 has them, if there is one of that example.
 */
import fs from 'node:fs';
import path from 'node:path';
import { constant, moduleBytes } from './module_bytes.mjs';
import { crossings, difference, root, scriptHost } from './running.mjs';

/** @typedef {import('./running.mjs').Runner} Runner */
/** @typedef {import('./running.mjs').Check} Check */
/** @typedef {import('./running.mjs').Answer} Answer */
/** @typedef {import('./module_bytes.mjs').Parts} Parts */
/** @typedef {import('./module_bytes.mjs').ValueType} ValueType */
/** @typedef {NonNullable<Parts['types']>[number]} Type */
/** @typedef {Parts & { imported?: any[] }} More */

const example = (/** @type {string} */ ending) => path.join(root, 'examples', `callback.${ending}`);
const HISTORY = example('history.txt');

/**
 * A module with a table that exports `g`, which calls entry 1 with these values by `type`.
 * @type {(type: Type, values: [ValueType, number | bigint][], more?: More) => Uint8Array}
 */
const calling = (type, values, { imported = [], ...more } = {}) => {
  const drop = type.results.map(() => 0x1a);
  const body = [...values.flatMap(([of, value]) => constant(of, value)), ...constant('i32', 1), 0x11, 0, 0, ...drop];
  const tables = imported.length > 0 ? {} : { table: { min: 2 } };
  return moduleBytes({
    types: [type, { params: [], results: [] }],
    imports: imported,
    functions: [{ type: 1, locals: [], body }],
    memory: { min: 1 },
    exports: [{ name: 'g', kind: 'function', index: 0 }, { name: 'm', kind: 'memory', index: 0 },
      { name: 't', kind: 'table', index: 0 }],
    ...tables,
    ...more,
  });
};
/** @type {(type: Type, func: string, main: string, imports?: string) => string} */
const host = (type, func, main, imports = '{}') => `export function host(context) {
  const bytes = () => new Uint8Array(context.instance.exports.m.buffer);
  const made = context.hostFunction('cb', ${JSON.stringify(type)}, ${func});
  return { imports: ${imports}, main(exports) { ${main} } };
}\n`;
/** @type {(calls: string[], main: string[], before?: string) => string} */
const script = (calls, main, before = '') =>
  `{${before}"imports":{"foreign":{"cb":{"calls":[${calls.map(call => `\n${call}`).join(',')}]}}},\n`
  + `"main":[${main.map(action => `\n${action}`).join(',')}]}\n`;
const declared = (/** @type {Type} */ type) => `[\n${JSON.stringify({ name: 'cb', ...type })}]\n`;

/** @type {Type} */
const ALL = { params: ['i32', 'i64', 'f32', 'f64'], results: ['f64'] };
/** @type {[ValueType, number | bigint][]} */
const NUMBERS = [['i32', -3], ['i64', -4n], ['f32', 0x3fc00000], ['f64', 0x4004000000000000n]];
/** @type {Type} */
const EMPTY = { params: [], results: [] };
/** @type {Type} */
const ADDRESS = { params: ['i32'], results: [] };
const PUT = '{"set_table":1,"func":"cb"}';
const CALL = '{"call":"g"}';
const TABLE = [{ module: 'h', name: 't', kind: 'table', min: 2 }];
const FILLED = `{ h: { t: (() => {
  const table = new WebAssembly.Table({ element: 'anyfunc', initial: 3 }); table.set(1, made); return table; })() } }`;

/**
 * Each with its module, its host, what is captured, and more words of the command.
 * @type {[name: string, module: Uint8Array, type: Type, host: string, expected: string, words?: string[]][]}
 */
const runs = [
  ['values of all types', calling(ALL, NUMBERS), ALL,
    host(ALL, '(...values) => { if (values.join() !== "-3,-4,1.5,2.5") throw values; return 1.5; }',
      'exports.t.set(1, made); exports.g();'), script(['{"return":{"f64":4609434218613702656}}'], [PUT, CALL])],
  ['one that the host calls itself', calling(EMPTY, []), EMPTY,
    host(EMPTY, '() => { bytes()[n] = ++n; }', 'exports.t.set(1, made); exports.t.get(1)(); made(); exports.g();')
      .replace('const bytes', 'let n = 0; const bytes'),
    script(['{"do":[{"write":2,"bytes":"03"}]}'], ['{"write":0,"bytes":"0102"}', PUT, CALL])],
  ['one that traps', calling(EMPTY, []), EMPTY,
    host(EMPTY, '() => { throw new Error("no"); }', 'exports.t.set(1, made); exports.g();'),
    script(['{"trap":true}'], [PUT, CALL])],
  ['one that calls back, and is called again', calling(EMPTY, []), EMPTY,
    host(EMPTY, '() => { if (n++ < 1) context.instance.exports.g(); }', 'exports.t.set(1, made); exports.g();')
      .replace('const bytes', 'let n = 0; const bytes'), script([`{"do":[${CALL}]}`, '{}'], [PUT, CALL])],
  ['addresses from its arguments', calling(ADDRESS, [['i32', 2000]]), ADDRESS,
    host(ADDRESS, 'at => { bytes()[at + 4] = 5; }', 'exports.t.set(1, made); exports.g();'),
    script(['{"do":[{"write":{"arg":0,"plus":4},"bytes":"05"}]}'], [PUT, CALL]), ['--relative']],
  ['one that is taken out', calling(EMPTY, []), EMPTY,
    host(EMPTY, '() => { context.instance.exports.t.set(1, null); }', 'exports.t.set(1, made); exports.g();'),
    script(['{"do":[{"set_table":1,"func":null}]}'], [PUT, CALL])],
  ['one in a supplied table', calling(EMPTY, [], { imported: TABLE }), EMPTY,
    host(EMPTY, '() => {}', 'exports.g();', FILLED), script(['{}'], [PUT, CALL], '"table":{"size":3},\n')],
  ['one that a segment replaces', calling(EMPTY, [], { imported: TABLE, elements: [{ offset: 1, functions: [0] }] }),
    EMPTY, host(EMPTY, '() => {}', 'exports.t.set(0, made);', FILLED),
    '{"table":{"size":3},\n"main":[\n{"set_table":0,"func":"cb"}]}\n'],
  ['one that is in no table', calling(EMPTY, []), EMPTY, host(EMPTY, '() => {}', 'made();'), '{"main":[]}\n'],
];

/** @typedef {Answer & { file: string, declarations: string | null }} Captured */

/**
 * Captures with `--decls`, and gives also the declarations, or null where none were written.
 * @param {Runner} runner
 * @param {string[]} words
 * @returns {Captured}
 */
function captured(runner, words) {
  const file = path.join(runner.folder, `${runner.files++}.decls.json`);
  const run = runner.capture(['--decls', file, ...words]);
  return { ...run, file, declarations: fs.existsSync(file) ? fs.readFileSync(file, 'utf8') : null };
}

/**
 * @param {Captured} captured
 * @param {string} expected
 * @param {string} expectedDeclarations
 */
function fault({ status, output, errors, declarations }, expected, expectedDeclarations) {
  if (status !== 0) return errors;
  return difference(output.toString(), expected) ?? difference(declarations, expectedDeclarations);
}

/** @type {(runner: Runner) => Check[]} */
const scriptChecks = runner => runs.map(([name, module, type, text, expected, words = []]) => [name, () => {
  const run = captured(runner, [...words, runner.file('wasm', module), runner.file('mjs', text)]);
  return fault(run, expected, declared(type));
}]);

/** @type {Type} */
const ADD = { params: [], results: ['i32'] };
const MADE = 'context.hostFunction("cb", { params: [], results: [] }, () => {});';
const OWN = "the host's function \"cb\": ";
const bare = (/** @type {More} */ more = {}) => calling(EMPTY, [], more);
/** @type {(call: string, main?: string) => string} */
const making = (call, main = '') => host(EMPTY, '() => {}', main).replace(/const made = .*/, `const made = ${call}`);
const TWICE = making(`${MADE} ${MADE}`);

/**
 * Each with the line that follows `capture: `.
 * @type {[name: string, module: Uint8Array, host: string, line: string][]}
 */
const refusals = [
  ['a name that an export has', bare(), making(MADE.replace('cb', 't')),
    'the host\'s function "t": an export or an earlier one of these functions has its name'],
  ['a name twice', bare(), TWICE, `${OWN}an export or an earlier one of these functions has its name`],
  ['a type that is none', bare(), making(MADE.replace('params: []', 'params: ["v128"]')),
    `${OWN}it has at most 1000 params and one of results, each i32, i64, f32 or f64`],
  ['two results', bare(), making(MADE.replace('results: []', 'results: ["i32", "i32"]')),
    `${OWN}it has at most 1000 params and one of results, each i32, i64, f32 or f64`],
  ['no function', bare(), making('context.hostFunction("cb", {});'), `${OWN}no function is given for it`],
  ['an import from the module of these functions',
    moduleBytes({ imports: [{ module: 'foreign', name: 'm', kind: 'memory', min: 1 }] }), making(MADE),
    "import 0 (foreign.m): the host's own functions have this module name"],
  ['a supplied table before the start function', bare({ imported: TABLE, start: 0 }),
    host(EMPTY, '() => {}', '', FILLED),
    "import 0 (h.t): entry 1 is a function of the host's own before the start function runs"],
  ['a function that is made within a call', calling(ADD, []),
    host(ADD, `() => { ${MADE} return 1; }`, 'exports.t.set(1, made); try { exports.g(); } catch {}'),
    `${OWN}an export or an earlier one of these functions has its name`],
];

/** @type {(runner: Runner) => Check[]} */
const refused = runner => [
  ...refusals.map(/** @returns {Check} */ ([name, module, text, line]) => [name, () => {
    const { status, output, errors, declarations } =
      captured(runner, [runner.file('wasm', module), runner.file('mjs', text)]);
    if (status !== 1 || output.length > 0 || declarations !== null) return `status ${status}: ${errors}`;
    return difference(errors, `capture: ${line}\n`);
  }]),
  ['without --decls', () => {
    const { status, errors } = runner.capture([example('wasm'), example('mjs')]);
    const line = 'capture: the host\'s function "visit": --decls FILE captures it\n';
    return status === 1 ? difference(errors, line) : errors;
  }],
  ['a place where no file can be', () => {
    const { status, output, errors } = runner.capture(['--decls', '/nowhere/x', example('wasm'), example('mjs')]);
    if (status !== 1 || output.length > 0) return `status ${status}: ${errors}`;
    return errors.startsWith('run gives 1274\ncapture: the declarations: ENOENT') ? null : errors;
  }],
];

/**
 * The example is captured from its host, and then from a host that does what the captured script says.
 * @type {(runner: Runner) => Check[]}
 */
const exampleChecks = runner => {
  const [script_, declarations] = ['json', 'decls.json'].map(ending => fs.readFileSync(example(ending), 'utf8'));
  return [
    ['examples/callback', () => fault(captured(runner, [example('wasm'), example('mjs')]), script_, declarations)],
    ['examples/callback, played and captured', () => {
      const played = [scriptHost, example('json'), runner.file('lines', ''), example('decls.json')];
      return fault(captured(runner, [example('wasm'), ...played]), script_, declarations);
    }],
  ];
};

/**
 * The history of a run with functions of the host's own, or what went wrong.
 * @param {Runner} runner
 * @param {string} module
 * @param {string} declarations
 * @param {string} played
 */
function foreignHistory(runner, module, declarations, played) {
  const words = ['foreign-history', module, declarations, played, '9999'];
  const { status, output, errors } = runner.run(runner.program, words);
  return status === 0 ? output.toString() : `status ${status}: ${errors}`;
}

/**
 * A run has the history of the example, and the calls and returns that a host in JavaScript has seen.
 * @param {Runner} runner
 * @returns {Check[]}
 */
function histories(runner) {
  if (!fs.existsSync(HISTORY)) return [];
  /** @type {(module: string, declarations: string, played: string) => string | null} */
  const seen = (module, declarations, played) => {
    const lines = runner.file('lines', '');
    const { status, errors } = captured(runner, [module, scriptHost, played, lines, declarations]);
    const history = foreignHistory(runner, module, declarations, played);
    const found = fs.readFileSync(lines, 'utf8').split('\n').slice(0, -1);
    return status === 0 ? difference(crossings(history).join('\n'), found.join('\n')) : errors;
  };
  const [wasm, decls, json] = ['wasm', 'decls.json', 'json'].map(example);
  return [
    ['the history of examples/callback', () => {
      const run = captured(runner, [example('wasm'), example('mjs')]);
      const history = foreignHistory(runner, example('wasm'), run.file, runner.file('json', run.output));
      return difference(history, fs.readFileSync(HISTORY, 'utf8'));
    }],
    ['examples/callback, as its host sees it', () => seen(wasm, decls, json)],
    ...runs.filter(([, , , , , words]) => words === undefined).map(
      /** @returns {Check} */
      ([name, module, type, , expected]) => [
        `${name}, as its host sees it`,
        () => seen(runner.file('wasm', module), runner.file('json', declared(type)), runner.file('json', expected)),
      ],
    ),
  ];
}

/**
 * The checks of functions of the host's own in the table.
 * @type {(runner: Runner) => Check[]}
 */
export const hostFunctionCases = runner =>
  [...exampleChecks(runner), ...scriptChecks(runner), ...refused(runner), ...histories(runner)];
