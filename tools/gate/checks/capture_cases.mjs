/** Runs of small modules with hosts of JavaScript: for each the script that is captured, written by hand. */
import path from 'node:path';
import { constant, moduleBytes } from './module_bytes.mjs';
import { difference, root, scriptHost } from './running.mjs';

/** @typedef {import('./running.mjs').Runner} Runner */
/** @typedef {import('./running.mjs').Check} Check */
/** @typedef {import('./module_bytes.mjs').Parts} Parts */
/** @typedef {NonNullable<Parts['types']>[number]} Type */

/** @type {Type} */
const EMPTY = { params: [], results: [] };
const MOST_BYTES = 8388608;

/**
 * A module that imports `h.f` of a type, and exports `g`, which has this body, and a memory of one page.
 * @type {(type: Type, body: number[], more?: Parts) => Uint8Array}
 */
const importing = (type, body, more = {}) => moduleBytes({
  types: [type, EMPTY],
  imports: [{ module: 'h', name: 'f', kind: 'function', type: 0 }],
  functions: [{ type: 1, locals: [], body }],
  memory: { min: 1 },
  exports: [{ name: 'g', kind: 'function', index: 1 }, { name: 'm', kind: 'memory', index: 0 }],
  ...more,
});
const CALL = [0x10, 0];
const CALL_AND_DROP = [...CALL, 0x1a];

const host = (/** @type {string} */ imports, /** @type {string} */ main, before = '') =>
  `${before}\nexport function host(context) { return { imports: ${imports}, main(exports) { ${main} } }; }\n`;
const script = (/** @type {string[]} */ calls, main = '{"call":"g"}') =>
  `{"imports":{"h":{"f":{"calls":[${calls.map(call => `\n${call}`).join(',')}]}}},\n"main":[\n${main}]}\n`;

/** @type {(type: import('./module_bytes.mjs').ValueType) => Uint8Array} */
const floats = type => importing({ params: [], results: [type] }, CALL_AND_DROP);
const NAN = `const bits = new DataView(new ArrayBuffer(8));
  const nan32 = () => { bits.setUint32(0, 0x7fc12345); return bits.getFloat32(0); };
  const nan64 = () => { bits.setBigUint64(0, 0xfff8000000000001n); return bits.getFloat64(0); };`;

const withTable = moduleBytes({
  types: [{ params: ['i64'], results: [] }],
  functions: [{ type: 0, locals: [], body: [] }],
  table: { min: 3 },
  exports: [{ name: 't', kind: 'table', index: 0 }],
  elements: [{ offset: 2, functions: [0] }],
});
const supplied = moduleBytes({ imports: [
  { module: 'h', name: 'm', kind: 'memory', min: 1, max: 9 }, { module: 'h', name: 't', kind: 'table', min: 2 },
  { module: 'h', name: 'i', kind: 'global', type: 'i64', mutable: false },
  { module: 'h', name: 'd', kind: 'global', type: 'f64', mutable: true },
] });
const FILL = 'function filled(m) { new Uint8Array(m.buffer)[70000] = 7; return m; }';
const SUPPLY = `{ h: {
  m: filled(new WebAssembly.Memory({ initial: 2, maximum: 4 })),
  t: new WebAssembly.Table({ element: 'anyfunc', initial: 3 }), i: -1n,
  d: new WebAssembly.Global({ value: 'f64', mutable: true }, 1.5) } }`;
const twice = moduleBytes({
  types: [{ params: [], results: ['i32'] }, EMPTY],
  imports: [0, 1].map(() => ({ module: 'h', name: 'f', kind: 'function', type: 0 })),
  functions: [{ type: 1, locals: [], body: [0x10, 0, 0x1a, 0x10, 1, 0x1a, 0x10, 1, 0x1a] }],
  exports: [{ name: 'g', kind: 'function', index: 2 }],
});

/**
 * Each with its module, its host, the script that is expected, and more words of the command.
 * @type {[name: string, module: Uint8Array, host: string, expected: string, words?: string[]][]}
 */
const scripts = [
  ['a quiet NaN of 32 bits', floats('f32'), host('{ h: { f: nan32 } }', 'exports.g();', NAN),
    script(['{"return":{"f32":2143363909}}'])],
  ['a quiet NaN of 64 bits', floats('f64'), host('{ h: { f: nan64 } }', 'exports.g();', NAN),
    script(['{"return":{"f64":18444492273895866369}}'])],
  ['a result that is converted', floats('i32'), host('{ h: { f: () => 2 ** 32 - 1.5 } }', 'exports.g();'),
    script(['{"return":{"i32":-2}}'])],
  ['a result that is none', floats('i64'), host('{ h: { f: () => 1 } }', 'try { exports.g(); } catch {}'),
    script(['{"trap":true}'])],
  ['process.exit within a call', floats('i32'), host('{ h: { f: () => process.exit(3) } }', 'exports.g();'),
    script(['{"trap":true}'])],
  ['writes, joined where they are near', importing(EMPTY, CALL), host('{ h: { f() { bytes().set([1, 0, 2], 65530); '
    + 'context.instance.exports.m.grow(1); bytes().set([3], 65536); bytes().set([4], 70000); } } }', 'exports.g();')
    .replace('return {', 'const bytes = () => new Uint8Array(context.instance.exports.m.buffer); return {'),
  script(['{"do":[{"grow":1},{"write":65530,"bytes":"01000200000003"},{"write":70000,"bytes":"04"}]}'])],
  ['writes of main, and after its last call', importing(EMPTY, []), host('{ h: { f() {} } }',
    'new Uint8Array(exports.m.buffer)[5] = 9; exports.g(); new Uint8Array(exports.m.buffer)[5] = 0;'),
  '{"main":[\n{"write":5,"bytes":"09"},\n{"call":"g"},\n{"write":5,"bytes":"00"}]}\n'],
  ['addresses from arguments', importing({ params: ['i32', 'i32'], results: [] },
    [...constant('i32', 2000), ...constant('i32', 3000), ...CALL]),
  host('{ h: { f(at) { new Uint8Array(context.instance.exports.m.buffer).set([1], at); '
    + 'new Uint8Array(context.instance.exports.m.buffer).set([2], at + 1004); } } }', 'exports.g();'),
  script(['{"do":[{"write":{"arg":0},"bytes":"01"},{"write":{"arg":1,"plus":4},"bytes":"02"}]}']), ['--relative']],
  ['a call through the table', withTable, host('{}', 'exports.t.get(2)(-5n);'),
    '{"main":[\n{"call_table":2,"args":[{"i64":-5}]}]}\n'],
  ['what the host supplies', supplied, host(SUPPLY, '', FILL), '{"memory":{"pages":2,"max":4},\n"table":{"size":3},\n'
    + '"globals":{"h":{"i":{"i64":-1},\n"d":{"f64":4609434218613702656}}},\n'
    + '"main":[\n{"write":70000,"bytes":"07"}]}\n'],
  ['imports of equal names', twice, host('{ h: { f: () => 6 } }', 'exports.g();'),
    script(['{"return":{"i32":6}}', '{"return":{"i32":6}}'])],
  ['a start function that is an import', importing(EMPTY, CALL, { start: 0 }),
    host('{ h: { f() { console.log("started"); } } }', 'exports.g();'), script(['{}'])],
  ['calls within calls', importing(EMPTY, CALL),
    host('{ h: { f() { if (n++ < 2) context.instance.exports.g(); } } }', 'exports.g();', 'let n = 0;'),
    script(['{"do":[{"call":"g"}]}', '{"do":[{"call":"g"}]}', '{}'])],
  ['words and the module', floats('i32'),
    host('{ h: { f: () => context.words.length + Number(context.module instanceof WebAssembly.Module) } }',
      'exports.g();'), script(['{"return":{"i32":1}}'])],
];

/**
 * @param {Runner} runner
 * @param {Uint8Array} module
 * @param {string} text
 * @param {string[]} words
 */
function captured(runner, module, text, words = []) {
  return runner.capture([...words, runner.file('wasm', module), runner.file('mjs', text)]);
}

/**
 * @param {Runner} runner
 * @returns {Check[]}
 */
function scriptChecks(runner) {
  return scripts.map(([name, module, text, expected, words]) => [name, () => {
    const { status, output, errors } = captured(runner, module, text, words);
    return status === 0 ? difference(output.toString(), expected) : errors;
  }]);
}

/** How often the host and the module call each other in the deepest run. */
const DEPTH = 20000;

/** @type {(runner: Runner) => Check[]} */
const others = runner => [
  ['many calls within calls', () => {
    const again = `{ h: { f() { if (n++ < ${DEPTH}) context.instance.exports.g(); } } }`;
    const nested = host(again, 'exports.g();', 'let n = 0;');
    const { status, output, errors } = captured(runner, importing(EMPTY, CALL), nested);
    const calls = output.toString().split('{"do":[{"call":"g"}]}').length - 1;
    return status === 0 && calls === DEPTH ? null : `${calls} calls: ${errors}`;
  }],
  ['a script that is too long for r3', () => {
    const filling = host(`{ h: { f() { new Uint8Array(context.instance.exports.m.buffer).fill(++n); } } }`,
      'for (let call = 0; call < 70; call++) exports.g();', 'let n = 0;');
    const { status, output, errors } = captured(runner, importing(EMPTY, CALL), filling);
    const line = `capture: the script has ${output.length} bytes, and r3 reads at most ${MOST_BYTES}\n`;
    return status === 0 && output.length > MOST_BYTES ? difference(errors, line) : `status ${status}: ${errors}`;
  }],
  ['what a program prints is no part of the script', () => {
    const saying = host('{ h: { f() {} } }', 'console.log("said");');
    const { output, errors } = captured(runner, importing(EMPTY, CALL), saying);
    return difference(output.toString() + errors, '{"main":[]}\nsaid\n');
  }],
  ['addresses from arguments of a compiled program', () => {
    const [module, played] = ['wasm', 'json'].map(ending => path.join(root, 'examples', `c_buffers.${ending}`));
    const relative = runner.capture(['--relative', module, scriptHost, played]);
    if (!relative.output.includes('{"write":{"arg":0}')) return relative.output.toString();
    return difference(runner.historyOfCaptured(module, relative), runner.history(module, played).output.toString());
  }],
  ['words that are none', () => {
    const { status, output, errors } = runner.capture(['--no-such-word', 'x']);
    return status === 2 && output.length === 0 && errors.startsWith('usage: ') ? null : `status ${status}: ${errors}`;
  }],
];

/**
 * The checks of what hosts do.
 * @type {(runner: Runner) => Check[]}
 */
export const cases = runner => [...scriptChecks(runner), ...others(runner)];
