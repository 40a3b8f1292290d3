/** Runs that cannot be written as a script: for each the module, the host, and the line that capture prints. */
import { constant, moduleBytes } from './module_bytes.mjs';

/** @typedef {import('./module_bytes.mjs').Parts} Parts */
/** @typedef {NonNullable<Parts['types']>[number]} Type */

/** @type {Type} */
const EMPTY = { params: [], results: [] };
/** @type {Type} */
const NUMBER = { params: [], results: ['i32'] };
const CALL = [0x10, 0];
const DROP = 0x1a;
const TRAP = 0x00;

/** A module that imports `h.f`, and exports `g`, which calls it, and `t`, which traps. */
const calls = (/** @type {Parts} */ more = {}) => moduleBytes({
  types: [EMPTY],
  imports: [{ module: 'h', name: 'f', kind: 'function', type: 0 }],
  functions: [{ type: 0, locals: [], body: CALL }, { type: 0, locals: [], body: [TRAP] }],
  exports: [{ name: 'g', kind: 'function', index: 1 }, { name: 't', kind: 'function', index: 2 }],
  ...more,
});

/** Such a module with an exported table whose entry 0 is a function that is not exported. */
const withTable = () => moduleBytes({
  types: [EMPTY],
  imports: [{ module: 'h', name: 'f', kind: 'function', type: 0 }],
  functions: [{ type: 0, locals: [], body: CALL }, { type: 0, locals: [], body: [0x01] }],
  table: { min: 2 },
  exports: [{ name: 'g', kind: 'function', index: 1 }, { name: 'table', kind: 'table', index: 0 }],
  elements: [{ offset: 0, functions: [2] }],
});

/** @type {(description: object) => Uint8Array} */
const shared = description => moduleBytes({ imports: [{ module: 'h', name: 'm', ...description }] });
const twice = (/** @type {Type} */ one, /** @type {Type} */ other) => moduleBytes({
  types: [one, other],
  imports: [0, 1].map(type => ({ module: 'h', name: 'f', kind: 'function', type })),
  functions: [{ type: 0, locals: [], body: [0x10, 0, DROP, 0x10, 1, DROP, ...constant('i32', 0)] }],
  exports: [{ name: 'g', kind: 'function', index: 2 }],
});

/** The bytes of a module that exports a function `f` of no use, and a memory. */
const other = JSON.stringify([...moduleBytes({
  types: [EMPTY], functions: [{ type: 0, locals: [], body: [] }], memory: { min: 1 },
  exports: [{ name: 'f', kind: 'function', index: 0 }, { name: 'memory', kind: 'memory', index: 0 }],
})]);
const OTHER = `new WebAssembly.Instance(new WebAssembly.Module(Uint8Array.from(${other}))).exports`;

const host = (/** @type {string} */ imports, main = '', before = '') =>
  `${before}\nexport function host(context) { return { imports: ${imports}, main(exports) { ${main} } }; }\n`;
const F = '{ h: { f() {} } }';
const CURE = '--decls FILE captures those that context.hostFunction makes';

/** A module by hand: section 1 with a function type that has two results. */
const twoResults = Buffer.from([0, 0x61, 0x73, 0x6d, 1, 0, 0, 0, 1, 6, 1, 0x60, 0, 2, 0x7f, 0x7f]);
/** Section 2 with a shared memory as the import `h.m`. */
const sharedMemory = Buffer.from([0, 0x61, 0x73, 0x6d, 1, 0, 0, 0, 2, 9, 1, 1, 0x68, 1, 0x6d, 2, 3, 1, 2]);
/** Section 4 with a table of references to values of the host. */
const hostReferences = Buffer.from([0, 0x61, 0x73, 0x6d, 1, 0, 0, 0, 4, 4, 1, 0x6f, 0, 1]);

const endless = () => moduleBytes({
  types: [EMPTY], functions: [{ type: 0, locals: [], body: [0x10, 0] }],
  exports: [{ name: 'g', kind: 'function', index: 0 }],
});
const started = (/** @type {Parts} */ more = {}) => moduleBytes({
  types: [EMPTY], imports: [{ module: 'h', name: 'm', kind: 'memory', min: 1 }],
  functions: [{ type: 0, locals: [], body: [] }], start: 0, ...more,
});
const MEMORY = 'new WebAssembly.Memory({ initial: 1 })';
const FILLED = `(() => { const m = ${MEMORY}; new Uint8Array(m.buffer)[9] = 1; return m; })()`;
const global = 'new WebAssembly.Global({ value: "i32", mutable: true }, 1)';
const twoGlobals = moduleBytes({
  imports: ['a', 'b'].map(name => ({ module: 'h', name, kind: 'global', type: 'i32', mutable: true })),
});

/**
 * Each with the line that follows `capture: `, or a pattern of it where the engine's own words are in it.
 * @type {[name: string, module: Uint8Array, host: string, line: string | RegExp][]}
 */
export const refusals = [
  ['no module', Buffer.from('no module'), host(F), /^the module: WebAssembly.Module\(\): expected magic word/],
  ['two results', twoResults, host(F), 'type 0: 2 results, where a script gives at most one'],
  ['a shared memory', sharedMemory, host(F), 'import 0: a shared memory'],
  ['a table of host references', hostReferences, host(F),
    'the table section: entries of the type 0x6f are not of Core 1.0'],
  ['no host function', calls(), 'export const x = 1;', "the host's file exports no function host(context)"],
  ['a host with a fault', calls(), 'export function host() { return null.x; }', /^host\(context\) threw: TypeError: /],
  ['nothing for an import', calls(), host('{}'), 'import 0 (h.f): the host gives nothing for it'],
  ['no function for an import', calls(), host('{ h: { f: 1 } }'), 'import 0 (h.f): the host gives no function for it'],
  ['no memory for an import', started(), host('{ h: { m: 1 } }'), 'import 0 (h.m): the host gives no memory for it'],
  ['a memory that is too small', shared({ kind: 'memory', min: 2 }), host(`{ h: { m: ${MEMORY} } }`),
    /^link: WebAssembly.Instance\(\): .*/],
  ['a segment past the memory', started({ start: undefined, data: [{ offset: 65536, bytes: [1] }] }),
    host(`{ h: { m: ${MEMORY} } }`), /^link: WebAssembly.Instance\(\): data segment /],
  ['a memory of unknown maximum', shared({ kind: 'memory', min: 1 }), host(`{ h: { m: ${OTHER}.memory } }`),
    'import 0 (h.m): its maximum is not known, since new WebAssembly has not made it under the capture'],
  ['a filled memory before the start function', started(), host(`{ h: { m: ${FILLED} } }`),
    'import 0 (h.m): not zero at 9, before the start function runs'],
  ['the same mutable global twice', twoGlobals, host('{ h: { a: one, b: one } }', '', `const one = ${global};`),
    'import 1 (h.b): the same mutable global as import 0'],
  ['a function of the host in the table', withTable(), host(F, `exports.table.set(1, ${OTHER}.f); exports.g();`),
    `entry 1 of the table: a function of the host's own; ${CURE}`],
  ['one in a supplied table', shared({ kind: 'table', min: 1 }), host('{ h: { m: table } }', '',
    `const table = new WebAssembly.Table({ element: 'anyfunc', initial: 1 }); table.set(0, ${OTHER}.f);`),
  `entry 0 of the table: a function of the host's own; ${CURE}`],
  ['a function that is not exported', withTable(), host(F, 'exports.table.set(1, exports.table.get(0)); exports.g();'),
    'entry 1 of the table: function 2, which the module does not export'],
  ['a function that is nowhere', withTable(),
    host(F, 'const func = exports.table.get(0); exports.table.set(0, null); func();'),
    'the host calls function 2, which no export and no entry has'],
  ['the table for another instance', withTable(), host(F, `
    new WebAssembly.Instance(new WebAssembly.Module(Uint8Array.of(0, 97, 115, 109, 1, 0, 0, 0)), { h: exports });
    exports.g();`), 'the host gives the table to another instance, which may call the module unseen'],
  ['a trap that main caught', calls(), host(F, 'try { exports.t(); } catch {} exports.g();'),
    'call 1 by the host, of "t" trapped: unreachable; the host caught this and went on: it called "g"'],
  ['a trap that an import caught', calls(), host('{ h: { f() { try { context.instance.exports.t(); } catch {} } } }',
    'exports.g();'), 'call 2 by the host, of "t" trapped: unreachable; the host caught this and went on: '
    + 'it returned from call 1 of import 0'],
  ['a trap of the host that it caught', calls(), host('{ h: { f() { throw new Error("no more"); } } }',
    'try { exports.g(); } catch {} exports.g();'), 'the host threw in call 1 of import 0: no more; '
    + 'the host caught this and went on: it called "g"'],
  ['a full stack', endless(), host('{}', 'try { exports.g(); } catch {}'),
    'call 1 by the host, of "g": the engine\'s stack overflowed, which is no trap of the module'],
  ['an error of the host by itself', calls(), host(F, 'exports.g(); throw new Error("mine");'),
    /^the host threw outside of the module: Error: mine +at .*main \(file:.*mjs:2:\d+\)$/],
  ['a start function that throws', calls({ start: 0 }), host('{ h: { f() { throw new Error("no start"); } } }'),
    'the start function, an import, threw: no start'],
  ['too large a memory', calls({ memory: { min: 1 }, exports: [{ name: 'g', kind: 'function', index: 1 },
    { name: 'm', kind: 'memory', index: 0 }] }), host(F, 'exports.m.grow(4096); exports.g();'),
  'the memory has grown to 4097 pages, where r3 takes at most 4096'],
  ['equal names, other answers', twice(NUMBER, NUMBER), host('{ h: { f: () => n++ } }', 'exports.g();', 'let n = 0;'),
    'functions 0 and 1 are both imported as h.f, and their calls 0 are answered in different ways'],
  ['equal names, other types', twice(NUMBER, { params: [], results: ['f32'] }),
    host('{ h: { f: () => 1 } }', 'exports.g();'),
    'functions 0 and 1 are both imported as h.f, and have results of different types'],
];
