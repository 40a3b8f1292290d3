/**
 * Programs for WASI: what a program prints while it is captured is what the run under the script hands to `fd_write`.
 * The programs are those of `bench`, and one that is compiled here where there are clang and a C library for WASI.
 */
import fs from 'node:fs';
import path from 'node:path';
import { difference, root } from './running.mjs';
import { host } from './script_host.mjs';

/** @typedef {import('./running.mjs').Runner} Runner */
/** @typedef {import('./running.mjs').Check} Check */
/** @typedef {{ before?: string[], behind?: string[] }} Words */

const WASI = 'wasi_snapshot_preview1';
const SPAN = 8;

/**
 * Runs a module in this engine under a script, and gives the bytes that it hands to `fd_write`.
 * @param {string} module
 * @param {string} script
 */
function written(module, script) {
  const bytes = fs.readFileSync(module);
  /** @type {any} */
  const context = { file: module, words: [script], module: new WebAssembly.Module(bytes) };
  const { imports, main } = host(context);
  /** @type {Buffer[]} */
  const parts = [];
  const memory = () => context.instance.exports.memory.buffer;
  const names = WebAssembly.Module.imports(context.module).map(item => item.name);
  /** @type {{ [name: string]: any }} */
  const given = Object.fromEntries(names.map(name => [name, imports[WASI][name]]));
  const answer = given.fd_write;
  /** @type {(file: number, spans: number, count: number, done: number) => number} */
  given.fd_write = (file, spans, count, done) => {
    const view = new DataView(memory());
    for (let at = spans; at < spans + SPAN * count; at += SPAN) {
      const begin = view.getUint32(at, true);
      parts.push(Buffer.from(memory().slice(begin, begin + view.getUint32(at + 4, true))));
    }
    return answer(file, spans, count, done);
  };
  context.instance = new WebAssembly.Instance(context.module, { [WASI]: given });
  try {
    main();
  } catch {
    // The run ends by a trap, as the captured one did.
  }
  return Buffer.concat(parts).toString();
}

/**
 * Captures a program, and compares. Lines of capture itself are left out of what the program prints.
 * @param {Runner} runner
 * @param {string} module
 * @param {Words} words
 * @param {object} options
 */
function outputFault(runner, module, words, options) {
  const captured = runner.capture(['--wasi', ...words.before ?? [], module, ...words.behind ?? []], options);
  if (captured.status !== 0) return captured.errors;
  const said = captured.errors.split('\n').filter(line => !line.startsWith('capture: ')).join('\n');
  if (said === '') return 'the program has printed nothing';
  return difference(written(module, runner.file('json', captured.output)), said);
}

/**
 * @param {Runner} runner
 * @returns {Check[]}
 */
function benchPrograms(runner) {
  const folder = path.join(root, 'bench');
  /** @type {{ name: string, host: string, words?: string[], input?: string[] }[]} */
  const programs = JSON.parse(fs.readFileSync(path.join(folder, 'programs.json'), 'utf8'));
  return programs.filter(program => program.host === '--wasi').map(({ name, words = [], input = [] }) => [name, () => {
    const given = Buffer.concat(input.map(file => fs.readFileSync(path.join(folder, file))));
    return outputFault(runner, path.join(folder, `${name}.wasm`), { behind: words }, { cwd: folder, input: given });
  }]);
}

const COMPILERS = ['clang', 'clang-14', 'clang-16', 'clang-19', 'clang-22'];
const LATER = ['-mno-call-indirect-overlong', '-mno-reference-types', '--no-wasm-opt'];

/**
 * The program with a C library, compiled by each compiler that can, with the options that it knows.
 * @param {Runner} runner
 */
function compiled(runner) {
  const source = path.join(root, 'tools', 'gate', 'checks', 'wasi_program.c');
  return COMPILERS.flatMap(compiler => {
    const module = path.join(runner.folder, `${compiler}.wasm`);
    const words = ['--target=wasm32-wasi', '-O2', '-s', '-o', module, source, '-lc-printscan-no-floating-point'];
    const done = [[...LATER, ...words], words].some(options => runner.run(compiler, options).status === 0);
    return done ? [[compiler, module]] : [];
  });
}

/**
 * @param {Runner} runner
 * @returns {Check[]}
 */
function libraryPrograms(runner) {
  return compiled(runner).map(([compiler, module]) => [`a C library, by ${compiler}`, () => {
    fs.writeFileSync(path.join(runner.folder, 'words.txt'), 'pear fig apple quince medlar plum\n');
    const words = { before: ['--env', 'ORDER=up'], behind: ['words.txt'] };
    const fault = outputFault(runner, module, words, { cwd: runner.folder });
    if (fault !== null) return fault;
    const captured = runner.capture(['--wasi', ...words.before, module, ...words.behind], { cwd: runner.folder });
    const lines = runner.historyOfCaptured(module, captured).split('\n');
    return lines.at(-2) === 'host-trapped' ? null : lines.at(-2) ?? lines[0];
  }]);
}

export const wasiCases = (/** @type {Runner} */ runner) => [...benchPrograms(runner), ...libraryPrograms(runner)];
