/** A host for `capture`: WASI, preview 1, as Node.js has it. */
import path from 'node:path';
import { WASI } from 'node:wasi';

const UNSTABLE = 'wasi_unstable';
const PREVIEW = 'wasi_snapshot_preview1';

/** Thrown by `proc_exit`, which does not return: it ends the run. */
class ProgramExit extends Error {
  /** @param {number} status */
  constructor(status) {
    super(`the program ended with status ${status}`);
  }
}

/**
 * The words follow the file's name as the program's arguments. `folders` are pairs of the name by which the program
 * opens a folder, and its path. The program has this process's standard streams.
 * @param {object} context
 * @param {WebAssembly.Module} context.module
 * @param {string} context.file
 * @param {string[]} context.words
 * @param {[name: string, path: string][]} context.folders
 * @param {{ [name: string]: string }} context.environment
 */
export function host({ module, file, words, folders, environment }) {
  const unstable = WebAssembly.Module.imports(module).some(item => item.module === UNSTABLE);
  const wasi = new WASI({
    version: unstable ? 'unstable' : 'preview1',
    args: [path.basename(file), ...words],
    env: environment,
    preopens: Object.fromEntries(folders),
  });
  const exit = { proc_exit: (/** @type {number} */ status) => { throw new ProgramExit(status); } };
  return {
    imports: { [unstable ? UNSTABLE : PREVIEW]: { ...wasi.wasiImport, ...exit } },
    main(/** @type {WebAssembly.Exports} */ exports) {
      if (exports._start === undefined) {
        wasi.initialize({ exports });
      } else {
        wasi.start({ exports });
      }
    },
  };
}
