/** A program of Node.js that runs a module under WASI, preview 1, as Node.js has it. */
import fs from 'node:fs';
import { WASI } from 'node:wasi';

const { module: file, name, words, folders, environment } = JSON.parse(process.argv[2]);
const UNSTABLE = 'wasi_unstable';

const module = await WebAssembly.compile(fs.readFileSync(file));
const isUnstable = WebAssembly.Module.imports(module).some(item => item.module === UNSTABLE);
const [version, from] = isUnstable ? ['unstable', UNSTABLE] : ['preview1', 'wasi_snapshot_preview1'];
const preopens = Object.fromEntries(folders);
const wasi = new WASI({ version, args: [name, ...words], env: environment, preopens, returnOnExit: true });
const instance = await WebAssembly.instantiate(module, { [from]: wasi.wasiImport });
try {
  if (instance.exports._start === undefined) wasi.initialize(instance);
  else process.exitCode = wasi.start(instance);
} catch (error) {
  if (!(error instanceof WebAssembly.RuntimeError)) throw error;
  process.stderr.write(`${error.stack}\n`);
  process.exitCode = 134;
}
