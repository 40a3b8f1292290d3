/** A replay module that r3 made: its parts, and which of its functions are the original's. */
import { KIND, Reader, SECTION, UnknownFormat, readModule } from '../wasm/index.mjs';
import { refuse } from './refusal.mjs';

/** @import { Module } from '../wasm/module.mjs' */

/**
 * `imports` functions of the original are imported, and `functions` are defined. In the replay module the function
 * behind these, `main`, does what the host does by itself; the functions behind it answer calls of imports.
 * @typedef {{ module: Module, imports: number, functions: number, main: number }} Replay
 */

const LAYOUT = 'r3.layout';
const ENTRY = '_start';

/**
 * The two numbers of the layout section, or null if there is not one such section.
 * @param {Module} module
 */
function layoutOf(module) {
  const found = module.sections.filter(({ id }) => id === SECTION.custom).flatMap(({ begin, end }) => {
    const reader = new Reader(module.bytes, begin, end);
    if (reader.name() !== LAYOUT) return [];
    const numbers = [reader.u32(), reader.u32()];
    return [reader.isAtEnd ? numbers : null];
  });
  return found.length === 1 ? found[0] : null;
}

/**
 * Reads a module, which the engine is asked about first.
 * @param {Uint8Array} bytes
 * @param {string} what how a line names the module
 */
export function moduleOf(bytes, what) {
  try {
    new WebAssembly.Module(bytes);
    return readModule(bytes);
  } catch (error) {
    if (error instanceof WebAssembly.CompileError) {
      return refuse(`${what}: ${error.message.replace(/^WebAssembly\.Module\(\): /, '')}`);
    }
    if (error instanceof UnknownFormat) return refuse(`${what}: not known here: ${error.message}`);
    throw error;
  }
}

/**
 * Reads a replay module.
 * @param {Uint8Array} bytes
 * @param {string} what how a line names the module
 * @returns {Replay}
 */
export function replayOf(bytes, what) {
  const module = moduleOf(bytes, what);
  const layout = layoutOf(module);
  if (layout === null) refuse(`${what}: no replay module that r3 made: it has no section ${LAYOUT}`);
  const [imports, functions] = layout;
  const main = imports + functions;
  const entry = module.exports.find(({ name, kind }) => name === ENTRY && kind === KIND.function);
  if (module.imports.length > 0 || entry?.index !== main || module.start !== null) foreignShape(what);
  return { module, imports, functions, main };
}

/**
 * @param {string} what
 * @returns {never}
 */
export function foreignShape(what) {
  return refuse(`${what}: no replay module that r3 made: its functions are not those that r3 writes`);
}
