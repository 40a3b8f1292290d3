/** One run of a replay module that counts, and what was counted. */
import { Border } from './border.mjs';
import { CallPaths, OPEN_SIZE } from './call_paths.mjs';
import { CountedModule, SHIFT } from './counted_module.mjs';
import { refuse } from './refusal.mjs';

/** @import { PathNode } from './call_paths.mjs' */
/** @import { HostWeights } from './host_weights.mjs' */
/** @import { Replay } from './replay_module.mjs' */
/** @import { ScriptActions } from './script_actions.mjs' */

/**
 * `turns` are all that were counted; `isFull` says that paths were put together for want of room.
 * @typedef {object} Counts
 * @property {'ended' | 'trapped' | 'host-trapped'} outcome
 * @property {number} turns
 * @property {PathNode[]} nodes
 * @property {boolean} isFull
 * @property {Border} border
 * @property {HostWeights} weights
 */

/** How V8 names a place in a module, in a line of a stack. */
const PLACE = /wasm-function\[(\d+)\]:0x([0-9a-f]+)/g;

/**
 * The most places of a stack that the engine keeps. It takes a minute to keep the millions that a stack has which
 * overflows.
 */
const MOST_PLACES = 100000;

/** Where the run trapped, in the counted module, and the functions of the activations that were open then. */
function trapOf(error) {
  const places = [...error.stack.matchAll(PLACE)];
  if (places.length === 0) throw new Error(`the engine names no place of the trap: ${error.stack}`);
  return { at: parseInt(places[0][2], 16), functions: places.map(([, index]) => Number(index) - SHIFT) };
}

/** Runs to the end, and gives the error that ended the run, or null. */
function errorOf(start) {
  Error.stackTraceLimit = MOST_PLACES;
  try {
    start();
    return null;
  } catch (error) {
    if (error instanceof WebAssembly.RuntimeError) return error;
    if (error instanceof RangeError) {
      return refuse('the engine\'s stack overflowed: calls are nested deeper than Node.js can');
    }
    throw error;
  }
}

/** The module as the engine has it. */
function compiled(bytes) {
  try {
    return new WebAssembly.Module(bytes);
  } catch (error) {
    return refuse(`the engine refuses the module that counts: ${error.message}`);
  }
}

/**
 * Runs a replay module.
 * @param {Replay} replay
 * @param {ScriptActions | null} actions the host's actions, if the script is known
 * @param {string} what how a line names the replay module
 * @param {{ watch: (memory: WebAssembly.Memory) => void, done: () => void }} progress
 * @returns {Counts}
 */
export function countsOf(replay, actions, what, progress) {
  const paths = new CallPaths(replay.module.functions.length);
  const counted = new CountedModule(replay, actions, what, paths.places.stack);
  const bytes = counted.bytes();
  const border = new Border();
  const module = compiled(bytes);
  const { enter, add } = paths.counting;
  const count = { enter, add, ...border.functions() };
  const exports = /** @type {any} */ (new WebAssembly.Instance(module, { count }).exports);
  progress.watch(paths.memory);
  const error = errorOf(exports._start);
  progress.done();
  const end = endOf(error, counted, bytes, paths, exports);
  exports.flush();
  paths.finish(end.now, exports.node.value, exports.top.value, end.open);
  border.finish(Number(end.now));
  if (end.outcome === 'host-trapped') counted.weights.of(border.trapped).ends++;
  return { outcome: end.outcome, turns: Number(end.now), nodes: paths.nodes(), isFull: paths.isFull, border,
    weights: counted.weights };
}

/**
 * Whether the innermost activation has called a function, and so has a node: then the stack has as many activations as
 * have nodes, and not one more. Of a deeper stack the function of the last node decides: turns by function are right.
 */
function hasNode(functions, counted, paths, exports) {
  if (functions.length === MOST_PLACES) return paths.functionOf(exports.node.value) === functions[0];
  const activations = functions.filter(index => index < counted.replay.main).length;
  return activations * OPEN_SIZE === exports.top.value - counted.top;
}

/** How a run ended: `now` are its turns, `open` is the innermost activation if it has called nothing. */
function endOf(error, counted, bytes, paths, exports) {
  const now = exports.now.value;
  if (error === null) return { outcome: /** @type {const} */ ('ended'), now, open: null };
  const { imports, main } = counted.replay;
  const { at, functions } = trapOf(error);
  const [func] = functions;
  if (func < imports || func >= main) return { outcome: /** @type {const} */ ('host-trapped'), now, open: null };
  const open = hasNode(functions, counted, paths, exports) ? null : { func, begin: exports.begin.value };
  return { outcome: /** @type {const} */ ('trapped'), now: now - BigInt(counted.undone(bytes, func, at)), open };
}
