/** What `profile` does where a run has very many calls or call paths, or names are those of another module. */
import {
  I32, KIND, exportItem, flat, moduleBytes, name, nameSection, readModule, section, u32,
} from '../../use/wasm/index.mjs';
import { Border, MOST_CALLS } from '../../use/profile_parts/border.mjs';
import { MOST_PATHS } from '../../use/profile_parts/call_paths.mjs';
import { namesOf } from '../../use/profile_parts/names.mjs';
import { replayOf } from '../../use/profile_parts/replay_module.mjs';
import { countsOf } from '../../use/profile_parts/run.mjs';

const DEPTH = 20;
const still = { watch() {}, done() {} };

/** Of a million calls some are kept, among them all that take long. */
function thinned() {
  const border = new Border();
  const { importCall, importReturn, hostCall, hostReturn } = border.functions();
  const [calls, long] = [1000000, 250000];
  hostCall(0, 0);
  for (let call = 0; call < calls; call++) {
    const length = call % long === long - 1 ? calls / 100 : 0;
    importCall(1, call);
    importReturn(call + length);
  }
  hostReturn(calls);
  border.finish(calls);
  const kept = border.kept.length;
  if (kept > MOST_CALLS || kept < MOST_CALLS / 4) return `${kept} calls are kept`;
  if (border.count !== calls + 1 || border.calls.import !== calls) return `${border.count} calls are counted`;
  const longs = border.kept.filter(({ isImport, begin, end }) => isImport && end > begin).length;
  if (longs !== calls / long) return `${longs} long calls are kept`;
  const [first, last] = [border.kept[0], border.kept.at(-1)];
  const isWhole = !first.isImport && first.end === calls && last.begin > 0.9 * calls;
  return isWhole ? null : 'the kept calls are not of the whole run';
}

/**
 * A replay module of two functions, which call themselves and each other, with a number less by 1, until it is 0. So
 * there are two paths for each path of the level above.
 */
function branching() {
  const { types, functions, bodies } = branchingParts();
  const start = [0, 0x41, DEPTH, 0x10, 0, 0x0f, 0x0b];
  const module = moduleBytes({
    types: [...types, { params: [], results: [] }], functions: [...functions, 1], bodies: [...bodies, start],
    exports: [exportItem('_start', KIND.function, 2)],
  });
  return flat([module, section(0, [name('r3.layout'), u32(0), u32(2)])]);
}

function branchingParts() {
  const calls = [0, 1].flatMap(callee => [0x20, 0, 0x41, 1, 0x6b, 0x10, callee]);
  const body = [0, 0x20, 0, 0x04, 0x40, ...calls, 0x0b, 0x0b];
  return { types: [{ params: [I32], results: [] }], functions: [0, 0], bodies: [body, body] };
}

/** Where paths have no room, turns by function are exact. An activation takes 10 turns, or 2 if it calls nothing. */
function manyPaths() {
  const counts = countsOf(replayOf(branching(), 'the replay'), null, 'the replay', still);
  const [inner, outer] = [2 ** DEPTH - 1, 2 ** DEPTH];
  const turns = 10 * inner + 2 * outer;
  if (!counts.isFull) return 'there is room for all paths';
  if (counts.turns !== turns + 1) return `${counts.turns} turns, and not ${turns + 1}`;
  if (counts.nodes.length > MOST_PATHS + 3) return `${counts.nodes.length} nodes`;
  const sum = (func, key) => counts.nodes.reduce((all, node) => all + (node.func === func ? node[key] : 0), 0);
  // Function 0 has the root, and half of each further level.
  const calls = (inner + outer - 1) / 2;
  const expected = [turns / 2 + 5, turns / 2 - 5, calls + 1, calls];
  const found = [sum(0, 'self'), sum(1, 'self'), sum(0, 'calls'), sum(1, 'calls')];
  return found.join() === expected.join() ? null : `${found.join()}, and not ${expected.join()}`;
}

/** The two functions as an original has them, with a section of names. */
const original = names => flat([moduleBytes(branchingParts()), section(0, nameSection(names))]);

/** Names are those of the section `name`, and equal names get numbers. */
function named() {
  const replay = replayOf(branching(), 'the replay');
  const names = list => namesOf(readModule(original(list)), replay, 'the original').join();
  const found = [names([[1, 'left']]), names([[0, 'f'], [1, 'f']]), names([])];
  const expected = ['func 0,left', 'f (func 0),f (func 1)', 'func 0,func 1'];
  return found.join('; ') === expected.join('; ') ? null : found.join('; ');
}

export const limitCases = () => [['a million calls', thinned], ['two million call paths', manyPaths], ['names', named]];
