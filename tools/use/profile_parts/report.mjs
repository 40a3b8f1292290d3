/** What is printed of a run: sums over the call paths, with names. */
import { MOST_CALLS } from './border.mjs';
import { PAGE, PART, total } from './host_weights.mjs';

/** @import { Counts } from './run.mjs' */
/** @import { Weight } from './host_weights.mjs' */

/**
 * A node of the call paths. `self` are the turns of the function itself there, `all` those with what it called.
 * @typedef {{ name: string, parent: number, func: number | null, self: number, all: number, calls: number }} Path
 */

/**
 * A function, or an import. `all` are the turns while an activation of it was open.
 * @typedef {{ index: number, name: string, self: number, all: number, calls: number }} FunctionCount
 */

/**
 * What the host does for an import, or by itself. `turns` are its actions.
 * @typedef {Weight & { index: number | null, name: string, turns: number, weight: number }} HostCount
 */

export const HOST = '(host)';
const FURTHER = '(further paths)';

/** For each node its children in order. */
function childrenOf(nodes) {
  const children = nodes.map(() => []);
  nodes.forEach(({ parent }, index) => { if (parent >= 0) children[parent].push(index); });
  return children;
}

/** @param {Counts} counts @param {string[]} names @returns {Path[]} */
function pathsOf({ nodes }, names) {
  const paths = nodes.map(({ parent, func, self, calls }) => ({
    name: func === null ? HOST : func < 0 ? FURTHER : names[func], parent, func, self, all: self, calls,
  }));
  for (let index = paths.length - 1; index > 0; index--) paths[paths[index].parent].all += paths[index].all;
  return paths;
}

/** Adds for each function the turns of its outermost nodes. A node that is further down has turns of the same time. */
function addAll(paths, functions) {
  const children = childrenOf(paths);
  const open = new Int32Array(functions.length);
  const stack = [0];
  while (stack.length > 0) {
    const index = stack.pop();
    if (index < 0) {
      open[paths[-index].func]--;
      continue;
    }
    const { func, all } = paths[index];
    if (func !== null && func >= 0) {
      if (open[func]++ === 0) functions[func].all += all;
      stack.push(-index);
    }
    stack.push(...children[index]);
  }
}

/** @param {Path[]} paths @param {string[]} names @returns {FunctionCount[]} */
function functionsOf(paths, names) {
  const functions = names.map((name, index) => ({ index, name, self: 0, all: 0, calls: 0 }));
  for (const { func, self, calls } of paths) {
    if (func === null || func < 0) continue;
    functions[func].self += self;
    functions[func].calls += calls;
  }
  addAll(paths, functions);
  return functions;
}

/**
 * @param {Counts} counts
 * @param {string[]} names of the functions of the original, imported ones first
 * @param {number} imports how many are imported
 * @param {{ file: string, hasScript: boolean }} about
 */
export function reportOf(counts, names, imports, about) {
  const paths = pathsOf(counts, names);
  const functions = functionsOf(paths, names);
  const { border, weights } = counts;
  const host = (index, name, turns, weight) => ({ index, name, turns, weight: total(weight), ...weight });
  const answers = weights.imports.map((weight, index) => host(index, names[index], functions[index].self, weight));
  const actions = answers.reduce((sum, { turns }) => sum + turns, paths[0].self);
  return {
    file: about.file,
    outcome: counts.outcome,
    turns: counts.turns,
    instructions: counts.turns - actions,
    actions,
    hasScript: about.hasScript,
    weight: weights.total(),
    border: { importCalls: border.calls.import, importReturns: border.returns.import, hostCalls: border.calls.host,
      hostReturns: border.returns.host },
    functions: functions.slice(imports),
    imports: /** @type {HostCount[]} */ (answers),
    host: /** @type {HostCount} */ (host(null, HOST, paths[0].self, weights.main)),
    memory: { pageBytes: PAGE, partBytes: PART, pages: weights.pages() },
    paths,
    arePathsShortened: counts.isFull,
    line: { calls: border.kept, all: border.count, most: MOST_CALLS, isThinned: border.kept.length < border.count },
  };
}

/** @typedef {ReturnType<typeof reportOf>} Report */
