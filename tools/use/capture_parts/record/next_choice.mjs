/** Whether a run is to be done again, and with which functions kept. */
import { instructionName } from '../../wasm/instruction_names.mjs';

/** @typedef {import('./capture.mjs').Capture} Capture */
/** @typedef {import('../split/plan.mjs').Choice} Choice */

/** With the choice `few`, a function whose float instructions run more often than this stays outside of K. */
const FEW = 4000;
/** A border is busy if it has more than this part of all crossings. */
const BUSY = 0.05;
/** A record that no choice makes fit is cut to this part of its crossings. */
const CUT = 0.5;

/**
 * A further run, or a further look at the same record. `why` has a line for each reason.
 * @typedef {object} Next
 * @property {Choice} choice
 * @property {number | null} until where the record is cut, in crossings
 * @property {boolean} isRun whether the program runs again
 * @property {string[]} why
 */

/**
 * A name of a function that stands for it alone.
 * @param {number} index
 */
const numbered = index => `func ${index}`;

/**
 * The functions that exceptions or traps have ended, and those with many floats.
 * @param {Capture} made
 * @param {Choice} choice
 */
function unfit({ record: { plan, end, floatCounts } }, choice) {
  const stale = new Map((end?.stale ?? []).map(index =>
    [index, 'an exception or a trap ends it, and the program goes on']));
  const isFew = (choice.floats ?? 'few') === 'few';
  const hot = [...floatCounts].filter(([, count]) => isFew && count > FEW);
  return new Map([...stale, ...hot.map(([slot, count]) =>
    /** @type {[number, string]} */ ([plan.kept[slot], `its float instructions ran ${count} times`]))]);
}

/**
 * The functions without which the busiest borders would not be there. Calls of the program's own imports stay.
 * @param {Capture} made
 */
function atBusyBorders({ record: { plan }, contents, report }) {
  const most = report.crossings * BUSY;
  /** @type {Map<number, string>} */
  const found = new Map();
  for (const [slot, count] of contents.hostCalls) {
    if (count > most) found.set(plan.kept[slot], `the host calls it ${count} times`);
  }
  for (const [place, count] of contents.importCalls) {
    const [callee, op] = [plan.callees[place], plan.floats[place - plan.callees.length]];
    if (count <= most || callee < plan.m.importedFunctions) continue;
    const what = callee === undefined ? instructionName(op ?? 0) : plan.names[callee];
    for (const index of plan.kept) {
      const { calls, floats } = plan.needs(index);
      if (calls.has(callee) || floats.has(op)) found.set(index, `it calls ${what}, as ${count} crossings do`);
    }
  }
  return found;
}

/**
 * @param {Capture} made
 * @param {Choice} choice
 * @param {Map<number, string>} functions
 * @returns {Next}
 */
function without({ record: { plan, until } }, choice, functions) {
  return { choice: { ...choice, drop: [...choice.drop ?? [], ...[...functions.keys()].map(numbered)] }, until,
    isRun: true,
    why: [...functions].map(([index, why]) => `${plan.names[index]} is left out: ${why}`) };
}

/**
 * The function of M that r3 names where it does not take K.
 * @param {Capture} made
 * @param {string} line
 */
function refusedFunction({ record: { plan }, trimmed }, line) {
  const number = Number(/\bfunction (\d+)/.exec(line)?.[1] ?? NaN);
  const found = [...trimmed?.places ?? []].find(([index, place]) => place === number && plan.slots.has(index));
  return new Map(found === undefined
    ? [] : [/** @type {[number, string]} */ ([found[0], `r3 does not take it: ${line}`])]);
}

/**
 * What to do next, or null where the capture is as good as it gets. `passed` is the limit of r3 that the capture
 * passes, of which `--fit` wants a cure: `script`, `weight` or `turns`.
 * @param {Capture} made
 * @param {Choice} choice
 * @param {{ passed?: 'script' | 'weight' | 'turns' | null, refusal?: string | null }} [limits] `refusal` is r3's line
 *   where it does not take the module
 * @returns {Next | null}
 */
export function nextChoice(made, choice, limits = {}) {
  const passed = limits.passed ?? null;
  const functions = new Map([...unfit(made, choice), ...refusedFunction(made, limits.refusal ?? '')]);
  if (functions.size > 0) return without(made, choice, functions);
  if (passed === null) return null;
  const busy = passed === 'turns' ? new Map() : atBusyBorders(made);
  if (busy.size > 0 && busy.size < made.record.plan.kept.length) return without(made, choice, busy);
  const until = Math.floor(made.report.crossings * CUT);
  if (until < 1) return null;
  return { choice, until, isRun: false, why: [`the record ends after ${until} crossings`] };
}
