/** The report of a capture, as `report.json` has it. */
import { MARK } from './output_folder.mjs';

/** @typedef {import('./types.mjs').Words} Words */
/** @typedef {import('./types.mjs').Round} Round */
/** @typedef {import('./types.mjs').Limit} Limit */
/** @typedef {import('./chosen.mjs').Chosen} Chosen */
/** @typedef {import('../capture_parts/compare/comparison.mjs').Comparison} Comparison */

/** @typedef {{files: Record<string, number>, limit: Limit | null, comparison: Comparison | null}} More */

/** What a kind of end means, by which a harness can tell an end of the program from a failure. */
const ENDS = {
  returned: 'the run ends where the program does, and its replay returns',
  'host trap': 'an import did not return: a program that calls exit ends so, and a script has no other end for it; '
    + 'the replay ends by a trap of the host, which is no failure',
  trap: 'the module trapped, and so does its replay',
  cut: 'the record ends before the program did; the replay ends there, by a trap of the host if a call is open',
};

/**
 * How the program ended, in words.
 * @param {import('./types.mjs').Ending} ending
 */
const endOfProgram = ({ status, signal, page }) => page ?? signal ?? `status ${status}`;

/** @param {Words} words @param {Round} round */
const programPart = ({ kind, program, words, host }, { ending }) => ({
  kind, file: program, words, host, end: endOfProgram(ending), status: ending.status, signal: ending.signal,
  page_errors: ending.errors,
});

/** @param {Round} round @param {Chosen} item */
const modulesPart = ({ instances }, { instance: taken }) => instances.map(item => ({
  number: item.number, digest: item.digest, bytes: item.size, exports: item.exports, of_node: item.isOfNode,
  recorded: item.isRecorded, taken: item.number === taken.number, why: item.why,
}));

/** @param {Chosen} item */
function functionsPart({ made: { report } }) {
  const left = report.left.map(({ name, why }) => ({ name, why }));
  return {
    count: report.functions, kept: report.kept, entered: report.entered, left_out: left,
    left_out_reasons: Object.fromEntries(report.reasons),
  };
}

/** @param {Chosen} item */
const crossingsPart = ({ made: { report } }) => ({
  count: report.crossings, in: Object.fromEntries(report.inwards), out: Object.fromEntries(report.outwards),
  after_the_end: report.after,
});

/**
 * @param {Words} words
 * @param {Round} round
 * @param {Chosen} item
 * @param {More} more
 */
export function reportOf(words, round, item, { files, limit, comparison }) {
  const { made, choice } = item;
  const { end, floats, writtenBytes } = made.report;
  return {
    made_by: MARK,
    program: programPart(words, round),
    runs: { count: round.runs, why: round.reasons },
    modules: modulesPart(round, item),
    module: { whole: made.isWhole, why_not_whole: made.notWhole, choice },
    functions: functionsPart(item),
    floats: { choice: words.floats, run_in: Object.fromEntries(floats) },
    crossings: crossingsPart(item),
    written_bytes: writtenBytes,
    sizes: files,
    turns: comparison?.turns ?? null,
    end: { kind: end.kind, text: end.text, means: ENDS[end.kind] },
    limit: limit?.text ?? null,
    comparison: comparison && {
      by: comparison.by, crossings: comparison.crossings, agrees: comparison.difference === null,
    },
  };
}

/** @typedef {ReturnType<typeof reportOf>} Report */
