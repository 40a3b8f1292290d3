/** Whether r3 does exactly what was seen: the crossings of its run are compared with those of the record, in full. */
import fs from 'node:fs';
import { HOST_CALL, HOST_RETURN, IMPORT_CALL, IMPORT_RETURN } from '../recorder/log_layout.mjs';
import { isCrossing } from '../record/outline.mjs';
import { historyValue } from '../record/values.mjs';
import { STATUS, outputLines } from './r3_program.mjs';
import { runObserved } from './observed_replay.mjs';

/** @typedef {import('../record/capture.mjs').Capture} Capture */

const HISTORY_TURNS = 2000000;
const REPLAY_TURNS = 20000000;

/**
 * What a comparison has shown. `turns` is null where they are not counted.
 * @typedef {object} Comparison
 * @property {'history' | 'replay' | 'V8'} by
 * @property {number} crossings how many were equal
 * @property {number | null} turns
 * @property {string | null} difference where the first one is, or null
 */

/** Compares lines with those that were seen, one after another. */
class Lines {
  /** @param {Iterable<string>} seen */
  constructor(seen) {
    this.seen = seen[Symbol.iterator]();
    this.equal = 0;
    this.turns = 0;
    /** @type {string | null} */
    this.difference = null;
    this.last = '';
  }

  /** @param {string} line */
  crossing(line) {
    const { value, done } = this.seen.next();
    if (line === (done ? undefined : value)) this.equal++;
    else this.difference = `crossing ${this.equal}: r3 has ${line}, seen was ${done ? 'none' : value}`;
    return this.difference === null;
  }

  /** @param {string} line of a history */
  take(line) {
    this.last = line;
    if (isCrossing(line)) return this.crossing(line);
    if (line.startsWith('step ') || line.startsWith('trap ')) this.turns++;
    return true;
  }

  /**
   * The run has ended.
   * @param {boolean} isTrap
   */
  end(isTrap, /** @type {Capture} */ made) {
    if (this.difference !== null) return;
    const { value, done } = this.seen.next();
    if (!done) this.difference = `crossing ${this.equal}: r3 has none, seen was ${value}`;
    else if (isTrap !== endsByTrap(made)) {
      const [own, seen] = isTrap ? ['traps', 'did not'] : ['does not trap', 'did'];
      this.difference = `r3's run ${own} at its end, and the one that was seen ${seen}`;
    }
  }
}

/**
 * Whether the run for r3 ends by a trap: one of K, or one of the host in place of an answer.
 * @param {Capture} made
 */
const endsByTrap = made => made.endsByTrap;

/**
 * By r3's commands `history` or `replay`; null where the run has too many turns for them.
 * @param {string} r3
 * @param {'history' | 'replay'} by
 * @param {string[]} words
 * @param {Capture} made
 * @returns {Promise<Comparison | null>}
 */
async function byCommand(r3, by, words, made) {
  const lines = new Lines(made.outline());
  const { status, line } = await outputLines(r3, words, text => lines.take(text));
  if (status === STATUS.turnsSpent) return null;
  if (status === STATUS.done) lines.end(lines.last !== 'ended', made);
  else lines.difference = `r3 ${by}: ${line} (status ${status})`;
  return { by, crossings: lines.equal, turns: by === 'history' && lines.difference === null
    ? lines.turns + made.actions : null,
    difference: lines.difference };
}

const WORDS = new Map([[HOST_CALL, 'host-call'], [HOST_RETURN, 'host-return'], [IMPORT_CALL, 'import-call'],
  [IMPORT_RETURN, 'import-return']]);

/**
 * In V8, with the border of the replay module observed.
 * @param {string} replay
 * @param {Capture} made
 * @returns {Comparison}
 */
function byEngine(replay, made) {
  const lines = new Lines(made.outline());
  const end = runObserved(fs.readFileSync(replay), made.counts, (kind, number, types, values) => {
    if (lines.difference !== null) return;
    lines.crossing([WORDS.get(kind), number,
      ...types.map((type, place) => historyValue(type, values[place]))].join(' '));
  });
  lines.end(end === 'trapped', made);
  return { by: 'V8', crossings: lines.equal, turns: null, difference: lines.difference };
}

/**
 * Compares what r3 does with what was seen: up to 2,000,000 turns by `history`, up to 20,000,000 by `replay`, beyond
 * that by running the replay module in V8.
 * @param {string} r3
 * @param {{ module: string, declarations: string | null, script: string, replay: string }} files
 * @param {Capture} made
 * @returns {Promise<Comparison>}
 */
export async function compared(r3, { module, declarations, script, replay }, made) {
  const words = declarations === null ? ['history', module, script] : ['foreign-history', module, declarations, script];
  return await byCommand(r3, 'history', [...words, String(HISTORY_TURNS)], made)
    ?? await byCommand(r3, 'replay', ['replay', replay, String(REPLAY_TURNS)], made)
    ?? byEngine(replay, made);
}
