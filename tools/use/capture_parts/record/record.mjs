/** The record of a run, read from the chunks that the recorder has written. */
import { planOf } from '../split/plan.mjs';
import { CHUNK, chunksOf } from '../recorder/chunks.mjs';

/** @typedef {import('../split/plan.mjs').Plan} Plan */
/** @typedef {import('../recorder/initial_state.mjs').State} State */
/** @typedef {import('../recorder/recorder.mjs').Over} Over */

/**
 * How the program ended, if it came to its end.
 * @typedef {{ why: string, over: Over | null, after: number, fault: string | null, stale: number[] }} End
 */

/**
 * A record. `words` are those of the log, `entered` the places of the functions of K that ran, `floatCounts` how often
 * the float instructions of such a function ran.
 * @typedef {object} Record
 * @property {Plan} plan
 * @property {State} state
 * @property {number | null} until
 * @property {Int32Array} words
 * @property {Set<number>} entered
 * @property {Map<number, number>} floatCounts
 * @property {[number, number][][]} used for each data segment, the runs of addresses that K has used
 * @property {End | null} end
 */

/** Thrown where a file is no record. */
export class NoRecord extends Error {}

/** @param {Uint8Array[]} parts */
function joined(parts) {
  const bytes = new Uint8Array(parts.reduce((sum, part) => sum + part.length, 0));
  let at = 0;
  for (const part of parts) {
    bytes.set(part, at);
    at += part.length;
  }
  return bytes;
}

/**
 * Reads a record. One that was cut is as long as the last marks.
 * @param {Uint8Array} bytes
 * @returns {Record}
 */
export function readRecord(bytes) {
  const json = (/** @type {Uint8Array} */ part) => JSON.parse(new TextDecoder().decode(part));
  /** @type {Uint8Array[]} */
  const parts = [];
  let complete = 0;
  /** @type {any} */
  const found = { module: null, head: null, end: null, used: [], entered: new Set(), floatCounts: new Map() };
  for (const { tag, bytes: part } of chunksOf(bytes)) {
    if (tag === CHUNK.words) parts.push(part);
    else if (tag === CHUNK.module) found.module = part.slice();
    else if (tag === CHUNK.head) found.head = json(part);
    else if (tag === CHUNK.end) found.end = json(part);
    else if (tag === CHUNK.marks) {
      const { entered, floats, used } = json(part);
      found.used = used;
      for (const slot of entered) found.entered.add(slot);
      for (const [slot, count] of floats) found.floatCounts.set(slot, count);
      complete = parts.length;
    }
  }
  if (found.module === null || found.head === null) throw new NoRecord('the file is no record of a run');
  const { choice, state, until } = found.head;
  const words = new Int32Array(joined(parts.slice(0, complete)).buffer);
  return { plan: planOf(found.module, choice), state, until, words, entered: found.entered,
    floatCounts: found.floatCounts,
    used: found.used, end: found.end };
}
