/** Which of the instances of a run are taken, and what is made of their records. */
import fs from 'node:fs';
import path from 'node:path';
import { captureOf, isTaken, nextChoice, readRecord } from '../capture_parts/result.mjs';
import { Refusal, refuse } from '../capture_parts/refusal.mjs';
import { packed } from './packed.mjs';
import { program } from './r3_program.mjs';
import { NOT_CHOSEN } from './session.mjs';

/** @typedef {import('./types.mjs').Instance} Instance */
/** @typedef {import('../capture_parts/record/record.mjs').Record} RunRecord */
/** @typedef {import('../capture_parts/record/next_choice.mjs').Next} Next */
/** @typedef {{instance: Instance, record: RunRecord}} Found */

/** Modules that a line of refusal names. */
const MOST_LISTED = 8;

/**
 * The record of an instance, or null if nothing of it can be read.
 * @param {Instance} instance
 */
function recordOf({ record }) {
  if (record === null) return null;
  try {
    return readRecord(record);
  } catch {
    return null;
  }
}

/**
 * By what instances are compared: those of Node.js itself come last, those of which most functions ran first.
 * @param {Found} found
 */
function rank({ instance, record }) {
  return [instance.isOfNode ? 0 : 1, record.entered.size, record.words.length, instance.size ?? 0];
}

/** @param {Found} one @param {Found} other */
function byRank(one, other) {
  const [left, right] = [rank(one), rank(other)];
  const place = left.findIndex((value, at) => value !== right[at]);
  return place === -1 ? 0 : right[place] - left[place];
}

/** An instance that is taken. */
export class Chosen {
  /** @param {Found} found @param {string} log a folder @param {number | null} until */
  constructor({ instance, record }, log, until) {
    this.instance = instance;
    this.record = record;
    this.log = log;
    const file = path.join(log, 'original.wasm');
    fs.writeFileSync(file, record.plan.m.bytes);
    this.whole = isTaken(program, file);
    this.choice = record.plan.choice;
    /** @type {import('./types.mjs').Packed | null} */
    this.packed = null;
    if (until !== null) record.until = until;
    this.made = captureOf(record, { whole: this.whole });
  }

  /** Writes what is made of the record to a folder of the log. */
  pack() {
    this.packed = packed(this.made, path.join(this.log, `packed-${this.instance.number}`), true);
    return this.packed.limit;
  }

  /**
   * What to do next, or null. With `fits` the limits of r3 are a reason too, and the record is cut if no choice helps.
   * @param {boolean} fits
   * @returns {Next | null}
   */
  next(fits) {
    let next = nextChoice(this.made, this.choice, { passed: null });
    while (fits && next === null) {
      const limit = this.pack();
      if (limit === null) return null;
      next = nextChoice(this.made, this.choice, { passed: limit.passed });
      if (next === null || next.isRun) return next;
      this.cut(next.until);
      next = null;
    }
    return next;
  }

  /** Makes of a log, without a further run, what is short enough for r3. */
  fitLog() {
    while (this.pack() !== null && this.made.report.crossings > 1) {
      this.cut(Math.floor(this.made.report.crossings / 2));
    }
  }

  /**
   * Takes the first crossings of the record alone.
   * @param {number | null} until
   */
  cut(until) {
    this.record.until = until;
    this.made = captureOf(this.record, { whole: this.whole });
  }
}

/**
 * Says why nothing is recorded.
 * @param {Instance[]} instances
 * @param {string | null} module
 * @returns {never}
 */
function refuseNone(instances, module) {
  if (instances.length === 0) refuse('the program made no instance of WebAssembly');
  if (module !== null && instances.every(({ why }) => why === NOT_CHOSEN)) {
    refuse(`--module ${module}: none of ${instances.length} modules has this number or exports this name`);
  }
  const listed = instances.slice(0, MOST_LISTED).map(({ number, size, why }) =>
    `module ${number}${size === null ? '' : ` of ${size} bytes`}: ${why ?? 'nothing of it ran'}`);
  throw new Refusal(`nothing was recorded: ${listed.join('; ')}${instances.length > MOST_LISTED ? '; ..' : ''}`);
}

/**
 * @param {Instance[]} instances
 * @param {import('./types.mjs').Words} words
 * @param {string} log a folder
 */
export function chosenOf(instances, { all, module, until }, log) {
  /** @type {Found[]} */
  const found = [];
  for (const instance of instances) {
    const record = recordOf(instance);
    if (record !== null) found.push({ instance, record });
  }
  if (found.length === 0) refuseNone(instances, module);
  const taken = all ? found : [...found].sort(byRank).slice(0, 1);
  return taken.map(item => new Chosen(item, log, until));
}
