/**
 * Runs the program, and again where what was recorded says so: functions that an exception ended, or whose floats run
 * too often, are then left out, and those at the busiest borders with `--fit`.
 */
import fs from 'node:fs';
import path from 'node:path';
import { chosenOf } from './chosen.mjs';
import { faultsOf, instancesOf } from './instances.mjs';
import { runNode } from './node_program.mjs';
import { PagePlaces } from './page_place.mjs';
import { PageProgram } from './page_program.mjs';
import { Progress } from './progress.mjs';
import { settingsOf } from './settings.mjs';
import { StandardStreams } from './standard_streams.mjs';

/** @typedef {import('./types.mjs').Words} Words */
/** @typedef {import('./types.mjs').Round} Round */
/** @typedef {import('./types.mjs').Ending} Ending */
/** @typedef {import('./types.mjs').Settings} Settings */
/** @typedef {import('./types.mjs').Choice} Choice */

/** A program is run so often at most: again for exceptions and floats, and more often with `--fit`. */
const MOST_RUNS = 5;
const MOST_FIT_RUNS = 12;

/** Reasons that a line of ours has. */
const MOST_REASONS = 3;

export class Rounds {
  /** @param {Words} words @param {string} folder of the log @param {(line: string) => void} say */
  constructor(words, folder, say) {
    this.words = words;
    this.folder = folder;
    this.say = say;
    this.streams = new StandardStreams(folder);
    /** @type {string[]} */
    this.reasons = [];
  }

  /** @returns {Promise<Round>} */
  async run() {
    const most = this.words.fit ? MOST_FIT_RUNS : MOST_RUNS;
    /** @type {Record<string, Choice> | null} */
    let choices = null;
    for (let runs = 1; ; runs++) {
      const round = await this.round(runs, choices);
      const isLast = round.ending.signal !== null || runs === most;
      const next = isLast ? [] : round.chosen.map(item => item.next(this.words.fit));
      if (next.every(item => item === null)) return round;
      choices = {};
      round.chosen.forEach(({ instance, choice }, place) => {
        choices = { ...choices, [instance.digest ?? '']: next[place]?.choice ?? choice };
      });
      this.again(next.flatMap(item => item?.why ?? []));
    }
  }

  /**
   * Says why the program is run again.
   * @param {string[]} why
   */
  again(why) {
    this.reasons.push(...why);
    const more = why.length > MOST_REASONS ? `; and ${why.length - MOST_REASONS} more` : '';
    this.say(`the program is run again: ${why.slice(0, MOST_REASONS).join('; ')}${more}`);
  }

  /** @param {number} runs @param {Record<string, Choice> | null} choices @returns {Promise<Round>} */
  async round(runs, choices) {
    const folder = path.join(this.folder, `run-${runs}`);
    fs.mkdirSync(folder);
    const settings = settingsOf(this.words, folder, choices);
    const progress = new Progress(folder);
    const ending = await this.runOf(settings, folder).finally(() => progress.end());
    if (runs > 1) fs.rmSync(path.join(this.folder, `run-${runs - 1}`), { recursive: true });
    const instances = instancesOf(folder);
    const chosen = chosenOf(instances, this.words, this.folder);
    return { runs, ending, instances, chosen, reasons: this.reasons, faults: faultsOf(folder) };
  }

  /** @param {Settings} settings @param {string} folder @returns {Promise<Ending>} */
  async runOf(settings, folder) {
    if (this.words.kind !== 'page') {
      const { status, signal } = await runNode(this.words, settings, this.streams);
      return { status, signal, page: null, errors: 0, picture: null };
    }
    const places = new PagePlaces(folder);
    const page = new PageProgram(this.words, settings, places);
    const { end, errors, picture, signal } = await page.run().finally(() => places.end());
    return { status: null, signal, page: end, errors, picture };
  }
}

/**
 * What a run that was killed has left behind.
 * @param {Words} words
 * @param {string} folder
 * @returns {Round}
 */
export function roundOfLog(words, folder) {
  const names = /** @type {string[]} */ (fs.readdirSync(folder)).filter(name => /^run-\d+$/.test(name));
  const runs = Math.max(...names.map(name => Number(name.slice(4))), 0);
  const instances = runs === 0 ? [] : instancesOf(path.join(folder, `run-${runs}`));
  const chosen = chosenOf(instances, words, folder);
  if (words.fit) for (const item of chosen) item.fitLog();
  const ending = { status: null, signal: 'a signal', page: null, errors: 0, picture: null };
  return { runs, ending, instances, chosen, reasons: [], faults: null };
}
