/** Runs `capture` and r3 on files in a folder of the tests' own. */
import { spawnSync } from 'node:child_process';
import fs from 'node:fs';
import os from 'node:os';
import path from 'node:path';
import { fileURLToPath } from 'node:url';

const here = path.dirname(fileURLToPath(import.meta.url));

export const root = path.resolve(here, '..', '..', '..');
export const scriptHost = path.join(here, 'script_host.mjs');

const MOST_OUTPUT = 1 << 28;
const TURNS = '2000000';

/** @typedef {{ status: number | null, output: Buffer, errors: string }} Answer */
/** @typedef {[name: string, run: () => string | null]} Check a check gives null, or what went wrong */

export class Runner {
  /** @param {string} program */
  constructor(program) {
    this.program = program;
    this.folder = fs.mkdtempSync(path.join(os.tmpdir(), 'r3_capture_'));
    this.files = 0;
  }

  remove() {
    fs.rmSync(this.folder, { recursive: true });
  }

  /**
   * A new file with these contents.
   * @param {string} ending
   * @param {string | Uint8Array} contents
   */
  file(ending, contents) {
    const file = path.join(this.folder, `${this.files++}.${ending}`);
    fs.writeFileSync(file, contents);
    return file;
  }

  /**
   * @param {string} program
   * @param {string[]} words
   * @param {object} options
   * @returns {Answer}
   */
  run(program, words, options = {}) {
    const set = { maxBuffer: MOST_OUTPUT, cwd: this.folder, ...options };
    const { status, stdout, stderr } = spawnSync(program, words, set);
    return { status, output: stdout, errors: stderr?.toString() ?? '' };
  }

  /**
   * Captures, and gives the status, what is printed, and standard error.
   * @param {string[]} words
   * @param {object} [options]
   */
  capture(words, options) {
    return this.run(path.join(root, 'tools', 'capture'), words, options);
  }

  /**
   * @param {string} module
   * @param {string} script
   */
  history(module, script, turns = TURNS) {
    return this.run(this.program, ['history', module, script, turns]);
  }

  /**
   * The history of what was captured: its text, or what went wrong.
   * @param {string} module
   * @param {Answer} captured
   */
  historyOfCaptured(module, captured) {
    if (captured.status !== 0) return `status ${captured.status}: ${captured.errors}`;
    const { status, output, errors } = this.history(module, this.file('json', captured.output));
    return status === 0 ? output.toString() : errors;
  }
}

/** Counts checks, and prints a line for each group of them. */
export class Tally {
  constructor() {
    this.passed = 0;
    this.failed = 0;
  }

  /**
   * Runs the checks of a group.
   * @param {string} name
   * @param {Check[]} checks
   */
  group(name, checks) {
    const failures = [];
    for (const [check, run] of checks) {
      const fault = run();
      if (fault !== null) failures.push(`  ${check}: ${fault}`);
    }
    const passed = checks.length - failures.length;
    this.passed += passed;
    this.failed += failures.length;
    console.log(`${name}: ${passed} of ${checks.length}`);
    failures.forEach(line => console.log(line));
  }
}

/** The lines of a history that a host sees. */
export const crossings = (/** @type {string} */ history) =>
  history.split('\n').filter(line => /^(host|import)-(call|return)/.test(line));

/**
 * Null where two texts are equal, else where they first differ.
 * @param {string | null} found
 * @param {string} expected
 */
export function difference(found, expected) {
  if (found === expected) return null;
  const [ours, theirs] = [found ?? '', expected].map(text => text.split('\n'));
  const line = ours.findIndex((text, index) => text !== theirs[index]);
  return `line ${line + 1}: ${JSON.stringify(ours[line])}, expected ${JSON.stringify(theirs[line])}`;
}
