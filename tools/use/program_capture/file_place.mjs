/** Where a process of Node.js leaves what it records: a folder for each instance, and notes of clocks and the like. */
import fs from 'node:fs';
import path from 'node:path';
import { threadId } from 'node:worker_threads';

/** @typedef {import('./types.mjs').Notes} Notes */

/** Taken before the program may change them. */
const { appendFileSync, closeSync, existsSync, mkdirSync, openSync, readFileSync, writeFileSync, writeSync } = fs;
const regularly = setInterval;

/** Milliseconds between two writes of what is recorded. */
const TIME = 50;

export class FilePlace {
  /** @param {string} folder @param {number} thread */
  constructor(folder, thread = threadId) {
    this.folder = folder;
    this.file = path.join(folder, '..', `inputs-${thread}.json`);
  }

  /**
   * The notes of clocks and random numbers of an earlier run, of the same thread, or null.
   * @returns {Notes | null}
   */
  notes() {
    return existsSync(this.file) ? JSON.parse(readFileSync(this.file, 'utf8')) : null;
  }

  /** @param {Notes} notes */
  putNotes(notes) {
    writeFileSync(this.file, JSON.stringify(notes));
  }

  /** A folder of its own for one more instance, with its number. */
  begin() {
    for (let number = 0; ; number++) {
      const folder = path.join(this.folder, `instance-${number}`);
      try {
        mkdirSync(folder);
        return { number, sink: new FileSink(folder) };
      } catch (error) {
        if (/** @type {any} */ (error).code !== 'EEXIST') throw error;
      }
    }
  }

  /**
   * Calls a function from time to time, as long as the program has something to do.
   * @param {() => void} call
   */
  often(call) {
    /** @type {any} */ (regularly(call, TIME)).unref();
  }

  /**
   * Notes an error of ours, which the program does not see.
   * @param {any} error
   */
  fault(error) {
    appendFileSync(path.join(this.folder, 'faults.txt'), `${error?.stack ?? error}\n`);
  }
}

/** The files of one instance. */
class FileSink {
  /** @param {string} folder */
  constructor(folder) {
    this.folder = folder;
    /** @type {Map<string, number>} */
    this.open = new Map();
  }

  /** @param {string} name @param {Uint8Array} bytes */
  put(name, bytes) {
    writeFileSync(path.join(this.folder, name), bytes);
  }

  /** @param {string} name @param {Uint8Array} bytes */
  append(name, bytes) {
    const file = this.open.get(name) ?? openSync(path.join(this.folder, name), 'a');
    this.open.set(name, file);
    for (let at = 0; at < bytes.length;) at += writeSync(file, bytes, at);
  }

  end() {
    for (const file of this.open.values()) closeSync(file);
    this.open.clear();
  }
}
