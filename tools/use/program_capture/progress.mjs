/** Shows on a terminal how far a run is: crossings, bytes of the record, and seconds. */
import fs from 'node:fs';
import path from 'node:path';

const FIRST = 2000;
const EVERY = 500;
/** The crossings are in the last marks of a record, which are not far from its end. */
const TAIL = 1 << 18;

/**
 * The end of a file as text.
 * @param {string} file
 * @param {number} size
 */
function tail(file, size) {
  const bytes = Buffer.alloc(Math.min(TAIL, size));
  const descriptor = fs.openSync(file, 'r');
  fs.readSync(descriptor, bytes, 0, bytes.length, size - bytes.length);
  fs.closeSync(descriptor);
  return bytes.toString('latin1');
}

/**
 * How many bytes and crossings the records of a run have.
 * @param {string} folder
 */
function amounts(folder) {
  const sum = { bytes: 0, crossings: 0 };
  for (const name of fs.readdirSync(folder)) {
    const file = path.join(folder, name, 'record');
    if (!fs.existsSync(file)) continue;
    const { size } = fs.statSync(file);
    sum.bytes += size;
    sum.crossings += Number([...tail(file, size).matchAll(/"crossings":(\d+)/g)].at(-1)?.[1] ?? 0);
  }
  return sum;
}

export class Progress {
  /** @param {string} folder of the run */
  constructor(folder) {
    this.folder = folder;
    this.begin = Date.now();
    this.isShown = false;
    if (process.stderr.isTTY) this.timer = setInterval(() => this.show(), EVERY);
  }

  show() {
    const time = Date.now() - this.begin;
    if (time < FIRST) return;
    const { bytes, crossings } = amounts(this.folder);
    const amount = `${crossings} crossings, ${bytes} bytes, ${Math.round(time / 1000)} seconds`;
    process.stderr.write(`\r\x1b[Kcapture: ${amount}`);
    this.isShown = true;
  }

  /** Takes the shown line away. */
  end() {
    clearInterval(this.timer);
    if (this.isShown) process.stderr.write('\r\x1b[K');
  }
}
