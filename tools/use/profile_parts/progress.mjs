/** Shows on standard error how far the work is, where that is a terminal. */
import fs from 'node:fs';
import { Worker } from 'node:worker_threads';

const EVERY = 250;

export class Progress {
  constructor() {
    this.isShown = process.stderr.isTTY === true;
    this.worker = null;
    this.timer = null;
  }

  /** Shows what is done, and for how long. */
  begin(what) {
    if (!this.isShown) return;
    const begin = Date.now();
    this.timer = setInterval(() => {
      fs.writeSync(2, `\r\x1b[Kprofile: ${what}, ${Math.round((Date.now() - begin) / 1000)} s`);
    }, EVERY);
  }

  /** Shows the turns of a run. The run leaves this thread no time, so another one reads them in the shared memory. */
  watch(memory) {
    if (!this.isShown) return;
    const url = new URL('./progress_thread.mjs', import.meta.url);
    this.worker = new Worker(url, { workerData: { buffer: memory.buffer, every: EVERY } });
  }

  /** Takes the shown line away. */
  done() {
    if (!this.isShown) return;
    clearInterval(this.timer);
    this.worker?.terminate();
    this.worker = null;
    fs.writeSync(2, '\r\x1b[K');
  }
}
