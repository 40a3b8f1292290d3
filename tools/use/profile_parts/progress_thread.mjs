/** The thread that shows how far a run is, while the run has the main thread. */
import fs from 'node:fs';
import { workerData } from 'node:worker_threads';
import { grouped } from './texts.mjs';

const turns = new BigInt64Array(workerData.buffer, 0, 1);
const begin = Date.now();

setInterval(() => {
  const seconds = Math.round((Date.now() - begin) / 1000);
  fs.writeSync(2, `\r\x1b[Kprofile: the run, ${seconds} s, at least ${grouped(Number(turns[0]))} turns`);
}, workerData.every);
