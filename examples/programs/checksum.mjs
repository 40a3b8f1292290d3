// Computes checksums in a worker of Node.js.
import fs from 'node:fs';
import { Worker, isMainThread, parentPort } from 'node:worker_threads';

if (isMainThread) {
  const worker = new Worker(new URL(import.meta.url));
  const texts = ['a', 'text that is a little longer', 'x'.repeat(10000)];
  worker.postMessage(texts.shift());
  worker.on('message', sum => {
    console.log('checksum', sum.toString(16));
    worker.postMessage(texts.shift() ?? null);
  });
} else {
  const module = new WebAssembly.Module(fs.readFileSync(new URL('checksum.wasm', import.meta.url)));
  const { exports } = new WebAssembly.Instance(module, { host: { progress: () => {} } });
  parentPort.on('message', text => {
    if (text === null) {
      parentPort.close();
      return;
    }
    const bytes = new TextEncoder().encode(text);
    new Uint8Array(exports.memory.buffer).set(bytes, exports.room(bytes.length));
    parentPort.postMessage(exports.checksum(bytes.length) >>> 0);
  });
}
