// Computes checksums in a worker: of a page, where the module comes as a stream.
const ready = WebAssembly.instantiateStreaming(fetch('checksum.wasm'), { host: { progress: share => postMessage({ share }) } });

onmessage = async ({ data }) => {
  const { room, checksum, memory } = (await ready).instance.exports;
  const bytes = new TextEncoder().encode(data);
  new Uint8Array(memory.buffer).set(bytes, room(bytes.length));
  postMessage({ checksum: checksum(bytes.length) >>> 0 });
};
