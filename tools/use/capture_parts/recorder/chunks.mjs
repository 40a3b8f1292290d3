/** The chunks of a record: each has its tag and its length, in four bytes each, and its bytes. */
export const CHUNK = { module: 1, head: 2, words: 3, marks: 4, end: 5 };

/** Of a chunk's beginning. */
const HEAD_BYTES = 8;

/**
 * A chunk.
 * @param {number} tag
 * @param {Uint8Array} bytes
 */
export function chunk(tag, bytes) {
  const whole = new Uint8Array(HEAD_BYTES + bytes.length);
  const view = new DataView(whole.buffer);
  view.setUint32(0, tag, true);
  view.setUint32(4, bytes.length, true);
  whole.set(bytes, HEAD_BYTES);
  return whole;
}

/**
 * A chunk of a value, as JSON.
 * @param {number} tag
 * @param {unknown} value
 */
export const jsonChunk = (tag, value) => chunk(tag, new TextEncoder().encode(JSON.stringify(value)));

/**
 * The chunks of a record, in order. A last one that is cut is left out.
 * @param {Uint8Array} bytes
 */
export function* chunksOf(bytes) {
  const view = new DataView(bytes.buffer, bytes.byteOffset, bytes.byteLength);
  for (let at = 0; at + HEAD_BYTES <= bytes.length;) {
    const end = at + HEAD_BYTES + view.getUint32(at + 4, true);
    if (end > bytes.length) return;
    yield { tag: view.getUint32(at, true), bytes: bytes.subarray(at + HEAD_BYTES, end) };
    at = end;
  }
}
