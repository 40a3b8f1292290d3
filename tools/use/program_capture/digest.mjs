/**
 * A name for a module: 32 bits of FNV-1a of its bytes, and how many it has.
 * @param {Uint8Array} bytes
 */
export function digest(bytes) {
  let hash = 0x811c9dc5;
  for (let at = 0; at < bytes.length; at++) hash = Math.imul(hash ^ bytes[at], 0x01000193);
  return `${(hash >>> 0).toString(16).padStart(8, '0')}-${bytes.length}`;
}
