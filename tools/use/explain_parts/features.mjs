/** Features of WebAssembly that Core 1.0 has not, and what turns each on in a compiler. */
import { PREFIX_BITS } from '../wasm/index.mjs';

/** @typedef {import('../wasm/instructions.mjs').Instruction} Instruction */

/**
 * The name is that of the target feature in clang and rustc where they have one; `option` is what turns it on otherwise.
 * @typedef {{ what: string, option?: string, isTargetFeature?: boolean }} Feature
 */

/** @type {Record<string, Feature>} */
const FEATURES = {
  'simd128': { what: 'vectors of 128 bits', isTargetFeature: true },
  'relaxed-simd': { what: 'relaxed vectors', isTargetFeature: true },
  'atomics': { what: 'threads: atomic instructions and shared memories', option: '-pthread', isTargetFeature: true },
  'exception-handling': { what: 'exceptions', option: '-fwasm-exceptions', isTargetFeature: true },
  'nontrapping-fptoint': { what: 'conversions of floats that do not trap', isTargetFeature: true },
  'bulk-memory': { what: 'segments that are not active, and instructions on them', isTargetFeature: true },
  'reference-types': { what: 'references as values, and several tables', isTargetFeature: true },
  'call-indirect-overlong': { what: 'the table of call_indirect as a number of five bytes, for the linker',
    option: '-mreference-types' },
  'multivalue': { what: 'several results of a function or a block, and parameters of a block', isTargetFeature: true },
  'tail-call': { what: 'tail calls', isTargetFeature: true },
  'extended-const': { what: 'arithmetic in constant expressions', isTargetFeature: true },
  'multimemory': { what: 'several memories', isTargetFeature: true },
  'memory64': { what: 'addresses of 64 bits', option: '--target=wasm64' },
  'function-references': { what: 'typed references to functions' },
  'gc': { what: 'types of garbage collection' },
};

/**
 * What a feature is, and what turns it on in a compiler.
 * @param {string} name
 */
export function featureText(name) {
  const { what, option, isTargetFeature } = FEATURES[name] ?? { what: 'an unknown one' };
  const ways = [
    ...(option ? [`\`${option}\` of clang and emcc`] : []),
    ...(isTargetFeature ? [`\`-m${name}\` of clang and emcc`, `\`-C target-feature=+${name}\` of rustc`] : []),
  ];
  const without = isTargetFeature ? `, and \`-mno-${name}\` leaves it out` : '';
  return `${name}: ${what}${ways.length > 0 ? `; it is made by ${ways.join(', or ')}${without}` : ''}`;
}

/**
 * The feature that has a value type, or null for one of Core 1.0.
 * @param {number} type
 */
export function typeFeature(type) {
  if (type >= 0x7c && type <= 0x7f) return null;
  if (type === 0x7b) return 'simd128';
  if (type === 0x70 || type === 0x6f) return 'reference-types';
  if (type === 0x69) return 'exception-handling';
  return type === 0x63 || type === 0x64 ? 'function-references' : 'gc';
}

/** The features of single opcodes without a prefix. */
const BY_OPCODE = new Map([
  ...[0x06, 0x07, 0x08, 0x09, 0x0a, 0x18, 0x19, 0x1f].map(op => [op, 'exception-handling']),
  ...[0x12, 0x13].map(op => [op, 'tail-call']),
  ...[0x14, 0x15, 0xd3, 0xd4, 0xd5, 0xd6].map(op => [op, 'function-references']),
  ...[0x1c, 0x25, 0x26, 0xd0, 0xd1, 0xd2].map(op => [op, 'reference-types']),
  [0xfb, 'gc'],
].map(([op, name]) => [Number(op), String(name)]));

/**
 * @param {number} number of an instruction behind the prefix 0xfc
 * @param {Instruction} item
 */
function bulkFeature(number, item) {
  if (number < 8) return 'nontrapping-fptoint';
  if (number >= 15) return 'reference-types';
  if (number === 10) return item.index === 0 && item.second === 0 ? null : 'multimemory';
  if (number === 11) return item.index === 0 ? null : 'multimemory';
  return 'bulk-memory';
}

/**
 * The feature that an instruction needs, or null if r3 takes it. `bytes` are those of the instruction.
 * @param {Instruction} item
 * @param {Uint8Array} bytes
 * @returns {string | null}
 */
export function instructionFeature(item, bytes) {
  const prefix = item.op >> PREFIX_BITS;
  const number = item.op & ((1 << PREFIX_BITS) - 1);
  if (prefix === 0xfd) return number >= 0x100 ? 'relaxed-simd' : 'simd128';
  if (prefix === 0xfe) return 'atomics';
  if (prefix === 0xfc) return bulkFeature(number, item);
  if (item.op >= 0x02 && item.op <= 0x04) {
    if (item.type === null) return 'multivalue';
    return item.type === 0x40 ? null : typeFeature(item.type ?? 0);
  }
  if (item.op === 0x11 && item.second !== 0) return 'reference-types';
  if (item.op === 0x11 && bytes.length > 2 && bytes[bytes.length - 2] >= 0x80) return 'call-indirect-overlong';
  if ((item.op === 0x3f || item.op === 0x40) && (item.index !== 0 || bytes.length !== 2)) return 'multimemory';
  if (item.op >= 0x28 && item.op <= 0x3e) return bytes[1] & 0x40 && bytes[1] < 0x80 ? 'multimemory' : null;
  return BY_OPCODE.get(item.op) ?? null;
}
