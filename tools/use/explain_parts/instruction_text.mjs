/** Instructions as text, as the text format has them. */
import { instructionName, typeName } from '../wasm/index.mjs';

/** @typedef {import('../wasm/instructions.mjs').Instruction} Instruction */

/** @param {Uint8Array} bytes */
function constantText(bytes) {
  const view = new DataView(bytes.buffer, bytes.byteOffset, bytes.length);
  if (bytes.length === 4) return String(view.getFloat32(0, true));
  if (bytes.length === 8) return String(view.getFloat64(0, true));
  return [...bytes].join(' ');
}

/**
 * The type of a block.
 * @param {Instruction} item
 * @returns {string[]}
 */
function blockType(item) {
  if (typeof item.typeIndex === 'number') return [`(type ${item.typeIndex})`];
  return typeof item.type === 'number' && item.type !== 0x40 ? [`(result ${typeName(item.type)})`] : [];
}

/**
 * @param {Instruction} item
 * @returns {string[]}
 */
function memoryText(item) {
  return [
    ...(item.memory ? [`(memory ${item.memory})`] : []),
    ...(item.offset ? [`offset=${item.offset}`] : []),
  ];
}

/**
 * An instruction as text. Calls have the name of the function behind its number.
 * @param {Instruction} item
 * @param {string[]} names those of all functions
 */
export function instructionText(item, names) {
  const { op } = item;
  const words = [instructionName(op), ...blockType(item)];
  if (op === 0x11 || op === 0x13) {
    words.push(...(item.second ? [String(item.second)] : []), `(type ${item.index})`);
  } else if (op !== 0x3f && op !== 0x40) {
    if (item.labels) words.push(...item.labels.map(String));
    if (item.index !== undefined) words.push(String(item.index));
    if (item.second !== undefined) words.push(String(item.second));
  }
  if (op === 0x10 || op === 0x12 || op === 0xd2) words.push(`<${names[item.index ?? 0] ?? '?'}>`);
  if (item.align !== undefined) words.push(...memoryText(item));
  if (item.types) words.push(`(result ${item.types.map(typeName).join(' ')})`);
  if (item.value !== undefined) words.push(op === 0xd0 ? typeName(Number(item.value) & 127) : String(item.value));
  if (item.bytes) words.push(constantText(item.bytes));
  if (item.lane !== undefined) words.push(String(item.lane));
  return words.join(' ');
}
