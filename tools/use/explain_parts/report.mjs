/** What `explain` prints: paragraphs with a label each. */

/**
 * A label, and its lines.
 * @typedef {[label: string, ...lines: string[]]} Paragraph
 */

/**
 * What is found for a line. `disagrees` says what `explain` reads otherwise, and is null if it reads the same.
 * @typedef {{ paragraphs: Paragraph[], disagrees: string | null }} Finding
 */

const WIDTH = 10;

/** @param {Paragraph[]} paragraphs */
export function reportText(paragraphs) {
  return paragraphs.flatMap(([label, ...lines]) =>
    lines.map((line, place) => `${(place === 0 ? label : '').padEnd(WIDTH)}${line}`.trimEnd() + '\n')).join('');
}

/**
 * A place in a file, as r3 and as wasm-objdump have it.
 * @param {number} at
 */
export const byteText = at => `byte ${at} (0x${at.toString(16)})`;
