/** The rows of docs/STATUSES.md: `explain` prints their causes and cures, so the two never differ. */
import fs from 'node:fs';
import { fileURLToPath } from 'node:url';

const PAGE = fileURLToPath(new URL('../../../docs/STATUSES.md', import.meta.url));

/**
 * `lines` are the texts of a row, in which a word of capital letters is a number, a name or a digest.
 * @typedef {{ status: number, lines: string[], when: string, cure: string }} StatusRow
 * @typedef {{ place: string, cause: string, cure: string }} MalformedRow
 */

/** @type {string | null} */
let kept = null;
const page = () => (kept ??= fs.readFileSync(PAGE, 'utf8'));

/**
 * The cells of the page's rows that have this many.
 * @param {number} count
 */
const cells = count => page().split('\n').filter(line => line.startsWith('| '))
  .map(line => line.replace(/^\|\s*|\s*\|\s*$/g, '').split(/\s*\|\s*/)).filter(row => row.length === count);

/** @returns {StatusRow[]} */
const statusRows = () => page().split('\n').filter(line => /^\| \d+ \|/.test(line)).map(line => {
  const [, status, lines, when, cure] = line.split('|').map(cell => cell.trim());
  return { status: Number(status), lines: [...lines.matchAll(/`([^`]+)`/g)].map(found => found[1]), when, cure };
});

/**
 * A pattern for a line of the page: capital letters are a number, a digest, or any text.
 * @param {string} line
 */
function patternOf(line) {
  const parts = line.split(/\b(NAME|PATH|[A-Z])\b/);
  const escaped = parts.map((part, place) => {
    if (place % 2 === 0) return part.replace(/[.*+?^${}()|[\]\\]/g, '\\$&');
    return part === 'NAME' || part === 'PATH' ? '(.*)' : '([0-9a-f]+)';
  });
  return new RegExp(`^${escaped.join('')}$`);
}

/**
 * A text of the page as it is printed: links are their words and the page.
 * @param {string} text
 */
const printed = text => text.replace(/\[([^\]]*)\]\(([^)]*)\)/g, (_, words, target) =>
  (target.startsWith('#') ? `${words} (docs/STATUSES.md${target})` : `${words} (docs/${target})`));

/**
 * The row for a line, with the values at its capital letters; null if the page has none.
 * @param {string} line
 */
export function statusRow(line) {
  for (const row of statusRows()) {
    for (const text of row.lines) {
      const found = patternOf(text).exec(line);
      if (found) return { ...row, when: printed(row.when), cure: printed(row.cure), text, values: found.slice(1) };
    }
  }
  return null;
}

/**
 * The row of malformed modules for a section: that which names it, else the last one, for all other sections.
 * @param {string} section its name as in `SECTION_NAMES`
 * @returns {MalformedRow}
 */
export function malformedRow(section) {
  const rows = cells(3).filter(([place]) => /section/.test(place) && !/^P is/.test(place));
  const found = rows.find(([place]) => place === `the ${section} section` || place === `the section \`${section}\``)
    ?? rows[rows.length - 1];
  return { place: found[0], cause: printed(found[1]), cure: printed(found[2]) };
}

/**
 * The number of the row of limits for a quantity.
 * @param {string} quantity
 */
export function limitOf(quantity) {
  const found = cells(3).find(([name]) => name === quantity);
  return found ? Number(/[\d,]+/.exec(found[1])?.[0].replaceAll(',', '')) : NaN;
}
