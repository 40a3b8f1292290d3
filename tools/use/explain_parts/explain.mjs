/** The cause of a status line for a module, as paragraphs. */
import fs from 'node:fs';
import { fileURLToPath } from 'node:url';
import { invalidFunctionFinding, invalidModuleFinding } from './invalid.mjs';
import { malformedFinding, sectionNameAt } from './malformed.mjs';
import { floatFinding, importFinding, limitFinding } from './refused.mjs';
import { limitOf, malformedRow, statusRow } from './status_page.mjs';

/** @typedef {import('./report.mjs').Finding} Finding */
/** @typedef {import('./report.mjs').Paragraph} Paragraph */

/** Thrown where a line cannot be explained. Its message is one line. */
export class Refusal extends Error {}

const QUANTITIES = new Map([
  ['parameters', 'parameters of a function type'],
  ['locals', 'locals of a function, without parameters'],
  ['table', 'entries of a table, at its beginning'],
  ['memory', 'pages of a memory, at its beginning'],
]);

/** Where `capture -o` is, which splits modules. */
const SPLITTING = fileURLToPath(new URL('../program_capture/words.mjs', import.meta.url));

/**
 * The causes for which a module can be captured as it is.
 * @param {string} line
 */
const isMendedByCapture = line => /^(malformed: at [1-9]|invalid|unsupported|limit|reserved)/.test(line);

/** @returns {Paragraph} */
const captureCure = () => ['as it is',
  '`./r3 capture -o FOLDER` takes the module as it comes: it splits it into a part that r3 takes, and the rest'];

/**
 * What a number of the line is of.
 * @type {[RegExp, (bytes: Uint8Array, values: string[]) => Finding][]}
 */
const FINDINGS = [
  [/^malformed: at (\d+)$/, (bytes, [at]) => malformedFinding(bytes, Number(at))],
  [/^invalid: function (\d+)$/, (bytes, [index]) => invalidFunctionFinding(bytes, Number(index))],
  [/^invalid: module$/, bytes => invalidModuleFinding(bytes)],
  [/^unsupported: function (\d+) instruction (\d+) float (\w+)$/, (bytes, [index, number, kind]) =>
    floatFinding(bytes, Number(index), Number(number), kind)],
  [/^limit: (\w+) (\d+)$/, (bytes, [which, value]) =>
    limitFinding(bytes, which, Number(value), limitOf(QUANTITIES.get(which) ?? ''))],
  [/^reserved: import (\d+)$/, (bytes, [index]) => importFinding(bytes, Number(index))],
  [/^link: (?:missing|mismatch) import (\d+)$/, (bytes, [index]) => importFinding(bytes, Number(index))],
  [/^declarations: reserved (\d+)$/, (bytes, [index]) => importFinding(bytes, Number(index))],
  [/^pair: (?:unresolved|mismatch) (?:left|right) (\d+)$/, (bytes, [index]) => importFinding(bytes, Number(index))],
];

/**
 * What the page says of a line: the cause, if the module does not show one, and what to do.
 * @param {Uint8Array} bytes
 * @param {string} line
 * @returns {Paragraph[]}
 */
function pageParagraphs(bytes, line) {
  const row = statusRow(line);
  if (row === null) throw new Refusal(`docs/STATUSES.md has no line ${line}`);
  const at = /^malformed: at (\d+)$/.exec(line);
  const { cause, cure } = at ? malformedRow(sectionNameAt(bytes, Number(at[1]))) : { cause: row.when, cure: row.cure };
  return [['status', String(row.status)], ...(cause ? [/** @type {Paragraph} */ (['means', cause])] : []),
    ...(cure ? [/** @type {Paragraph} */ (['to do', cure])] : [])];
}

/**
 * What is to say of a line that r3 prints for a module.
 * @param {Uint8Array} bytes
 * @param {string} line
 * @returns {Finding}
 */
export function finding(bytes, line) {
  const ending = pageParagraphs(bytes, line);
  if (isMendedByCapture(line) && fs.existsSync(SPLITTING)) ending.push(captureCure());
  for (const [pattern, found] of FINDINGS) {
    const values = pattern.exec(line);
    if (values === null) continue;
    const { paragraphs, disagrees } = found(bytes, values.slice(1));
    return { paragraphs: [['line', line], ...paragraphs, ...ending], disagrees };
  }
  return { paragraphs: [['line', line], ...ending], disagrees: null };
}
