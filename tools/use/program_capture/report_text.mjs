/** The report of a capture as text. */

/** @typedef {import('./report.mjs').Report} Report */
/** @typedef {Record<string, number>} Counts */

/** Names in a line, which is cut where they are many. */
const MOST_NAMES = 12;
const MOST_EXPORTS = 6;

/** Before lines that go on with what another began. */
const INDENT = ' '.repeat(11);

/** @param {string[]} items @param {number} most */
function listed(items, most = MOST_NAMES) {
  if (items.length <= most) return items.join(', ');
  return `${items.slice(0, most).join(', ')}, and ${items.length - most} more`;
}
/** @param {Counts} counts */
const counted = counts => listed(Object.entries(counts).map(([name, count]) => `${count} ${name}`));
/** @param {Counts} counts */
const sum = counts => Object.values(counts).reduce((total, count) => total + count, 0);

/** @param {Report} report */
function programLines({ program, runs }) {
  const words = [program.host, program.file, ...program.words].filter(word => word !== null);
  const again = runs.why.map(why => `${INDENT}was run again: ${why}`);
  return [`program    ${words.join(' ')}`, `${INDENT}ended by: ${program.end}`, ...again];
}

/** @param {Report['modules'][number]} item */
function moduleLine({ number, digest, bytes, exports, taken, why }) {
  const size = `${bytes ?? 'unknown'} bytes, ${digest ?? 'no digest'}`;
  const names = listed(exports, MOST_EXPORTS) || 'nothing';
  return `module ${number}${taken ? ' taken' : ''}: ${size}; exports ${names}${why === null ? '' : `; ${why}`}`;
}

/** @param {Report} report */
function moduleLines({ modules, module }) {
  const whole = module.whole ? 'module.wasm is the module, byte for byte'
    : 'module.wasm has the kept functions; the rest of the module is part of the host';
  const why = module.why_not_whole === null ? '' : ` (${module.why_not_whole})`;
  return [...modules.map(moduleLine), whole + why];
}

/** @param {Report} report */
function functionLines({ functions: { count, kept, entered, left_out, left_out_reasons }, floats }) {
  const numbers = `${count}, of them ${kept.length} kept and ${entered.length} of these entered`;
  const lines = [`functions  ${numbers}; ${left_out.length} left out`];
  const reasons = Object.entries(left_out_reasons).map(([why, number]) => `${number} ${why}`);
  if (reasons.length > 0) lines.push(`${INDENT}left out: ${reasons.join(', ')}`);
  const ran = sum(floats.run_in);
  if (ran > 0) lines.push(`${INDENT}float instructions that the host answers: ${ran}, in ${counted(floats.run_in)}`);
  return lines;
}

/** @param {Report} report */
function crossingLines({ crossings }) {
  const lines = [
    `crossings  ${crossings.count}`, `${INDENT}in ${sum(crossings.in)}: ${counted(crossings.in)}`,
    `${INDENT}out ${sum(crossings.out)}: ${counted(crossings.out)}`,
  ];
  if (crossings.after_the_end > 0) lines.push(`${INDENT}${crossings.after_the_end} more after the end of the record`);
  return lines;
}

const WAYS = {
  history: "r3's history of module.wasm and script.json", replay: "r3's history of replay.wasm",
  V8: 'replay.wasm in V8, its border observed,',
};

/** @param {Report} report */
function endLines({ end, turns, comparison, limit, sizes }) {
  const files = Object.entries(sizes).map(([name, size]) => `${name} ${size}`).join(', ');
  const lines = [
    `end        ${end.kind}: ${end.text}`, `${INDENT}${end.means}`,
    `sizes      ${files}; ${turns === null ? 'turns not counted' : `${turns} turns`}`,
  ];
  if (limit !== null) lines.push(`limit      ${limit}`);
  const seen = comparison === null ? 'with nothing' : `${WAYS[comparison.by]} has exactly the ${comparison.crossings} `
    + 'calls and returns at the border that were seen, with all arguments and results';
  return [...lines, `compared   ${seen}`];
}

/** @param {Report} report */
function nameLines({ functions: { entered, kept, left_out } }) {
  const ran = new Set(entered);
  const others = kept.filter(name => !ran.has(name));
  const left = left_out.map(({ name, why }) => `${INDENT}${name}: ${why}`);
  return ['', `entered    ${entered.join(', ')}`, '', `others     ${others.join(', ')}`, '', 'left out', ...left];
}

/** @param {Report} report */
export function reportText(report) {
  const parts = [programLines, moduleLines, functionLines, crossingLines, endLines, nameLines];
  return `${parts.flatMap(part => part(report)).join('\n')}\n`;
}
