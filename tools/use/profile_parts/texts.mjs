/** The profile as texts: a table, folded stacks, a trace, and all numbers. */

/** @import { HostCount, Report } from './report.mjs' */

/** A number with commas between groups of three digits. */
export const grouped = number => String(number).replace(/\B(?=(\d{3})+$)/g, ',');
export const share = (part, whole) => `${(whole === 0 ? 0 : 100 * part / whole).toFixed(1)} %`;
export const counted = (number, word) => `${grouped(number)} ${word}${number === 1 ? '' : 's'}`;

const MOST_ROWS = 40;
const OUTCOMES = { ended: 'the run ended', trapped: 'the run trapped', 'host-trapped': 'the host trapped' };

/** Columns that are aligned at the right, but for the last one. */
function columns(rows) {
  const widths = rows[0].map((_, column) => Math.max(...rows.map(row => row[column].length)));
  return rows.map(row => row.map((text, column) =>
    (column === row.length - 1 ? text : text.padStart(widths[column]))).join('  '));
}

/** @param {Report} report */
function functionRows({ functions, turns }) {
  const called = functions.filter(({ calls }) => calls > 0);
  called.sort((one, other) => other.self - one.self || one.index - other.index);
  const rows = called.slice(0, MOST_ROWS).map(({ self, all, calls, name }) =>
    [grouped(self), share(self, turns), grouped(all), share(all, turns), grouped(calls), name]);
  const left = called.length - rows.length;
  return [...columns([['turns', '', 'with calls', '', 'calls', 'function'], ...rows]),
    ...(left > 0 ? [`and ${counted(left, 'function')} with fewer turns`] : [])];
}

/** @param {Report} report */
function importRows({ imports, host }) {
  const heads = 'calls actions weight bytes entries globals growths arguments results import'.split(' ');
  const rows = [host, ...imports.filter(({ calls }) => calls > 0)].map(item => {
    const { turns, weight, bytes, entries, globals, growths, arguments_, results } = item;
    const numbers = [turns, weight, bytes, entries, globals, growths, arguments_, results].map(grouped);
    return [item.index === null ? '' : grouped(item.calls), ...numbers, item.name];
  });
  return columns([heads, ...rows]);
}

/** The sentences about the whole run. @param {Report} report */
export function sentences(report) {
  const { border, memory, line } = report;
  const read = counted(memory.pages.reduce((sum, { bytes }) => sum + bytes, 0), 'byte');
  const host = report.hasScript ? `${counted(report.actions, 'action')} of the host`
    : `${counted(report.actions, 'call')} by the host`;
  const returns = (calls, returned) => `${grouped(calls)}, of which ${grouped(returned)} return`;
  return [
    `${counted(report.turns, 'turn')}: ${counted(report.instructions, 'instruction')} and ${host}; `
      + OUTCOMES[report.outcome],
    ...(report.hasScript ? [] : ['other actions of the host are not counted: a replay module does not have them']),
    `calls by the host: ${returns(border.hostCalls, border.hostReturns)}; `
      + `calls of imports: ${returns(border.importCalls, border.importReturns)}`,
    `the replay's tape weighs ${counted(report.weight, 'unit')}; the run reads ${read} that the host writes, `
      + `in ${counted(memory.pages.length, 'page')} of the memory`,
    ...(report.arePathsShortened ? ['there are too many call paths: further ones are put together by functions'] : []),
    ...(line.isThinned ? [`the time line has ${grouped(line.calls.length)} of ${counted(line.all, 'call')}`] : []),
  ];
}

/** @param {Report} report */
export function* table(report) {
  yield `${[...sentences(report), '', ...functionRows(report), '', ...importRows(report)].join('\n')}\n`;
}

/** A name as folded stacks can have it. */
const frame = name => name.replace(/[\r\n]/g, ' ').replaceAll(';', ':');

/** @param {Report} report */
export function* folded({ paths }) {
  const texts = [''];
  yield* paths[0].self > 0 ? [`${paths[0].name} ${paths[0].self}\n`] : [];
  for (let index = 1; index < paths.length; index++) {
    const { parent, name, self } = paths[index];
    texts.push(parent === 0 ? frame(name) : `${texts[parent]};${frame(name)}`);
    if (self > 0) yield `${texts[index]} ${self}\n`;
  }
}

/** @param {Report} report @param {string[]} names */
export function* trace(report, names) {
  const { line, turns, file } = report;
  const place = { pid: 1, tid: 1 };
  const about = (name, text) => ({ name, ph: 'M', ...place, args: { name: text } });
  const thinned = line.isThinned ? `, ${line.calls.length} of ${line.all} calls` : '';
  const other = JSON.stringify({ file, turns, unit: 'a microsecond is a turn' });
  yield `{"displayTimeUnit":"ms","otherData":${other},"traceEvents":[\n`;
  yield `${JSON.stringify(about('process_name', `${file} (a microsecond is a turn${thinned})`))},\n`;
  yield `${JSON.stringify(about('thread_name', 'host and module'))},\n`;
  yield JSON.stringify({ name: 'host', cat: 'host', ph: 'X', ts: 0, dur: turns, ...place });
  for (const { isImport, index, begin, end, number } of line.calls) {
    const cat = isImport ? 'call of an import' : 'call by the host';
    const event = { name: names[index], cat, ph: 'X', ts: begin, dur: end - begin, ...place, args: { number } };
    yield `,\n${JSON.stringify(event)}`;
  }
  yield '\n]}\n';
}

/** @param {Report} report */
export function* json(report) {
  yield `${JSON.stringify({ format: 'r3 profile 1', ...report })}\n`;
}
