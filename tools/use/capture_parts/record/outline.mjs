/** The crossings of a record as r3's history has them. */
import { HOST_CALL, HOST_RETURN, IMPORT_CALL, IMPORT_RETURN } from '../recorder/log_layout.mjs';
import { historyValue } from './values.mjs';

/** @typedef {import('./events.mjs').Events} Events */
/** @typedef {import('./events.mjs').Event} Event */
/** @typedef {import('./script.mjs').View} View */

const WORDS = new Map([[HOST_CALL, 'host-call'], [HOST_RETURN, 'host-return'], [IMPORT_CALL, 'import-call'],
  [IMPORT_RETURN, 'import-return']]);

/**
 * Whether a line of a history is a crossing.
 * @param {string} line
 */
export const isCrossing = line => /^(host|import)-(call|return) /.test(line);

/**
 * The lines of the crossings.
 * @param {Events} events
 * @param {View} view
 */
export function* outline(events, view) {
  for (const { kind, number, types, values } of events) {
    const word = WORDS.get(kind);
    if (word === undefined) continue;
    const isHost = kind === HOST_CALL || kind === HOST_RETURN;
    const shown = kind === IMPORT_RETURN ? view.shownResults(number, types) : types;
    const texts = shown.map((type, place) => historyValue(type, values[place]));
    yield [word, isHost ? view.hostNumber(number) : view.importNumber(number), ...texts].join(' ');
  }
}
