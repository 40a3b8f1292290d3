/** What of K a run names: which functions it calls and enters, which entries of the table, which globals. */
import { ACTION, ENTRY, FIRST_ENTRY, GLOBAL, GROW, HOST_CALL, IMPORT_CALL, OTHER_FUNCTION,
  WRITE } from '../recorder/log_layout.mjs';

/** @typedef {import('./events.mjs').Events} Events */

/**
 * What a run names.
 * @typedef {object} Contents
 * @property {Map<number, number>} hostCalls how often the host calls each place of K
 * @property {Map<number, number>} importCalls how often K calls each place among its imports
 * @property {Map<number, number>} firstEntries the functions that instantiation has left in entries which K calls by
 * @property {Set<number>} entryFunctions the functions of M that are in entries which K calls by
 * @property {Set<number>} setFunctions those of them that the host puts there
 * @property {boolean} hasOther whether such an entry has a function of a type that K does not call
 * @property {Set<number>} setGlobals
 * @property {number} writtenBytes
 * @property {boolean} grows whether the host grows the memory
 */

/**
 * @param {Map<number, number>} counts
 * @param {number} key
 */
const add = (counts, key) => counts.set(key, (counts.get(key) ?? 0) + 1);

/**
 * @param {Events} events
 * @returns {Contents}
 */
export function contentsOf(events) {
  const found = { hostCalls: new Map(), importCalls: new Map(), firstEntries: new Map(), entryFunctions: new Set(),
    setFunctions: new Set(), hasOther: false,
    setGlobals: new Set(), writtenBytes: 0, grows: false };
  for (const { kind, number, values, bytes } of events) {
    if (kind === HOST_CALL) add(found.hostCalls, number);
    else if (kind === IMPORT_CALL) add(found.importCalls, number);
    else if (kind === WRITE) found.writtenBytes += bytes.length;
    else if (kind === ACTION && number === GROW) found.grows = true;
    else if (kind === ACTION && number === GLOBAL) found.setGlobals.add(Number(values[0]));
    else if (kind === ACTION && (number === ENTRY || number === FIRST_ENTRY)) {
      const [place, index] = values.map(Number);
      if (index >= 0) found.entryFunctions.add(index);
      if (index >= 0 && number === ENTRY) found.setFunctions.add(index);
      if (index === OTHER_FUNCTION) found.hasOther = true;
      if (number === FIRST_ENTRY && (index >= 0 || index === OTHER_FUNCTION)) found.firstEntries.set(place, index);
    }
  }
  return found;
}

