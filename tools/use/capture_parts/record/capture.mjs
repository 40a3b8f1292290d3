/** The capture that is made of a record: the module, the script, and what a report says of them. */
import { countsOf } from '../split/plan.mjs';
import { instructionName } from '../../wasm/instruction_names.mjs';
import { contentsOf } from './contents.mjs';
import { Events } from './events.mjs';
import { KeptView } from './kept_view.mjs';
import { outline } from './outline.mjs';
import { NotWhole, Script, scriptPieces } from './script.mjs';
import { WholeView } from './whole_view.mjs';

/** @typedef {import('./record.mjs').Record} Record */
/** @typedef {import('./contents.mjs').Contents} Contents */

/** Each crossing takes at least four bytes of a script, and r3 reads 8,388,608: beyond this no script is made. */
const MOST_CROSSINGS = 2200000;

/**
 * How the program ended, as far as it was recorded.
 * @typedef {object} Ending
 * @property {'returned' | 'trap' | 'host trap' | 'cut'} kind of the run for r3
 * @property {string} text
 */

/**
 * @param {Record} record
 * @param {Events} events
 * @returns {Ending}
 */
function ending({ end, plan, until }, events) {
  const isCut = events.end < events.record.words.length;
  if (end === null) return { kind: 'cut', text: 'the program was ended from outside' };
  const { over } = end;
  if (over === null) return { kind: isCut ? 'cut' : 'returned', text: isCut ? `after ${until} crossings` : end.why };
  const ofKept = over.slot === null ? '' : plan.names[plan.kept[over.slot]];
  const where = over.place === null ? ofKept : calleeName(plan, over.place);
  const text = where === '' ? over.text : `${where}: ${over.text}`;
  if (over.by === 'trap') return { kind: 'trap', text };
  return { kind: over.by === 'exception' ? 'host trap' : 'cut', text };
}

/**
 * @param {import('../split/plan.mjs').Plan} plan
 * @param {number} place
 */
function calleeName(plan, place) {
  const { callees, floats, names } = plan;
  if (place < callees.length) return names[callees[place]];
  if (place < callees.length + floats.length) return instructionName(floats[place - callees.length]);
  return `a function of the host's own (${place - callees.length - floats.length})`;
}

/**
 * Names with counts, the largest first.
 * @param {[string, number][]} list
 */
const sorted = list => list.sort(([, one], [, other]) => other - one);

/**
 * What a report says, by names.
 * @param {Record} record
 * @param {Contents} contents
 * @param {Events} events
 */
function report(record, contents, events) {
  const { plan, entered, floatCounts, end } = record;
  const name = (/** @type {number} */ slot) => plan.names[plan.kept[slot]];
  const sum = (/** @type {Map<number, number>} */ counts) =>
    [...counts.values()].reduce((total, count) => total + count, 0);
  return {
    functions: plan.m.functions.length - plan.m.importedFunctions,
    kept: plan.kept.map(index => plan.names[index]),
    entered: [...entered].sort((one, other) => one - other).map(name),
    left: [...plan.why].map(([index, why]) => ({ name: plan.names[index], index, why })),
    reasons: countsOf(plan.why),
    floats: sorted([...floatCounts].map(([slot, count]) => [name(slot), count])),
    inwards: sorted([...contents.hostCalls].map(([slot, count]) => [name(slot), count])),
    outwards: sorted([...contents.importCalls].map(([place, count]) => [calleeName(plan, place), count])),
    crossings: sum(contents.hostCalls) + sum(contents.importCalls),
    writtenBytes: contents.writtenBytes, end: ending(record, events), after: end?.after ?? 0, fault: end?.fault ?? null,
    stale: (end?.stale ?? []).map(index => plan.names[index]),
  };
}

/**
 * @param {Events} events
 * @param {Contents} contents
 * @param {boolean} isWhole
 */
function viewOf(events, contents, isWhole) {
  if (!isWhole) return new KeptView(events, contents);
  try {
    const view = new WholeView(events, contents);
    return { view, script: new Script(events, view) };
  } catch (error) {
    if (!(error instanceof NotWhole)) throw error;
    return { notWhole: error.message, view: new KeptView(events, contents) };
  }
}

/**
 * The capture of a record. `whole` says that r3 takes the module as it is: then the module itself is taken, if all of
 * it was kept and a script for it can say what the host did.
 * @param {Record} record
 * @param {{ whole?: boolean }} [options]
 */
export function captureOf(record, options = {}) {
  const events = new Events(record);
  const contents = contentsOf(events);
  const found = viewOf(events, contents, options.whole ?? false);
  const view = 'view' in found ? found.view : found;
  const told = report(record, contents, events);
  const isTooLong = told.crossings > MOST_CROSSINGS;
  const script = isTooLong ? null : 'script' in found && found.script ? found.script : new Script(events, view);
  return {
    record, contents, report: told, module: view.module, isWhole: view.isWhole,
    notWhole: 'notWhole' in found ? found.notWhole : null,
    declarations: script === null ? null : view.declarations(),
    /** The script in pieces, or null where it would be far too long for r3. */
    script: script === null ? null : { pieces: () => scriptPieces(script) },
    /** The crossings as r3's history has them. */
    outline: () => outline(events, view),
    trimmed: view instanceof KeptView ? view.trimmed : null,
    /** Whether the run for r3 ends by a trap, of the module or of the host. */
    endsByTrap: events.endsWithin,
    /** How many turns the host's actions take. */
    actions: script?.turns() ?? 0,
    /** How many imports, with functions of the host's own, and how many functions the module has. */
    counts: view.counts(),
  };
}

/** @typedef {ReturnType<typeof captureOf>} Capture */
