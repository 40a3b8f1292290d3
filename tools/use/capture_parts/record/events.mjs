/** The events of a record: crossings with their values, and what the host does between them. */
import { calleeTypes } from '../split/plan.mjs';
import { ACTION, FOLLOWING, FOREIGN, HOST_CALL, HOST_RETURN, IMPORT_CALL, IMPORT_RETURN,
  WRITE } from '../recorder/log_layout.mjs';
import { isWide } from '../../wasm/value_types.mjs';

/** @typedef {import('./record.mjs').Record} Record */
/** @typedef {import('../../wasm/value_types.mjs').FunctionType} FunctionType */

/**
 * An event. Crossings have the types and the values, as bits, signed; an action has its words, a write its address and
 * bytes.
 * @typedef {object} Event
 * @property {number} kind
 * @property {number} number
 * @property {number[]} types
 * @property {(number | bigint)[]} values
 * @property {Uint8Array} bytes
 */

const NO_BYTES = new Uint8Array(0);

export class Events {
  /** @param {Record} record */
  constructor(record) {
    this.record = record;
    const { plan } = record;
    this.hostTypes = plan.kept.map(index => plan.m.functions[index]);
    this.importTypes = calleeTypes(plan);
    this.wide = new BigInt64Array(1);
    this.pair = new Int32Array(this.wide.buffer);
    /** How many calls are open at the end. */
    this.depth = 0;
    /** Where the events end, in words. */
    this.end = this.lastPoint();
  }

  /** Whether the events end while a call is open: the run for r3 ends by a trap, of the module or of the host. */
  get endsWithin() {
    return this.depth > 0;
  }

  /**
   * The types of the values of a crossing.
   * @param {number} kind
   * @param {number} number
   */
  types(kind, number) {
    const type = kind <= HOST_RETURN ? this.hostTypes[number] : this.importTypes[number];
    return kind === HOST_CALL || kind === IMPORT_CALL ? type.params : type.results;
  }

  /**
   * How many words an event has, with its first one.
   * @param {number} at
   */
  length(at) {
    const { words } = this.record;
    const [kind, number] = [words[at] & 7, words[at] >>> 3];
    if (kind === WRITE) return 2 + Math.ceil(number / 4);
    if (kind !== ACTION) return this.types(kind, number).reduce((sum, type) => sum + (isWide(type) ? 2 : 1), 1);
    return number === FOREIGN ? 3 + words[at + 1] + words[at + 2] : 1 + FOLLOWING[number];
  }

  /**
   * Where the log is cut. A run whose end was not seen, and one that r3 would not end, is cut where the host last had
   * control: after the call of an import, which then traps, or after the return to the host.
   */
  lastPoint() {
    const { words, end, until } = this.record;
    const isWhole = end !== null && ['exception', 'trap', undefined].includes(end.over?.by);
    let [point, calls, depth] = [0, 0, 0];
    for (let at = 0; at < words.length && (until === null || calls < until);) {
      const kind = words[at] & 7;
      if (kind === ACTION && words[at] >>> 3 === FOREIGN) this.addForeign(at);
      if (kind === HOST_CALL || kind === IMPORT_CALL) calls++;
      depth += kind === HOST_CALL || kind === IMPORT_CALL ? 1 : kind === HOST_RETURN || kind === IMPORT_RETURN ? -1 : 0;
      at += this.length(at);
      if (kind === IMPORT_CALL || kind === HOST_RETURN || (isWhole && at === words.length)) {
        point = at;
        this.depth = depth;
      }
    }
    return point;
  }

  /** @param {number} at */
  addForeign(at) {
    const { words } = this.record;
    const [params, results] = [words[at + 1], words[at + 2]];
    const types = [...words.subarray(at + 3, at + 3 + params + results)];
    this.importTypes.push({ params: types.slice(0, params), results: types.slice(params) });
  }

  /** Types of functions of the host's own that K calls by the table, in the order of their places. */
  foreignTypes() {
    return this.importTypes.slice(calleeTypes(this.record.plan).length);
  }

  /** @returns {Generator<Event>} */
  *[Symbol.iterator]() {
    const { words } = this.record;
    for (let at = 0; at < this.end;) {
      const [kind, number, length] = [words[at] & 7, words[at] >>> 3, this.length(at)];
      if (kind === WRITE) {
        const bytes = new Uint8Array(words.buffer, words.byteOffset + 4 * (at + 2), number);
        yield { kind, number: words[at + 1] >>> 0, types: [], values: [], bytes };
      } else if (kind === ACTION) {
        yield { kind, number, types: [], values: [...words.subarray(at + 1, at + length)], bytes: NO_BYTES };
      } else {
        const types = this.types(kind, number);
        yield { kind, number, types, values: this.values(types, at + 1), bytes: NO_BYTES };
      }
      at += length;
    }
  }

  /**
   * @param {number[]} types
   * @param {number} begin
   */
  values(types, begin) {
    const { words } = this.record;
    let at = begin;
    return types.map(type => {
      if (!isWide(type)) return words[at++];
      this.pair[0] = words[at++];
      this.pair[1] = words[at++];
      return this.wide[0];
    });
  }
}
