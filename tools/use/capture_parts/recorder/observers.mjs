/**
 * The observers of the border: what R and JavaScript call for a kept function, and what K calls for a function that is
 * not kept. An error of the program passes through as it is; one of the recorder never reaches the program.
 */
import { isWide } from '../../wasm/value_types.mjs';
import { HOST_CALL, HOST_RETURN, IMPORT_CALL, IMPORT_RETURN } from './log_layout.mjs';

/** @typedef {import('../../wasm/value_types.mjs').FunctionType} FunctionType */
/** @typedef {(...args: any[]) => any} Call */

/**
 * What the observers need of the recorder.
 * @typedef {object} Border
 * @property {boolean} isOver whether the record has ended
 * @property {import('./log.mjs').Log} log
 * @property {() => void} toKept control goes from the host to K
 * @property {() => void} toHost control goes from K to the host
 * @property {() => void} unrecorded a crossing after the end of the record
 * @property {(fault: unknown) => void} ownFault
 * @property {(error: unknown, place: number) => void} passesToKept an error passes from a callee to K
 * @property {(error: unknown, slot: number) => void} passesFromKept an error passes from K to the host
 */

/**
 * What an observer of a crossing does: `begin` before the call, with its arguments; `passes` where an error comes back;
 * `finish` with the result.
 * @typedef {object} Steps
 * @property {Call} begin
 * @property {(error: unknown) => void} passes
 * @property {(result: any) => void} finish
 */

/**
 * An observer with any number of parameters. `calls` has at `place` what is called: it may be set later.
 * @param {Steps} steps
 * @param {Call[]} calls
 * @param {number} place
 * @returns {Call}
 */
const observerOfAny = ({ begin, passes, finish }, calls, place) => (...args) => {
  begin(...args);
  let result;
  try {
    result = calls[place](...args);
  } catch (error) {
    passes(error);
    throw error;
  }
  finish(result);
  return result;
};

/**
 * Observers with few parameters, by their number: these make no list of the arguments.
 * @type {(typeof observerOfAny)[]}
 */
const OBSERVERS = [
  ({ begin, passes, finish }, calls, place) => () => {
    begin();
    let result;
    try {
      result = calls[place]();
    } catch (error) {
      passes(error);
      throw error;
    }
    finish(result);
    return result;
  },
  ({ begin, passes, finish }, calls, place) => first => {
    begin(first);
    let result;
    try {
      result = calls[place](first);
    } catch (error) {
      passes(error);
      throw error;
    }
    finish(result);
    return result;
  },
  ({ begin, passes, finish }, calls, place) => (first, second) => {
    begin(first, second);
    let result;
    try {
      result = calls[place](first, second);
    } catch (error) {
      passes(error);
      throw error;
    }
    finish(result);
    return result;
  },
  ({ begin, passes, finish }, calls, place) => (first, second, third) => {
    begin(first, second, third);
    let result;
    try {
      result = calls[place](first, second, third);
    } catch (error) {
      passes(error);
      throw error;
    }
    finish(result);
    return result;
  },
];

/**
 * What K's side and the host's side have in common.
 * @param {number} count of parameters
 * @param {Steps} steps
 * @param {Call[]} calls
 * @param {number} place
 */
const observer = (count, steps, calls, place) => (OBSERVERS[count] ?? observerOfAny)(steps, calls, place);

/**
 * Writes a call to the log: without a list for few arguments of 32 bits.
 * @param {import('./log.mjs').Log} log
 * @param {number} kind
 * @param {number} number
 * @param {number[]} params
 * @returns {Call}
 */
function callWriter(log, kind, number, params) {
  const wide = params.map(isWide);
  const first = number * 8 + kind;
  if (wide.includes(true) || params.length > 3) return (...args) => log.call(kind, number, wide, args);
  return [() => log.call0(first), (/** @type {any} */ a) => log.call1(first, a),
    (/** @type {any} */ a, /** @type {any} */ b) => log.call2(first, a, b),
    (/** @type {any} */ a, /** @type {any} */ b, /** @type {any} */ c) => log.call3(first, a, b, c)][params.length];
}

/**
 * Writes the results of a call to the log.
 * @param {import('./log.mjs').Log} log
 * @param {number} kind
 * @param {number} number
 * @param {number[]} results
 * @returns {(result: any) => void}
 */
function returnWriter(log, kind, number, results) {
  const wide = results.map(isWide);
  const first = number * 8 + kind;
  if (results.length === 0) return () => log.return0(first);
  if (results.length === 1 && !wide[0]) return result => log.return1(first, result);
  if (results.length === 1) return result => log.crossing(kind, number, wide, [result]);
  return result => log.crossing(kind, number, wide, result);
}

/**
 * What R and JavaScript call for the kept function of this place.
 * @param {Border} border
 * @param {number} slot
 * @param {FunctionType} type
 * @param {Call[]} calls has at `slot` what is called
 * @returns {Call}
 */
export function hostObserver(border, slot, { params, results }, calls) {
  const called = callWriter(border.log, HOST_CALL, slot, params);
  const returned = returnWriter(border.log, HOST_RETURN, slot, results);
  /** @type {Steps} */
  const steps = {
    begin: (...args) => {
      try {
        border.toKept();
        if (border.isOver) border.unrecorded();
        else called(...args);
      } catch (fault) {
        border.ownFault(fault);
      }
    },
    passes: error => border.passesFromKept(error, slot),
    finish: result => {
      if (border.isOver) return;
      try {
        border.toHost();
        returned(result);
      } catch (fault) {
        border.ownFault(fault);
      }
    },
  };
  return observer(params.length, steps, calls, slot);
}

/**
 * What K calls for the callee of this place.
 * @param {Border} border
 * @param {number} place
 * @param {FunctionType} type
 * @param {Call[]} calls has at `key` what is called
 * @param {number} key
 * @returns {Call}
 */
export function importObserver(border, place, { params, results }, calls, key) {
  const called = callWriter(border.log, IMPORT_CALL, place, params);
  const returned = returnWriter(border.log, IMPORT_RETURN, place, results);
  /** @type {Steps} */
  const steps = {
    begin: (...args) => {
      try {
        if (border.isOver) {
          border.unrecorded();
        } else {
          called(...args);
          border.toHost();
        }
      } catch (fault) {
        border.ownFault(fault);
      }
    },
    passes: error => border.passesToKept(error, place),
    finish: result => {
      try {
        border.toKept();
        if (!border.isOver) returned(result);
      } catch (fault) {
        border.ownFault(fault);
      }
    },
  };
  return observer(params.length, steps, calls, key);
}
