/** The script of a record: what the host does, in the words of r3's scripts. */
import { ACTION, ENTRY, FIRST_ENTRY, FOREIGN, GLOBAL, GROW, GROW_TABLE, HOST_CALL, HOST_RETURN, IMPORT_CALL,
  IMPORT_RETURN, WRITE }
  from '../recorder/log_layout.mjs';
import { scriptValue } from './values.mjs';

/** Thrown where a script for the module itself cannot say what the host did: K is written on its own then. */
export class NotWhole extends Error {}

/** @typedef {import('./events.mjs').Events} Events */
/** @typedef {import('./events.mjs').Event} Event */

/**
 * How a script names what a module has.
 * @typedef {object} View
 * @property {boolean} isWhole
 * @property {Uint8Array} module
 * @property {string[]} supplied parts of the script's text
 * @property {() => string | null} declarations
 * @property {() => { imports: number, functions: number }} counts
 * @property {() => boolean} startsItself
 * @property {(slot: number) => string} call
 * @property {(place: number) => string[]} importNames
 * @property {(place: number, types: number[], values: (number | bigint)[]) => { actions: string[], result: string }}
 *   response
 * @property {(index: number, value: string) => string} setGlobal
 * @property {(place: number, index: number, isFirst: boolean) => string | null} setEntry
 * @property {(slot: number) => number} hostNumber
 * @property {(place: number) => number} importNumber
 * @property {(place: number, types: number[]) => number[]} shownResults
 */

/**
 * A list of actions, with places for what is found later.
 * @typedef {(string | string[])[]} Actions
 */

/** The answer to one call: a trap of the host until it is given. */
class Answer {
  constructor() {
    /** @type {Actions} */
    this.actions = [];
    this.end = '"trap":true';
  }

  text() {
    const actions = this.actions.flat();
    const text = actions.length === 0 ? '' : `"do":[${actions.join(',')}]`;
    return `{${[text, this.end].filter(part => part !== '').join(',')}}`;
  }
}

/** @param {Uint8Array} bytes */
const hex = bytes => Array.from(bytes, byte => byte.toString(16).padStart(2, '0')).join('');

export class Script {
  /**
   * @param {Events} events
   * @param {View} view
   */
  constructor(events, view) {
    this.view = view;
    this.types = events.record.plan.m.globals;
    /** @type {Actions} */
    this.main = [];
    /** @type {Map<number, Answer[]>} */
    this.answers = new Map();
    this.actions = this.main;
    /**
     * What the host does last before K goes on: writes and entries that are found later come here.
     * @type {string[]}
     */
    this.late = [];
    /** @type {(Actions | Answer)[]} */
    this.stack = [];
    this.isFirst = true;
    /**
     * What is found before the start function, where r3 calls it by itself.
     * @type {string[]}
     */
    this.beforeStart = [];
    for (const event of events) this.add(event);
    if (this.beforeStart.length > 0) throw new NotWhole('what the host did before the start function');
    this.supplied = view.supplied;
    this.declarations = view.declarations();
  }

  /** @param {Event} event */
  add(event) {
    const { kind, number, bytes } = event;
    if (kind === HOST_CALL) this.hostCall(event);
    else if (kind === HOST_RETURN) this.actions = /** @type {Actions} */ (this.stack.pop());
    else if (kind === IMPORT_CALL) this.importCall(number);
    else if (kind === IMPORT_RETURN) this.importReturn(event);
    else if (kind === WRITE) this.late.push(`{"write":${number},"bytes":"${hex(bytes)}"}`);
    else if (kind === ACTION) this.action(event);
  }

  /** @param {Event} event */
  hostCall({ number, types, values }) {
    const isStart = this.isFirst && this.view.startsItself();
    this.isFirst = false;
    this.late = [];
    this.stack.push(this.actions);
    if (isStart) {
      this.beforeStart = this.late;
      return;
    }
    this.actions.push(this.late);
    const args = types.length === 0
      ? '' : `,"args":[${types.map((type, place) => scriptValue(type, values[place])).join(',')}]`;
    this.actions.push(`{${this.view.call(number)}${args}}`);
  }

  /** @param {number} place */
  importCall(place) {
    const answer = new Answer();
    const list = this.answers.get(place);
    if (list === undefined) this.answers.set(place, [answer]);
    else list.push(answer);
    this.stack.push(answer);
    this.actions = answer.actions;
  }

  /** @param {Event} event */
  importReturn({ number, types, values }) {
    const answer = /** @type {Answer} */ (this.stack.pop());
    const { actions, result } = this.view.response(number, types, values);
    this.late = [];
    answer.actions.push(this.late, ...actions);
    answer.end = result;
  }

  /** @param {Event} event */
  action({ number, values }) {
    const [first, second, third] = values.map(Number);
    if (number === GROW) this.actions.push(`{"grow":${first}}`);
    else if (number === GROW_TABLE) this.late.push(`{"grow_table":${first}}`);
    else if (number === GLOBAL) this.actions.push(this.view.setGlobal(first, this.globalValue(first, second, third)));
    else if (number === ENTRY || number === FIRST_ENTRY) {
      const text = this.view.setEntry(first, second, number === FIRST_ENTRY);
      if (text !== null) this.late.push(text);
    } else if (number !== FOREIGN) throw new Error(`the log has an action ${number}`);
  }

  /** How many turns the actions take. */
  turns() {
    const count = (/** @type {Actions} */ actions) =>
      actions.reduce((sum, part) => sum + (typeof part === 'string' ? 1 : part.length), 0);
    let sum = count(this.main);
    for (const list of this.answers.values()) for (const { actions } of list) sum += count(actions);
    return sum;
  }

  /**
   * @param {number} index
   * @param {number} low
   * @param {number} high
   */
  globalValue(index, low, high) {
    const { type } = this.types[index];
    const wide = BigInt(low >>> 0) | BigInt(high) << 32n;
    return scriptValue(type, type === 0x7f || type === 0x7d ? low : wide);
  }
}

/**
 * The answers as objects of module names and names.
 * @param {Script} script
 */
function* answerPieces({ answers, view }) {
  /** @type {Map<string, [string, Answer[]][]>} */
  const modules = new Map();
  for (const [place, list] of answers) {
    const [module, name] = view.importNames(place);
    modules.set(module, [...modules.get(module) ?? [], [name, list]]);
  }
  let before = '"imports":{';
  for (const [module, names] of modules) {
    let comma = `${before}${JSON.stringify(module)}:{`;
    for (const [name, list] of names) {
      yield `${comma}${JSON.stringify(name)}:{"calls":[`;
      for (let place = 0; place < list.length; place++) yield `${place === 0 ? '\n' : ',\n'}${list[place].text()}`;
      yield ']}';
      comma = ',\n';
    }
    yield '}';
    before = ',\n';
  }
  yield '},\n';
}

/**
 * The text of a script, in pieces: one action or answer a line.
 * @param {Script} script
 */
export function* scriptPieces(script) {
  yield '{';
  for (const part of script.supplied) yield `${part},\n`;
  if (script.answers.size > 0) yield* answerPieces(script);
  yield '"main":[';
  let comma = '\n';
  for (const part of script.main) {
    for (const action of typeof part === 'string' ? [part] : part) {
      yield comma + action;
      comma = ',\n';
    }
  }
  yield ']}\n';
}
