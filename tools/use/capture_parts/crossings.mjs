/**
 * The crossings between host and module: each call of an import is answered by the host's function, and each call of
 * the module's functions by the host is passed on, while the script grows by what the host does.
 */
import { fixedAddress, relativeAddress } from './addresses.mjs';
import { Refusal, refuse } from './refusal.mjs';
import { Response } from './script_text.mjs';
import { bits, converted, valueText } from './values.mjs';

/** @typedef {import('./module_functions.mjs').Func} Func */
/** @typedef {import('./module_types.mjs').FunctionType} FunctionType */
/** @typedef {{ type: FunctionType, responses: Response[], words: string }} HostCallee */
/**
 * @typedef {object} Options
 * @property {boolean} relative
 * @property {boolean} isDeclaring
 * @property {import('./progress.mjs').Progress} progress
 */

/**
 * Whether an error says that the engine's stack is full. A run under a script has no such end.
 * @type {(error: unknown) => boolean}
 */
const stackOverflowed = error => error instanceof RangeError && /call stack/i.test(error.message);

const quoted = (/** @type {string} */ name) => JSON.stringify(name);

export class Crossings {
  /**
   * @param {import('./module_types.mjs').ModuleTypes} types
   * @param {import('./script_text.mjs').Script} script
   * @param {import('./host_changes.mjs').HostChanges} changes
   * @param {import('./module_functions.mjs').ModuleFunctions} functions
   * @param {Options} options
   */
  constructor(types, script, changes, functions, options) {
    this.types = types;
    this.script = script;
    this.changes = changes;
    this.functions = functions;
    this.options = options;
    this.instantiating = true;
    this.hostHasControl = false;
    /** Where the actions of the host go: to a response, or to `main`. */
    this.actions = script.main;
    this.address = fixedAddress;
    /**
     * How the run came to its end by a trap, in words, or null.
     * @type {string | null}
     */
    this.over = null;
    /** @type {Refusal | null} */
    this.refusal = null;
    this.hostCalls = 0;
  }

  /**
   * A refusal ends the capture, also where the host catches it: each later crossing throws it again.
   * @template Item
   * @param {() => Item} step
   * @returns {Item}
   */
  guarded(step) {
    if (this.refusal !== null) throw this.refusal;
    try {
      return step();
    } catch (error) {
      if (error instanceof Refusal) this.refusal = error;
      throw error;
    }
  }

  /** Adds what the host has changed since control came to it. */
  addChanges() {
    this.guarded(() => {
      for (const action of this.changes.actions(this.address)) this.actions.push(action);
    });
  }

  /** Control comes to the host: for the first time maybe, when an imported table is as instantiation has left it. */
  enterHost() {
    this.hostHasControl = true;
    this.guarded(() => {
      if (this.changes.table?.noted === null) this.changes.table.begin();
      this.changes.look();
    });
  }

  /**
   * What the engine calls for an imported function.
   * @param {number} index
   * @param {Func} hostFunction
   * @returns {Func}
   */
  importedFunction(index, hostFunction) {
    const [type, responses] = [this.types.functions[index], this.script.responses[index]];
    const answering = this.answering({ type, responses, words: `import ${index}` }, hostFunction);
    return (...args) => {
      const starts = this.instantiating && this.types.startIsImported && !this.hostHasControl;
      return starts ? this.start(hostFunction) : answering(...args);
    };
  }

  /**
   * What the engine calls for a function of the host's own that is in the table.
   * @param {string} name
   * @param {FunctionType} type
   * @param {Func} hostFunction
   */
  functionInTable(name, type, hostFunction) {
    const responses = this.script.foreignResponses(name);
    return this.answering({ type, responses, words: `the host's function ${quoted(name)}` }, hostFunction);
  }

  /**
   * `callee` has the type of a host's function, the list that its answers go to, and words for it.
   * @param {HostCallee} callee
   * @param {Func} hostFunction
   * @returns {Func}
   */
  answering(callee, hostFunction) {
    return (...args) => {
      // The host calls a function of its own, by an export or a table. The module does not see it.
      if (this.hostHasControl) return hostFunction(...args);
      return this.answer(callee, hostFunction, args);
    };
  }

  /**
   * A start function that is an import is a call of the host by itself: what it does belongs to `main`.
   * @param {Func} hostFunction
   */
  start(hostFunction) {
    this.enterHost();
    return hostFunction();
  }

  /**
   * @param {HostCallee} callee
   * @param {Func} hostFunction
   * @param {any[]} args
   */
  answer(callee, hostFunction, args) {
    const outer = { actions: this.actions, address: this.address };
    const response = new Response();
    callee.responses.push(response);
    this.actions = response.actions;
    if (this.options.relative) this.address = relativeAddress(callee.type.params, args);
    try {
      this.enterHost();
      return this.answered(callee, response, hostFunction, args);
    } finally {
      this.hostHasControl = false;
      Object.assign(this, outer);
      this.options.progress.show(this.script);
    }
  }

  /**
   * @param {HostCallee} callee
   * @param {Response} response
   * @param {Func} hostFunction
   * @param {any[]} args
   */
  answered({ type: { result }, responses, words }, response, hostFunction, args) {
    const where = `call ${responses.length} of ${words}`;
    try {
      const returned = hostFunction(...args);
      const value = result === null ? undefined : converted(result, returned);
      this.refuseAfterTrap(`it returned from ${where}`);
      this.addChanges();
      response.return_(result === null ? null : valueText(result, bits(result, value)));
      return value;
    } catch (/** @type {any} */ error) {
      if (!(error instanceof Refusal) && this.over === null) {
        this.addChanges();
        this.over = `the host threw in ${where}: ${error?.message ?? String(error)}`;
      }
      throw error;
    }
  }

  /**
   * What the host gets for a function that the module defines. It has the name and the length of that function.
   * @param {Func} func
   * @param {number} index
   */
  definedFunction(func, index) {
    const { name, length } = func;
    const wrapper = this.recordingCall(func, index);
    return Object.defineProperties(wrapper, { name: { value: name }, length: { value: length } });
  }

  /**
   * @param {Func} func
   * @param {number} index
   * @returns {Func}
   */
  recordingCall(func, index) {
    return (...args) => {
      const { params, result } = this.types.functions[index];
      const values = params.map((type, place) => converted(type, args[place]));
      const callee = this.callee(func, index);
      this.refuseAfterTrap(`it called ${callee.words}`);
      this.addChanges();
      this.actions.push(callee.action(params.map((type, place) => valueText(type, bits(type, values[place])))));
      return this.call(func, values, callee.words);
    };
  }

  /**
   * @param {Func} func
   * @param {import('./values.mjs').Value[]} values
   * @param {string} words
   */
  call(func, values, words) {
    const where = `call ${++this.hostCalls} by the host, of ${words}`;
    this.hostHasControl = false;
    const outer = { actions: this.actions, address: this.address };
    let returned;
    try {
      returned = func(...values);
    } catch (/** @type {any} */ error) {
      this.guarded(() => {
        if (stackOverflowed(error)) refuse(`${where}: the engine's stack overflowed, which is no trap of the module`);
      });
      this.over ??= `${where} trapped: ${error.message}`;
      this.hostHasControl = true;
      throw error;
    }
    Object.assign(this, outer);
    this.enterHost();
    return returned;
  }

  /**
   * How a script calls a function: by a name, or by an entry of the table that holds it.
   * @param {Func} func
   * @param {number} index
   * @returns {{ words: string, action: (texts: string[]) => string }}
   */
  callee(func, index) {
    const name = this.functions.exportName(func);
    const args = (/** @type {string[]} */ texts) => (texts.length === 0 ? '' : `,"args":[${texts.join(',')}]`);
    if (name !== null) return { words: quoted(name), action: texts => `{"call":${quoted(name)}${args(texts)}}` };
    const place = this.changes.table?.place(func) ?? -1;
    if (place === -1) this.guarded(() => refuse(`the host calls function ${index}, which no export and no entry has`));
    return { words: `entry ${place}`, action: texts => `{"call_table":${place}${args(texts)}}` };
  }

  /** @param {string} what */
  refuseAfterTrap(what) {
    this.guarded(() => {
      if (this.over !== null) refuse(`${this.over}; the host caught this and went on: ${what}`);
    });
  }
}
