/** The script of a run while it is captured, and its text. Actions and responses are kept as text. */
import { refuse } from './refusal.mjs';

/** The module name by which a script answers functions of the host's own that are no imports. */
export const FOREIGN = 'foreign';

/** @typedef {import('./module_types.mjs').FunctionImport} FunctionImport */

/**
 * The answer to one call of a function of the host. It is a trap of the host until it is given: a run may end within
 * the call.
 */
export class Response {
  constructor() {
    /** @type {string[]} */
    this.actions = [];
    this.end = '"trap":true';
  }

  /**
   * The call returns with this value, which is null where the function has no result.
   * @param {string | null} value
   */
  return_(value) {
    this.end = value === null ? '' : `"return":${value}`;
  }

  text() {
    const actions = this.actions.length === 0 ? '' : `"do":[${this.actions.join(',')}]`;
    return `{${[actions, this.end].filter(part => part !== '').join(',')}}`;
  }
}

export class Script {
  /** @param {import('./module_types.mjs').ModuleTypes} types */
  constructor(types) {
    this.imports = /** @type {FunctionImport[]} */ (types.imports.filter(item => item.kind === 'function'));
    this.types = types;
    /** @type {Response[][]} */
    this.responses = this.imports.map(() => []);
    /**
     * The answers of functions that are no imports, by their names.
     * @type {Map<string, Response[]>}
     */
    this.foreign = new Map();
    /** @type {Map<string, string>} */
    this.supplied = new Map();
    /** @type {Map<string, Map<string, string>>} */
    this.globals = new Map();
    /** @type {string[]} */
    this.main = [];
  }

  /**
   * The answers of a function of the host's own, of which there are none yet.
   * @param {string} name
   */
  foreignResponses(name) {
    /** @type {Response[]} */
    const responses = [];
    this.foreign.set(name, responses);
    return responses;
  }

  /** How many calls of the host's functions are answered so far. */
  calls() {
    return [...this.responses, ...this.foreign.values()].reduce((sum, responses) => sum + responses.length, 0);
  }

  /**
   * Supplies `memory` or `table`.
   * @param {string} key
   * @param {string} text
   */
  supply(key, text) {
    this.supplied.set(key, text);
  }

  /**
   * Supplies a global, and gives what is supplied by these names: an earlier import of equal names has set it.
   * @param {string} module
   * @param {string} name
   * @param {string} text
   */
  supplyGlobal(module, name, text) {
    const names = this.globals.get(module) ?? new Map();
    this.globals.set(module, names);
    if (!names.has(name)) names.set(name, text);
    return /** @type {string} */ (names.get(name));
  }

  /** The host's functions that are called, by module name and name: imports of equal names share their answers. */
  called() {
    /** @type {Map<string, Map<string, string[]>>} */
    const modules = new Map();
    this.imports.forEach(({ module, name }, index) => {
      if (this.responses[index].length === 0) return;
      const names = modules.get(module) ?? new Map();
      modules.set(module, names);
      if (!names.has(name)) names.set(name, this.shared(module, name));
    });
    const foreign = [...this.foreign].filter(([, responses]) => responses.length > 0);
    const texts = new Map(foreign.map(([name, responses]) => [name, responses.map(response => response.text())]));
    if (texts.size > 0) modules.set(FOREIGN, texts);
    return modules;
  }

  /**
   * The texts of the answers under two names. Each import of these names takes answer k for its own call k.
   * @param {string} module
   * @param {string} name
   */
  shared(module, name) {
    const named = (/** @type {FunctionImport} */ item) => item.module === module && item.name === name;
    const indices = this.imports.flatMap((item, index) => (named(item) ? [index] : []));
    const [longest] = indices.map(index => this.responses[index]).sort((one, other) => other.length - one.length);
    const texts = longest.map(response => response.text());
    const results = new Set(indices.map(index => this.types.functions[index].result));
    const where = `functions ${indices.join(' and ')} are both imported as ${module}.${name}`;
    if (results.size > 1 && longest.some(response => response.end !== '"trap":true')) {
      refuse(`${where}, and have results of different types`);
    }
    for (const index of indices) {
      const differs = this.responses[index].findIndex((response, call) => response.text() !== texts[call]);
      if (differs !== -1) refuse(`${where}, and their calls ${differs} are answered in different ways`);
    }
    return texts;
  }

  /** The text of the script, in pieces: one action or answer a line. Refuses, if it does, before the first piece. */
  pieces() {
    return this.piecesWith(this.called());
  }

  /** @param {Map<string, Map<string, string[]>>} called */
  *piecesWith(called) {
    /** @type {Iterable<string>[]} */
    const parts = [...this.supplied].map(([key, text]) => [`"${key}":${text}`]);
    if (this.globals.size > 0) parts.push(objectPieces('globals', this.globals, text => [text]));
    if (called.size > 0) parts.push(objectPieces('imports', called, texts => ['{"calls":', ...listPieces(texts), '}']));
    parts.push(['"main":', ...listPieces(this.main)]);
    yield '{';
    for (const [index, part] of parts.entries()) {
      if (index > 0) yield ',\n';
      yield* part;
    }
    yield '}\n';
  }
}

/** @param {string[]} texts */
function* listPieces(texts) {
  yield '[';
  for (const [index, text] of texts.entries()) yield `${index > 0 ? ',' : ''}\n${text}`;
  yield ']';
}

/**
 * An object of module names, each an object of names.
 * @template Item
 * @param {string} key
 * @param {Map<string, Map<string, Item>>} modules
 * @param {(value: Item) => Iterable<string>} pieces
 * @returns {Iterable<string>}
 */
function* objectPieces(key, modules, pieces) {
  yield `"${key}":{`;
  for (const [place, [module, names]] of [...modules].entries()) {
    yield `${place > 0 ? ',\n' : ''}${JSON.stringify(module)}:{`;
    for (const [index, [name, value]] of [...names].entries()) {
      yield `${index > 0 ? ',\n' : ''}${JSON.stringify(name)}:`;
      yield* pieces(value);
    }
    yield '}';
  }
  yield '}';
}
