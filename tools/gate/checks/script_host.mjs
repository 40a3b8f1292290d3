/**
 * A host for `capture` that does what a script says. Its words are the script's file, a file to which the calls and
 * returns between host and module are written as a history prints them, and one with declarations of functions of the
 * host's own. The tests capture this host, and compare what r3 says of the captured script with what it says of the one
 * that was played, and with those lines.
 */
import fs from 'node:fs';
import { moduleTypes } from '../../use/capture_parts/module_types.mjs';
import { madeGlobal, number, printed, setGlobal } from './values_in_tests.mjs';

export const NO_EXPORTS = 'there are no exports yet';

/** @typedef {import('../../use/capture_parts/module_types.mjs').ValueType} ValueType */
/** @typedef {import('../../use/capture_parts/module_types.mjs').FunctionType} FunctionType */
/** @typedef {import('../../use/capture_parts/module_types.mjs').ImportNames} ImportNames */
/** @typedef {import('../../use/capture_parts/module_types.mjs').GlobalImport} GlobalImport */
/** @typedef {(...values: any[]) => any} Func */

const LONG_NUMBER = /(:\s*)(-?\d{16,})/g;

/**
 * A script, in which a number that JavaScript would round is a text.
 * @param {string} file
 */
function scriptOf(file) {
  return JSON.parse(fs.readFileSync(file, 'utf8').replace(LONG_NUMBER, '$1"$2"'));
}

/** What is given for the imports of a module, each by its kind. */
class Given {
  /** @param {Player} player */
  constructor(player) {
    this.player = player;
    this.functionCount = 0;
  }

  /** @param {ImportNames} item */
  function({ module, name }) {
    const index = this.functionCount++;
    const type = this.player.types.functions[index];
    return this.player.answering(index, type, this.player.script.imports?.[module]?.[name] ?? {});
  }

  memory() {
    const { pages, max } = this.player.script.memory;
    return this.player.memory = new WebAssembly.Memory({ initial: pages, maximum: max });
  }

  table() {
    const { size, max } = this.player.script.table;
    return this.player.table = new WebAssembly.Table({ element: 'anyfunc', initial: size, maximum: max });
  }

  /** @param {GlobalImport} item */
  global(item) {
    const { module, name } = item;
    const key = JSON.stringify([module, name]);
    const global = madeGlobal(item, this.player.script.globals[module][name]);
    if (!this.player.globals.has(key)) this.player.globals.set(key, global);
    return global;
  }
}

class Player {
  /**
   * @param {any} script
   * @param {HostContext} context
   */
  constructor(script, context) {
    this.script = script;
    this.context = context;
    this.types = moduleTypes(fs.readFileSync(context.file));
    /** @type {WebAssembly.Memory | null} */
    this.memory = null;
    /** @type {WebAssembly.Table | null} */
    this.table = null;
    /** @type {Map<string, WebAssembly.Global>} */
    this.globals = new Map();
    this.linesFile = context.words[1];
    if (this.linesFile !== undefined) fs.writeFileSync(this.linesFile, '');
    /** @type {{ name: string, params: ValueType[], results: ValueType[] }[]} */
    const declarations = context.words[2] === undefined ? [] : JSON.parse(fs.readFileSync(context.words[2], 'utf8'));
    this.declared = new Map(declarations.map((item, place) => [item.name, this.made(item, place)]));
  }

  /**
   * A function of the host's own, which is numbered behind the imports.
   * @param {{ name: string, params: ValueType[], results: ValueType[] }} declaration
   * @param {number} place
   */
  made({ name, params, results }, place) {
    const type = { params, result: results[0] ?? null };
    const response = this.script.imports?.foreign?.[name] ?? {};
    const answering = this.answering(this.types.importedFunctions + place, type, response);
    return this.context.hostFunction(name, { params, results }, answering);
  }

  /**
   * The number of a function of the module among all functions: the host's own are behind the imports.
   * @param {number} index
   */
  numbered(index) {
    return index < this.types.importedFunctions ? index : index + this.declared.size;
  }

  /** The imports. Those of equal names are read one after another, and each counts its own calls. */
  imports() {
    const given = new Given(this);
    const modules = Object.create(null);
    /** @type {Map<string, unknown[]>} */
    const waiting = new Map();
    for (const item of this.types.imports) {
      const key = JSON.stringify([item.module, item.name]);
      const value = item.kind === 'global' ? given.global(item) : given[item.kind](item);
      waiting.set(key, [...waiting.get(key) ?? [], value]);
      modules[item.module] ??= Object.create(null);
      const get = () => waiting.get(key)?.shift();
      Object.defineProperty(modules[item.module], item.name, { get, configurable: true });
    }
    return modules;
  }

  /**
   * @param {string} entry
   * @param {number} index
   * @param {ValueType[]} types
   * @param {any[]} values
   */
  line(entry, index, types, values) {
    if (this.linesFile === undefined) return;
    const line = [entry, index, ...types.map((type, place) => printed(type, values[place]))].join(' ');
    fs.appendFileSync(this.linesFile, `${line}\n`);
  }

  /**
   * @param {number} index
   * @param {FunctionType} type
   * @param {{ calls?: any[], rest?: any }} answer
   * @returns {Func}
   */
  answering(index, { params, result }, { calls = [], rest }) {
    let call = 0;
    return (...args) => {
      const response = calls[call++] ?? rest;
      if (response === undefined) throw new Error(`no response to call ${call - 1} of function ${index}`);
      this.line('import-call', index, params, args);
      this.do(response.do ?? [], args);
      if (response.trap) throw new Error('a trap of the host');
      const returned = response.return === undefined ? undefined : number(response.return);
      this.line('import-return', index, result === null ? [] : [result], [returned]);
      return returned;
    };
  }

  /** A script may use exports while the start function runs. A host in JavaScript has none then. */
  exports() {
    if (this.context.instance === undefined) throw new Error(NO_EXPORTS);
    return this.context.instance.exports;
  }

  /**
   * @template Item
   * @param {new (...values: any[]) => Item} kind
   * @returns {Item}
   */
  exported(kind) {
    return /** @type {Item} */ (Object.values(this.exports()).find(value => value instanceof kind));
  }

  /**
   * @param {any[]} actions
   * @param {any[]} args
   */
  do(actions, args) {
    for (const action of actions) {
      const found = ACTIONS.find(([lead]) => lead in action);
      if (found === undefined) throw new Error(`no action: ${Object.keys(action).join()}`);
      found[1](this, action, args);
    }
  }

  bytes() {
    return new Uint8Array((this.memory ?? this.exported(WebAssembly.Memory)).buffer);
  }

  hostTable() {
    return this.table ?? this.exported(WebAssembly.Table);
  }

  /**
   * @param {number} index
   * @param {Func} func
   * @param {any[]} args
   */
  call(index, func, args) {
    const { params, result } = this.types.functions[index];
    this.line('host-call', this.numbered(index), params, args);
    const returned = func(...args);
    this.line('host-return', this.numbered(index), result === null ? [] : [result], [returned]);
  }

  /** @param {string} name */
  functionOf(name) {
    return this.declared.get(name) ?? this.exports()[name];
  }

  /** @param {string} name */
  functionIndex(name) {
    const found = this.types.exports.find(item => item.name === name);
    if (found === undefined) throw new Error(`no export ${name}`);
    return found.index;
  }

  /**
   * The number of a function from the table: an export's, or the one that the engine names the function by.
   * @param {Func} func
   */
  tableFunction(func) {
    const found = this.types.exports.find(item => item.kind === 'function' && this.exports()[item.name] === func);
    return found === undefined ? Number(func.name) : found.index;
  }

  /** The number of the start function, which there is. */
  startNumber() {
    return this.numbered(/** @type {number} */ (this.types.start));
  }

  /** What the host does by itself, behind the start function. */
  main() {
    if (this.types.startIsDefined) this.line('host-return', this.startNumber(), [], []);
    this.do(this.script.main ?? [], []);
  }
}

/**
 * @param {number | { arg: number, plus?: number }} given
 * @param {any[]} args
 */
function address(given, args) {
  return typeof given === 'number' ? given : (args[given.arg] >>> 0) + (given.plus ?? 0);
}

/** @typedef {(player: Player, action: any, args: any[]) => void} Action */

/** @type {{ [lead: string]: Action }} */
const ACTION = {
  write: (player, { write, bytes }, args) => player.bytes().set(Buffer.from(bytes, 'hex'), address(write, args)),
  copy: (player, { copy, from, count }, args) => {
    const source = address(from, args);
    player.bytes().copyWithin(address(copy, args), source, source + count);
  },
  grow: (player, { grow }) => (player.memory ?? player.exported(WebAssembly.Memory)).grow(grow),
  grow_table: (player, action) => player.hostTable().grow(action.grow_table),
  set_table: (player, action) => {
    player.hostTable().set(action.set_table, action.func === null ? null : player.functionOf(action.func));
  },
  set_global: (player, { set_global: target, value }) => {
    const imported = typeof target === 'object';
    setGlobal(imported ? player.globals.get(JSON.stringify(target.import)) : player.exports()[target], value);
  },
  call: (player, { call, args = [] }) => {
    player.call(player.functionIndex(call), player.exports()[call], args.map(number));
  },
  call_table: (player, { call_table: entry, args = [] }) => {
    const func = player.hostTable().get(entry);
    player.call(player.tableFunction(func), func, args.map(number));
  },
};

/** What each action does, by its lead key. */
const ACTIONS = Object.entries(ACTION);

/** @param {HostContext} context */
export function host(context) {
  const player = new Player(scriptOf(context.words[0]), context);
  const imports = player.imports();
  if (player.types.startIsDefined) player.line('host-call', player.startNumber(), [], []);
  return { imports, main: () => player.main() };
}
