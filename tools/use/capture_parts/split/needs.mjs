/** What the body of a function needs of its module, or why it cannot be kept. */
import { instructionName } from '../../wasm/instruction_names.mjs';
import { readInstruction } from '../../wasm/instructions.mjs';
import { bodyOf } from '../../wasm/module.mjs';
import { UnknownFormat } from '../../wasm/reader.mjs';
import { isNumeric } from '../../wasm/value_types.mjs';
import { FLOAT_TYPES, OP, isIntegerOperation } from './operations.mjs';

/** @typedef {import('../../wasm/module.mjs').Module} Module */
/** @typedef {import('../../wasm/instructions.mjs').Instruction} Instruction */
/** @typedef {import('../../wasm/value_types.mjs').FunctionType} FunctionType */

/** r3 takes at most 50,000 locals; the watched body has a few of its own. */
const MOST_LOCALS = 50000 - 8;
const MOST_PARAMETERS = 1000;
/** The flag of limits for a maximum: all others are of shared memories and 64-bit addresses. */
const HAS_MAXIMUM = 1;

/**
 * What a body needs. `why` is the first reason why the function cannot be kept, or null.
 * @typedef {object} Needs
 * @property {string | null} why
 * @property {Set<number>} calls the functions that it calls by number
 * @property {Set<number>} floats the float instructions
 * @property {Set<number>} globals
 * @property {Set<number>} setGlobals
 * @property {boolean} memory
 * @property {boolean} table whether it calls by the table
 * @property {Set<number>} indirect the numbers of the types that it calls by the table
 * @property {boolean} changesTable
 * @property {boolean} isUnknown whether it has instructions that are not known here
 */

/** @param {FunctionType} type */
const hasNumericTypes = type => [...type.params, ...type.results].every(isNumeric)
  && type.params.length <= MOST_PARAMETERS;

/**
 * Whether a function of this type can be of K: numbers alone, and at most one result.
 * @param {FunctionType} type
 */
export const isCore = type => type.results.length <= 1 && hasNumericTypes(type);

/**
 * Whether K can import a function of this type: several results come through globals of K.
 * @param {FunctionType} type
 */
export const isImportable = hasNumericTypes;

class Survey {
  /**
   * @param {Module} m
   * @param {number} table
   * @param {boolean} isOutlined whether float instructions are outlined
   */
  constructor(m, table, isOutlined) {
    this.m = m;
    this.table = table;
    this.isOutlined = isOutlined;
    /** @type {Needs} */
    this.found = { why: null, calls: new Set(), floats: new Set(), globals: new Set(), setGlobals: new Set(),
      memory: false,
      table: false, indirect: new Set(), changesTable: false, isUnknown: false };
  }

  /** @param {string} why */
  no(why) {
    this.found.why ??= why;
  }

  /** @param {number} index the function's number */
  body(index) {
    const type = this.m.functions[index];
    if (!isCore(type)) this.no(type.results.length > 1 ? 'several results' : 'values of another type');
    try {
      const { locals, reader } = bodyOf(this.m, index);
      if (locals.some(group => !isNumeric(group.type))) this.no('a local of another type');
      if (locals.reduce((sum, { count }) => sum + count, 0) > MOST_LOCALS) this.no('too many locals');
      while (!reader.isAtEnd) this.instruction(readInstruction(reader));
    } catch (error) {
      if (!(error instanceof UnknownFormat)) throw error;
      this.no(error.message);
      Object.assign(this.found, { changesTable: true, isUnknown: true });
    }
  }

  /** @param {Instruction} item */
  instruction(item) {
    const { op } = item;
    if (isIntegerOperation(op) || (op >= OP.i32Const && op <= OP.f64Const)) return;
    if (op >= OP.firstLoad && op <= OP.memoryGrow) this.memory(item);
    else if (op === OP.memoryCopy || op === OP.memoryFill) this.range(item);
    else if (FLOAT_TYPES.has(op)) this.float(op);
    else if (op === OP.call) this.call(item.index ?? 0);
    else if (op === OP.callIndirect) this.callIndirect(item.index ?? 0, item.second ?? 0);
    else if (op === OP.globalGet || op === OP.globalSet) this.global(item);
    else if (op >= OP.block && op <= OP.if) this.block(item);
    else if (op === OP.selectTyped) this.select(item.types ?? []);
    else if (!isPlain(op)) this.other(item);
  }

  /** @param {Instruction} item */
  memory({ memory, op, index }) {
    this.found.memory = true;
    const number = op === OP.memorySize || op === OP.memoryGrow ? index : memory;
    if ((number ?? 0) > 0) this.no('a second memory');
    if (this.m.memories[0].flags > HAS_MAXIMUM) this.no('a shared or 64-bit memory');
  }

  /** @param {Instruction} item */
  range(item) {
    this.memory({ ...item, memory: (item.index ?? 0) + (item.second ?? 0) });
  }

  /** @param {number} op */
  float(op) {
    if (this.isOutlined) this.found.floats.add(op);
    else this.no(`floats (${instructionName(op)})`);
  }

  /** @param {number} index */
  call(index) {
    if (isImportable(this.m.functions[index])) this.found.calls.add(index);
    else this.no('a call with values of another type');
  }

  /**
   * @param {number} type
   * @param {number} table
   */
  callIndirect(type, table) {
    if (table !== this.table) this.no('a call by another table');
    if (!isCore(this.m.types[type])) this.no('a call by the table with several results or values of another type');
    this.found.table = true;
    this.found.indirect.add(type);
  }

  /** @param {Instruction} item */
  global({ op, index = 0 }) {
    if (op === OP.globalSet) this.found.setGlobals.add(index);
    if (isNumeric(this.m.globals[index].type)) this.found.globals.add(index);
    else this.no('a global of another type');
  }

  /** @param {Instruction} item */
  block({ type, typeIndex }) {
    if (typeof typeIndex === 'number') {
      const { params, results } = this.m.types[typeIndex];
      if (params.length > 0) this.no('a block with parameters');
      else if (results.length > 1) this.no('a block with several results');
      else if (!results.every(isNumeric)) this.no('a block of another type');
    } else if (type !== 0x40 && !isNumeric(type ?? 0)) this.no('a block of another type');
  }

  /** @param {number[]} types */
  select(types) {
    if (types.length !== 1 || !isNumeric(types[0])) this.no('a select of another type');
  }

  /** @param {Instruction} item */
  other(item) {
    if (changedTable(item) === this.table) this.found.changesTable = true;
    this.no(group(item.op));
  }
}

/** @param {number} op */
const isPlain = op => [0x00, 0x01, OP.else, OP.end, OP.br, OP.brIf, OP.brTable, OP.return, 0x1a, OP.select, OP.localGet,
  OP.localSet, OP.localTee].includes(op);

/**
 * The table that an instruction changes, or -1.
 * @param {Instruction} item
 */
function changedTable({ op, index = -1, second = -1 }) {
  const name = instructionName(op);
  if (name === 'table.init') return second;
  return ['table.set', 'table.copy', 'table.grow', 'table.fill'].includes(name) ? index : -1;
}

/**
 * In words, what an instruction that is not kept is of.
 * @param {number} op
 */
function group(op) {
  const name = instructionName(op);
  if (name.startsWith('vector')) return 'vectors';
  if (name.startsWith('atomic')) return 'threads';
  if (name.startsWith('return_call')) return 'a tail call';
  if (/^(try|catch|throw|rethrow|delegate)/.test(name)) return 'exceptions';
  if (/^(table|ref|elem)\.|^call_ref/.test(name)) return 'references and tables';
  if (/^(memory\.init|data\.drop)/.test(name)) return 'passive segments';
  return `the instruction ${name}`;
}

/**
 * What a defined function needs.
 * @param {Module} m
 * @param {number} index
 * @param {number} table the number of the first table of functions, or -1
 * @param {boolean} isOutlined whether float instructions become imports
 * @returns {Needs}
 */
export function needsOf(m, index, table, isOutlined) {
  const survey = new Survey(m, table, isOutlined);
  survey.body(index);
  return survey.found;
}
