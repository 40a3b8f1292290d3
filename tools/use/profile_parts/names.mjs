/** The names of the functions of a replay, by the module that it is a replay of. */
import { KIND, bodyOf, readInstruction, typeKey } from '../wasm/index.mjs';
import { OP } from './code.mjs';
import { refuse } from './refusal.mjs';

/** @import { Instruction } from '../wasm/instructions.mjs' */
/** @import { Module } from '../wasm/module.mjs' */
/** @import { Replay } from './replay_module.mjs' */

const isCall = op => op === OP.call || op === OP.refFunc;
const opensBlock = op => op === OP.block || op === OP.loop || op === OP.if;

/** A text that equal immediates have in common. Numbers of types and functions are compared in other ways. */
const immediates = item => [item.second, item.labels, item.value, item.bytes && Buffer.from(item.bytes).toString('hex'),
  item.align, item.offset, item.type].join('/');

/** Compares the functions of an original with those of a replay. */
class Comparison {
  /**
   * @param {Module} original
   * @param {Replay} replay
   */
  constructor(original, replay) {
    this.original = original;
    this.replay = replay;
    /** Functions of the host that the original does not import come between its imports and its functions. */
    this.between = replay.imports - original.importedFunctions;
  }

  number(index) {
    return index < this.original.importedFunctions ? index : index + this.between;
  }

  isSameType(one, other) {
    return typeKey(this.original.types[one]) === typeKey(this.replay.module.types[other]);
  }

  isSameIndex(one, other) {
    if (isCall(one.op)) return this.number(one.index) === other.index;
    if (one.op === OP.callIndirect) return this.isSameType(one.index, other.index);
    if (opensBlock(one.op) && one.typeIndex !== null) return this.isSameType(one.typeIndex, other.typeIndex);
    return one.index === other.index;
  }

  isSameFunction(index) {
    const [one, other] = [bodyOf(this.original, index), bodyOf(this.replay.module, this.number(index))];
    if (listed(one.locals) !== listed(other.locals)) return false;
    while (!one.reader.isAtEnd && !other.reader.isAtEnd) {
      const [left, right] = [readInstruction(one.reader), readInstruction(other.reader)];
      if (left.op !== right.op || immediates(left) !== immediates(right)) return false;
      if (!this.isSameIndex(left, right)) return false;
    }
    return one.reader.isAtEnd && other.reader.isAtEnd;
  }

  /** What differs first, or null. */
  difference() {
    const { original, replay } = this;
    const defined = original.bodies.length;
    if (this.between < 0 || defined !== replay.functions) {
      return `it has ${original.importedFunctions} imported and ${defined} defined functions, and the original of the `
        + `replay has ${replay.imports} and ${replay.functions}`;
    }
    for (let index = 0; index < original.functions.length; index++) {
      const type = typeKey(replay.module.functions[this.number(index)]);
      if (typeKey(original.functions[index]) !== type) return `function ${index} has another type`;
      if (index >= original.importedFunctions && !this.isSameFunction(index)) return `function ${index} is another one`;
    }
    return null;
  }
}

/** A text that groups of locals have in common if they are the same list of types. */
function listed(groups) {
  const list = [];
  for (const { count, type } of groups) {
    const last = list.at(-1);
    if (count === 0) continue;
    if (last?.type === type) last.count += count;
    else list.push({ count, type });
  }
  return JSON.stringify(list);
}

/** Names of which no two are equal: of equal ones all get their numbers. */
function different(names) {
  const counts = new Map();
  for (const name of names) counts.set(name, (counts.get(name) ?? 0) + 1);
  return names.map((name, index) => (counts.get(name) > 1 ? `${name} (func ${index})` : name));
}

/**
 * The names of a replay's functions where its original is not known.
 * @param {Replay} replay
 */
export function numberedNames({ imports, main }) {
  return Array.from({ length: main }, (_, index) => (index < imports ? `import ${index}` : `func ${index}`));
}

/**
 * The names of a replay's functions: those of the section `name`, else `MODULE.NAME` for imports and `func N` for
 * others, where N is the number in the original.
 * @param {Module} original
 * @param {Replay} replay
 * @param {string} what how a line names the original
 */
export function namesOf(original, replay, what) {
  const comparison = new Comparison(original, replay);
  const difference = comparison.difference();
  if (difference !== null) refuse(`${what}: its functions are not those of the replay: ${difference}`);
  const names = numberedNames(replay);
  for (let place = 0; place < comparison.between; place++) {
    names[original.importedFunctions + place] = `declared ${place}`;
  }
  original.functions.forEach((_, index) => { names[comparison.number(index)] = `func ${index}`; });
  for (const { kind, index, module, name } of original.imports) {
    if (kind === KIND.function) names[index] = `${module}.${name}`;
  }
  original.names.forEach((name, index) => {
    if (index < original.functions.length && name !== '') names[comparison.number(index)] = name;
  });
  return different(names);
}
