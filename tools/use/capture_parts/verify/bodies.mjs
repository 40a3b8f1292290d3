/**
 * The check of K: each of its bodies is that of its function in M, instruction for instruction. Numbers of functions,
 * types and globals may be others, but one and the same for each, and of the same type. A float instruction may be the
 * call of an import that has its name. A function that did not run is a trap alone.
 */
import { FLOATS, SATURATING } from './float_names.mjs';
import { NotEqual, bodyAt, contents } from './reader.mjs';

/** @typedef {import('./reader.mjs').Contents} Contents */
/** @typedef {import('./reader.mjs').Instruction} Instruction */
/** @typedef {import('./reader.mjs').Signature} Signature */

const [BLOCK, IF, END, CALL, CALL_INDIRECT, SELECT, SELECT_TYPED, GLOBAL_GET, GLOBAL_SET, EMPTY] =
  [0x02, 0x04, 0x0b, 0x10, 0x11, 0x1b, 0x1c, 0x23, 0x24, -64n];

const shown = (/** @type {unknown} */ value) =>
  JSON.stringify(value, (_, item) => (typeof item === 'bigint' ? String(item) : item));

/**
 * Whether two values are the same, with all that is in them.
 * @param {any} one
 * @param {any} other
 * @returns {boolean}
 */
function same(one, other) {
  if (typeof one !== 'object' || one === null || typeof other !== 'object' || other === null) return one === other;
  const keys = Object.keys(one);
  return keys.length === Object.keys(other).length && keys.every(key => same(one[key], other[key]));
}

/**
 * @param {boolean} isTrue
 * @param {string} line
 * @returns {asserts isTrue}
 */
function hold(isTrue, line) {
  if (!isTrue) throw new NotEqual(line);
}

/** A comparison of K with M, by which functions of M those of K are. */
class Check {
  /**
   * @param {Uint8Array} kept
   * @param {Uint8Array} module
   * @param {Map<number, number>} places of functions of M in K
   */
  constructor(kept, module, places) {
    this.k = contents(kept);
    this.m = contents(module);
    this.places = places;
    /** The places in K of functions of M. */
    this.taken = new Set(places.values());
    /**
     * The globals of M by those of K.
     * @type {Map<number, number>}
     */
    this.globals = new Map();
    this.table = this.m.tables.indexOf(0x70);
  }

  /**
   * @param {Contents} c
   * @param {number} index
   */
  type(c, index) {
    return c.types[c.functions[index]];
  }

  /** The functions of K are different ones, and have the types of theirs in M. */
  functions() {
    hold(this.taken.size === this.places.size, 'two functions of M have the same place in K');
    for (const [index, place] of this.places) {
      hold(index < this.m.functions.length && place < this.k.functions.length,
        `function ${index} has the place ${place}`);
      const [own, other] = [this.type(this.m, index), this.type(this.k, place)];
      const hasSeveral = own.results.length > 1 && place < this.k.imported;
      hold(same(other, hasSeveral ? { ...own, results: [] } : own), `function ${index} has another type`);
    }
    const defined = [...this.places.values()].filter(place => place >= this.k.imported).length;
    hold(defined === this.k.bodies.length, 'K has functions that are none of M');
  }

  /** @param {Set<number>} entered the functions of M that ran */
  bodies(entered) {
    for (const [index, place] of this.places) {
      if (place < this.k.imported) continue;
      const where = `function ${index} of M, ${place} of K`;
      hold(index >= this.m.imported, `${where}: M imports it`);
      const body = bodyAt(this.k, place - this.k.imported);
      if (entered.has(index)) this.body(where, index, body);
      else hold(same(body, { locals: [], code: [item(0x00), item(END)] }), `${where}: it did not run, and is no trap`);
    }
  }

  /**
   * @param {string} where
   * @param {number} index
   * @param {import('./reader.mjs').Body} kept
   */
  body(where, index, kept) {
    const own = bodyAt(this.m, index - this.m.imported);
    hold(same(own.locals, kept.locals), `${where}: other locals`);
    let at = 0;
    own.code.forEach((instruction, number) => {
      const found = kept.code[at++];
      hold(found !== undefined && this.isSame(instruction, found),
        `${where}: instruction ${number}: ${shown(instruction)} is ${shown(found)}`);
      if (instruction.op !== CALL) return;
      const { results } = this.type(this.m, Number(instruction.values[0]));
      if (results.length > 1) at = this.results(where, results, kept.code, at);
    });
    hold(at === kept.code.length, `${where}: more instructions`);
  }

  /**
   * Several results come through globals of K's own.
   * @param {string} where
   * @param {number[]} results
   * @param {Instruction[]} code
   * @param {number} from
   */
  results(where, results, code, from) {
    const numbers = results.map((type, place) => {
      const { op, values } = code[from + place] ?? item(0x00);
      const global = this.k.globals[Number(values[0])];
      hold(op === GLOBAL_GET && same(global, { type, mutable: 1 }),
        `${where}: result ${place} does not come through a global`);
      hold(!this.globals.has(Number(values[0])), `${where}: result ${place} comes through a global of M`);
      return Number(values[0]);
    });
    hold(new Set(numbers).size === numbers.length, `${where}: two results come through one global`);
    return from + results.length;
  }

  /**
   * @param {Instruction} own
   * @param {Instruction} kept
   */
  isSame(own, kept) {
    const float = own.op === 0xfc ? SATURATING.get(own.second ?? -1) : FLOATS.get(own.op);
    if (float !== undefined && kept.op === CALL) return this.isFloatImport(float, Number(kept.values[0]));
    if (own.op >= BLOCK && own.op <= IF) return kept.op === own.op && this.blockType(own.values[0]) === kept.values[0];
    if (own.op === SELECT_TYPED) return kept.op === SELECT;
    if (own.op !== kept.op || own.second !== kept.second) return false;
    if (own.op === CALL) return this.places.get(Number(own.values[0])) === Number(kept.values[0]);
    if (own.op === CALL_INDIRECT) return this.isSameIndirectCall(own, kept);
    if (own.op === GLOBAL_GET || own.op === GLOBAL_SET) return this.isSameGlobal(Number(own.values[0]),
        Number(kept.values[0]));
    return same(own.values, kept.values);
  }

  /**
   * @param {string} float
   * @param {number} place
   */
  isFloatImport(float, place) {
    const found = this.k.imports[place];
    return found !== undefined && found.module.startsWith('float') && found.name === float && !this.taken.has(place);
  }

  /**
   * A block's type in one byte: -64 for none, or that of the value.
   * @param {any} given
   */
  blockType(given) {
    if (given < 0n) return given;
    const { params, results } = this.m.types[Number(given)];
    if (params.length > 0 || results.length > 1) return null;
    return results.length === 0 ? EMPTY : BigInt(results[0]) - 128n;
  }

  /**
   * @param {Instruction} own
   * @param {Instruction} kept
   */
  isSameIndirectCall(own, kept) {
    const [type, table] = own.values.map(Number);
    const [other, otherTable] = kept.values.map(Number);
    return table === this.table && otherTable === 0 && same(this.m.types[type], this.k.types[other]);
  }

  /**
   * One global of M is one of K throughout.
   * @param {number} own
   * @param {number} kept
   */
  isSameGlobal(own, kept) {
    if (!this.globals.has(kept) && ![...this.globals.values()].includes(own)) this.globals.set(kept, own);
    return this.globals.get(kept) === own && same(this.m.globals[own], this.k.globals[kept]);
  }
}

/**
 * @param {number} op
 * @returns {Instruction}
 */
const item = op => ({ op, second: null, values: [] });

/**
 * Checks the module of a capture. Gives null, or a line that says where a body of K is not M's.
 * @param {import('../record/capture.mjs').Capture} made
 */
export function checkBodies(made) {
  const { record: { plan }, trimmed, module } = made;
  if (trimmed === null) return module === plan.m.bytes ? null : 'the module is not M';
  return checkKept(module, plan.m.bytes, trimmed.places, trimmed.entered);
}

/**
 * Checks K against M.
 * @param {Uint8Array} kept
 * @param {Uint8Array} module
 * @param {Map<number, number>} places of functions of M in K
 * @param {Set<number>} entered the functions of M that ran
 */
export function checkKept(kept, module, places, entered) {
  try {
    const check = new Check(kept, module, places);
    check.functions();
    check.bodies(entered);
    return null;
  } catch (error) {
    if (error instanceof NotEqual) return error.message;
    throw error;
  }
}
