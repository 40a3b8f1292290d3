/**
 * A module that marks where it writes to its memory, so that only these regions are looked at when control comes to the
 * host. Instructions before each store, copy and fill set bits of a global: bit n is for region n, counted from 0, of
 * 2^shift bytes, and `shift` is another global. A store marks the region in which it begins, and may go on for at most
 * seven bytes into the next one.
 */
import { Reader, SECTION } from './module_types.mjs';

/** @typedef {import('./module_types.mjs').ModuleTypes} ModuleTypes */
/** @typedef {ArrayLike<number>} Bytes */
/** @typedef {{ written: number, shift: number }} MarkGlobals the numbers of the two globals */

/** There are at most 64 regions, of at least 2^12 bytes. With the largest shift they have all addresses of 32 bits. */
const LARGEST_SHIFT = 26;
const SMALLEST_SHIFT = 12;

const I32 = 0x7f;
const I64 = 0x7e;
const F32 = 0x7d;
const F64 = 0x7c;

/**
 * An unsigned LEB128 number.
 * @type {(value: number) => number[]}
 */
export const number = value => (value < 128 ? [value] : [(value % 128) | 128, ...number(Math.floor(value / 128))]);

/** Bytes that are written one after another. */
class Writer {
  constructor() {
    this.buffer = Buffer.alloc(4096);
    this.length = 0;
    /** @type {Writer | null} */
    this.inner = null;
  }

  /** @param {Bytes} bytes */
  add(bytes) {
    if (this.length + bytes.length > this.buffer.length) {
      const longer = Buffer.alloc(2 * (this.length + bytes.length));
      longer.set(this.written());
      this.buffer = longer;
    }
    this.buffer.set(bytes, this.length);
    this.length += bytes.length;
  }

  written() {
    return this.buffer.subarray(0, this.length);
  }

  /**
   * Adds what `write` adds, with its size before it.
   * @param {(writer: Writer) => void} write
   */
  sized(write) {
    this.inner ??= new Writer();
    this.inner.length = 0;
    write(this.inner);
    this.add(number(this.inner.length));
    this.add(this.inner.written());
  }
}

/**
 * A constant of 32 bits, as a signed LEB128 number.
 * @param {number} value
 */
function constant32(value) {
  const bytes = [0x41];
  for (let left = value | 0; ; left >>= 7) {
    if (left < 64 && left >= -64) return [...bytes, left & 127];
    bytes.push((left & 127) | 128);
  }
}

/** @type {{ [name in 'get' | 'set' | 'tee']: (index: number) => number[] }} */
const local = { get: index => [0x20, ...number(index)], set: index => [0x21, ...number(index)],
  tee: index => [0x22, ...number(index)] };
/** @type {{ [name in 'get' | 'set']: (index: number) => number[] }} */
const global = { get: index => [0x23, ...number(index)], set: index => [0x24, ...number(index)] };
const I32_ADD = 0x6a;
const I32_SHR_U = 0x76;
const END = 0x0b;
const I64_CONST = 0x42;
const I64_AND = 0x83;
const I64_OR = 0x84;
const I64_XOR = 0x85;
const I64_SHL = 0x86;
const I64_EXTEND_I32_U = 0xad;
const ONE = [I64_CONST, 1];
const MINUS_ONE = [I64_CONST, 0x7f];
const MINUS_TWO = [I64_CONST, 0x7e];

const FIRST_STORE = 0x36;
const LAST_STORE = 0x3e;
/** What the stores of the opcodes from FIRST_STORE on store. */
const STORED = [I32, I64, F32, F64, I32, I32, I64, I64, I64];

const PREFIX = 0xfc;
const MEMORY_INIT = 8;
const MEMORY_COPY = 10;
const MEMORY_FILL = 11;

/** @typedef {(reader: Reader) => void} Skip */
/** @typedef {[opcode: number, skip: Skip]} Following */

/** @type {{ [what: string]: Skip }} */
const skipped = {
  none: () => {},
  byte: reader => { reader.at += 1; },
  number: reader => { reader.number(); },
  numbers: reader => { reader.number(); reader.number(); },
  numberList: reader => { reader.list(() => reader.number()); reader.number(); },
  bytes4: reader => { reader.at += 4; },
  bytes8: reader => { reader.at += 8; },
  types: reader => { reader.list(() => reader.byte()); },
};

/** @type {[first: number, last: number, what: string][]} */
const RANGES = [
  [0x00, 0x01, 'none'], [0x02, 0x04, 'number'], [0x05, 0x05, 'none'], [0x0b, 0x0b, 'none'], [0x0c, 0x0d, 'number'],
  [0x0e, 0x0e, 'numberList'], [0x0f, 0x0f, 'none'], [0x10, 0x10, 'number'], [0x11, 0x11, 'numbers'],
  [0x1a, 0x1b, 'none'], [0x1c, 0x1c, 'types'], [0x20, 0x24, 'number'], [0x28, 0x3e, 'numbers'], [0x3f, 0x40, 'byte'],
  [0x41, 0x42, 'number'], [0x43, 0x43, 'bytes4'], [0x44, 0x44, 'bytes8'], [0x45, 0xc4, 'none'],
];

/**
 * What follows each opcode of Core 1.0 and of the extensions that add no values, by ranges of opcodes.
 * @type {Map<number, Skip>}
 */
const FOLLOWING = new Map(RANGES.flatMap(([first, last, what]) =>
  Array.from({ length: last - first + 1 }, (_, place) => /** @type {Following} */ ([first + place, skipped[what]]))));

/**
 * The same behind PREFIX.
 * @type {Map<number, Skip>}
 */
const FOLLOWING_PREFIX = new Map([
  ...Array.from({ length: 8 }, (_, opcode) => /** @type {Following} */ ([opcode, skipped.none])),
  [MEMORY_INIT, skipped.numbers],
  [9, skipped.number], [MEMORY_COPY, skipped.numbers], [MEMORY_FILL, skipped.number],
]);

/** Thrown where an instruction is of another proposal, and may write to the memory. */
class Unknown extends Error {}

/**
 * The further locals of each function, as groups of equal types.
 * @type {[count: number, type: number][]}
 */
const LOCALS = [[3, I32], [1, I64], [1, F32], [1, F64]];

/** The instructions before those of one function that write. Its further locals begin at `first`. */
class Marks {
  /**
   * @param {number} first
   * @param {MarkGlobals} globals
   */
  constructor(first, { written, shift }) {
    const [address, value, count, wide, single, double] = [0, 1, 2, 3, 4, 5].map(place => first + place);
    this.address = address;
    this.value = value;
    this.count = count;
    this.written = written;
    this.shift = shift;
    /** @type {{ [type: number]: number }} */
    this.values = { [I32]: value, [I64]: wide, [F32]: single, [F64]: double };
  }

  /**
   * A constant of 64 bits, shifted by the number of the region of an address.
   * @param {number[]} constant
   * @param {number[]} address
   */
  shifted(constant, address) {
    return [...constant, ...address, ...global.get(this.shift), I32_SHR_U, I64_EXTEND_I32_U, I64_SHL];
  }

  /** @param {number[]} bits */
  setting(bits) {
    return [...global.get(this.written), ...bits, I64_OR, ...global.set(this.written)];
  }

  /**
   * @param {number} type
   * @param {number} offset
   */
  store(type, offset) {
    const value = this.values[type];
    const added = offset === 0 ? [] : [...constant32(offset), I32_ADD];
    const mark = this.setting(this.shifted(ONE, [...local.get(this.address), ...added]));
    return [...local.set(value), ...local.tee(this.address), ...mark, ...local.get(value)];
  }

  /** Before a copy or a fill: from the region of the first byte to that of the last. Any will do if there are none. */
  range() {
    const { address, value, count } = this;
    const last = [...local.get(address), ...local.get(count), I32_ADD, ...constant32(-1), I32_ADD];
    const from = this.shifted(MINUS_ONE, local.get(address));
    const past = this.shifted(MINUS_TWO, last);
    const mark = this.setting([...from, ...past, ...MINUS_ONE, I64_XOR, I64_AND]);
    return [...local.set(count), ...local.set(value), ...local.tee(address), ...mark, ...local.get(value),
      ...local.get(count)];
  }
}

/**
 * What is to be inserted before the instruction at the reader's place, which is then behind it.
 * @param {Reader} reader
 * @param {Marks} marks
 */
function insertion(reader, marks) {
  const opcode = reader.byte();
  if (opcode === PREFIX) {
    const second = reader.number();
    (FOLLOWING_PREFIX.get(second) ?? (() => { throw new Unknown(); }))(reader);
    return [MEMORY_INIT, MEMORY_COPY, MEMORY_FILL].includes(second) ? marks.range() : null;
  }
  if (opcode >= FIRST_STORE && opcode <= LAST_STORE) {
    reader.number();
    return marks.store(STORED[opcode - FIRST_STORE], reader.number());
  }
  (FOLLOWING.get(opcode) ?? (() => { throw new Unknown(); }))(reader);
  return null;
}

/**
 * What is to be inserted in the instructions up to an end, as pairs of a place and instructions.
 * @param {Reader} reader
 * @param {number} end
 * @param {Marks} marks
 */
function insertions(reader, end, marks) {
  /** @type {[place: number, instructions: number[]][]} */
  const found = [];
  while (reader.at < end) {
    const place = reader.at;
    const inserted = insertion(reader, marks);
    if (inserted !== null) found.push([place, inserted]);
  }
  return found;
}

/**
 * Writes the body of a function with marks. If it writes nothing, it stays as it is.
 * @param {Writer} writer
 * @param {Reader} reader
 * @param {number} params
 * @param {MarkGlobals} globals
 */
function addBody(writer, reader, params, globals) {
  const begin = reader.at;
  const end = reader.number() + reader.at;
  const groups = reader.number();
  const firstGroup = reader.at;
  let locals = params;
  for (let group = 0; group < groups; group++) {
    locals += reader.number();
    reader.byte();
  }
  let from = reader.at;
  const inserted = insertions(reader, end, new Marks(locals, globals));
  if (inserted.length === 0) return writer.add(reader.bytes.subarray(begin, end));
  return writer.sized(body => {
    body.add(number(groups + LOCALS.length));
    body.add(reader.bytes.subarray(firstGroup, from));
    body.add(LOCALS.flat());
    for (const [place, instructions] of inserted) {
      body.add(reader.bytes.subarray(from, place));
      body.add(instructions);
      from = place;
    }
    body.add(reader.bytes.subarray(from, end));
  });
}

/**
 * Writes a section with more items at its end. `reader` is at its beginning, or null if there was none.
 * @param {Writer} writer
 * @param {Reader | null} reader
 * @param {number} end
 * @param {number[][]} items
 */
function addItems(writer, reader, end, items) {
  const count = reader === null ? 0 : reader.number();
  writer.add(number(count + items.length));
  if (reader !== null) writer.add(reader.bytes.subarray(reader.at, end));
  items.forEach(item => writer.add(item));
}

/** @typedef {(writer: Writer, reader: Reader | null, end: number) => void} WriteSection */

/**
 * How the sections that differ are written, in their order.
 * @param {ModuleTypes} types
 * @param {string[]} names
 * @returns {Map<number, WriteSection>}
 */
function changedSections(types, names) {
  const written = types.globals.length;
  const globals = [[I64, 1, I64_CONST, 0, END], [I32, 1, ...constant32(LARGEST_SHIFT), END]];
  const exports = names.map((name, place) => [name.length, ...Buffer.from(name), 3, ...number(written + place)]);
  const defined = types.functions.slice(types.importedFunctions);
  /** @type {WriteSection} */
  const addBodies = (writer, reader) => {
    if (reader === null) return;
    writer.add(number(reader.number()));
    for (const { params } of defined) addBody(writer, reader, params.length, { written, shift: written + 1 });
  };
  /** @type {(items: number[][]) => WriteSection} */
  const adding = items => (writer, reader, end) => addItems(writer, reader, end, items);
  return new Map([
    [SECTION.global, adding(globals)],
    [SECTION.export, adding(exports)],
    [SECTION.code, addBodies],
  ]);
}

/**
 * The bytes of the module with marks. A section that is missing comes before the first later one.
 * @param {Uint8Array} bytes
 * @param {ModuleTypes} types
 * @param {string[]} names
 */
function markedBytes(bytes, types, names) {
  const changed = changedSections(types, names);
  const [writer, reader] = [new Writer(), new Reader(bytes)];
  /** @type {(id: number, given: Reader | null, end: number) => void} */
  const add = (id, given, end) => {
    const write = changed.get(id) ?? (section => section.add(bytes.subarray(given?.at, end)));
    changed.delete(id);
    writer.add([id]);
    writer.sized(section => write(section, given, end));
  };
  writer.add(bytes.subarray(0, reader.at));
  while (reader.at < bytes.length) {
    const id = reader.byte();
    const end = reader.number() + reader.at;
    const place = id === SECTION.dataCount ? SECTION.code : id;
    for (const missing of [...changed.keys()].filter(other => other < place)) add(missing, null, 0);
    add(id, reader, end);
    reader.at = end;
  }
  return writer.written();
}

/**
 * Two names that no export has.
 * @param {ModuleTypes} types
 */
function freeNames(types) {
  const taken = new Set(types.exports.map(item => item.name));
  const names = [];
  for (let count = 0; names.length < 2; count++) if (!taken.has(`mark${count}`)) names.push(`mark${count}`);
  return names;
}

/**
 * The module with marks, and a function that gives the regions of its instance. Null if it defines no functions, or has
 * instructions that may write and are not known.
 * @param {Uint8Array} bytes
 * @param {ModuleTypes} types
 */
export function markedModule(bytes, types) {
  if (types.functions.length === types.importedFunctions) return null;
  const names = freeNames(types);
  let module;
  try {
    module = new WebAssembly.Module(markedBytes(bytes, types, names));
  } catch (error) {
    if (error instanceof Unknown || error instanceof WebAssembly.CompileError) return null;
    throw error;
  }
  const mark = (/** @type {WebAssembly.Instance} */ instance, /** @type {number} */ place) =>
    /** @type {WebAssembly.Global} */ (instance.exports[names[place]]);
  /** @type {(instance: WebAssembly.Instance) => WrittenRegions} */
  const regions = instance => new WrittenRegions(mark(instance, 0), mark(instance, 1));
  return { module, regions };
}

/** @typedef {import('./memory_changes.mjs').Range} Range */

/** Where a module has written to its memory, by its globals. */
class WrittenRegions {
  /**
   * @param {WebAssembly.Global} written
   * @param {WebAssembly.Global} shift
   */
  constructor(written, shift) {
    this.written = written;
    this.shift = shift;
    this.length = 0;
  }

  /**
   * Gives the ranges of a memory of this length that have been written to since this was last asked, as `[begin, end]`
   * in order, each end being `margin` bytes past a region; or the whole memory where its length was another one.
   * @param {number} length
   * @param {number} margin
   */
  take(length, margin) {
    /** @type {Range[]} */
    const ranges = length === this.length ? this.ranges(margin) : [[0, length]];
    this.length = length;
    this.written.value = 0n;
    this.shift.value = Math.max(SMALLEST_SHIFT, LARGEST_SHIFT - Math.clz32(Math.max(length - 1, 0)));
    return ranges;
  }

  /** @param {number} margin */
  ranges(margin) {
    const bits = BigInt.asUintN(64, this.written.value);
    /** @type {Range[]} */
    const ranges = [];
    for (let region = 0; region < 64; region++) {
      if (((bits >> BigInt(region)) & 1n) === 0n) continue;
      const begin = region * 2 ** this.shift.value;
      const end = Math.min(begin + 2 ** this.shift.value + margin, this.length);
      const last = ranges.at(-1);
      if (last !== undefined && last[1] >= begin) last[1] = end;
      else if (begin < end) ranges.push([begin, end]);
    }
    return ranges;
  }
}
