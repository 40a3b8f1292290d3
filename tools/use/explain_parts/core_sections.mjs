/** What the sections of Core 1.0 may hold: the first thing in a section that r3 does not read. */
import { KIND, SECTION, instructionName, readInstruction, typeName } from '../wasm/index.mjs';
import { instructionFeature, typeFeature } from './features.mjs';
import { NotCore } from './strict_reader.mjs';

/** @typedef {import('./strict_reader.mjs').StrictReader} StrictReader */

const FORM_FUNCTION = 0x60;
const SHARED = 2;
const WIDE = 4;

/** @param {StrictReader} reader */
function valueType(reader) {
  const at = reader.at;
  const type = reader.byte();
  const feature = typeFeature(type);
  if (feature !== null) throw new NotCore(at, `the type ${typeName(type)}`, feature);
}
/** @param {StrictReader} reader */
function functionType(reader) {
  const at = reader.at;
  const form = reader.byte();
  if (form !== FORM_FUNCTION) throw new NotCore(at, `a type of the form 0x${form.toString(16)}`, 'gc');
  reader.list(() => valueType(reader));
  reader.list(() => valueType(reader));
}
/**
 * @param {StrictReader} reader
 * @param {string} what a memory or a table
 */
function limits(reader, what) {
  const at = reader.at;
  const flags = reader.byte();
  if (flags & SHARED) throw new NotCore(at, `a ${what} that threads share`, 'atomics');
  if (flags & WIDE) throw new NotCore(at, `a ${what} with addresses of 64 bits`, 'memory64');
  if (flags > 1) throw new NotCore(at, `a ${what} with the flags 0x${flags.toString(16)}`);
  reader.u32();
  if (flags & 1) reader.u32();
}
/** @param {StrictReader} reader */
function table(reader) {
  const at = reader.at;
  const type = reader.byte();
  if (type === 0x40) throw new NotCore(at, 'a table with an initial value', 'function-references');
  if (type !== 0x70) throw new NotCore(at, `a table of ${typeName(type)}`, typeFeature(type) ?? 'reference-types');
  limits(reader, 'table');
}
/** @param {StrictReader} reader */
function globalType(reader) {
  valueType(reader);
  const at = reader.at;
  const mutability = reader.byte();
  if (mutability > 1) throw new NotCore(at, `a global with the flags 0x${mutability.toString(16)}`);
}

/**
 * Reads an instruction that r3 reads.
 * @param {StrictReader} reader
 */
export function coreInstruction(reader) {
  const at = reader.at;
  const item = readInstruction(reader);
  const feature = instructionFeature(item, reader.bytes.subarray(at, reader.at));
  if (feature !== null) throw new NotCore(at, `the instruction ${instructionName(item.op)}`, feature);
  return item;
}
/**
 * Instructions up to the `end` that closes them.
 * @param {StrictReader} reader
 */
function expression(reader) {
  for (let depth = 1; depth > 0;) {
    const { op } = coreInstruction(reader);
    if (op >= 0x02 && op <= 0x04) depth++;
    if (op === 0x0b) depth--;
  }
}
/** @param {StrictReader} reader */
function importItem(reader) {
  reader.name();
  reader.name();
  const at = reader.at;
  const kind = reader.byte();
  if (kind === KIND.function) reader.u32();
  else if (kind === KIND.table) table(reader);
  else if (kind === KIND.memory) limits(reader, 'memory');
  else if (kind === KIND.global) globalType(reader);
  else throw new NotCore(at, `an import of the kind ${kind}`, kind === KIND.tag ? 'exception-handling' : null);
}
/** @param {StrictReader} reader */
function exportItem(reader) {
  reader.name();
  const at = reader.at;
  const kind = reader.byte();
  if (kind > KIND.global) {
    throw new NotCore(at, `an export of the kind ${kind}`, kind === KIND.tag ? 'exception-handling' : null);
  }
  reader.u32();
}
/** @param {StrictReader} reader */
function element(reader) {
  const at = reader.at;
  const flags = reader.u32();
  if (flags === 1) throw new NotCore(at, 'an element segment that is passive', 'bulk-memory');
  if (flags === 3) throw new NotCore(at, 'an element segment that declares functions', 'reference-types');
  if (flags !== 0) throw new NotCore(at, `an element segment of the form ${flags}`, 'reference-types');
  expression(reader);
  reader.list(() => reader.u32());
}
/** @param {StrictReader} reader */
function dataSegment(reader) {
  const at = reader.at;
  const flags = reader.u32();
  if (flags === 1) throw new NotCore(at, 'a data segment that is passive', 'bulk-memory');
  if (flags !== 0) throw new NotCore(at, `a data segment of the form ${flags}`, 'multimemory');
  expression(reader);
  reader.take(reader.u32());
}
/** @param {StrictReader} reader */
function body(reader) {
  const size = reader.u32();
  const end = reader.at + size;
  let locals = 0;
  reader.list(() => {
    locals += reader.u32();
    valueType(reader);
  });
  if (locals > 0xffffffff) throw new NotCore(reader.at, 'more than 4,294,967,295 locals');
  expression(reader);
  if (reader.at !== end) throw new NotCore(reader.at, 'bytes behind the end of a body');
}

/** @type {Record<number, (reader: StrictReader) => void>} */
const CONTENTS = {
  [SECTION.custom]: reader => {
    reader.name();
    reader.at = reader.end;
  },
  [SECTION.type]: reader => { reader.list(() => functionType(reader)); },
  [SECTION.import]: reader => { reader.list(() => importItem(reader)); },
  [SECTION.function]: reader => { reader.list(() => reader.u32()); },
  [SECTION.table]: reader => { reader.list(() => table(reader)); },
  [SECTION.memory]: reader => { reader.list(() => limits(reader, 'memory')); },
  [SECTION.global]: reader => {
    reader.list(() => {
      globalType(reader);
      expression(reader);
    });
  },
  [SECTION.export]: reader => { reader.list(() => exportItem(reader)); },
  [SECTION.start]: reader => { reader.u32(); },
  [SECTION.element]: reader => { reader.list(() => element(reader)); },
  [SECTION.code]: reader => { reader.list(() => body(reader)); },
  [SECTION.data]: reader => { reader.list(() => dataSegment(reader)); },
};

/** The sections that r3 does not take at all, by what they are for. */
const OTHERS = new Map([
  [SECTION.dataCount, new NotCore(0, 'a section that counts the data segments', 'bulk-memory')],
  [SECTION.tag, new NotCore(0, 'a section of tags, which exceptions have', 'exception-handling')],
]);

/**
 * Reads the contents of a section to the end; throws `NotCore` at the first thing that r3 does not read.
 * @param {number} id
 * @param {StrictReader} reader
 */
export function readCoreSection(id, reader) {
  const read = CONTENTS[id];
  if (read === undefined) {
    const other = OTHERS.get(id);
    throw new NotCore(reader.at, other?.message ?? `a section of the number ${id}`, other?.feature ?? null);
  }
  read(reader);
  if (!reader.isAtEnd) throw new NotCore(reader.at, 'bytes behind the end of what the section holds');
}
