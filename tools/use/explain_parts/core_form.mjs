/** Where a file stops to be a module of the form that r3 takes: the place that `malformed: at P` gives, and why. */
import { MAGIC, SECTION, Reader, UnknownFormat } from '../wasm/index.mjs';
import { readCoreSection } from './core_sections.mjs';
import { NotCore, StrictReader } from './strict_reader.mjs';

/** The names of sections, as wasm-objdump has them in small letters; `DataCount` is that of the page. */
export const SECTION_NAMES = ['custom', 'type', 'import', 'function', 'table', 'memory', 'global', 'export', 'start',
  'element', 'code', 'data', 'DataCount', 'tag'];

/**
 * A section: `at` is its beginning, `begin` and `end` are those of its contents. `end` may be past the file's.
 * @typedef {{ id: number, at: number, begin: number, end: number }} Section
 */

/**
 * Where r3 stops reading. `section` is null if there is none: no preamble, or the end of the file.
 * @typedef {{ at: number, section: Section | null, cause: NotCore }} Stop
 */

/**
 * The sections of a file up to the first that does not fit into it.
 * @param {Uint8Array} bytes
 * @returns {Section[]}
 */
export function sectionsOf(bytes) {
  const reader = new Reader(bytes, MAGIC.length);
  const sections = [];
  while (!reader.isAtEnd) {
    const at = reader.at;
    try {
      const id = reader.byte();
      const size = reader.u32();
      sections.push({ id, at, begin: reader.at, end: reader.at + size });
      reader.take(size);
    } catch (error) {
      if (!(error instanceof UnknownFormat)) throw error;
      if (sections[sections.length - 1]?.at !== at) sections.push({ id: bytes[at], at, begin: bytes.length, end: bytes.length + 1 });
      break;
    }
  }
  return sections;
}

/**
 * Whether a file begins as a module of version 1.
 * @param {Uint8Array} bytes
 */
export const hasPreamble = bytes => MAGIC.every((byte, place) => bytes[place] === byte);

const TEXT = new TextDecoder();

/**
 * What a file is that does not begin as a module.
 * @param {Uint8Array} bytes
 */
function otherFile(bytes) {
  const begins = TEXT.decode(bytes.subarray(0, 200));
  if (bytes.length === 0) return 'an empty file';
  if (begins.startsWith('\0asm')) {
    return bytes[6] === 1 ? 'a component: it has modules in it' : 'WebAssembly of another version than 1';
  }
  if (/^\s*(;;|\(;|\(module)/.test(begins)) return 'a module as text, which wat2wasm makes into bytes';
  if (begins.startsWith('\x7fELF')) return 'a program or an object for another machine (ELF)';
  if (bytes[0] === 0x1f && bytes[1] === 0x8b) return 'a packed file (gzip)';
  if (begins.startsWith('!<arch>')) return 'an archive of objects';
  return begins.includes('\ufffd') || begins.includes('\0') ? 'no WebAssembly' : 'a text';
}

/**
 * @param {Uint8Array} bytes
 * @param {Section} section
 * @param {number} last the greatest number of a section before it, 0 if there is none
 * @returns {NotCore | null}
 */
function causeIn(bytes, section, last) {
  if (section.end > bytes.length) return new NotCore(bytes.length, 'the file ends within the section');
  if (section.id !== SECTION.custom && section.id <= last && section.id < SECTION_NAMES.length) {
    return new NotCore(section.at, `a section behind the section ${SECTION_NAMES[last]}, which it comes before`);
  }
  try {
    readCoreSection(section.id, new StrictReader(bytes, section.begin, section.end));
    return null;
  } catch (error) {
    if (error instanceof NotCore) return error;
    if (error instanceof UnknownFormat) return new NotCore(section.begin, error.message);
    throw error;
  }
}

/**
 * Where r3 stops reading a file by the reading of `explain`, or null if it reads all of it.
 * @param {Uint8Array} bytes
 * @returns {Stop | null}
 */
export function firstStop(bytes) {
  if (!hasPreamble(bytes)) return { at: 0, section: null, cause: new NotCore(0, otherFile(bytes)) };
  let last = 0;
  const counts = [0, 0];
  for (const section of sectionsOf(bytes)) {
    const cause = causeIn(bytes, section, last);
    if (cause !== null) return { at: section.at, section, cause };
    if (section.id !== SECTION.custom) last = section.id;
    if (section.id === SECTION.function) counts[0] = new Reader(bytes, section.begin).u32();
    if (section.id === SECTION.code) counts[1] = new Reader(bytes, section.begin).u32();
  }
  if (counts[0] === counts[1]) return null;
  const cause = new NotCore(bytes.length, `${counts[0]} functions with a type, and ${counts[1]} bodies`);
  return { at: bytes.length, section: null, cause };
}
