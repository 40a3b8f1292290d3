/** What the host changes in the memory while it has control: growth, and the bytes that differ from what was there. */
import { refuse } from './refusal.mjs';

/** @typedef {[begin: number, end: number]} Range */
/** @typedef {import('./addresses.mjs').AddressText} AddressText */
/** @typedef {{ take(length: number, margin: number): Range[] }} Regions */

export const PAGE = 65536;
const MOST_PAGES = 4096;

/** The sizes of the parts that are compared by one call: the smaller ones only within larger ones that differ. */
const SIZES = [262144, 16384, 1024];

/** Within what the module may have written to, most parts differ, and are copied. */
const SIZES_WRITTEN = [16384];

/** How far a store may go on behind the region that it is known by, in whole parts. */
const MARGIN = 16384;

/** A run of changed bytes goes on over this many bytes that did not change: to begin a new write takes more text. */
const JOIN = 8;

/** @type {(one: Buffer, other: Buffer, from: number, to: number) => boolean} */
const differ = (one, other, from, to) => one.compare(other, from, to, from, to) !== 0;

/**
 * The parts whose bytes differ, within ranges of whole parts: both as lists of `[begin, end]`.
 * @param {Buffer} one
 * @param {Buffer} other
 * @param {Range[]} ranges
 * @param {number[]} sizes
 * @returns {Range[]}
 */
function differingParts(one, other, ranges, [size, ...smaller]) {
  /** @type {Range[]} */
  const parts = [];
  for (const [begin, end] of ranges) {
    for (let at = begin; at < end; at += size) {
      const partEnd = Math.min(at + size, end);
      if (differ(one, other, at, partEnd)) parts.push([at, partEnd]);
    }
  }
  return smaller.length === 0 || parts.length === 0 ? parts : differingParts(one, other, parts, smaller);
}

/**
 * The runs of bytes that differ in these parts, as `[begin, end]` in order of address.
 * @param {Buffer} one
 * @param {Buffer} other
 * @param {Range[]} parts
 */
function differingRuns(one, other, parts) {
  const words = new Int32Array(one.buffer, one.byteOffset, one.length / 4);
  const otherWords = new Int32Array(other.buffer, other.byteOffset, other.length / 4);
  /** @type {Range[]} */
  const runs = [];
  /** @type {Range | null} */
  let last = null;
  for (const [begin, end] of parts) {
    for (let word = begin / 4; word < end / 4; word++) {
      if (words[word] === otherWords[word]) continue;
      for (let at = word * 4; at < word * 4 + 4; at++) {
        if (one[at] === other[at]) continue;
        if (last === null || at > last[1] + JOIN) runs.push(last = [at, at]);
        last[1] = at + 1;
      }
    }
  }
  return runs;
}

export class MemoryChanges {
  /**
   * `memory` is imported or exported, so that the host reaches it. `regions` says where the module writes to it, or is
   * null where nothing does.
   * @param {WebAssembly.Memory} memory
   * @param {Regions | null} regions
   */
  constructor(memory, regions) {
    this.memory = memory;
    this.regions = regions;
    this.noted = Buffer.alloc(0);
  }

  now() {
    const now = Buffer.from(this.memory.buffer);
    if (now.length > MOST_PAGES * PAGE) {
      refuse(`the memory has grown to ${now.length / PAGE} pages, where r3 takes at most ${MOST_PAGES}`);
    }
    return now;
  }

  /**
   * The noted bytes, with zeros behind them up to the memory's length.
   * @param {number} length
   */
  extended(length) {
    if (this.noted.length < length) {
      const longer = Buffer.alloc(length);
      longer.set(this.noted);
      this.noted = longer;
    }
    return this.noted;
  }

  /**
   * Notes these parts of the memory as they are.
   * @param {Buffer} now
   * @param {Range[]} parts
   */
  note(now, parts) {
    for (const [begin, end] of parts) this.noted.set(now.subarray(begin, end), begin);
  }

  /** Notes the memory as it is when control comes to the host: the module has written since it was noted last. */
  look() {
    const now = this.now();
    /** @type {Range[]} */
    const ranges = this.regions?.take(now.length, MARGIN) ?? [[0, now.length]];
    this.note(now, differingParts(now, this.extended(now.length), ranges, SIZES_WRITTEN));
  }

  /** The runs of bytes that are not zero. */
  filledRuns() {
    const now = this.now();
    const zeros = Buffer.alloc(now.length);
    return differingRuns(now, zeros, differingParts(now, zeros, [[0, now.length]], SIZES));
  }

  /**
   * A write of each of these runs, with the bytes that are there. `address` gives an address as a script has it.
   * @param {Range[]} runs
   * @param {AddressText} address
   */
  writes(runs, address) {
    const now = this.now();
    return runs.map(([begin, end]) => `{"write":${address(begin)},"bytes":"${now.toString('hex', begin, end)}"}`);
  }

  /**
   * The actions that make the noted memory the one that is there, which is noted then.
   * @param {AddressText} address
   */
  actions(address) {
    const now = this.now();
    const grown = (now.length - this.noted.length) / PAGE;
    const noted = this.extended(now.length);
    const parts = differingParts(now, noted, [[0, now.length]], SIZES);
    const writes = this.writes(differingRuns(now, noted, parts), address);
    this.note(now, parts);
    return grown > 0 ? [`{"grow":${grown}}`, ...writes] : writes;
  }
}
