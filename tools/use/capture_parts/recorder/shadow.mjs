/**
 * The shadow of the memory: what K knows of it. A load of K that finds other bytes has found what the host wrote. The
 * bytes are added to what the host did last, since K has not looked at them before.
 *
 * A visit is the time from a crossing to K to the next one out of it. A block that K uses often in a visit is owned: it
 * is compared as a whole, and K's loads there are not watched any more. Where K's stores are not watched either, the
 * shadow of the block is brought up to date when control leaves K.
 */
import { BLOCK, BLOCK_BITS } from '../split/operations.mjs';
import { MOST_PAGES } from '../split/plan.mjs';
import { OWNED, OWNED_FOR_STORES, SHADOW_PAGES, STATE, STATE_BITS } from '../split/watcher.mjs';
import { native } from './native.mjs';

const PAGE = 65536;
/** Visits are counted up to here, and then anew: a word has no more bits for them. */
const MOST_VISITS = (1 << 32 - STATE_BITS) - 1;
/** What is found goes on over the blocks behind, as long as they have something, up to so many bytes. */
const REACH = 4096;
/** Blocks that K comes to one after another are owned in growing numbers, up to so many. */
const MOST_BLOCKS = 16;

export class Shadow {
  /**
   * @param {WebAssembly.Memory | null} memory
   * @param {WebAssembly.Memory} shadow
   * @param {(address: number, bytes: Uint8Array) => void} found
   */
  constructor(memory, shadow, found) {
    this.memory = memory;
    this.shadowMemory = shadow;
    this.found = found;
    this.visit = 1;
    /**
     * The blocks whose stores are not watched.
     * @type {number[]}
     */
    this.stored = [];
    this.next = -1;
    this.run = 1;
    this.real = new Uint8Array(0);
    this.known = new Uint8Array(0);
    this.realWords = new Int32Array(0);
    this.knownWords = new Int32Array(0);
    /** What is known of each block. */
    this.blocks = new Int32Array(0);
    this.look();
  }

  look() {
    const buffer = native.buffer(this.shadowMemory);
    this.real = new Uint8Array(this.memory === null ? new ArrayBuffer(0) : native.buffer(this.memory));
    this.blocks = new Int32Array(buffer, 0, SHADOW_PAGES * PAGE / 4);
    this.known = new Uint8Array(buffer, SHADOW_PAGES * PAGE);
    this.realWords = new Int32Array(this.real.buffer);
    this.knownWords = new Int32Array(buffer, SHADOW_PAGES * PAGE);
  }

  /** Brings the shadow to the memory's length, and gives the pages that the memory has grown by. */
  grownPages() {
    if (this.memory === null || (this.real.length === this.known.length && this.real.length > 0)) return 0;
    const now = native.buffer(this.memory).byteLength / PAGE;
    const pages = now - this.known.length / PAGE;
    if (now <= MOST_PAGES && pages > 0) native.grow(this.shadowMemory, pages);
    this.look();
    return pages;
  }

  /** Control leaves K: what it has stored unwatched is known. */
  leave() {
    for (const block of this.stored) {
      const begin = block << BLOCK_BITS;
      this.known.set(this.real.subarray(begin, begin + BLOCK), begin);
    }
    this.stored.length = 0;
  }

  /** Control comes to K: it owns no block. Gives by how many visits K is to move on. */
  enter() {
    this.next = -1;
    if (this.visit < MOST_VISITS) {
      this.visit++;
      return 1;
    }
    this.countAnew();
    return 2;
  }

  /** No block is owned, and those that were used stay used: visit 0 never comes. */
  countAnew() {
    this.visit = 1;
    for (let block = 0; block < this.blocks.length; block++) if (this.blocks[block] !== 0) this.blocks[block] = 1;
  }

  /**
   * Whether K owns a block in this visit.
   * @param {number} block
   */
  isOwned(block) {
    const word = this.blocks[block];
    return word >>> STATE_BITS === this.visit && (word & STATE) >= OWNED;
  }

  /**
   * @param {number} block
   * @param {number} state
   */
  mark(block, state) {
    this.blocks[block] = this.visit << STATE_BITS | state;
  }

  /**
   * Compares bytes of one block, and says whether some differ. Bytes between that do not differ are not added: K may
   * have read their old values.
   * @param {number} from
   * @param {number} to
   */
  compare(from, to) {
    let [begin, differ] = [-1, false];
    for (let at = from; at < to; at++) {
      if (begin === -1 && (at & 3) === 0) {
        while (at + 4 <= to && this.realWords[at >>> 2] === this.knownWords[at >>> 2]) at += 4;
        if (at >= to) break;
      }
      const isOther = this.real[at] !== this.known[at];
      if (isOther && begin === -1) begin = at;
      if (!isOther && begin !== -1) {
        this.add(begin, at);
        begin = -1;
      }
      differ ||= isOther;
    }
    if (begin !== -1) this.add(begin, to);
    return differ;
  }

  /**
   * @param {number} begin
   * @param {number} end
   */
  add(begin, end) {
    const bytes = this.real.subarray(begin, end);
    this.known.set(bytes, begin);
    this.found(begin, bytes);
  }

  /**
   * A load of K in a block that it does not own has found other bytes than the shadow has.
   * @param {number} address
   * @param {number} count
   */
  miss(address, count) {
    const last = Math.min(address + count + REACH, this.real.length);
    for (let at = address; at < last;) {
      const end = Math.min((at | (BLOCK - 1)) + 1, last);
      if (this.isOwned(at >>> BLOCK_BITS) || !this.compare(at, end)) return;
      at = end;
    }
  }

  /**
   * Bytes that K reads at once: over the end of a block, or by a copy.
   * @param {number} from
   * @param {number} count
   */
  reads(from, count) {
    for (let at = from; at < from + count;) {
      const end = Math.min((at | (BLOCK - 1)) + 1, from + count);
      const block = at >>> BLOCK_BITS;
      if (!this.isOwned(block)) {
        this.compare(at, end);
        this.mark(block, 0);
      }
      at = end;
    }
  }

  /**
   * K owns the block of an address, and blocks behind it where it has come to this one from the block before.
   * @param {number} address
   */
  own(address) {
    const first = address >>> BLOCK_BITS;
    this.run = first === this.next ? Math.min(2 * this.run, MOST_BLOCKS) : 1;
    this.next = Math.min(first + this.run, this.real.length >>> BLOCK_BITS);
    for (let block = first; block < this.next; block++) {
      if (this.isOwned(block)) continue;
      this.compare(block << BLOCK_BITS, (block + 1) << BLOCK_BITS);
      this.mark(block, OWNED);
    }
  }

  /** @param {number} address */
  ownForStores(address) {
    const block = address >>> BLOCK_BITS;
    if (!this.isOwned(block)) this.own(address);
    this.mark(block, OWNED_FOR_STORES);
    this.stored.push(block);
  }

  /**
   * K is about to copy: what it reads is compared, and what it writes is known. A range past the end traps.
   * @param {number} to
   * @param {number} from
   * @param {number} count
   */
  copies(to, from, count) {
    if (Math.max(to, from) + count > this.real.length) return;
    this.reads(from, count);
    this.known.set(this.real.subarray(from, from + count), to);
  }

  /**
   * K is about to fill.
   * @param {number} to
   * @param {number} value
   * @param {number} count
   */
  fills(to, value, count) {
    if (to + count <= this.real.length) this.known.fill(value & 255, to, to + count);
  }

  /**
   * The blocks of a range that K has used, as runs of addresses.
   * @param {number} begin
   * @param {number} end
   */
  used(begin, end) {
    /** @type {[number, number][]} */
    const runs = [];
    for (let at = begin; at < end;) {
      const next = Math.min((at | (BLOCK - 1)) + 1, end);
      const last = runs[runs.length - 1];
      if (this.blocks[at >>> BLOCK_BITS] !== 0) {
        if (last !== undefined && last[1] === at) last[1] = next;
        else runs.push([at, next]);
      }
      at = next;
    }
    return runs;
  }
}
