/**
 * The log of a run while it is recorded: what crosses the border, as words in a memory that the functions for float
 * instructions write too. A full log goes to the sink, and so does one that has waited for a while.
 */
import { CHUNK, chunk } from './chunks.mjs';
import { ACTION, LOG, LOG_WORDS, MOST_ENTRY_WORDS, WRITE } from './log_layout.mjs';
import { native } from './native.mjs';

/** A crossing in so many looks at the clock, and the log goes to the sink after so many milliseconds. */
const LOOK = 1024;
const PATIENCE = 250;
/** The clock as it is before the program, or what stands for its clock, is there. */
const { now } = Date;
const PIECE = 4 * (MOST_ENTRY_WORDS - 4);

export class Log {
  /**
   * @param {(chunk: Uint8Array) => void} sink
   * @param {() => void} flushed is called when words have gone to the sink
   */
  constructor(sink, flushed) {
    this.sink = sink;
    this.flushed = flushed;
    this.memory = new native.Memory({ initial: LOG.pages, maximum: LOG.pages });
    this.words = new Int32Array(this.memory.buffer);
    this.bytes = new Uint8Array(this.memory.buffer);
    this.words[LOG.position] = 4 * LOG.first;
    this.words[LOG.limit] = 4 * (LOG_WORDS - MOST_ENTRY_WORDS);
    this.pair = new Int32Array(2);
    this.wide = new BigInt64Array(this.pair.buffer);
    this.last = now();
  }

  get crossings() {
    return this.words[LOG.crossings];
  }

  /** Nothing is written from here on. */
  close() {
    this.words[LOG.isOver] = 1;
  }

  /**
   * A call. The values are integers of their bits.
   * @param {number} kind
   * @param {number} number
   * @param {boolean[]} isWide for each value, whether it has 64 bits
   * @param {any[]} values
   */
  call(kind, number, isWide, values) {
    if ((++this.words[LOG.crossings] & (LOOK - 1)) === 0) this.look();
    this.crossing(kind, number, isWide, values);
  }

  /** Room for one more entry: the word it begins at. */
  place() {
    if (this.words[LOG.position] > this.words[LOG.limit]) this.flush();
    return this.words[LOG.position] >> 2;
  }

  /** One more call: the word it begins at. */
  callPlace() {
    if ((++this.words[LOG.crossings] & (LOOK - 1)) === 0) this.look();
    return this.place();
  }

  /**
   * Calls with no, one, two and three arguments of 32 bits. `first` is the first word.
   * @param {number} first
   */
  call0(first) {
    const at = this.callPlace();
    this.words[at] = first;
    this.words[LOG.position] = (at + 1) << 2;
  }

  /**
   * @param {number} first
   * @param {number} a
   */
  call1(first, a) {
    const at = this.callPlace();
    const { words } = this;
    words[at] = first;
    words[at + 1] = a;
    words[LOG.position] = (at + 2) << 2;
  }

  /**
   * @param {number} first
   * @param {number} a
   * @param {number} b
   */
  call2(first, a, b) {
    const at = this.callPlace();
    const { words } = this;
    words[at] = first;
    words[at + 1] = a;
    words[at + 2] = b;
    words[LOG.position] = (at + 3) << 2;
  }

  /**
   * @param {number} first
   * @param {number} a
   * @param {number} b
   * @param {number} c
   */
  call3(first, a, b, c) {
    const at = this.callPlace();
    const { words } = this;
    words[at] = first;
    words[at + 1] = a;
    words[at + 2] = b;
    words[at + 3] = c;
    words[LOG.position] = (at + 4) << 2;
  }

  /**
   * A return without a result.
   * @param {number} first
   */
  return0(first) {
    const at = this.place();
    this.words[at] = first;
    this.words[LOG.position] = (at + 1) << 2;
  }

  /**
   * A return with a result of 32 bits.
   * @param {number} first
   * @param {number} result
   */
  return1(first, result) {
    const at = this.place();
    const { words } = this;
    words[at] = first;
    words[at + 1] = result;
    words[LOG.position] = (at + 2) << 2;
  }

  /**
   * @param {number} kind
   * @param {number} number
   * @param {boolean[]} isWide
   * @param {any[]} values
   */
  crossing(kind, number, isWide, values) {
    const { words } = this;
    if (words[LOG.position] > words[LOG.limit]) this.flush();
    let at = words[LOG.position] >> 2;
    words[at++] = number * 8 + kind;
    for (let place = 0; place < isWide.length; place++) {
      if (isWide[place]) {
        this.wide[0] = values[place];
        words[at++] = this.pair[0];
        words[at++] = this.pair[1];
      } else {
        words[at++] = values[place];
      }
    }
    words[LOG.position] = at << 2;
  }

  /**
   * @param {number} number
   * @param {number[]} following
   */
  action(number, following) {
    this.crossing(ACTION, number, following.map(() => false), following);
  }

  /**
   * Bytes that the host has written, in pieces.
   * @param {number} address
   * @param {Uint8Array} bytes
   */
  write(address, bytes) {
    for (let from = 0; from < bytes.length; from += PIECE) {
      const piece = bytes.subarray(from, from + PIECE);
      this.crossing(WRITE, piece.length, [false], [address + from]);
      const at = this.words[LOG.position];
      this.bytes.set(piece, at);
      this.words[LOG.position] = at + 4 * Math.ceil(piece.length / 4);
    }
  }

  /** Whether it is time for the sink. */
  look() {
    if (now() - this.last >= PATIENCE) this.flush();
  }

  flush() {
    const { words } = this;
    this.last = now();
    const end = words[LOG.position];
    if (end === 4 * LOG.first) return;
    words[LOG.position] = 4 * LOG.first;
    this.sink(chunk(CHUNK.words, this.bytes.subarray(4 * LOG.first, end)));
    this.flushed();
  }
}
