/** A reader of the binary format's parts. The engine has found a module valid before it is read here. */

/** Thrown where the bytes have something that is not known here, or end too early. */
export class UnknownFormat extends Error {}

const TEXT = new TextDecoder();

export class Reader {
  /**
   * @param {Uint8Array} bytes
   * @param {number} at where to begin
   * @param {number} end where to end
   */
  constructor(bytes, at = 0, end = bytes.length) {
    this.bytes = bytes;
    this.at = at;
    this.end = end;
  }

  get isAtEnd() {
    return this.at >= this.end;
  }

  byte() {
    if (this.at >= this.end) throw new UnknownFormat(`the bytes end at ${this.at}`);
    return this.bytes[this.at++];
  }

  /** An unsigned LEB128 number. It may have more than 32 bits, as far as JavaScript's numbers are exact. */
  u32() {
    let result = 0;
    for (let factor = 1; ; factor *= 128) {
      const byte = this.byte();
      result += (byte & 127) * factor;
      if (byte < 128) return result;
    }
  }

  /** A signed LEB128 number of at most 32 bits. */
  s32() {
    let result = 0;
    for (let shift = 0; ; shift += 7) {
      const byte = this.byte();
      result |= (byte & 127) << shift;
      if (byte < 128) return shift < 25 && byte & 64 ? result | (-1 << (shift + 7)) : result;
    }
  }

  /** A signed LEB128 number of any length. */
  s64() {
    let result = 0n;
    for (let shift = 0n; ; shift += 7n) {
      const byte = this.byte();
      result |= BigInt(byte & 127) << shift;
      if (byte < 128) return byte & 64 ? result - (1n << (shift + 7n)) : result;
    }
  }

  /**
   * The next bytes, as a view.
   * @param {number} count
   */
  take(count) {
    if (this.at + count > this.end) throw new UnknownFormat(`the bytes end at ${this.end}`);
    this.at += count;
    return this.bytes.subarray(this.at - count, this.at);
  }

  name() {
    return TEXT.decode(this.take(this.u32()));
  }

  /**
   * A vector.
   * @template T
   * @param {(index: number) => T} item
   * @returns {T[]}
   */
  list(item) {
    const count = this.u32();
    const items = [];
    for (let index = 0; index < count; index++) items.push(item(index));
    return items;
  }
}
