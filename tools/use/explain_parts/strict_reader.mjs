/** A reader that takes what r3 takes: numbers of at most 32 or 64 bits in at most 5 or 10 bytes, names in UTF-8. */
import { Reader } from '../wasm/index.mjs';

/** Thrown where the bytes are not of the form that r3 takes. */
export class NotCore extends Error {
  /**
   * @param {number} at the byte
   * @param {string} message
   * @param {string | null} feature the feature of WebAssembly that it needs, if it is one
   */
  constructor(at, message, feature = null) {
    super(message);
    this.at = at;
    this.feature = feature;
  }
}

const TEXT = new TextDecoder('utf-8', { fatal: true });

export class StrictReader extends Reader {
  u32() {
    const begin = this.at;
    const value = super.u32();
    if (this.at - begin > 5 || value > 0xffffffff) throw new NotCore(begin, 'a number of more than 32 bits');
    return value;
  }

  s32() {
    const begin = this.at;
    const value = this.s64();
    if (this.at - begin > 5 || value !== BigInt.asIntN(32, value)) throw new NotCore(begin, 'a number of more than 32 bits');
    return Number(value);
  }

  s64() {
    const begin = this.at;
    const value = super.s64();
    if (this.at - begin > 10 || value !== BigInt.asIntN(64, value)) {
      throw new NotCore(begin, 'a number of more than 64 bits');
    }
    return value;
  }

  name() {
    const begin = this.at;
    try {
      return TEXT.decode(this.take(this.u32()));
    } catch (error) {
      if (error instanceof TypeError) throw new NotCore(begin, 'a name that is not UTF-8');
      throw error;
    }
  }
}
