/** What the answers of a replay module weigh: of the host by itself, and of each import. */

/** A page of the memory, and the parts in which a page is shown. */
export const PAGE = 65536;
export const PART = 4096;

/**
 * What the host does for one import, or by itself: `ends` counts how often control leaves the host, `values` the
 * arguments and results that it passes.
 * @typedef {object} Weight
 * @property {number} calls of the import
 * @property {number} bytes
 * @property {number} entries of the table
 * @property {number} globals
 * @property {number} growths of the memory or the table
 * @property {number} arguments_
 * @property {number} results
 * @property {number} ends
 */

/** @returns {Weight} */
const noWeight = () => ({ calls: 0, bytes: 0, entries: 0, globals: 0, growths: 0, arguments_: 0, results: 0, ends: 0 });

/** The weight in the sense of tapes. */
export const total = ({ bytes, entries, globals, growths, arguments_, results, ends }) =>
  bytes + entries + globals + growths + arguments_ + results + ends;

export class HostWeights {
  /** @param {number} imports how many functions are imported */
  constructor(imports) {
    this.main = noWeight();
    this.imports = Array.from({ length: imports }, noWeight);
    /** The bytes that the host writes and the run reads, by parts of the memory. @type {Map<number, number>} */
    this.parts = new Map();
  }

  /** The weight of an import, or of the host by itself for null. */
  of(owner) {
    return owner === null ? this.main : this.imports[owner];
  }

  /** Counts bytes at an address, which may be in two parts. */
  addBytes(owner, address, count) {
    this.of(owner).bytes += count;
    for (let at = address, left = count; left > 0;) {
      const part = Math.floor(at / PART);
      const here = Math.min(left, (part + 1) * PART - at);
      this.parts.set(part, (this.parts.get(part) ?? 0) + here);
      at += here;
      left -= here;
    }
  }

  /** The pages with such bytes, in order: the bytes of the page, and of each of its parts. */
  pages() {
    const pages = new Map();
    for (const [part, bytes] of [...this.parts].sort(([one], [other]) => one - other)) {
      const [page, place] = [Math.floor(part * PART / PAGE), part % (PAGE / PART)];
      if (!pages.has(page)) pages.set(page, { page, bytes: 0, parts: new Array(PAGE / PART).fill(0) });
      pages.get(page).bytes += bytes;
      pages.get(page).parts[place] = bytes;
    }
    return [...pages.values()];
  }

  total() {
    return [this.main, ...this.imports].reduce((sum, weight) => sum + total(weight), 0);
  }
}
