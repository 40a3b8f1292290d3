/** Numbers that look random and are the same for the same seed (mulberry32). */
export class Random {
  /** @param {number} seed */
  constructor(seed) {
    this.state = seed >>> 0;
  }

  bits() {
    this.state = (this.state + 0x6d2b79f5) >>> 0;
    let mixed = Math.imul(this.state ^ (this.state >>> 15), this.state | 1);
    mixed ^= mixed + Math.imul(mixed ^ (mixed >>> 7), mixed | 61);
    return (mixed ^ (mixed >>> 14)) >>> 0;
  }

  /** @param {number} bound */
  below(bound) {
    return this.bits() % bound;
  }

  /** @param {number} percent */
  chance(percent) {
    return this.below(100) < percent;
  }

  /**
   * @template Item
   * @param {Item[]} list
   */
  pick(list) {
    return list[this.below(list.length)];
  }

  /**
   * @template Item
   * @param {number} most
   * @param {(nothing: undefined, place: number) => Item} item
   * @returns {Item[]}
   */
  list(most, item) {
    return Array.from({ length: this.below(most + 1) }, item);
  }
}
