/** The host of sort.c: makes records, sorts them in the memory by merging, and calls the comparison by its entry. */
const RECORDS = 200;
const ROUNDS = 24;
const WORDS = ['north', 'south', 'east', 'west', 'river', 'stone', 'field', 'harbour', 'mill', 'bridge'];

/** @param {HostContext} context */
export function host(context) {
  const exported = () => context.instance.exports;
  const bytes = () => new Uint8Array(exported().memory.buffer);
  let state = 99;
  /** @type {(bound: number) => number} */
  const next = bound => (state = (Math.imul(state, 1664525) + 1013904223) >>> 0) % 65536 % bound;

  /** @param {number} at */
  function record(at) {
    const name = `${WORDS[next(10)]} ${WORDS[next(10)]} ${next(10)}`;
    bytes().set(Buffer.from(name.slice(0, 19)), at);
    const view = new DataView(exported().memory.buffer);
    view.setUint32(at + 20, 1900 + next(40), true);
    view.setUint32(at + 24, next(50), true);
  }

  /**
   * Sorts the places of records, each comparison a call of the module.
   * @param {number[]} places
   * @param {(left: number, right: number) => number} compare
   * @returns {number[]}
   */
  function sorted(places, compare) {
    if (places.length < 2) return places;
    const middle = places.length >> 1;
    const [left, right] = [places.slice(0, middle), places.slice(middle)].map(half => sorted(half, compare));
    /** @type {number[]} */
    const merged = [];
    while (left.length > 0 && right.length > 0) {
      merged.push(...(compare(left[0], right[0]) <= 0 ? left : right).splice(0, 1));
    }
    return [...merged, ...left, ...right];
  }

  return {
    imports: {
      env: {
        records(/** @type {number} */ to, /** @type {number} */ most) {
          const count = Math.min(RECORDS, most);
          for (let number = 0; number < count; number++) record(to + 28 * number);
          return count;
        },
        /** @type {(from: number, count: number, size: number, compare: number) => void} */
        sort(from, count, size, compare) {
          const places = Array.from({ length: count }, (_, number) => from + size * number);
          const order = sorted(places, exported().__indirect_function_table.get(compare));
          const moved = order.map(place => bytes().slice(place, place + size));
          moved.forEach((item, number) => bytes().set(item, from + size * number));
        },
        report(/** @type {number} */ what, /** @type {number} */ number) {
          const text = bytes().slice(what, bytes().indexOf(0, what));
          console.log(`${Buffer.from(text)}: ${(number >>> 0).toString(16)}`);
        },
      },
    },
    main(/** @type {any} */ exports) {
      console.log(`${exports.run(ROUNDS)} comparisons`);
    },
  };
}
