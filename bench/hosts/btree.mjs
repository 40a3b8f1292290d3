/** The host of btree.c: keeps its blocks, gives it commands, and compares its answers with a map of its own. */
const BLOCK = 128;
const INSERT = 1;
const FIND = 2;
const COUNT = 3;
const INSERTS = 200;
const FINDS = 60;
const MISSING = 0xffffffff;

/** @typedef {[what: number, key: number, other: number]} Command */

/** @returns {Generator<Command, void>} */
function* commands() {
  let state = 12345;
  const next = () => (state = (Math.imul(state, 1103515245) + 12345) >>> 0) >>> 16;
  /** @type {number[]} */
  const keys = [];
  for (let number = 0; number < INSERTS; number++) {
    keys.push(next() % 1000);
    yield [INSERT, keys[number], number];
  }
  for (let number = 0; number < FINDS; number++) {
    yield [FIND, number % 3 === 0 ? next() % 1000 : keys[next() % keys.length], 0];
  }
  yield [COUNT, 0, 1000];
  yield [COUNT, 250, 500];
}

/** @param {HostContext} context */
export function host(context) {
  const memory = () => context.instance.exports.memory.buffer;
  /** @type {Map<number, Uint8Array>} */
  const disk = new Map();
  const values = new Map();
  /** @type {number[]} */
  const expected = [];
  const given = commands();
  const note = (/** @type {Command} */ [what, key, other]) => {
    if (what === INSERT) values.set(key, other);
    if (what === FIND) expected.push(values.get(key) ?? MISSING);
    if (what === COUNT) expected.push([...values.keys()].filter(at => at >= key && at < other).length);
  };
  return {
    imports: {
      disk: {
        read: (/** @type {number} */ number, /** @type {number} */ to) =>
          new Uint8Array(memory()).set(/** @type {Uint8Array} */ (disk.get(number)), to),
        write: (/** @type {number} */ number, /** @type {number} */ from) =>
          disk.set(number, new Uint8Array(memory().slice(from, from + BLOCK))),
        command(/** @type {number} */ key, /** @type {number} */ other) {
          const { value, done } = given.next();
          if (done || value === undefined) return 0;
          note(value);
          new DataView(memory()).setUint32(key, value[1], true);
          new DataView(memory()).setUint32(other, value[2], true);
          return value[0];
        },
        answer(/** @type {number} */ number) {
          const right = expected.shift();
          if (right !== number >>> 0) throw new Error(`the answer is ${number}, and ${right} is right`);
        },
      },
    },
    main(/** @type {any} */ exports) {
      console.log(`${exports.run()} blocks, ${values.size} keys`);
    },
  };
}
