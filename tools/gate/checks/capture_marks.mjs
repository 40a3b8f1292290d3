/**
 * What a module writes is noted when control comes to the host: after stores of all widths, copies and fills at random
 * places, many of them where regions meet, the noted memory is the one that is there.
 */
import { moduleBytes } from './module_bytes.mjs';
import { Random } from './random.mjs';
import { markedModule } from '../../use/capture_parts/marked_module.mjs';
import { MemoryChanges, PAGE } from '../../use/capture_parts/memory_changes.mjs';
import { moduleTypes } from '../../use/capture_parts/module_types.mjs';

/** @type {import('./module_bytes.mjs').ValueType[]} */
const STORED = ['i32', 'i64', 'f32', 'f64', 'i32', 'i32', 'i64', 'i64', 'i64'];
const OFFSETS = [[0], [5], [0xf0, 0xa2, 4]];
const STEPS = 300;
const get = (/** @type {number} */ index) => [0x20, index];

/** @typedef {{ params: import('./module_bytes.mjs').ValueType[], body: number[] }} Writer */

/**
 * A module with a memory of so many pages. Each function of its exports writes to it in one way.
 * @param {number} pages
 */
function writing(pages) {
  const stores = STORED.flatMap((type, place) => OFFSETS.map(offset => ({
    params: ['i32', type], body: [...get(0), ...get(1), 0x36 + place, 0, ...offset],
  })));
  const three = [[0xfc, 10, 0, 0], [0xfc, 11, 0]].map(code => ({
    params: ['i32', 'i32', 'i32'], body: [...get(0), ...get(1), ...get(2), ...code],
  }));
  const grow = { params: ['i32'], body: [...get(0), 0x40, 0, 0x1a] };
  const functions = /** @type {Writer[]} */ ([...stores, ...three, grow]);
  return moduleBytes({
    types: functions.map(({ params }) => ({ params, results: [] })),
    functions: functions.map(({ body }, type) => ({ type, locals: ['f64'], body })),
    memory: { min: pages },
    exports: [...functions.map((_, index) => ({ name: `w${index}`, kind: /** @type {const} */ ('function'), index })),
      { name: 'm', kind: 'memory', index: 0 }, { name: 'mark0', kind: 'memory', index: 0 }],
    data: [{ offset: 3, bytes: [1, 2, 3] }],
  });
}

/**
 * An address, near the end of a region or anywhere.
 * @param {Random} random
 * @param {number} length
 */
function address(random, length) {
  const region = 2 ** Math.max(12, 26 - Math.clz32(length - 1));
  const near = region * (1 + random.below(length / region)) - 12 + random.below(16);
  return random.below(2) === 0 ? near : random.below(length);
}

/**
 * Calls a function of the module, or has it grow the memory now and then. A trap writes nothing.
 * @param {Random} random
 * @param {any} exports
 * @param {number} length
 */
function write(random, exports, length) {
  const index = random.below(STORED.length * OFFSETS.length + 2 + 1);
  const type = STORED[Math.floor(index / OFFSETS.length)];
  /** @type {(number | bigint)[]} */
  const values = [address(random, length)];
  if (type !== undefined) {
    values.push(type === 'i64' ? BigInt(random.below(1 << 30)) << 33n : 1 + random.below(1 << 30));
  } else if (index === STORED.length * OFFSETS.length + 2) {
    values[0] = Number(random.below(40) === 0);
  } else {
    values.push(address(random, length), random.below(random.below(2) === 0 ? 20 : length));
  }
  try {
    exports[`w${index}`](...values);
  } catch (error) {
    if (!(error instanceof WebAssembly.RuntimeError)) throw error;
  }
}

/** @param {number} pages */
function fault(pages) {
  const random = new Random(pages);
  const bytes = writing(pages);
  const marked = markedModule(bytes, moduleTypes(bytes));
  if (marked === null) return 'the module gets no marks';
  const instance = new WebAssembly.Instance(marked.module);
  const memory = /** @type {WebAssembly.Memory} */ (instance.exports.m);
  const changes = new MemoryChanges(memory, marked.regions(instance));
  for (let step = 0; step < STEPS; step++) {
    for (let count = random.below(4); count > 0; count--) {
      write(random, instance.exports, memory.buffer.byteLength);
    }
    changes.look();
    const now = Buffer.from(memory.buffer);
    if (!now.equals(changes.noted)) return `step ${step}: a byte that the module wrote is not noted`;
    // What the host writes is given as actions, and is noted then.
    const at = random.below(now.length);
    now[at] ^= 255;
    const actions = changes.actions(String);
    const hex = now.toString('hex', at, at + 1);
    if (actions.join() !== `{"write":${at},"bytes":"${hex}"}`) return `step ${step}: ${actions.join().slice(0, 100)}`;
  }
  return null;
}

/**
 * The checks, by the length of the memory.
 * @returns {import('./running.mjs').Check[]}
 */
export const markCases = () => [1, 3, 16, 65].map(pages => [`${pages * PAGE} bytes`, () => fault(pages)]);
