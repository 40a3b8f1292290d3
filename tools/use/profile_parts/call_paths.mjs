/**
 * The call paths of a run, as a tree. A node is a function under the path of its callers, and counts the turns that the
 * function itself takes there, and how often it is called there. A module of its own has the nodes, in a memory of its
 * own, since the memory of the profiled module is the original's. The instrumented module calls two of its functions:
 *
 * - `enter(key, begin, node, top)` when an activation first calls a function. It began at the turn `begin`, and control
 *   was in `node`. The result is the node of the activation. Node and turn are written at the address `top`, the top of
 *   a list of the activations that are open;
 * - `add(key, node, turns, calls)` when activations of a function under a node are over. They took so many turns, with
 *   all that they called, which are then turns of the function's node, and not of the node above it.
 *
 * The key of a function is its number plus 1. Where there is no room for another node, a function has one node for all
 * further paths.
 */
import { I32, I64, exportItem, importItem, KIND, moduleBytes, u32 } from '../wasm/index.mjs';
import { EMPTY, OP, access, call, get, globalGet, i32, set, tee } from './code.mjs';

/** @import { Part } from '../wasm/encoding.mjs' */

/** The most nodes, but for those of further paths. */
export const MOST_PATHS = 1 << 18;

/** A node's fields, by their places. */
const FIELD = { self: 0, calls: 8, parent: 16, key: 20, lastKey: 24, lastChild: 28 };
const NODE_BITS = 5;
const NODE_SIZE = 1 << NODE_BITS;

/** The last turn that was seen is at the start of the memory, so that another thread can read how far the run is. */
const NOW = 0;
export const ROOT = 64;
const SLOT_BITS = 19;
const SLOTS = 1 << SLOT_BITS;

/** Activations that may be open at once. Node.js has no room for more. */
const MOST_DEPTH = 1 << 22;
const PAGE = 65536;
const SHARED_LIMITS = 3;

/** Where the parts of the memory are, for a number of functions. */
function places(functions) {
  const shared = ROOT + NODE_SIZE * MOST_PATHS;
  const slots = shared + NODE_SIZE * (functions + 1);
  const stack = (slots + 4 * SLOTS + 63) & ~63;
  return { shared, slots, stack, pages: Math.ceil((stack + OPEN_SIZE * MOST_DEPTH) / PAGE) };
}

const GLOBAL = { shared: 0 };
const FUNCTION = { create: 0, find: 1, child: 2, enter: 3, add: 4 };

/** An open activation: the node that control was in, and the turn at which the activation began. */
export const OPEN_SIZE = 16;
const OPEN = { node: 0, begin: 8 };

/** Adds a number of 64 bits to a field of the node at a local's address. */
/** @type {(node: number, field: number, number: Part[], op?: number) => Part[]} */
const addTo = (node, field, number, op = OP.i64Add) =>
  [get(node), get(node), access(OP.i64Load, field), number, op, access(OP.i64Store, field)];

/** find(node, key): the child by the table of all nodes; it is created if it is missing. */
function findBody(slots) {
  const [node, key, slot, child] = [0, 1, 2, 3];
  const hash = [get(node), i32(0x9e3779b1), OP.i32Mul, get(key), i32(0x85ebca6b), OP.i32Mul, OP.i32Xor,
    i32(32 - SLOT_BITS), OP.i32ShrU];
  const missing = [globalGet(GLOBAL.shared), OP.if, EMPTY,
    globalGet(GLOBAL.shared), get(key), i32(NODE_BITS), OP.i32Shl, OP.i32Add, OP.return, OP.end,
    get(node), get(key), get(slot), call(FUNCTION.create), OP.return];
  const isField = (field, local) => [get(child), access(OP.i32Load, field), get(local), OP.i32Eq];
  return [hash, set(slot), OP.loop, EMPTY,
    get(slot), i32(2), OP.i32Shl, access(OP.i32Load, slots), tee(child), OP.i32Eqz, OP.if, EMPTY, missing, OP.end,
    isField(FIELD.parent, node), isField(FIELD.key, key), OP.i32And, OP.if, EMPTY, get(child), OP.return, OP.end,
    get(slot), i32(1), OP.i32Add, i32(SLOTS - 1), OP.i32And, set(slot), OP.br, 0, OP.end, OP.unreachable];
}

/** child(node, key): as find, but a node's last child is looked at first. */
function childBody() {
  const [node, key, child] = [0, 1, 2];
  return [get(node), get(key), call(FUNCTION.find), set(child),
    get(node), get(key), access(OP.i32Store, FIELD.lastKey), get(node), get(child),
    access(OP.i32Store, FIELD.lastChild), get(child)];
}

/** The child of a node, into a local. Most often it is the last one. */
const childInto = (child, node, key) => [get(node), access(OP.i32Load, FIELD.lastChild), set(child),
  get(node), access(OP.i32Load, FIELD.lastKey), get(key), OP.i32Ne, OP.if, EMPTY,
  get(node), get(key), call(FUNCTION.child), set(child), OP.end];

function enterBody() {
  const [key, begin, node, top, child] = [0, 1, 2, 3, 4];
  return [get(top), get(node), access(OP.i32Store, OPEN.node), get(top), get(begin), access(OP.i64Store, OPEN.begin),
    i32(NOW), get(begin), access(OP.i64Store, 0), childInto(child, node, key), get(child)];
}

function addBody() {
  const [key, node, turns, calls, child] = [0, 1, 2, 3, 4];
  return [get(calls), OP.i64Eqz, OP.if, EMPTY, OP.return, OP.end, childInto(child, node, key),
    addTo(child, FIELD.self, get(turns)), addTo(node, FIELD.self, get(turns), OP.i64Sub),
    addTo(child, FIELD.calls, get(calls))];
}

/** The bytes of the module that has the nodes. */
function nodesModule({ slots, pages }) {
  const types = [
    { params: [I32, I32, I32], results: [I32] }, { params: [I32, I32], results: [I32] },
    { params: [I32, I64, I32, I32], results: [I32] }, { params: [I32, I32, I64, I64], results: [] },
  ];
  const bodies = [[2, findBody(slots)], [1, childBody()], [1, enterBody()], [1, addBody()]]
    .map(([locals, code]) => [1, locals, I32, code, OP.end]);
  return moduleBytes({
    types,
    imports: [importItem('js', 'create', KIND.function, 0),
      importItem('js', 'memory', KIND.memory, [SHARED_LIMITS, u32(pages), u32(pages)])],
    functions: [1, 1, 2, 3],
    globals: [[I32, 1, i32(0), OP.end]],
    exports: [exportItem('enter', KIND.function, FUNCTION.enter), exportItem('add', KIND.function, FUNCTION.add),
      exportItem('shared', KIND.global, GLOBAL.shared)],
    bodies,
  });
}

/**
 * A node as it is read after the run. `parent` is the number of another node, which comes before it, and -1 for the
 * first node, which is the host. `func` is null for the host, and -1 for the node above those of further paths.
 * @typedef {{ parent: number, func: number | null, self: number, calls: number }} PathNode
 */

export class CallPaths {
  /** @param {number} functions how many functions there are */
  constructor(functions) {
    this.functions = functions;
    this.places = places(functions);
    const { pages } = this.places;
    this.memory = new WebAssembly.Memory({ initial: pages, maximum: pages, shared: true });
    this.words = new Int32Array(this.memory.buffer);
    this.count = 1;
    const module = new WebAssembly.Module(nodesModule(this.places));
    const js = { create: this.create.bind(this), memory: this.memory };
    /** @type {any} */
    this.counting = new WebAssembly.Instance(module, { js }).exports;
  }

  /** A new child of a node; where there is no room for it, the function's node for further paths. */
  create(node, key, slot) {
    if (this.count === MOST_PATHS) return this.share(key);
    const child = ROOT + NODE_SIZE * this.count++;
    this.words[(child + FIELD.parent) >> 2] = node;
    this.words[(child + FIELD.key) >> 2] = key;
    this.words[(this.places.slots >> 2) + slot] = child;
    return child;
  }

  /** From now on each function has one node for all further paths. */
  share(key) {
    const { shared } = this.places;
    this.counting.shared.value = shared;
    return shared + NODE_SIZE * key;
  }

  /** Whether paths were put together for want of room. */
  get isFull() {
    return this.counting.shared.value !== 0;
  }

  /** The function of the node at an address. */
  functionOf(node) {
    return this.words[(node + FIELD.key) >> 2] - 1;
  }

  /**
   * Counts the activations that a trap left open. `node` is the one that control was in, `top` where the list of open
   * activations ends, `open` the innermost activation if it has called nothing.
   */
  finish(now, node, top, open) {
    const numbers = new BigInt64Array(this.memory.buffer);
    if (open !== null) this.counting.add(open.func + 1, node, now - open.begin, 1n);
    for (let [child, at] = [node, top - OPEN_SIZE]; at >= this.places.stack; at -= OPEN_SIZE) {
      const parent = this.words[(at + OPEN.node) >> 2];
      const turns = now - numbers[(at + OPEN.begin) >> 3];
      this.counting.add(this.words[(child + FIELD.key) >> 2], parent, turns, 1n);
      child = parent;
    }
    numbers[(ROOT + FIELD.self) >> 3] += now;
  }

  /** @returns {PathNode[]} */
  nodes() {
    const numbers = new BigInt64Array(this.memory.buffer);
    /** @type {PathNode[]} */
    const nodes = [];
    const number = address => Number(numbers[address >> 3]);
    const at = (address, parent, func) =>
      nodes.push({ parent, func, self: number(address + FIELD.self), calls: number(address + FIELD.calls) });
    at(ROOT, -1, null);
    for (let count = 1; count < this.count; count++) {
      const address = ROOT + NODE_SIZE * count;
      const parent = (this.words[(address + FIELD.parent) >> 2] - ROOT) / NODE_SIZE;
      at(address, parent, this.words[(address + FIELD.key) >> 2] - 1);
    }
    if (this.isFull) this.addShared(nodes, at);
    return nodes;
  }

  addShared(nodes, at) {
    const parent = nodes.length;
    nodes.push({ parent: 0, func: -1, self: 0, calls: 0 });
    for (let func = 0; func < this.functions; func++) {
      at(this.places.shared + NODE_SIZE * (func + 1), parent, func);
      if (nodes[nodes.length - 1].calls === 0) nodes.pop();
    }
  }
}
