/** WebAssembly's interface as the engine has it, from before an interceptor takes its place. */
const { Module, Instance, Memory, Global, Table } = WebAssembly;
const { get, grow, set } = Table.prototype;
const lengthOf = /** @type {() => number} */ (Object.getOwnPropertyDescriptor(Table.prototype, 'length')?.get);
const bufferOf = /** @type {() => ArrayBuffer} */ (Object.getOwnPropertyDescriptor(Memory.prototype, 'buffer')?.get);
const growMemory = Memory.prototype.grow;

export const native = {
  Module, Instance, Memory, Global, LinkError: WebAssembly.LinkError,
  /**
   * @param {WebAssembly.Table} table
   * @param {number} index
   * @returns {Function | null}
   */
  entry: (table, index) => get.call(table, index),
  /**
   * @param {WebAssembly.Table} table
   * @param {number} index
   * @param {Function | null} func
   */
  setEntry: (table, index, func) => set.call(table, index, func),
  /**
   * @param {WebAssembly.Table} table
   * @param {number} count
   */
  growTable: (table, count) => grow.call(table, count),
  /**
   * @param {WebAssembly.Table} table
   * @returns {number}
   */
  size: table => lengthOf.call(table),
  /**
   * @param {WebAssembly.Memory} memory
   * @returns {ArrayBuffer}
   */
  buffer: memory => bufferOf.call(memory),
  /**
   * @param {WebAssembly.Memory} memory
   * @param {number} pages
   */
  grow: (memory, pages) => growMemory.call(memory, pages),
  /**
   * @param {Uint8Array} bytes
   * @param {WebAssembly.Imports} imports
   * @returns {any} the exports of an instance
   */
  exports: (bytes, imports) => new Instance(new Module(bytes), imports).exports,
};
