// The host of callback.wasm: puts a function of its own into the table, which the program calls by its place there.
/** @param {HostContext} context */
export function host(context) {
  /** @type {(cell: number, place: number) => number} */
  const visit = (cell, place) => {
    const { memory, add } = context.instance.exports;
    if (place === 1) new DataView(memory.buffer).setInt32(cell, 100, true);
    if (place === 2) add(1000);
    return place + 1;
  };
  const visitor = context.hostFunction('visit', { params: ['i32', 'i32'], results: ['i32'] }, visit);
  return {
    imports: {
      env: {
        register() {
          const table = context.instance.exports.__indirect_function_table;
          const place = table.grow(1);
          table.set(place, visitor);
          return place;
        },
      },
    },
    main(/** @type {any} */ exports) {
      console.log('run gives', exports.run(7));
    },
  };
}
