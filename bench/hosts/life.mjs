/** The host of life.c: gives a pattern, prints the board's size and population, and ends the game. */
const PATTERN = `
.**
**.
.*.
`.trim();
const GENERATIONS = 56;

/** @param {HostContext} context */
export function host(context) {
  const memory = () => new Uint8Array(context.instance.exports.memory.buffer);
  return {
    imports: {
      env: {
        pattern(/** @type {number} */ to, /** @type {number} */ room) {
          const bytes = Buffer.from(`${PATTERN}\n`);
          if (bytes.length > room) return 0;
          memory().set(bytes, to);
          return bytes.length;
        },
        /** @type {(generation: number, cells: number, width: number, height: number) => number} */
        show(generation, cells, width, height) {
          const population = context.instance.exports.population(cells, width, height);
          console.log(`${generation}: ${width} by ${height}, ${population}`);
          return generation < GENERATIONS ? 1 : 0;
        },
      },
    },
    main(/** @type {any} */ exports) {
      console.log('left', exports.run());
    },
  };
}
