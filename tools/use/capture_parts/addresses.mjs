/** How addresses are written: as numbers, or from an argument of the import call that is answered. */

/** Arguments below this are counts and descriptors more often than addresses: linkers leave the first bytes empty. */
const LEAST_ADDRESS = 1024;
const MOST_PLUS = 65536;

/** @typedef {(address: number) => string} AddressText */

/** @type {AddressText} */
export const fixedAddress = address => String(address);

/**
 * Gives an address from the nearest argument at or below it, and as a number where none is near.
 * @param {import('./module_types.mjs').ValueType[]} params
 * @param {any[]} args
 * @returns {AddressText}
 */
export function relativeAddress(params, args) {
  const bases = params
    .map((type, index) => ({ index, base: type === 'i32' ? args[index] >>> 0 : 0 }))
    .filter(({ base }) => base >= LEAST_ADDRESS)
    .sort((one, other) => other.base - one.base);
  return address => {
    const near = bases.find(({ base }) => base <= address && address - base < MOST_PLUS);
    if (near === undefined) return String(address);
    const plus = address - near.base;
    return plus === 0 ? `{"arg":${near.index}}` : `{"arg":${near.index},"plus":${plus}}`;
  };
}
