/** The custom section `name`, written with the names of functions. */
import { name, sized, u32, vector } from './encoding.mjs';

/** @typedef {import('./encoding.mjs').Part} Part */

const FUNCTION_NAMES = 1;

/**
 * The contents of a section `name`, as `moduleBytes` takes it among `custom`.
 * @param {Iterable<[number, string]>} names by the numbers of the functions
 * @returns {Part}
 */
export function nameSection(names) {
  const sorted = [...names].sort(([one], [other]) => one - other);
  return [name('name'), FUNCTION_NAMES, sized(vector(sorted.map(([index, text]) => [u32(index), name(text)])))];
}
