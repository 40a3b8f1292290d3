/** What the recording of a run is to do, by the words of the command and what earlier runs have shown. */

/**
 * @param {import('./types.mjs').Words} words
 * @param {string} folder of the run
 * @param {Record<string, import('./types.mjs').Choice> | null} choices by the digests of the modules that are taken, or
 *   null in the first run
 * @returns {import('./types.mjs').Settings}
 */
export function settingsOf({ floats, keep, under, drop, module, until }, folder, choices) {
  const isFirst = choices === null;
  const only = isFirst ? null : Object.keys(choices);
  return { folder, floats, keep, under, drop, module, until, choices: choices ?? {}, only, isFirst };
}
