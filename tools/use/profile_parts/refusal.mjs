/** Thrown where no profile can be made. Its message is one line that says what and where. */
export class Refusal extends Error {}

/**
 * Throws a refusal with this line.
 * @param {string} line
 * @returns {never}
 */
export function refuse(line) {
  throw new Refusal(line);
}
