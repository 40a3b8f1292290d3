/** The program r3 that a capture calls, and its limits. */
import { fileURLToPath } from 'node:url';

/** The file that R3_PROGRAM names, or ./r3 of this repository. */
export const program = process.env.R3_PROGRAM ?? fileURLToPath(new URL('../../../r3', import.meta.url));

/** The most bytes of a script, weight of a tape and turns that r3 takes. */
export const MOST = { script: 8388608, weight: 2000000, turns: 1000000000 };
