/**
 * What the command `capture` does with the record of a run, after the program.
 *
 *     const record = readRecord(bytes);                    // all chunks, one after another; a cut last one is left out
 *     record.until = N;                                    // maybe: only the first N crossings
 *     const whole = isTaken(r3, file);                     // whether r3 takes the module as it is: M in a file
 *     const made = captureOf(record, { whole });
 *     made.module, made.script.pieces(), made.declarations // the files; `script` is null if it is far too long
 *     made.report                                          // lists by names, and how the run ended
 *     checkBodies(made);                                   // null, or a line that says which body of K is not M's
 *     nextChoice(made, choice, { passed });                // null, or { choice, until, isRun, why }: what to do next
 *     await compared(r3, files, made);                     // { by, crossings, turns, difference }
 */
export { compared } from './compare/comparison.mjs';
export { STATUS, isTaken, outputTo } from './compare/r3_program.mjs';
export { captureOf } from './record/capture.mjs';
export { nextChoice } from './record/next_choice.mjs';
export { NoRecord, readRecord } from './record/record.mjs';
export { checkBodies } from './verify/bodies.mjs';
