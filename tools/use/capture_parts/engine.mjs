/**
 * The engine of `r3 capture`: splits a module M into a kept part K, which r3 takes, and the rest R; runs both in place
 * of M; and records what crosses the border. Here is what an interceptor of WebAssembly's interface and the command
 * need.
 *
 * In the program (Node.js, a page, a worker), for each instance that is recorded:
 *
 *     const plan = planOf(bytes, choice);           // M's bytes; throws `NotSplit` with a line that says why
 *     const recorder = new Recorder(plan, { sink }); // sink(chunk: Uint8Array) gets the record's bytes as the run goes
 *     const modules = recorder.parts();             // the bytes of R and of K: to be compiled, at once or later
 *     const exports = recorder.instantiate(imports, compiled, { memoryMaximum });
 *
 * `exports` are R's: the program gets those of M's export names alone, with their values as they are. `instantiate`
 * throws what instantiation throws in the program (link errors, traps of the start function), or `OwnFault` before any
 * code of the program has run: then M is instantiated as it is. `memoryMaximum` is what `new WebAssembly.Memory` was
 * given for an imported memory (null for none, undefined where it is not known).
 *
 * The interceptor reports what the recorder cannot see:
 *
 *     recorder.tableChanged(table)   // set or grow of a WebAssembly.Table was called
 *     recorder.instanceMade()        // another instance was made, which may hold the table
 *     recorder.end('exit')           // the program is at its end: the last chunks go to the sink
 *     recorder.stop('until')         // ends the record and lets the program run on
 *
 * `recorder.summary()` gives `{ crossings, entered, over }`, by which an instance is chosen. No error of the recorder
 * reaches the program: the first one is in `recorder.fault`, and in the record.
 *
 * In the command, after the program (or from a file that a killed one has left):
 *
 *     const record = readRecord(bytes);             // all chunks, one after another; a cut last chunk is left out
 *     const made = captureOf(record, { whole });    // whole: r3 takes M as it is
 *
 * `made` has the files and what the report says, and `nextChoice(made, choice, limits)` says whether the run is to be
 * done again, and with which choice. `checkBodies(made.module, record.m.bytes)` is the independent check.
 *
 * A choice is `{ keep, under, drop, floats }`: lists of names or numbers of functions, or null for `keep` and `under`;
 * `floats` is 'few', 'all' or 'none'.
 */
export { planOf, NotSplit } from './split/plan.mjs';
export { Recorder, OwnFault } from './recorder/recorder.mjs';
