/** Types that several modules here share. There is nothing to run in this file. */

/** @typedef {'node' | 'wasi' | 'host' | 'page'} Kind what runs the program */
/** @typedef {'few' | 'all' | 'none'} Floats which float instructions of kept functions the host answers */
/** @typedef {import('../capture_parts/split/plan.mjs').Choice} Choice which functions are kept */
/**
 * @typedef {object} Words the words of the command
 * @property {boolean} help
 * @property {boolean} relative
 * @property {string | null} output the folder of the capture
 * @property {string | null} fromLog the folder of a log that an earlier run left behind
 * @property {Kind} kind
 * @property {string} program the program's file, or the address of a page that is served already
 * @property {string[]} words the program's own words
 * @property {string | null} host a host file
 * @property {string[] | null} keep names of functions, those alone are kept
 * @property {string[] | null} under names of functions, what they reach is kept
 * @property {string[]} drop names of functions that are not kept
 * @property {boolean} fit
 * @property {Floats} floats
 * @property {string | null} module a number, a digest or a name of the module that is taken
 * @property {boolean} all
 * @property {number | null} until the number of crossings after which the record ends
 * @property {string | null} browser
 * @property {number} seconds how long a page runs
 * @property {boolean} make
 * @property {[string, string][]} folders pairs of the name by which a WASI program opens a folder, and its path
 * @property {Record<string, string>} environment
 */
/**
 * @typedef {object} Settings what the recording of a run is to do
 * @property {string} folder of the run
 * @property {Floats} floats
 * @property {string[] | null} keep
 * @property {string[] | null} under
 * @property {string[]} drop
 * @property {Record<string, Choice>} choices in a further run: the choices by the modules' digests
 * @property {string | null} module
 * @property {string[] | null} only in a further run: the digests of the modules that are recorded
 * @property {number | null} until
 * @property {boolean} isFirst
 */
/**
 * @typedef {object} Notes what a run has read of clocks and random numbers, by kind
 * @property {Record<string, number[]>} numbers
 * @property {Record<string, number[][]>} bytes
 */
/**
 * @typedef {object} Sink the files of one instance
 * @property {(name: string, bytes: Uint8Array) => void} put
 * @property {(name: string, bytes: Uint8Array) => void} append
 * @property {() => void} end
 */
/**
 * @typedef {object} Place where a realm leaves what it records
 * @property {() => Notes | null} notes those of the first run
 * @property {(notes: Notes) => void} putNotes
 * @property {() => {number: number, sink: Sink}} begin
 * @property {(call: () => void) => void} often calls a function from time to time
 * @property {(error: unknown) => void} fault
 */
/**
 * @typedef {object} InstanceInfo an instance, as its file has it
 * @property {number} number
 * @property {string | null} digest
 * @property {number | null} size of its module, in bytes
 * @property {string[]} exports the first of them
 * @property {boolean} isOfNode whether Node.js itself made it
 * @property {boolean} isRecorded
 * @property {string | null} why it is not recorded
 */
/** @typedef {InstanceInfo & {record: Uint8Array | null}} Instance */
/**
 * @typedef {object} Ending how a run of the program ended
 * @property {number | null} status
 * @property {string | null} signal
 * @property {string | null} page how the page ended
 * @property {number} errors of the page that nothing caught
 * @property {Uint8Array | null} picture
 */
/**
 * @typedef {object} Round the last run of a program
 * @property {number} runs how often the program has been run
 * @property {Ending} ending
 * @property {Instance[]} instances
 * @property {import('./chosen.mjs').Chosen[]} chosen
 * @property {string[]} reasons why the program was run again
 * @property {string | null} faults of ours that the program did not see
 */
/**
 * @typedef {object} Limit a limit of r3 that a capture passes
 * @property {'script' | 'weight' | 'turns'} passed
 * @property {string} text with the cure
 */
/**
 * @typedef {object} Packed what was made of a record, in a folder
 * @property {string} folder
 * @property {Limit | null} limit
 * @property {boolean} hasReplay
 */

export {};
