/** How the log lies in its memory, and what its words say. */

/** The memory's pages, and the words that say how far it is. Positions are in bytes; entries begin at `first`. */
export const LOG = { pages: 16, position: 0, limit: 1, isOver: 2, crossings: 3, first: 16 };
export const LOG_WORDS = LOG.pages * 16384;
/** An entry has at most this many words: a crossing of 1,000 wide values, or a piece of a write. */
export const MOST_ENTRY_WORDS = 4096;

/** The kinds of entries, in the low three bits of their first word. The other bits are a number. */
export const HOST_CALL = 0;
export const HOST_RETURN = 1;
export const IMPORT_CALL = 2;
export const IMPORT_RETURN = 3;
/** The host's action: the number says which one. */
export const ACTION = 4;
/** Bytes that the host has written: the number is how many, an address and the bytes follow. */
export const WRITE = 5;

/** The actions, with the words that follow. */
export const GROW = 0; // pages
export const GLOBAL = 1; // the global, and its bits in two words
export const GROW_TABLE = 2; // entries
export const ENTRY = 3; // the entry, and its function: see NO_FUNCTION
export const FIRST_ENTRY = 4; // the same, of an entry that is as instantiation has left it
export const FOREIGN = 5; // a function of the host's own: how many parameters and results, and their types
export const FOLLOWING = [1, 3, 1, 2, 2];

/**
 * In place of a function's number in M: an empty entry, or a function of a type that K does not call. Below are foreign
 * ones.
 */
export const NO_FUNCTION = -1;
export const OTHER_FUNCTION = -2;
export const FIRST_FOREIGN = -3;
