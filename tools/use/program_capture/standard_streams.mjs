/**
 * The standard streams of a program that may be run more than once. The first run has those of the command. A further
 * run reads the same from standard input, and what it prints is left out unless it goes to a terminal.
 */
import fs from 'node:fs';
import path from 'node:path';
import { isatty } from 'node:tty';

/** The command's own standard output: `tools/capture` gives it as this descriptor. */
export const OUTPUT = 3;

/**
 * What a descriptor is: 'terminal', 'file', 'pipe' or 'other'.
 * @param {number} descriptor
 */
function kindOf(descriptor) {
  if (isatty(descriptor)) return 'terminal';
  try {
    const entry = fs.fstatSync(descriptor);
    if (entry.isFile()) return 'file';
    return entry.isFIFO() || entry.isSocket() ? 'pipe' : 'other';
  } catch {
    return 'other';
  }
}

/**
 * Where a file that is open is read next.
 * @param {number} descriptor
 */
function position(descriptor) {
  try {
    return Number(/^pos:\s*(\d+)/m.exec(fs.readFileSync(`/proc/self/fdinfo/${descriptor}`, 'utf8'))?.[1] ?? 0);
  } catch {
    return 0;
  }
}

/**
 * Opens a file anew.
 * @param {string} file
 * @param {number} from how many of its bytes are read already
 */
function openedFrom(file, from) {
  const descriptor = fs.openSync(file, 'r');
  const piece = Buffer.alloc(65536);
  for (let left = from; left > 0;) {
    const count = fs.readSync(descriptor, piece, 0, Math.min(left, piece.length), null);
    if (count === 0) break;
    left -= count;
  }
  return descriptor;
}

export class StandardStreams {
  /** @param {string} folder for what is kept of standard input */
  constructor(folder) {
    this.folder = folder;
    this.input = kindOf(0);
    this.begin = this.input === 'file' ? position(0) : 0;
    this.kept = path.join(folder, 'standard-input');
    this.isFirst = true;
  }

  /** The streams for the next run, as `spawn` takes them. */
  next() {
    const { isFirst } = this;
    this.isFirst = false;
    if (isFirst) return [this.input === 'pipe' ? 'pipe' : 0, OUTPUT, 2];
    return [this.again(), this.unseen(OUTPUT), this.unseen(2)];
  }

  /** Standard input for a further run. */
  again() {
    if (this.input === 'file') return openedFrom('/proc/self/fd/0', this.begin);
    return this.input === 'pipe' && fs.existsSync(this.kept) ? 'pipe' : 0;
  }

  /**
   * Where a further run prints to: a terminal, or nowhere, by a descriptor of the same kind.
   * @param {number} descriptor
   */
  unseen(descriptor) {
    const kind = kindOf(descriptor);
    if (kind === 'terminal') return descriptor;
    if (kind === 'file') return fs.openSync(path.join(this.folder, 'unseen'), 'a');
    return kind === 'pipe' ? 'pipe' : 'ignore';
  }

  /**
   * Connects a run that has begun. Gives how to end.
   * @param {any} child
   * @param {boolean} isFirst
   * @returns {() => Promise<void>}
   */
  connect(child, isFirst) {
    child.stdout?.resume();
    child.stderr?.resume();
    if (child.stdin === null) return async () => {};
    child.stdin.on('error', () => {});
    if (!isFirst) {
      fs.createReadStream(this.kept).pipe(child.stdin);
      return async () => {};
    }
    const kept = fs.createWriteStream(this.kept);
    process.stdin.pipe(child.stdin);
    process.stdin.pipe(kept);
    return async () => {
      process.stdin.unpipe();
      process.stdin.destroy();
      await new Promise(resolve => kept.end(() => resolve(undefined)));
    };
  }
}
