/** Standard output and files, of which nothing is left half written. */
import fs from 'node:fs';
import path from 'node:path';
import { refuse } from './refusal.mjs';

const PIECE = 1 << 20;
const OUTPUT = 1;

/** Writes all of the bytes, also to a pipe that is full for a while. */
function writeAll(file, bytes) {
  for (let at = 0; at < bytes.length;) {
    try {
      at += fs.writeSync(file, bytes, at);
    } catch (error) {
      if (error.code !== 'EAGAIN') throw error;
      Atomics.wait(new Int32Array(new SharedArrayBuffer(4)), 0, 0, 5);
    }
  }
}

/** @param {number} file @param {Iterable<string>} pieces */
function writePieces(file, pieces) {
  let text = '';
  for (const piece of pieces) {
    text += piece;
    if (text.length < PIECE) continue;
    writeAll(file, Buffer.from(text));
    text = '';
  }
  writeAll(file, Buffer.from(text));
}

/** @param {Iterable<string>} pieces */
export function print(pieces) {
  try {
    writePieces(OUTPUT, pieces);
  } catch (error) {
    refuse(`the output: ${error.message}`);
  }
}

/** Whether a file is one that another can take the place of. */
function isReplaceable(name) {
  try {
    return fs.lstatSync(name).isFile();
  } catch {
    return true;
  }
}

/**
 * Writes a file, first under another name, so that it is there as a whole or not at all.
 * @param {string} name
 * @param {Iterable<string>} pieces
 */
export function writeFile(name, pieces) {
  const isWhole = isReplaceable(name);
  const written = isWhole ? path.join(path.dirname(name), `.${path.basename(name)}.${process.pid}`) : name;
  try {
    const file = fs.openSync(written, 'w');
    try {
      writePieces(file, pieces);
    } finally {
      fs.closeSync(file);
    }
    if (isWhole) fs.renameSync(written, name);
  } catch (error) {
    if (isWhole) fs.rmSync(written, { force: true });
    refuse(`${name}: ${error.message}`);
  }
}
