/**
 * The folder of a capture: it is missing, empty or an earlier capture. What is written goes to a folder beside it,
 * which takes its name at the end. The log of a run is in a third one, `NAME.log`, which stays if the run is killed.
 */
import fs from 'node:fs';
import path from 'node:path';
import { refuse } from '../capture_parts/refusal.mjs';

export const MARK = 'r3 capture';

/** The files that a capture may have. */
const FILES = ['module.wasm', 'script.json', 'decls.json', 'replay.wasm', 'report.json', 'report.txt', 'page.png'];
const INNER = /^instance-\d+$/;

/**
 * Whether a report is that of a capture.
 * @param {string} file
 */
function isReport(file) {
  try {
    return JSON.parse(fs.readFileSync(file, 'utf8')).made_by === MARK;
  } catch {
    return false;
  }
}

/**
 * Whether a folder has nothing but a capture, or captures of instances in folders of their own.
 * @param {string} folder
 * @returns {boolean}
 */
function isCapture(folder) {
  const isInner = (/** @type {string} */ name) => INNER.test(name) && fs.statSync(path.join(folder, name)).isDirectory()
    && isCapture(path.join(folder, name));
  const names = /** @type {string[]} */ (fs.readdirSync(folder));
  return isReport(path.join(folder, 'report.json')) && names.every(name => FILES.includes(name) || isInner(name));
}

/**
 * Refuses a folder that may not be replaced.
 * @param {string} folder
 */
function refuseTaken(folder) {
  let entry;
  try {
    entry = fs.lstatSync(folder);
  } catch {
    return;
  }
  if (!entry.isDirectory()) refuse(`${folder} is no folder`);
  if (fs.readdirSync(folder).length === 0 || isCapture(folder)) return;
  refuse(`${folder} is neither empty nor an earlier capture`);
}

/**
 * Refuses the current folder and those that it is in, which cannot be replaced.
 * @param {string} folder
 */
function refuseCurrent(folder) {
  const current = process.cwd();
  if (!`${current}${path.sep}`.startsWith(`${folder}${path.sep}`)) return;
  refuse(`${folder}: the current folder is there`);
}

const isRunning = (/** @type {number} */ id) => {
  try {
    process.kill(id, 0);
    return true;
  } catch (error) {
    return /** @type {any} */ (error).code === 'EPERM';
  }
};

export class OutputFolder {
  /** @param {string} name */
  constructor(name) {
    const parent = path.dirname(path.resolve(name));
    try {
      /** @type {string} */
      this.folder = path.join(fs.realpathSync(parent), path.basename(path.resolve(name)));
      fs.accessSync(parent, fs.constants.W_OK);
    } catch (error) {
      refuse(`${name}: ${/** @type {Error} */ (error).message}`);
    }
    this.name = name;
    this.log = `${this.folder}.log`;
    /** @type {string | null} */
    this.written = null;
    refuseCurrent(this.folder);
    refuseTaken(this.folder);
  }

  /** A new folder for the log. That of a run that was killed is removed. */
  begin() {
    if (fs.existsSync(this.log)) {
      const owner = path.join(this.log, 'process');
      if (!fs.existsSync(owner)) refuse(`${this.log} is there, and is no log of a capture`);
      const id = Number(fs.readFileSync(owner, 'utf8'));
      if (id !== process.pid && isRunning(id)) refuse(`${this.log}: process ${id} captures there`);
      fs.rmSync(this.log, { recursive: true });
    }
    fs.mkdirSync(this.log);
    fs.writeFileSync(path.join(this.log, 'process'), String(process.pid));
  }

  /**
   * The folder that is written to.
   * @returns {string}
   */
  beside() {
    const written = this.written ?? fs.mkdtempSync(`${this.folder}.new-`);
    this.written = written;
    return written;
  }

  /** What is written takes the folder's name. */
  commit() {
    const written = this.beside();
    fs.chmodSync(written, 0o777 & ~process.umask());
    refuseTaken(this.folder);
    if (fs.existsSync(this.folder)) {
      const old = fs.mkdtempSync(`${this.folder}.old-`);
      fs.renameSync(this.folder, path.join(old, 'capture'));
      fs.renameSync(written, this.folder);
      fs.rmSync(old, { recursive: true });
    } else {
      fs.renameSync(written, this.folder);
    }
    this.written = null;
  }

  /** Removes what was not committed, and the log unless it is to stay. */
  leave(keepsLog = false) {
    if (this.written !== null) fs.rmSync(this.written, { recursive: true, force: true });
    if (!keepsLog) fs.rmSync(this.log, { recursive: true, force: true });
  }
}
