/** A browser under the DevTools protocol, over two pipes: messages are JSON, each with a zero byte at its end. */
import { spawn } from 'node:child_process';
import fs from 'node:fs';
import os from 'node:os';
import path from 'node:path';
import { Refusal } from '../capture_parts/refusal.mjs';

const NAMES = ['chromium', 'chromium-browser', 'google-chrome'];

/** How long a browser may take to answer its first message. */
const START = 60000;

const isExecutable = (/** @type {string} */ file) => {
  try {
    fs.accessSync(file, fs.constants.X_OK);
    return fs.statSync(file).isFile();
  } catch {
    return false;
  }
};

/**
 * The file of a command on the path, or undefined.
 * @param {string} name
 * @returns {string | undefined}
 */
function onPath(name) {
  const folders = /** @type {string[]} */ ((process.env.PATH ?? '').split(':'));
  return folders.map(folder => path.join(folder, name)).find(isExecutable);
}

/**
 * The file of the browser: the given one, or the first of those that are on the path.
 * @param {string | null} given
 * @returns {string}
 */
export function browserFile(given) {
  const found = given === null ? NAMES.map(onPath).find(file => file !== undefined)
    : isExecutable(given) ? given : onPath(given);
  if (found !== undefined) return found;
  if (given !== null) throw new Refusal(`there is no browser ${given}`);
  throw new Refusal(`a page needs a browser: none of ${NAMES.join(', ')} is installed, and --browser FILE names none`);
}

/**
 * The browser's words. Its sandbox is off only for root, for whom it does not start with one.
 * @param {string} profile a folder
 */
function browserWords(profile) {
  const sandbox = process.getuid() === 0 ? ['--no-sandbox'] : [];
  return [
    '--headless', '--remote-debugging-pipe', `--user-data-dir=${profile}`, ...sandbox, '--no-first-run',
    '--no-default-browser-check', '--disable-dev-shm-usage', '--disable-background-networking',
    '--disable-component-update', '--disable-sync', '--disable-extensions', '--disable-background-timer-throttling',
    '--disable-renderer-backgrounding', '--hide-scrollbars', '--js-flags=--stack-size=3900',
    '--window-size=1024,768', 'about:blank',
  ];
}

export class Browser {
  /** @param {string} file */
  constructor(file) {
    this.profile = fs.mkdtempSync(path.join(os.tmpdir(), 'r3-capture-browser-'));
    this.last = 0;
    /** @type {Map<number, {resolve: (result: any) => void, reject: (error: Error) => void}>} */
    this.waiting = new Map();
    /** @type {(message: any) => void} */
    this.onEvent = () => {};
    this.rest = '';
    this.isGone = false;
    const stdio = ['ignore', 'ignore', 'ignore', 'pipe', 'pipe'];
    this.child = spawn(file, browserWords(this.profile), { stdio, detached: true });
    /** @type {Promise<void>} */
    this.ended = new Promise(resolve => {
      this.child.on('exit', resolve);
      this.child.on('error', resolve);
    }).then(() => this.left());
    const [, , , input, output] = this.child.stdio;
    this.input = input;
    input.on('error', () => {});
    output.setEncoding('utf8');
    output.on('data', (/** @type {string} */ text) => this.read(text));
  }

  /** Waits until the browser answers. */
  async start() {
    let timer;
    const late = new Promise(resolve => { timer = setTimeout(resolve, START, null); });
    const answer = await Promise.race([this.call('Browser.getVersion').catch(() => null), late]);
    clearTimeout(timer);
    if (answer === null) throw new Refusal(`the browser ${this.child.spawnfile} does not start`);
  }

  /** @param {string} text */
  read(text) {
    const pieces = (this.rest + text).split('\0');
    this.rest = pieces.pop() ?? '';
    for (const piece of pieces) this.take(JSON.parse(piece));
  }

  /** @param {any} message */
  take(message) {
    if (message.id === undefined) {
      this.onEvent(message);
      return;
    }
    const { resolve, reject } = this.waiting.get(message.id) ?? { resolve: () => {}, reject: () => {} };
    this.waiting.delete(message.id);
    if (message.error) reject(new Error(message.error.message));
    else resolve(message.result);
  }

  /** What is still asked is never answered. */
  left() {
    for (const { reject } of this.waiting.values()) reject(new Error('the browser has ended'));
    this.waiting.clear();
    this.isGone = true;
  }

  /**
   * @param {string} method
   * @param {object} params
   * @param {string} [sessionId]
   * @returns {Promise<any>}
   */
  call(method, params = {}, sessionId = undefined) {
    if (this.isGone) return Promise.reject(new Error('the browser has ended'));
    const id = ++this.last;
    this.input.write(`${JSON.stringify({ id, method, params, sessionId })}\0`);
    return new Promise((resolve, reject) => this.waiting.set(id, { resolve, reject }));
  }

  /** Ends the browser, and removes its profile. */
  async close() {
    const timer = setTimeout(() => this.child.kill('SIGKILL'), 5000);
    this.call('Browser.close').catch(() => {});
    await this.ended;
    clearTimeout(timer);
    fs.rmSync(this.profile, { recursive: true, force: true, maxRetries: 5 });
  }
}
