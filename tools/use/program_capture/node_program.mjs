/** Runs a program of Node.js, with the recording loaded before it. */
import { spawn } from 'node:child_process';
import path from 'node:path';
import { fileURLToPath } from 'node:url';

/** @typedef {import('./types.mjs').Words} Words */

export const VARIABLE = 'R3_CAPTURE';

/**
 * A file of this folder.
 * @param {string} name
 */
const file = name => fileURLToPath(new URL(name, import.meta.url));

/** Kilobytes of stack: frames of the recording are among the program's. The usual limit of a process is 8,192. */
const STACK = 3900;

/** Signals that end a run: the program gets the first one from a terminal by itself, and from us if there is none. */
const SIGNALS = ['SIGINT', 'SIGTERM', 'SIGHUP'];

/**
 * The words by which Node.js runs the program.
 * @param {Words} words
 */
function programWords({ kind, program, words, host, folders, environment }) {
  if (kind === 'node') return [program, ...words];
  const hostFile = host === null ? null : path.resolve(host);
  const rest = { module: path.resolve(program), name: program, words, host: hostFile, folders, environment };
  const runner = kind === 'wasi' ? 'wasi_program.mjs' : 'host_program.mjs';
  return ['--no-warnings', file(runner), JSON.stringify(rest)];
}

/**
 * Waits for the end of a process, and passes signals on to it.
 * @param {any} child
 * @returns {Promise<{status: number | null, signal: string | null}>}
 */
async function ended(child) {
  const isTerminal = [process.stdin, process.stdout, process.stderr].some(stream => stream.isTTY);
  const passOn = (/** @type {string} */ signal) => {
    if (!isTerminal || signal !== 'SIGINT') child.kill(signal);
  };
  for (const signal of SIGNALS) process.on(signal, passOn);
  try {
    return await new Promise((resolve, reject) => {
      child.on('error', reject);
      child.on('exit', (/** @type {number | null} */ status, /** @type {string | null} */ signal) =>
        resolve({ status, signal }));
    });
  } finally {
    for (const signal of SIGNALS) process.off(signal, passOn);
  }
}

/**
 * Runs the program once. Gives its status, or the signal that ended it.
 * @param {Words} words
 * @param {import('./types.mjs').Settings} settings
 * @param {import('./standard_streams.mjs').StandardStreams} streams
 */
export async function runNode(words, settings, streams) {
  const { isFirst } = streams;
  const options = [`--stack-size=${STACK}`, '--import', file('preload.mjs'), ...programWords(words)];
  const env = { ...process.env, [VARIABLE]: JSON.stringify(settings) };
  const child = spawn(process.execPath, options, { stdio: streams.next(), env });
  const disconnect = streams.connect(child, isFirst);
  const end = await ended(child);
  await disconnect();
  return end;
}
