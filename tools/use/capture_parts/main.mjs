/**
 * The command `capture`: reads its words, captures the run, and prints the script. The form with `-o` is that of
 * `../program_capture`.
 */
import fs from 'node:fs';
import path from 'node:path';
import { fileURLToPath, pathToFileURL } from 'node:url';
import { captured } from './capture.mjs';
import { Progress } from './progress.mjs';
import { Refusal, refuse } from './refusal.mjs';
import { WordsFault, readWords, usage } from './words.mjs';
import { isProgramForm, usage as programUsage } from '../program_capture/words.mjs';

/** Standard output of the command, which the script alone is printed to. */
const OUTPUT = 3;

/** The bytes that r3 reads of a script at most. */
const MOST_BYTES = 8388608;

const PIECE = 1 << 20;

const exit = process.exit.bind(process);
const report = line => fs.writeSync(2, `capture: ${line.replace(/[\r\n]+/g, ' ')}\n`);

/** Writes all of the bytes, also to a pipe that is full for a while. */
function writeAll(bytes) {
  for (let at = 0; at < bytes.length;) {
    try {
      at += fs.writeSync(OUTPUT, bytes, at);
    } catch (error) {
      if (error.code !== 'EAGAIN') throw error;
    }
  }
}

/** Prints the pieces of the script, and gives how many bytes they have. */
function print(pieces) {
  let [text, length] = ['', 0];
  const flush = () => {
    const bytes = Buffer.from(text);
    writeAll(bytes);
    length += bytes.length;
    text = '';
  };
  for (const piece of pieces) {
    text += piece;
    if (text.length > PIECE) flush();
  }
  flush();
  return length;
}

function moduleBytes(file) {
  try {
    return fs.readFileSync(file);
  } catch (error) {
    return refuse(`the module: ${error.message}`);
  }
}

function writeDeclarations(file, text) {
  try {
    fs.writeFileSync(file, text);
  } catch (error) {
    refuse(`the declarations: ${error.message}`);
  }
}

async function capture(words) {
  const progress = new Progress(process.stderr);
  const wasi = fileURLToPath(new URL('../capture_wasi.mjs', import.meta.url));
  const context = { file: words.module, words: words.words, folders: words.folders, environment: words.environment };
  const hostFile = pathToFileURL(words.wasi ? wasi : path.resolve(words.host)).href;
  const options = { relative: words.relative, isDeclaring: words.declarations !== null, progress };
  const run = captured(moduleBytes(words.module), hostFile, context, options);
  const { script, declarations, over } = await run.finally(() => progress.clear());
  const pieces = script.pieces();
  if (options.isDeclaring) writeDeclarations(words.declarations, declarations);
  const length = print(pieces);
  if (over !== null) report(`the run ended by a trap: ${over}`);
  if (length > MOST_BYTES) report(`the script has ${length} bytes, and r3 reads at most ${MOST_BYTES}`);
}

const usages = `${programUsage}\n${usage}`;

/** An error of the host in a timer or a promise, which no call of ours sees, is a line of ours too. */
function reportUncaught(error) {
  report(`the host threw outside of the module: ${error?.stack?.split('\n', 2).join('') ?? String(error)}`);
  exit(1);
}

async function answer(given) {
  if (isProgramForm(given)) {
    const { captureProgram } = await import('../program_capture/command.mjs');
    return captureProgram(given, report);
  }
  const words = readWords(given);
  if (words.help) {
    writeAll(Buffer.from(usages));
  } else {
    process.on('uncaughtException', reportUncaught);
    await capture(words);
  }
  return 0;
}

async function main() {
  try {
    return await answer(process.argv.slice(2));
  } catch (error) {
    if (error instanceof WordsFault) {
      fs.writeSync(2, usages);
      return 2;
    }
    report(error instanceof Refusal ? error.message : error.stack);
    return 1;
  }
}

exit(await main());
