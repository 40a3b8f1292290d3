/** The command `profile`: reads its words, makes the replay if there is a script, runs it, and prints the numbers. */
import { spawn } from 'node:child_process';
import fs from 'node:fs';
import path from 'node:path';
import { fileURLToPath } from 'node:url';
import v8 from 'node:v8';
import { KIND } from '../wasm/index.mjs';
import { namesOf, numberedNames } from './names.mjs';
import { print, writeFile } from './output.mjs';
import { page } from './page.mjs';
import { Progress } from './progress.mjs';
import { Refusal, refuse } from './refusal.mjs';
import { moduleOf, replayOf } from './replay_module.mjs';
import { reportOf } from './report.mjs';
import { countsOf } from './run.mjs';
import { ScriptActions } from './script_actions.mjs';
import { folded, json, table, trace } from './texts.mjs';
import { WordsFault, readWords, usage } from './words.mjs';

/** The most turns that r3 takes. */
const TURNS = '1000000000';

/** Modules of at most so many bytes are compiled by the engine's second compiler at once. A long loop is not later. */
const FULLY_COMPILED = 4 << 20;

const PRINTERS = { table, folded, trace, json };

const report = line => fs.writeSync(2, `profile: ${line.replace(/[\r\n]+/g, ' ').trim()}\n`);

function bytesOf(file) {
  try {
    return fs.readFileSync(file);
  } catch (error) {
    return refuse(`${file}: ${error.message}`);
  }
}

/** What a command prints: its status and both outputs. */
function outputOf(program, words) {
  return new Promise((resolve, reject) => {
    const child = spawn(program, words, { stdio: ['ignore', 'pipe', 'pipe'] });
    const [printed, errors] = [[], []];
    child.stdout.on('data', piece => printed.push(piece));
    child.stderr.on('data', piece => errors.push(piece));
    child.on('error', reject);
    child.on('close', status => resolve({ status, printed: Buffer.concat(printed), errors: Buffer.concat(errors) }));
  });
}

/** The replay module of a module and a script, as r3 makes it. */
async function made(module, script, progress) {
  const program = process.env.R3_PROGRAM ?? fileURLToPath(new URL('../../../r3', import.meta.url));
  progress.begin('the replay is made');
  try {
    const { status, printed, errors } = await outputOf(program, ['make', module, script, TURNS]);
    if (status !== 0) refuse(`r3 make: ${errors.toString() || `status ${status}`}`);
    return printed;
  } catch (error) {
    return error instanceof Refusal ? refuse(error.message) : refuse(`r3: ${error.message}`);
  } finally {
    progress.done();
  }
}

/** What the script of a module has the host do. */
function actionsOf(module, script) {
  const { imports, start, importedFunctions } = module;
  const functions = imports.filter(({ kind }) => kind === KIND.function);
  return new ScriptActions(bytesOf(script).toString(), functions, start !== null && start >= importedFunctions);
}

async function profile(words) {
  const progress = new Progress();
  const { module: file, script } = words;
  const given = bytesOf(file);
  const bytes = script === null ? given : await made(file, script, progress);
  if (bytes.length <= FULLY_COMPILED) v8.setFlagsFromString('--no-liftoff');
  const replay = replayOf(bytes, script === null ? file : `the replay of ${file}`);
  const original = script === null ? null : moduleOf(given, file);
  const named = words.names === null ? original : moduleOf(bytesOf(words.names), words.names);
  const names = named === null ? numberedNames(replay) : namesOf(named, replay, words.names ?? file);
  const actions = original === null ? null : actionsOf(original, script);
  const counts = countsOf(replay, actions, file, progress);
  const about = { file: path.basename(file), hasScript: script !== null };
  const result = reportOf(counts, names, replay.imports, about);
  if (words.html !== null) writeFile(words.html, page(result, names));
  if (words.format !== null) print(PRINTERS[words.format](result, names));
}

async function main() {
  try {
    const words = readWords(process.argv.slice(2));
    if (words.help) print([usage]);
    else await profile(words);
    return 0;
  } catch (error) {
    if (error instanceof WordsFault) {
      report('these are not its words: ./r3 profile --help lists them');
      return 2;
    }
    report(error instanceof Refusal ? error.message : error.stack);
    return 1;
  }
}

process.exitCode = await main();
