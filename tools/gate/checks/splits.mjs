#!/usr/bin/env node
/**
 * Random modules that are split at random, under random hosts. The split module must do what the module does: results,
 * traps, memory, globals, names and identity of functions. What is written of it must be M's bodies, and r3 must do
 * exactly what was seen: crossings with all values, and what each load of the kept part gave.
 *
 *   splits.mjs R3 FIRST LAST [FOLDER]   seeds; the last line is 'N passed, M failed', and one before it what was
 * covered
 */
import fs from 'node:fs';
import os from 'node:os';
import path from 'node:path';
import { spawnSync } from 'node:child_process';
import { planOf, NotSplit, Recorder } from '../../use/capture_parts/engine.mjs';
import { captureOf, checkBodies, isTaken, readRecord } from '../../use/capture_parts/result.mjs';
import { runObserved } from '../../use/capture_parts/compare/observed_replay.mjs';
import { historyValue } from '../../use/capture_parts/record/values.mjs';
import { isCrossing } from '../../use/capture_parts/record/outline.mjs';
import { HASH_FACTOR } from '../../use/capture_parts/split/operations.mjs';
import { instructionsOf, readModule } from '../../use/wasm/module.mjs';
import { Random } from './random.mjs';
import { RandomHost } from './split_hosts.mjs';
import { RandomModule } from './split_modules.mjs';

const TURNS = '2000000';
const MOST_OUTPUT = 1e9;
const WORDS = ['host-call', 'host-return', 'import-call', 'import-return'];
const NO_HOOKS = { tableChanged: () => {}, instanceMade: () => {}, flush: () => {} };

/** Thrown where a module fails; the message says how. */
class Failure extends Error {}
const fail = line => { throw new Failure(line); };

/** The first place where two lists differ, with what is there, or null. */
function difference(one, other) {
  const at = Array.from({ length: Math.max(one.length, other.length) }).findIndex((_, place) =>
    one[place] !== other[place]);
  return at === -1 ? null : `at ${at}: ${one[at]} | ${other[at]}`;
}

/** A number of all that the loads of a history give, as the recorder has it. */
function hashOf(lines, module, declared) {
  const m = readModule(module);
  const loads = new Map(m.bodies.map((_, defined) => {
    const found = new Set();
    let count = 0;
    for (const { op } of instructionsOf(m, m.importedFunctions + defined)) {
      if (op >= 0x28 && op <= 0x35) found.add(count);
      if (op !== 0x05 && op !== 0x0b) count++;
    }
    return [m.importedFunctions + declared + defined, found];
  }));
  return lines.reduce((hash, line) => {
    const step = /^step (\d+) (\d+) .*-> \w\d\d:([0-9a-f]+)$/.exec(line);
    if (step === null || !loads.get(Number(step[1])).has(Number(step[2]))) return hash;
    return BigInt.asUintN(64, (hash ^ BigInt(`0x${step[3]}`)) * HASH_FACTOR);
  }, 0n);
}

class Test {
  constructor(r3, folder, seed) {
    Object.assign(this, { r3, folder, seed });
    const random = new Random(seed);
    this.module = new RandomModule(random, random.chance(25));
    this.random = new Random(seed + 77);
    this.isFaulty = this.random.chance(4);
    this.sums = { whole: 0, several: 0, foreign: 0, over: 0, cut: 0, faults: 0, crossings: 0, turns: 0, kept: 0,
      functions: 0, skipped: 0 };
  }

  file(name) {
    return path.join(this.folder, name);
  }

  choice() {
    const { random, module } = this;
    const all = module.signatures.map((_, index) => index);
    const share = random.pick([100, 100, 70, 40]);
    const drop = all.filter(() => !random.chance(share)).map(String);
    return { drop, floats: random.pick(['none', 'few', 'all']) };
  }

  run() {
    const { module, seed } = this;
    const compiled = new WebAssembly.Module(module.bytes);
    const plain = new RandomHost(module, seed, NO_HOOKS).run(imports =>
      new WebAssembly.Instance(compiled, imports).exports);
    const recorder = this.recorder();
    if (recorder === null) return;
    const split = this.splitRun(recorder, module);
    const other = difference(plain, split);
    if (other !== null) fail(`the split module differs from the module ${other}`);
    if (this.isFaulty) return this.faulty(recorder);
    if (recorder.fault !== null) fail(`the recorder: ${recorder.fault}`);
    recorder.end('exit');
    const bytes = Buffer.concat(recorder.chunks);
    if (recorder.over?.by === 'overflow') this.sums.skipped++;
    this.capture(recorder, bytes);
    if (this.random.chance(20)) this.cutCapture(bytes);
  }

  /** A sink that fails behind the first chunks, which instantiation gives it. */
  faultySink() {
    let chunks = 0;
    return () => { if (++chunks > 2) throw new Error('the sink is full'); };
  }

  /** The recorder has failed, if it has given the sink anything; the program has gone on as it is. */
  faulty(recorder) {
    recorder.flush();
    const isNoted = recorder.log.crossings === 0 || recorder.fault === 'the sink is full';
    if (!isNoted) fail(`the recorder has noted the fault ${recorder.fault}`);
    this.sums.faults++;
  }

  recorder() {
    try {
      const plan = planOf(this.module.bytes, this.choice());
      const sink = this.isFaulty ? this.faultySink() : undefined;
      return new Recorder(plan, { isHashing: true, accesses: this.random.pick([0, 1, 3, 24]), sink });
    } catch (error) {
      if (!(error instanceof NotSplit)) throw error;
      this.sums.skipped++;
      return null;
    }
  }

  /** What is seen of the split module. Only the exports of the module are given to the host. */
  splitRun(recorder, module) {
    const parts = recorder.parts().map(bytes => new WebAssembly.Module(bytes));
    const hooks = { tableChanged: table => recorder.tableChanged(table), instanceMade: () => recorder.instanceMade(),
      flush: () => recorder.flush() };
    const most = { memoryMaximum: module.importsMemory ? 4 : undefined, tableMaximum: module.importsTable
      ? 16 : undefined };
    return new RandomHost(module, this.seed, hooks).run(imports => {
      const exports = recorder.instantiate(imports, parts, most);
      return Object.fromEntries(recorder.plan.m.exports.map(({ name }) => [name, exports[name]]));
    });
  }

  capture(recorder, bytes) {
    fs.writeFileSync(this.file('m.wasm'), this.module.bytes);
    const whole = this.module.isPlain && isTaken(this.r3, this.file('m.wasm'));
    const record = readRecord(bytes);
    const made = captureOf(record, { whole });
    const { lines, seen, declared } = this.compared(made);
    if (record.end.over === null) {
      const hash = hashOf(lines, made.module, declared);
      const seenHash = BigInt.asUintN(64, recorder.kept.hash.value);
      if (hash !== seenHash) fail('the loads of r3 give other values than those that were seen');
    }
    this.count(made, record, lines, seen);
  }

  count(made, record, lines, seen) {
    const add = (name, count) => { this.sums[name] += count; };
    add('whole', Number(made.isWhole));
    add('several', Number((made.trimmed?.results.length ?? 0) > 0));
    add('foreign', Number(made.declarations !== null));
    add('over', Number(record.end?.over != null));
    add('crossings', seen.length);
    add('turns', lines.length);
    add('kept', record.plan.kept.length);
    add('functions', record.plan.m.bodies.length);
  }

  /** The record of a run that was ended from outside has a part of the crossings, and r3 does these. */
  cutCapture(bytes) {
    const length = this.random.below(bytes.length);
    let record;
    try {
      record = readRecord(bytes.subarray(0, length));
    } catch {
      return;
    }
    this.compared(captureOf(record));
    this.sums.cut++;
  }

  /** r3's history of a capture, which must have the crossings that were seen; and its replay in V8. */
  compared(made) {
    const wrong = checkBodies(made);
    if (wrong !== null) fail(`the check of bodies: ${wrong}`);
    const inputs = this.inputs(made);
    const prefix = made.declarations === null ? '' : 'foreign-';
    const history = spawnSync(this.r3, [`${prefix}history`, ...inputs, TURNS], { maxBuffer: MOST_OUTPUT });
    if (history.status !== 0) fail(`r3 history: status ${history.status} ${String(history.stderr).trim()}`);
    const lines = history.stdout.toString('latin1').trimEnd().split('\n');
    const seen = [...made.outline()];
    const other = difference(lines.filter(isCrossing), seen);
    if (other !== null) fail(`r3's crossings differ from those that were seen ${other}`);
    const isTrap = lines.at(-1) !== 'ended';
    if (isTrap !== made.endsByTrap) fail(`r3's run has ${lines.at(-1)}, and traps was ${made.endsByTrap}`);
    this.replay(made, inputs, seen);
    return { lines, seen, declared: made.declarations === null ? 0 : JSON.parse(made.declarations).length };
  }

  inputs(made) {
    const files = ['module.wasm', 'decls.json', 'script.json'].map(name => this.file(name));
    fs.writeFileSync(files[0], made.module);
    fs.writeFileSync(files[2], [...made.script.pieces()].join(''));
    if (made.declarations === null) return [files[0], files[2]];
    fs.writeFileSync(files[1], made.declarations);
    return files;
  }

  replay(made, inputs, seen) {
    const ran = spawnSync(this.r3, [inputs.length === 2 ? 'make' : 'foreign', ...inputs, TURNS],
      { maxBuffer: MOST_OUTPUT });
    if (ran.status !== 0) fail(`r3 make: status ${ran.status} ${String(ran.stderr).trim()}`);
    const lines = [];
    const end = runObserved(ran.stdout, made.counts, (kind, number, types, values) => {
      lines.push([WORDS[kind], number, ...types.map((type, place) => historyValue(type, values[place]))].join(' '));
    });
    const other = difference(lines, seen);
    if (other !== null) fail(`the crossings of the replay in V8 differ from those that were seen ${other}`);
    if ((end === 'trapped') !== made.endsByTrap) fail(`the replay in V8 ${end}, and traps was ${made.endsByTrap}`);
  }
}

function main([r3, first, last, folder]) {
  const room = folder ?? fs.mkdtempSync(path.join(os.tmpdir(), 'r3 splits '));
  const sums = {};
  let [passed, failed] = [0, 0];
  for (let seed = Number(first); seed <= Number(last); seed++) {
    const test = new Test(r3, room, seed);
    try {
      test.run();
      passed++;
    } catch (error) {
      failed++;
      console.log(`  seed ${seed}: ${error instanceof Failure ? error.message : error.stack.split('\n', 4).join(' ')}`);
    }
    for (const [name, count] of Object.entries(test.sums)) sums[name] = (sums[name] ?? 0) + count;
  }
  if (folder === undefined) fs.rmSync(room, { recursive: true });
  console.log(Object.entries(sums).map(([name, count]) => `${name} ${count}`).join(', '));
  console.log(`${passed} passed, ${failed} failed`);
  return failed === 0 ? 0 : 1;
}

process.exitCode = main(process.argv.slice(2));
