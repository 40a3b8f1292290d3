#!/usr/bin/env node
/**
 * The tests of `profile`. The one word is the program r3. Prints a line for each group, and at the end how many checks
 * passed and failed; the status is 1 if any failed.
 */
import fs from 'node:fs';
import path from 'node:path';
import { limitCases } from './profile_limits.mjs';
import { benchCases, exampleCases, randomCases } from './profile_numbers.mjs';
import { pageCases } from './profile_pages.mjs';
import { formatCases, profile, refusalCases } from './profile_words.mjs';
import { Runner, Tally, root } from './running.mjs';

/** The page of a run with calls within calls. */
function page(runner) {
  const files = ['matcher.wasm', 'matcher.json'].map(name => path.join(root, 'bench', name));
  const file = path.join(runner.folder, 'matcher.html');
  profile(runner, ['--html', file, ...files]);
  return fs.readFileSync(file, 'utf8');
}

async function main([program]) {
  if (program === undefined) {
    console.error('usage: tools/gate/checks/profile.mjs PROGRAM');
    return 2;
  }
  const runner = new Runner(path.resolve(program));
  const tally = new Tally();
  tally.group('examples, against their histories', exampleCases(runner));
  tally.group('programs of bench/, against their turns and weights', benchCases());
  tally.group('random modules with random hosts', randomCases(runner));
  tally.group('very many calls and paths', limitCases());
  tally.group('formats', formatCases(runner));
  tally.group('refusals', refusalCases(runner));
  const { checks, notes } = await pageCases(page(runner), runner.folder);
  tally.group('the page in browsers', checks);
  notes.forEach(note => console.log(`note: ${note}`));
  runner.remove();
  console.log(`${tally.passed} passed, ${tally.failed} failed`);
  return tally.failed === 0 ? 0 : 1;
}

process.exit(await main(process.argv.slice(2)));
