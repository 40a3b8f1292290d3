/** The status line that r3 gives a module. */
import { spawnSync } from 'node:child_process';
import { fileURLToPath } from 'node:url';
import { Refusal } from './explain.mjs';

const R3 = fileURLToPath(new URL('../../../r3', import.meta.url));

/** The statuses of ./r3 itself, if it has no program that runs here. */
const OWN_STATUSES = [1, 126, 127];

/**
 * The line that `./r3 instrument` prints for a module, or null if r3 takes it.
 * @param {string} file
 * @returns {string | null}
 */
export function statusLine(file) {
  const { status, stderr, error } = spawnSync(R3, ['instrument', file], { stdio: ['ignore', 'ignore', 'pipe'] });
  if (error) throw new Refusal(`./r3 does not run: ${error.message}`);
  if (status === 0) return null;
  const lines = stderr.toString('utf8').split('\n').filter(line => line !== '');
  const own = lines.filter(line => line.startsWith('r3: ')).map(line => line.slice(4));
  if (status === null || OWN_STATUSES.includes(status)) throw new Refusal(own.pop() ?? './r3 ended without a line');
  const line = lines.filter(one => !one.startsWith('r3: ')).pop();
  if (line === undefined) throw new Refusal('./r3 ended without a line');
  return line;
}
