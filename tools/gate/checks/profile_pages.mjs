/**
 * The page of a profile in real browsers, without a window. A server on this machine gives the page with two scripts
 * more: one before its own, which keeps errors, and one behind it, which uses the page and says what it found.
 */
import { spawn, spawnSync } from 'node:child_process';
import fs from 'node:fs';
import http from 'node:http';
import path from 'node:path';

const SECONDS = 90;

const FIREFOX_SETTINGS = `user_pref("browser.shell.checkDefaultBrowser", false);
user_pref("datareporting.policy.dataSubmissionEnabled", false);
user_pref("devtools.console.stdout.content", true);
user_pref("toolkit.startup.max_resumed_crashes", -1);
`;

/** The browsers, with their words for a folder of their own and an address. */
const BROWSERS = [
  { names: ['chromium', 'chromium-browser', 'google-chrome'],
    words: (folder, address) => ['--headless', '--no-sandbox', '--disable-gpu', '--disable-dev-shm-usage',
      '--no-first-run', '--enable-logging=stderr', `--user-data-dir=${folder}`, address],
    complaint: /:CONSOLE[(:].*/ },
  { names: ['firefox-esr', 'firefox'],
    words: (folder, address) => ['--headless', '--no-remote', '--profile', folder, address],
    complaint: /^(console\.error|JavaScript error).*/m },
];

/** Runs in the page, before its own scripts. */
function keepErrors() {
  window.errors = [];
  const keep = text => window.errors.push(String(text));
  window.addEventListener('error', event => keep(event.message));
  window.addEventListener('unhandledrejection', event => keep(event.reason));
  document.addEventListener('securitypolicyviolation', event => keep(`the page wants ${event.blockedURI}`));
  for (const name of ['error', 'warn']) console[name] = keep;
}

/** Runs in the page, behind its own scripts. Each fault is a line. */
function usePage() {
  const faults = [];
  const expect = (isWell, text) => { if (!isWell) faults.push(text); };
  const all = selector => [...document.querySelectorAll(selector)];
  const text = id => document.getElementById(id).textContent;
  const key = (target, name) => {
    target.dispatchEvent(new KeyboardEvent('keydown', { key: name, bubbles: true, cancelable: true }));
  };
  const wide = frame => frame.getBoundingClientRect().width;
  const box = document.getElementById('flame');
  const deep = () => all('.frame').filter(frame => Number(frame.getAttribute('aria-level')) === 3);

  const [frame] = deep().sort((one, other) => wide(other) - wide(one));
  expect(frame !== undefined && wide(frame) < 0.95 * wide(box), 'a frame of the third row is narrower than the graph');
  const { path } = frame.dataset;
  frame.click();
  const zoomed = document.querySelector(`.frame[data-path="${path}"]`);
  expect(wide(zoomed) > 0.97 * box.clientWidth, 'a click on a frame makes it as wide as the graph');
  expect(all('.frame.above').length === 2, 'two frames are above one of the third row');
  expect(document.activeElement === zoomed, 'the frame has the focus');
  expect(/[\d,]+ turns? \(\d+\.\d %\)/.test(text('frame-detail')), 'the turns of the frame are printed');
  key(zoomed, 'Escape');
  expect(all('.frame.above').length === 0, 'Escape shows the whole run');
  key(document.activeElement, 'ArrowDown');
  expect(document.activeElement.getAttribute('aria-level') === '2', 'an arrow key leads to a callee');
  key(document.activeElement, 'Enter');
  expect(all('.frame.above').length === 1, 'Enter zooms');
  document.getElementById('zoom-out').click();

  const search = document.getElementById('search');
  search.value = document.querySelector(`.frame[data-path="${path}"]`).getAttribute('aria-label').split(':')[0];
  search.dispatchEvent(new Event('input'));
  expect(all('.frame.found').length > 0, 'a search finds frames');
  search.value = 'a name that no function has';
  search.dispatchEvent(new Event('input'));
  expect(all('.frame.found').length === 0, 'a search finds nothing else');

  const range = () => text('line-range');
  const whole = range();
  document.getElementById('line-in').click();
  expect(range() !== whole, 'the time line zooms');
  const canvas = document.getElementById('line-canvas');
  key(canvas, '0');
  expect(range() === whole, 'a key shows the whole time line');
  key(canvas, 'ArrowDown');
  expect(/ calls .*: [\d,]+ turns?, /.test(text('line-detail')), 'a key selects a call');

  for (const id of ['functions-table', 'imports-table']) {
    const cells = () => all(`#${id} tbody td:first-child`).map(cell => cell.textContent);
    const names = cells().sort((one, other) => one.localeCompare(other));
    document.querySelector(`#${id} th button`).click();
    expect(names.length > 0 && cells().join() === names.join(), `${id} is sorted by names`);
    const third = document.querySelector(`#${id} th:nth-child(3)`);
    third.querySelector('button').click();
    expect(third.getAttribute('aria-sort') === 'descending', `${id} says how it is sorted`);
    expect(cells().sort((one, other) => one.localeCompare(other)).join() === names.join(), `${id} keeps its rows`);
  }
  expect(all('#memory-map .page').length > 0, 'the memory has pages');
  expect(all('#memory-map i:not(.l0)').length > 0, 'a part of a page has bytes');
  faults.push(...window.errors.map(text => `an error on the console: ${text}`));
  location.replace(`/done?${encodeURIComponent(JSON.stringify(faults))}`);
}

const inserted = run => `<script>(${run})();</script>\n`;

/** The page with the two scripts more. */
function pageInUse(page) {
  return page.replace('<style>', `${inserted(keepErrors)}<style>`)
    .replace('</body>', `<script>addEventListener('load', () => setTimeout(${usePage}, 300));</script>\n</body>`);
}

/** The file of a command that is installed. */
const fileOf = name => spawnSync('sh', ['-c', `command -v ${name}`]).stdout.toString().trim();
const found = names => names.map(fileOf).find(file => file !== '');

/** Serves the page, and resolves to the faults that it reports. */
function served(page) {
  let resolve;
  const faults = new Promise(its => { resolve = its; });
  const server = http.createServer((request, response) => {
    const { pathname, search } = new URL(request.url, 'http://127.0.0.1');
    if (pathname === '/done') resolve(JSON.parse(decodeURIComponent(search.slice(1))));
    const isThere = pathname === '/' || pathname === '/done';
    response.writeHead(isThere ? 200 : 404, { 'Content-Type': 'text/html; charset=utf-8' });
    response.end(pathname === '/' ? page : '');
  });
  return new Promise(ready => server.listen(0, '127.0.0.1', () => ready({ server, faults })));
}

/** Opens the page in a browser. @returns {Promise<string[]>} its faults */
async function faultsIn(file, browser, page, folder) {
  fs.mkdirSync(folder);
  fs.writeFileSync(path.join(folder, 'user.js'), FIREFOX_SETTINGS);
  const { server, faults } = await served(page);
  const address = `http://127.0.0.1:${server.address().port}/`;
  const environment = { ...process.env, HOME: folder, MOZ_CRASHREPORTER_DISABLE: '1' };
  const settings = { env: environment, detached: true, stdio: ['ignore', 'pipe', 'pipe'] };
  const child = spawn(file, browser.words(folder, address), settings);
  let printed = '';
  child.stdout.on('data', piece => { printed += piece; });
  child.stderr.on('data', piece => { printed += piece; });
  const timer = {};
  const late = new Promise(resolve => {
    timer.id = setTimeout(() => resolve([`no answer after ${SECONDS} seconds`]), SECONDS * 1000);
  });
  const failed = new Promise(resolve => child.on('error', error => resolve([String(error)])));
  const result = await Promise.race([faults, late, failed]);
  clearTimeout(timer.id);
  const complaint = browser.complaint.exec(printed);
  await ended(child);
  server.closeAllConnections();
  server.close();
  return complaint === null ? result : [...result, complaint[0]];
}

/** Ends a browser and the processes that it started. */
function ended(child) {
  return new Promise(resolve => {
    child.on('close', resolve);
    try {
      process.kill(-child.pid, 'SIGKILL');
    } catch {
      resolve(null);
    }
  });
}

/**
 * Checks of a page by browsers, which are open at the same time, and notes on browsers that are not installed.
 * @param {string} page
 * @param {string} folder
 */
export async function pageCases(page, folder) {
  const files = BROWSERS.map(({ names }) => found(names));
  const notes = BROWSERS.filter((_, place) => files[place] === undefined)
    .map(({ names }) => `${names[0]} is not here: the page of a profile is not opened in it`);
  const opened = BROWSERS.map(async (browser, place) => {
    const [name] = browser.names;
    if (files[place] === undefined) return [];
    const faults = await faultsIn(files[place], browser, pageInUse(page), path.join(folder, name));
    return [[name, () => (faults.length === 0 ? null : faults.join('; '))]];
  });
  return { checks: (await Promise.all(opened)).flat(), notes };
}
