/** Runs a page in headless Chromium, with the recording in each of its documents and workers. */
import fs from 'node:fs';
import { Browser, browserFile } from './devtools.mjs';
import { bundle } from './bundle.mjs';
import { pageServer } from './page_server.mjs';
import { isAddress } from './words.mjs';

/** The name by which a document or a worker sends texts, until its recording has taken it. */
const BINDING = '__r3_capture_send';

/** How long a page may take to answer at its end, in milliseconds; what it runs is then ended. */
const ANSWER = 2000;

const SIGNALS = ['SIGINT', 'SIGTERM', 'SIGHUP'];

/** @param {number} time @returns {Promise<null>} */
const after = time => new Promise(resolve => { setTimeout(resolve, time, null); });

const modules = bundle(new URL('page_recording.mjs', import.meta.url));

/**
 * The script that begins the recording in a document or a worker.
 * @param {object} settings
 */
function recordingScript(settings) {
  return `(() => {
if (globalThis.${BINDING} === undefined || typeof WebAssembly !== 'object') return;
const send = globalThis.${BINDING};
delete globalThis.${BINDING};
try {
  ${modules}.begin(${JSON.stringify(settings)}, text => send(text));
} catch (error) {
  send(JSON.stringify({ fault: String(error?.stack ?? error) }));
}
})();`;
}

/**
 * What a page prints, as the protocol gives it, in words.
 * @param {any} item
 */
function shown({ type, value, unserializableValue, description }) {
  if (type === 'string') return value;
  return unserializableValue ?? (value === undefined ? description ?? type : JSON.stringify(value));
}

export class PageProgram {
  /**
   * @param {import('./types.mjs').Words} words
   * @param {import('./types.mjs').Settings} settings
   * @param {import('./page_place.mjs').PagePlaces} places what the recording sends goes there
   */
  constructor(words, settings, places) {
    this.words = words;
    this.settings = settings;
    this.places = places;
    this.browser = new Browser(browserFile(words.browser));
    /**
     * The sessions of the protocol with documents and workers; `page` is the first one.
     * @type {Set<string>}
     */
    this.sessions = new Set();
    this.page = '';
    this.target = '';
    this.errors = 0;
    /** @type {string | null} */
    this.signal = null;
    /** @type {(why: string) => void} */
    this.end = () => {};
    /** @type {Promise<string>} */
    this.ended = new Promise(resolve => { this.end = resolve; });
  }

  /** Runs the page until it closes itself, calls `r3.done()`, or for the seconds of the words. Gives how it ended. */
  async run() {
    const { program } = this.words;
    const { url, close } = isAddress(program) ? { url: program, close: () => {} } : await pageServer(program);
    const interrupted = (/** @type {string} */ signal) => {
      this.signal = signal;
      this.end(`${signal} came`);
    };
    for (const signal of SIGNALS) process.on(signal, interrupted);
    try {
      return await this.runAt(url);
    } finally {
      for (const signal of SIGNALS) process.off(signal, interrupted);
      await this.browser.close();
      close();
    }
  }

  /** @param {string} url */
  async runAt(url) {
    const { browser, words: { seconds } } = this;
    browser.ended.then(() => this.end('the browser ended'));
    await browser.start();
    browser.onEvent = message => this.event(message);
    await this.open(url);
    const timer = setTimeout(() => this.end(`${seconds} seconds are over`), 1000 * seconds);
    const end = await this.ended;
    clearTimeout(timer);
    const picture = await this.finished();
    return { end, errors: this.errors, picture, signal: this.signal };
  }

  /** @param {string} url */
  async open(url) {
    const { browser } = this;
    await browser.call('Target.setDiscoverTargets', { discover: true });
    const { targetId } = await browser.call('Target.createTarget', { url: 'about:blank' });
    const { sessionId } = await browser.call('Target.attachToTarget', { targetId, flatten: true });
    this.target = targetId;
    this.page = sessionId;
    await browser.call('Page.enable', {}, sessionId);
    await this.prepare(sessionId);
    await browser.call('Page.addScriptToEvaluateOnNewDocument', { source: this.source(sessionId) }, sessionId);
    await browser.call('Page.navigate', { url }, sessionId);
  }

  /**
   * The script for a session, with the notes that the same one left in the first run.
   * @param {string} session
   */
  source(session) {
    return recordingScript({ ...this.settings, given: this.places.notes(session) });
  }

  /**
   * A document or a worker, before it runs: what it prints is heard, and its own workers wait until they are prepared.
   * @param {string} session
   */
  async prepare(session) {
    const { browser } = this;
    this.sessions.add(session);
    await browser.call('Runtime.enable', {}, session);
    await browser.call('Runtime.addBinding', { name: BINDING }, session);
    const workers = { autoAttach: true, waitForDebuggerOnStart: true, flatten: true };
    await browser.call('Target.setAutoAttach', workers, session);
  }

  /** @param {{method: string, params: any, sessionId?: string}} message */
  event({ method, params, sessionId }) {
    if (method === 'Runtime.bindingCalled' && params.name === BINDING) this.received(sessionId ?? '', params);
    else if (method === 'Runtime.consoleAPICalled') fs.writeSync(2, `page: ${params.args.map(shown).join(' ')}\n`);
    else if (method === 'Runtime.exceptionThrown') this.thrown(params.exceptionDetails);
    else if (method === 'Target.attachedToTarget' && sessionId !== undefined) this.attached(params);
    else if (method === 'Target.detachedFromTarget') this.sessions.delete(params.sessionId);
    else if (method === 'Target.targetDestroyed' && params.targetId === this.target) this.end('the page closed itself');
    else if (method === 'Inspector.targetCrashed') this.end('the page crashed');
  }

  /** @param {string} session @param {{payload: string, executionContextId: number}} params */
  received(session, { payload, executionContextId }) {
    const message = JSON.parse(payload);
    if (message.done !== undefined) this.end(message.done);
    else this.places.received(session, executionContextId, message);
  }

  /**
   * An error of the page that nothing caught.
   * @param {any} details
   */
  thrown({ exception, text }) {
    this.errors++;
    fs.writeSync(2, `page threw: ${exception?.description ?? exception?.value ?? text}\n`);
  }

  /**
   * A worker waits for its recording.
   * @param {{sessionId: string, waitingForDebugger: boolean}} params
   */
  async attached({ sessionId, waitingForDebugger }) {
    const { browser } = this;
    try {
      await this.prepare(sessionId);
      await browser.call('Runtime.evaluate', { expression: this.source(sessionId) }, sessionId);
      if (waitingForDebugger) await browser.call('Runtime.runIfWaitingForDebugger', {}, sessionId);
    } catch {
      this.sessions.delete(sessionId);
    }
  }

  /**
   * Takes a picture, and has each document and worker send what is left.
   * @returns {Promise<Uint8Array | null>}
   */
  async finished() {
    const picture = await this.answer('Page.captureScreenshot', { format: 'png' }, this.page);
    await Promise.all([...this.sessions].map(session => this.flushed(session)));
    return picture === null ? null : Buffer.from(picture.data, 'base64');
  }

  /**
   * What a document or a worker has left is sent; what it runs is ended if it does not answer.
   * @param {string} session
   */
  async flushed(session) {
    const flush = { expression: 'globalThis.r3?.end?.(), true' };
    if (await this.answer('Runtime.evaluate', flush, session) !== null) return;
    await this.answer('Runtime.terminateExecution', {}, session);
    await this.answer('Runtime.evaluate', flush, session);
  }

  /**
   * The answer of a call, or null if it is late or missing.
   * @param {string} method
   * @param {object} params
   * @param {string} session
   */
  answer(method, params, session) {
    return Promise.race([after(ANSWER), this.browser.call(method, params, session).catch(() => null)]);
  }
}
