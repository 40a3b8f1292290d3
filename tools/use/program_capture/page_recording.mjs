/** The recording of a document or a worker of a page. What it has goes to the command as texts of JSON. */
import { Session } from './session.mjs';

/** @typedef {import('./types.mjs').Notes} Notes */

/** Bytes that one message has at most. */
const PIECE = 1 << 20;

/** Bytes whose text is made at once. */
const PART = 8192;

/**
 * A worker does not have its timers and `btoa` yet when this script is read.
 * @param {() => void} call
 * @param {number} time
 */
const later = (call, time) => globalThis.setTimeout(call, time);
/** @param {() => void} call @param {number} time */
const regularly = (call, time) => globalThis.setInterval(call, time);

/** @param {Uint8Array} bytes */
function base64(bytes) {
  let text = '';
  for (let at = 0; at < bytes.length; at += PART) text += String.fromCharCode(...bytes.subarray(at, at + PART));
  return globalThis.btoa(text);
}

class PagePlace {
  /** @param {(message: object) => void} send @param {Notes | null} given */
  constructor(send, given) {
    this.send = send;
    this.given = given;
    this.count = 0;
  }

  notes() {
    return this.given;
  }

  /** @param {Notes} notes */
  putNotes(notes) {
    this.send({ notes });
  }

  /** The command gives the number that an instance has among all; here it has one of the document's own. */
  begin() {
    const number = this.count++;
    this.send({ instance: number });
    const write = (/** @type {string} */ kind, /** @type {string} */ name, /** @type {Uint8Array} */ bytes) => {
      for (let at = 0; at === 0 || at < bytes.length; at += PIECE) {
        const part = base64(bytes.subarray(at, at + PIECE));
        this.send({ instance: number, [at === 0 ? kind : 'append']: name, bytes: part });
      }
    };
    return {
      number,
      sink: {
        put: (/** @type {string} */ name, /** @type {Uint8Array} */ bytes) => write('put', name, bytes),
        append: (/** @type {string} */ name, /** @type {Uint8Array} */ bytes) => write('append', name, bytes),
        end: () => {},
      },
    };
  }

  /** @param {() => void} call */
  often(call) {
    regularly(call, 50);
  }

  /** @param {any} error */
  fault(error) {
    this.send({ fault: String(error?.stack ?? error) });
  }
}

/**
 * Begins the recording, and gives the page the object `r3`, whose `done` ends the run.
 * @param {import('./types.mjs').Settings & {given: Notes | null}} settings
 * @param {(text: string) => void} sendText
 */
export function begin(settings, sendText) {
  const stringify = JSON.stringify;
  const send = (/** @type {object} */ message) => sendText(stringify(message));
  const session = new Session(settings, new PagePlace(send, settings.given));
  session.install();
  const end = () => session.end();
  /**
   * Calls that are open come to their end before the run does.
   * @param {string} why
   */
  const ending = why => () => {
    later(() => {
      end();
      send({ done: why });
    }, 0);
  };
  const r3 = Object.freeze({ done: ending('the page called r3.done()'), end });
  Object.defineProperty(globalThis, 'r3', { value: r3, enumerable: false, configurable: true });
  if (typeof window === 'undefined') return;
  addEventListener('pagehide', end);
  if (window === window.top) window.close = ending('the page closed itself');
}
