/** Where the command leaves what the documents and workers of a page send: the same files as those of a process. */
import { FilePlace } from './file_place.mjs';

/** @typedef {{number: number, sink: import('./types.mjs').Sink}} Begun */

export class PagePlaces {
  /** @param {string} folder */
  constructor(folder) {
    this.folder = folder;
    /**
     * The places of sessions, in their order.
     * @type {Map<string, FilePlace>}
     */
    this.places = new Map();
    /**
     * The instances, by session, context and the number there.
     * @type {Map<string, Begun>}
     */
    this.instances = new Map();
  }

  /** @param {string} session */
  place(session) {
    let place = this.places.get(session);
    if (place === undefined) {
      place = new FilePlace(this.folder, this.places.size);
      this.places.set(session, place);
    }
    return place;
  }

  /** @param {string} session */
  notes(session) {
    return this.place(session).notes();
  }

  /** @param {string} session @param {number} context @param {any} message */
  received(session, context, message) {
    const place = this.place(session);
    if (message.fault !== undefined) place.fault(message.fault);
    else if (message.notes !== undefined) place.putNotes(message.notes);
    else if (message.bytes !== undefined) this.write(`${session} ${context} ${message.instance}`, message);
    else this.instances.set(`${session} ${context} ${message.instance}`, place.begin());
  }

  /** @param {string} key @param {{put?: string, append?: string, bytes: string}} message */
  write(key, { put, append, bytes: text }) {
    const found = this.instances.get(key);
    if (found === undefined) return;
    const { number, sink } = found;
    const bytes = Buffer.from(text, 'base64');
    if (append !== undefined) sink.append(append, bytes);
    else if (put === 'instance.json') {
      sink.put(put, Buffer.from(JSON.stringify({ ...JSON.parse(bytes.toString()), number })));
    } else if (put !== undefined) sink.put(put, bytes);
  }

  end() {
    for (const { sink } of this.instances.values()) sink.end();
  }
}
