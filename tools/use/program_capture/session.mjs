/**
 * The recording of one realm: a process of Node.js, a worker, or a document of a page. It chooses which instances are
 * recorded, and catches errors of ours, so that the program goes on without its recording.
 */
import { digest } from './digest.mjs';
import { Inputs } from './inputs.mjs';
import { Interface } from './interface.mjs';
import { NotSplit, OwnFault, Recorder, planOf } from '../capture_parts/engine.mjs';

/** @typedef {import('./types.mjs').InstanceInfo} InstanceInfo */
/** @typedef {import('./types.mjs').Sink} Sink */
/** @typedef {(changes: Partial<InstanceInfo>) => void} Noted */

const encoder = new TextEncoder();

export const NOT_CHOSEN = 'it is not chosen';
const NO_BYTES = 'the bytes of its module are not known here: another thread has made it';

/** Bytes of a record, beside its module, after which it ends: no script of so many crossings is short enough for r3. */
const MOST_BYTES = 1 << 28;

/** Exports that are noted of an instance. */
const MOST_EXPORTS = 12;

/** What the frames of the recording have in a stack. */
const OWN_FRAMES = ['/program_capture/', '<anonymous>', '(native)'];

/** Whether the frames next to here are those of Node.js itself, which has modules of its own. */
function isOfNode() {
  const lines = (new Error().stack ?? '').split('\n').slice(1);
  const first = lines.find(line => !OWN_FRAMES.some(part => line.includes(part)));
  return first?.includes('node:internal/') ?? false;
}

/** @param {any} error */
const stackOf = error => String(error?.stack ?? error);

export class Session {
  /** @param {import('./types.mjs').Settings} settings @param {import('./types.mjs').Place} place */
  constructor(settings, place) {
    this.settings = settings;
    this.place = place;
    this.inputs = new Inputs(settings.isFirst ? null : place.notes());
    /** @type {{recorder: Recorder, sink: Sink}[]} */
    this.recorded = [];
    this.isScheduled = false;
    this.isEnded = false;
  }

  install() {
    this.inputs.install();
    new Interface(this).install();
  }

  /**
   * Whether an instance is one of those that are wanted.
   * @param {InstanceInfo} info
   * @param {string[]} exports all of them
   */
  isWanted({ number, digest: name }, exports) {
    const { only, module } = this.settings;
    if (only !== null) return only.includes(name ?? '');
    return module === null || module === String(number) || module === name || exports.includes(module);
  }

  /**
   * The recording of a module that is to be instantiated, or null.
   * @param {WebAssembly.Module} module
   * @param {Uint8Array | undefined} bytes
   */
  recordingOf(module, bytes) {
    const { number, sink } = this.place.begin();
    const exports = WebAssembly.Module.exports(module).map(({ name }) => name);
    /** @type {InstanceInfo} */
    const info = {
      number, digest: bytes === undefined ? null : digest(bytes), size: bytes?.length ?? null,
      exports: exports.slice(0, MOST_EXPORTS), isOfNode: isOfNode(), isRecorded: false, why: null,
    };
    const noted = (/** @type {Partial<InstanceInfo>} */ changes) => {
      Object.assign(info, changes);
      sink.put('instance.json', encoder.encode(JSON.stringify(info)));
    };
    if (bytes === undefined || !this.isWanted(info, exports)) {
      noted({ why: bytes === undefined ? NO_BYTES : NOT_CHOSEN });
      return null;
    }
    return this.begun(bytes, info.digest ?? '', sink, noted);
  }

  /** @param {Uint8Array} bytes @param {string} name @param {Sink} sink @param {Noted} noted */
  begun(bytes, name, sink, noted) {
    try {
      const until = this.settings.until ?? undefined;
      const plan = planOf(bytes, this.choice(name));
      let room = bytes.length + MOST_BYTES;
      const recorder = new Recorder(plan, {
        sink: chunk => {
          this.write(sink, chunk);
          room -= chunk.length;
          if (room < 0) recorder.stop(`the record has ${MOST_BYTES} bytes`);
        },
        until,
      });
      this.recorded.push({ recorder, sink });
      noted({ isRecorded: true });
      return this.recording(recorder, noted);
    } catch (error) {
      noted({ why: error instanceof NotSplit ? error.message : stackOf(error) });
      return null;
    }
  }

  /** @param {string} name a digest @returns {import('./types.mjs').Choice} */
  choice(name) {
    const { floats, keep, under, drop, choices } = this.settings;
    return choices[name] ?? { floats, keep, under, drop };
  }

  /**
   * The recording as the interface wants it.
   * @param {Recorder} recorder
   * @param {Noted} noted
   * @returns {import('./interface.mjs').Recording}
   */
  recording(recorder, noted) {
    return {
      parts: () => recorder.parts(),
      join: (imports, modules, memoryMaximum) => {
        /** @type {any} */
        let exports;
        const given = this.inputs.ofWasi(imports, () => exports?.memory);
        exports = recorder.instantiate(given, modules, { memoryMaximum });
        this.schedule();
        return exports;
      },
      isOwn: error => {
        if (recorder.kept !== undefined && !(error instanceof OwnFault)) return false;
        this.recorded = this.recorded.filter(item => item.recorder !== recorder);
        noted({ isRecorded: false, why: /** @type {any} */ (error)?.message ?? String(error) });
        return true;
      },
    };
  }

  /**
   * A part of a record. An error of the disk ends the record, and not the program.
   * @param {Sink} sink
   * @param {Uint8Array} chunk
   */
  write(sink, chunk) {
    try {
      sink.append('record', chunk);
    } catch (error) {
      this.place.fault(error);
    }
  }

  /** @param {WebAssembly.Table} table */
  tableChanged(table) {
    for (const { recorder } of this.recorded) recorder.tableChanged(table);
  }

  instanceMade() {
    for (const { recorder } of this.recorded) recorder.instanceMade();
  }

  /** Writes again and again what is not written yet. */
  schedule() {
    if (this.isScheduled) return;
    this.isScheduled = true;
    this.place.often(() => {
      for (const { recorder } of this.recorded) recorder.flush();
    });
  }

  /** The run is over. */
  end() {
    for (const { recorder, sink } of this.recorded) {
      recorder.end('the program has ended');
      sink.end();
    }
    if (this.settings.isFirst && !this.isEnded) this.place.putNotes(this.inputs.notes);
    this.isEnded = true;
  }
}
