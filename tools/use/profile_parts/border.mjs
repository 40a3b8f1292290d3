/**
 * The calls between host and module in a run, with the turns at which they begin and end. Of a run with very many calls
 * some are left out: each second one, each fourth one, and so on; but none that takes much of the time.
 */

/** The most calls that are kept at the end. */
export const MOST_CALLS = 100000;

/** A call that takes this part of the run's turns so far is kept. */
const MUCH = 2000;

/**
 * A call. `isImport` is true where the module calls an import, and false where the host calls a function. `depth`
 * counts the calls that it is within.
 * @typedef {{ number: number, isImport: boolean, index: number, depth: number, begin: number, end: number }} BorderCall
 */

export class Border {
  constructor() {
    /** @type {BorderCall[]} */
    this.kept = [];
    /** @type {BorderCall[]} */
    this.open = [];
    this.count = 0;
    /** One call of so many is kept. */
    this.step = 1;
    /** @type {number | null} */
    this.trapped = null;
    this.returns = { import: 0, host: 0 };
    this.calls = { import: 0, host: 0 };
  }

  /** The functions that the counted module calls. */
  functions() {
    return {
      importCall: (index, now) => this.begin(true, index, now),
      importReturn: now => this.end(now),
      hostCall: (index, now) => this.begin(false, index, now),
      hostReturn: now => this.end(now),
    };
  }

  begin(isImport, index, now) {
    this.calls[isImport ? 'import' : 'host']++;
    this.open.push({ number: this.count++, isImport, index, depth: this.open.length, begin: now, end: now });
  }

  end(now) {
    const call = this.open.pop();
    call.end = now;
    this.returns[call.isImport ? 'import' : 'host']++;
    this.keep(call, now);
  }

  keep(call, now) {
    if (!this.isKept(call, now)) return;
    this.kept.push(call);
    if (this.kept.length > 2 * MOST_CALLS) this.thin(now);
  }

  isKept({ number, begin, end }, now) {
    return number % this.step === 0 || (end - begin) * MUCH > now;
  }

  thin(now) {
    while (this.kept.length > MOST_CALLS && this.step < this.count) {
      this.step *= 2;
      this.kept = this.kept.filter(call => this.isKept(call, now));
    }
  }

  /** Ends what a trap left open. `trapped` is then the import that the innermost call is of. */
  finish(now) {
    this.trapped = this.open.at(-1)?.index ?? null;
    while (this.open.length > 0) {
      const call = this.open.pop();
      call.end = now;
      this.keep(call, now);
    }
    if (this.kept.length > MOST_CALLS) this.thin(now);
    this.kept.sort((one, other) => one.number - other.number);
  }
}
