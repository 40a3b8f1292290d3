/** Shows on standard error how far a capture is, where that is a terminal. */
const EVERY = 250;

export class Progress {
  /** @param {{ isTTY?: boolean, write(text: string): unknown }} stream */
  constructor(stream) {
    this.stream = stream.isTTY ? stream : null;
    this.next = Date.now() + EVERY;
    this.shown = false;
  }

  /** @param {import('./script_text.mjs').Script} script */
  show(script) {
    if (this.stream === null || Date.now() < this.next) return;
    this.next = Date.now() + EVERY;
    this.shown = true;
    this.stream.write(`\rcapture: ${script.calls()} calls of imports, ${script.main.length} actions of main`);
  }

  /** Takes the shown line away. */
  clear() {
    if (this.shown) this.stream?.write('\r\x1b[K');
    this.shown = false;
  }
}
