/** The time line of the border between host and module: a bar for each call, in the row of its depth. */
'use strict';

const LINE_ROW = 18;
const AXIS = 20;
const MOST_ROWS = 200;

class TimeLine {
  constructor({ line, names, turns }) {
    Object.assign(this, { line, names, turns });
    this.canvas = byId('line-canvas');
    this.rows = Math.min(MOST_ROWS, 2 + line.depth.reduce((most, depth) => Math.max(most, depth), -1));
    this.begin = 0;
    this.end = Math.max(1, turns);
    this.selected = -1;
    this.listen();
    this.draw();
  }

  text(index) {
    const { line } = this;
    const what = line.isImport[index] ? 'the module calls' : 'the host calls';
    const within = line.depth[index] === 0 ? '' : `, within ${unit(line.depth[index], 'call')}`;
    return `${what} ${this.names[line.index[index]]}: ${unit(line.end[index] - line.begin[index], 'turn')}, from turn `
      + `${grouped(line.begin[index])} to ${grouped(line.end[index])}${within}`;
  }

  place(turn) {
    return (turn - this.begin) / (this.end - this.begin) * this.width;
  }

  draw() {
    const ratio = window.devicePixelRatio || 1;
    const height = this.rows * LINE_ROW + AXIS;
    this.width = this.canvas.clientWidth || 1000;
    this.canvas.width = this.width * ratio;
    this.canvas.height = height * ratio;
    this.canvas.style.height = `${height}px`;
    const context = this.canvas.getContext('2d');
    context.scale(ratio, ratio);
    const style = getComputedStyle(document.documentElement);
    const colorOf = name => [name, style.getPropertyValue(`--${name}`)];
    this.colors = Object.fromEntries(['module', 'host', 'text', 'edge', 'bar-text'].map(colorOf));
    context.font = '11px system-ui, "Liberation Sans", "DejaVu Sans", sans-serif';
    this.drawAxis(context, height);
    this.drawBar(context, 0, this.turns, 0, this.colors.host, 'host');
    this.drawCalls(context);
    byId('line-range').textContent = `turns ${grouped(this.begin)} to ${grouped(this.end)} of ${grouped(this.turns)}`
      + (this.line.isThinned ? `; ${grouped(this.line.index.length)} of ${unit(this.line.all, 'call')} are drawn` : '');
  }

  drawAxis(context, height) {
    const step = stepOf((this.end - this.begin) / Math.max(1, this.width / 130));
    context.fillStyle = this.colors.text;
    for (let turn = Math.ceil(this.begin / step) * step; turn <= this.end; turn += step) {
      const at = Math.round(this.place(turn));
      context.fillRect(at, AXIS - 5, 1, 5);
      context.fillText(grouped(turn), at + 3, AXIS - 7);
    }
    context.fillStyle = this.colors.edge;
    for (let row = 0; row < this.rows; row++) context.fillRect(0, AXIS + (row + 1) * LINE_ROW - 1, this.width, 1);
  }

  drawBar(context, begin, end, row, color, name) {
    const left = Math.max(0, this.place(begin));
    const right = Math.min(this.width, Math.max(left + 1, this.place(end)));
    if (right <= 0 || left >= this.width) return;
    context.fillStyle = color;
    context.fillRect(left, AXIS + row * LINE_ROW + 1, right - left, LINE_ROW - 3);
    if (right - left < 40) return;
    context.save();
    context.beginPath();
    context.rect(left, AXIS + row * LINE_ROW, right - left - 2, LINE_ROW);
    context.clip();
    context.fillStyle = this.colors['bar-text'];
    context.fillText(name, left + 4, AXIS + row * LINE_ROW + 12);
    context.restore();
  }

  /** Draws the calls that are seen. Of bars that begin at the same point of a row the widest one is drawn. */
  drawCalls(context) {
    const { line } = this;
    const last = new Float64Array(this.rows).fill(-1);
    for (let index = 0; index < line.index.length; index++) {
      const row = line.depth[index] + 1;
      if (row >= this.rows || line.begin[index] > this.end || line.end[index] < this.begin) continue;
      const right = this.place(line.end[index]);
      if (right <= last[row] && index !== this.selected) continue;
      const color = line.isImport[index] ? this.colors.host : this.colors.module;
      this.drawBar(context, line.begin[index], line.end[index], row, color, this.names[line.index[index]]);
      last[row] = Math.max(right, Math.ceil(this.place(line.begin[index])));
    }
    if (this.selected < 0) return;
    const [left, right] = [line.begin[this.selected], line.end[this.selected]].map(turn => this.place(turn));
    context.strokeStyle = this.colors.text;
    context.lineWidth = 2;
    const top = AXIS + (line.depth[this.selected] + 1) * LINE_ROW + 1;
    context.strokeRect(left, top, Math.max(2, right - left), LINE_ROW - 3);
  }

  /** The call at a point: the last one that is there, or within two points of it. */
  at(x, y) {
    const row = Math.floor((y - AXIS) / LINE_ROW) - 1;
    const near = 2 * (this.end - this.begin) / this.width;
    const turn = this.begin + x / this.width * (this.end - this.begin);
    const { line } = this;
    for (let index = line.index.length - 1; index >= 0; index--) {
      if (line.depth[index] === row && line.begin[index] - near <= turn && turn <= line.end[index] + near) return index;
    }
    return -1;
  }

  select(index) {
    if (index >= this.line.index.length || index < -1) return;
    this.selected = index;
    byId('line-detail').textContent = index < 0 ? '' : this.text(index);
    this.draw();
  }

  /** Shows a range of turns, of at least one turn, within the run. */
  show(begin, end) {
    const length = Math.min(Math.max(1, end - begin), Math.max(1, this.turns));
    this.begin = Math.min(Math.max(0, begin), Math.max(1, this.turns) - length);
    this.end = this.begin + length;
    this.draw();
  }

  zoom(factor) {
    const [middle, half] = [(this.begin + this.end) / 2, (this.end - this.begin) / 2 * factor];
    this.show(middle - half, middle + half);
  }

  onKey(event) {
    const part = (this.end - this.begin) / 5;
    const actions = {
      '+': () => this.zoom(0.5), '=': () => this.zoom(0.5), '-': () => this.zoom(2), 0: () => this.show(0, this.turns),
      ArrowLeft: () => this.show(this.begin - part, this.end - part),
      ArrowRight: () => this.show(this.begin + part, this.end + part),
      ArrowUp: () => this.select(Math.max(0, this.selected - 1)), ArrowDown: () => this.select(this.selected + 1),
    };
    if (!Object.hasOwn(actions, event.key) || event.ctrlKey || event.metaKey) return;
    actions[event.key]();
    event.preventDefault();
  }

  listen() {
    const at = event => this.at(event.offsetX, event.offsetY);
    this.canvas.addEventListener('keydown', event => this.onKey(event));
    this.canvas.addEventListener('click', event => this.select(at(event)));
    this.canvas.addEventListener('dblclick', event => {
      const index = at(event);
      if (index >= 0) this.show(this.line.begin[index], this.line.end[index]);
    });
    byId('line-in').addEventListener('click', () => this.zoom(0.5));
    byId('line-out').addEventListener('click', () => this.zoom(2));
    byId('line-all').addEventListener('click', () => this.show(0, this.turns));
    window.addEventListener('resize', () => this.draw());
    matchMedia('(prefers-color-scheme: dark)').addEventListener('change', () => this.draw());
  }
}

/** The next of 1, 2, 5, 10, .. */
function stepOf(least) {
  const power = 10 ** Math.floor(Math.log10(Math.max(1, least)));
  return [1, 2, 5, 10].map(factor => factor * power).find(step => step >= least);
}
