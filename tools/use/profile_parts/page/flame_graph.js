/** The flame graph: frames by turns, with zoom, search and keys. */
'use strict';

const ROW = 20;
const NARROWEST = 0.4;

class FlameGraph {
  constructor({ paths, names, turns }) {
    Object.assign(this, { paths, names, turns });
    this.box = byId('flame');
    this.detail = byId('frame-detail');
    this.children = paths.parent.map(() => []);
    paths.parent.forEach((parent, index) => { if (parent >= 0) this.children[parent].push(index); });
    for (const list of this.children) list.sort((one, other) => paths.all[other] - paths.all[one]);
    this.zoomed = 0;
    this.searched = '';
    this.frames = new Map();
    this.listen();
    this.draw();
  }

  name(index) {
    const func = this.paths.func[index];
    return func === null ? '(host)' : func < 0 ? '(further paths)' : this.names[func];
  }

  isFound(index) {
    return this.searched !== '' && this.name(index).toLowerCase().includes(this.searched);
  }

  text(index) {
    const { self, all, calls } = this.paths;
    const times = index === 0 ? '' : `, called ${unit(calls[index], 'time')}`;
    return `${this.name(index)}: ${unit(all[index], 'turn')} (${share(all[index], this.turns)}) with what it calls, `
      + `${unit(self[index], 'turn')} (${share(self[index], this.turns)}) itself${times}`;
  }

  /** The nodes from the first one down to one. */
  above(index) {
    const list = [];
    for (let at = index; at >= 0; at = this.paths.parent[at]) list.unshift(at);
    return list;
  }

  draw() {
    const width = this.box.clientWidth || 1000;
    this.box.replaceChildren();
    this.frames.clear();
    const above = this.above(this.zoomed);
    above.slice(0, -1).forEach((index, depth) => this.add(index, depth, 0, width, true));
    this.scale = width / Math.max(1, this.paths.all[this.zoomed]);
    const depth = this.drawBelow(this.zoomed, above.length - 1);
    this.box.style.height = `${Math.min(620, (depth + 1) * ROW + 2)}px`;
    this.frames.get(this.zoomed).tabIndex = 0;
    byId('zoom-out').disabled = this.zoomed === 0;
    this.showFound();
  }

  /** Draws a node and all below it, and gives the depth of the lowest one. */
  drawBelow(first, depth) {
    const waiting = [[first, depth, 0]];
    let lowest = depth;
    while (waiting.length > 0) {
      const [index, row, left] = waiting.pop();
      const width = this.paths.all[index] * this.scale;
      this.add(index, row, left, width, false);
      lowest = Math.max(lowest, row);
      let at = left;
      for (const child of this.children[index]) {
        const wide = this.paths.all[child] * this.scale;
        if (wide >= NARROWEST) waiting.push([child, row + 1, at]);
        at += wide;
      }
    }
    return lowest;
  }

  add(index, depth, left, width, isAbove) {
    const func = this.paths.func[index];
    const frame = element('div', { className: 'frame', title: this.text(index), tabIndex: -1 });
    if (width > 24) frame.textContent = this.name(index);
    const place = `left:${left}px;top:${depth * ROW}px;width:${Math.max(1, width - 1)}px`;
    frame.style.cssText = `${place};--hue:${hueOf(func ?? 0)}`;
    frame.setAttribute('role', 'treeitem');
    frame.setAttribute('aria-label', this.text(index));
    frame.setAttribute('aria-level', String(depth + 1));
    frame.dataset.path = String(index);
    frame.classList.toggle('host', func === null);
    frame.classList.toggle('above', isAbove);
    frame.classList.toggle('found', this.isFound(index));
    this.frames.set(index, frame);
    this.box.append(frame);
  }

  zoom(index) {
    this.zoomed = index;
    this.draw();
    this.focus(index);
  }

  focus(index) {
    const frame = this.frames.get(index);
    if (frame === undefined) return;
    for (const other of this.box.querySelectorAll('[tabindex="0"]')) other.tabIndex = -1;
    frame.tabIndex = 0;
    frame.focus({ preventScroll: false });
    this.detail.textContent = this.text(index);
  }

  search(text) {
    this.searched = text.trim().toLowerCase();
    for (const [index, frame] of this.frames) frame.classList.toggle('found', this.isFound(index));
    this.showFound();
  }

  /** The turns of what is found: of a frame within another one that is found only once. */
  showFound() {
    if (this.searched === '') {
      byId('found').textContent = this.paths.left > 0 ? `${unit(this.paths.left, 'narrow path')} not drawn` : '';
      return;
    }
    const { parent, all } = this.paths;
    const isWithin = [];
    let [turns, count] = [0, 0];
    parent.forEach((its, index) => {
      const found = this.isFound(index);
      if (found) count++;
      if (found && !(its >= 0 && isWithin[its])) turns += all[index];
      isWithin[index] = found || (its >= 0 && isWithin[its]);
    });
    byId('found').textContent = `${unit(count, 'path')} with ${unit(turns, 'turn')} (${share(turns, this.turns)})`;
  }

  /** The frame that a key leads to. */
  next(index, key) {
    const parent = this.paths.parent[index];
    if (key === 'ArrowUp') return parent;
    if (key === 'ArrowDown') return this.children[index][0];
    const beside = parent < 0 ? [index] : this.children[parent];
    return beside[beside.indexOf(index) + (key === 'ArrowRight' ? 1 : -1)];
  }

  onKey(event) {
    const index = Number(event.target.dataset.path);
    if (Number.isNaN(index)) return;
    if (event.key === 'Enter' || event.key === ' ') this.zoom(index);
    else if (event.key === 'Escape') this.zoom(0);
    else if (event.key.startsWith('Arrow')) this.focus(this.next(index, event.key));
    else return;
    event.preventDefault();
  }

  listen() {
    const index = event => Number(event.target.dataset.path);
    this.box.addEventListener('click', event => { if (event.target.dataset.path) this.zoom(index(event)); });
    this.box.addEventListener('keydown', event => this.onKey(event));
    this.box.addEventListener('mouseover', event => {
      if (event.target.dataset.path) this.detail.textContent = this.text(index(event));
    });
    byId('zoom-out').addEventListener('click', () => this.zoom(0));
    byId('search').addEventListener('input', event => this.search(event.target.value));
    window.addEventListener('resize', () => this.draw());
  }
}
