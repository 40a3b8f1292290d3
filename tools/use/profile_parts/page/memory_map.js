/** The map of the memory, page by page, with the bytes that the host wrote and the run read. */
'use strict';

const MOST_EMPTY = 6;

class MemoryMap {
  constructor({ memory }) {
    Object.assign(this, memory);
    this.box = byId('memory-map');
    this.help();
    let next = 0;
    for (const page of this.pages) {
      this.empty(next, page.page);
      this.box.append(this.page(page));
      next = page.page + 1;
    }
    this.box.addEventListener('mouseover', event => this.show(event.target));
    this.box.addEventListener('focusin', event => this.show(event.target));
    this.box.addEventListener('keydown', event => this.onKey(event));
    const first = this.box.querySelector('.page');
    if (first !== null) first.tabIndex = 0;
  }

  help() {
    const count = this.pages.reduce((sum, page) => sum + page.bytes, 0);
    byId('memory-help').textContent = count === 0 ? 'The run reads no byte that the host writes.'
      : `${bytes(count)} in ${unit(this.pages.length, 'page')}. A block is a page of ${bytes(this.pageBytes)}, and a `
        + `square of it ${bytes(this.partBytes)}. A stronger color is more bytes that the host wrote and the run read. `
        + 'Bytes that are written again count again. Arrow keys go from page to page.';
  }

  /** Pages without such bytes: a few are drawn, many are named. */
  empty(from, to) {
    if (to - from > MOST_EMPTY) {
      const text = `pages ${grouped(from)} to ${grouped(to - 1)}: none`;
      this.box.append(element('span', { className: 'gap', textContent: text }));
      return;
    }
    for (let page = from; page < to; page++) {
      this.box.append(this.page({ page, bytes: 0, parts: new Array(this.pageBytes / this.partBytes).fill(0) }));
    }
  }

  level(count) {
    return count === 0 ? 0 : count >= this.partBytes / 2 ? 4 : count >= this.partBytes / 8 ? 3 : count >= 64 ? 2 : 1;
  }

  page({ page, bytes: count, parts }) {
    const squares = parts.map(its => element('i', { className: `l${this.level(its)}` }));
    const number = element('span', { textContent: grouped(page) });
    const made = element('div', { className: 'page', tabIndex: -1 }, [...squares, number]);
    const filled = parts.filter(its => its > 0).length;
    const text = `Page ${grouped(page)}, addresses ${grouped(page * this.pageBytes)} to `
      + `${grouped((page + 1) * this.pageBytes - 1)}: ${bytes(count)}, in ${filled} of ${parts.length} parts`;
    made.setAttribute('role', 'img');
    made.setAttribute('aria-label', text);
    return made;
  }

  show(target) {
    const page = target.closest('.page');
    if (page !== null) byId('memory-detail').textContent = page.getAttribute('aria-label');
  }

  onKey(event) {
    const step = { ArrowRight: 1, ArrowDown: 1, ArrowLeft: -1, ArrowUp: -1 }[event.key];
    const pages = [...this.box.querySelectorAll('.page')];
    const next = step === undefined ? undefined : pages[pages.indexOf(event.target) + step];
    if (next === undefined) return;
    event.target.tabIndex = -1;
    next.tabIndex = 0;
    next.focus();
    event.preventDefault();
  }
}
