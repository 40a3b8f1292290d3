/** Tables that are sorted by a click on the head of a column. */
'use strict';

const MOST_TABLE_ROWS = 2000;

class SortedTable {
  /** `columns` have a title, the value of a row, how it is shown, and whether it is text. */
  constructor(box, rows, columns, first) {
    Object.assign(this, { box, rows, columns, column: first, isDown: true });
    this.heads = columns.map((column, index) => this.head(column, index));
    this.body = element('tbody');
    box.append(element('table', {}, [element('thead', {}, [element('tr', {}, this.heads)]), this.body]));
    this.sort();
  }

  head({ title, isText }, index) {
    const button = element('button', { type: 'button', textContent: title });
    button.addEventListener('click', () => {
      this.isDown = this.column === index ? !this.isDown : !isText;
      this.column = index;
      this.sort();
    });
    const head = element('th', { scope: 'col', className: isText ? 'text' : '' }, [button]);
    return head;
  }

  sort() {
    const { value } = this.columns[this.column];
    const compare = (one, other) => {
      const [left, right] = [value(one), value(other)];
      return typeof left === 'string' ? left.localeCompare(right) : left - right;
    };
    const sorted = [...this.rows].sort((one, other) => (this.isDown ? compare(other, one) : compare(one, other)));
    this.heads.forEach((head, index) => {
      const direction = index !== this.column ? 'none' : this.isDown ? 'descending' : 'ascending';
      head.setAttribute('aria-sort', direction);
      const mark = { none: '', descending: ' ▼', ascending: ' ▲' }[direction];
      head.firstChild.textContent = this.columns[index].title + mark;
    });
    this.body.replaceChildren(...sorted.slice(0, MOST_TABLE_ROWS).map(row => this.row(row)));
    if (sorted.length > MOST_TABLE_ROWS) {
      const textContent = unit(sorted.length - MOST_TABLE_ROWS, 'further row');
      const cell = element('td', { textContent, colSpan: this.columns.length, className: 'text' });
      this.body.append(element('tr', {}, [cell]));
    }
  }

  row(row) {
    return element('tr', {}, this.columns.map(({ shown, value, isText, part }) => {
      const cell = element('td', { textContent: (shown ?? value)(row), className: isText ? 'text' : '' });
      if (part !== undefined) {
        const bar = element('span', { className: 'bar' });
        bar.style.width = `${100 * part(row)}%`;
        cell.append(bar);
      }
      return cell;
    }));
  }
}

function functionsTable({ functions, turns }) {
  const part = value => row => (turns === 0 ? 0 : value(row) / turns);
  const turnsColumn = (title, value) => ({ title, value, part: part(value),
    shown: row => `${unit(value(row), 'turn')} (${share(value(row), turns)})` });
  return new SortedTable(byId('functions-table'), functions, [
    { title: 'Function', value: row => row.name, isText: true },
    { title: 'Number', value: row => row.index, shown: row => `func ${row.index}` },
    turnsColumn('Itself', row => row.self),
    turnsColumn('With what it calls', row => row.all),
    { title: 'Calls', value: row => row.calls, shown: row => unit(row.calls, 'call') },
    { title: 'Itself in a call', value: row => row.self / row.calls, shown: row => unit(row.self / row.calls, 'turn') },
  ], 2);
}

function importsTable({ imports }) {
  const most = Math.max(1, ...imports.map(({ weight }) => weight));
  const column = (title, key, word) => ({ title, value: row => row[key], shown: row => unit(row[key], word) });
  return new SortedTable(byId('imports-table'), imports, [
    { title: 'Import', value: row => row.name, isText: true },
    { title: 'Calls', value: row => row.calls, shown: row => (row.index === null ? '' : unit(row.calls, 'call')) },
    { ...column('Weight', 'weight', 'unit'), part: row => row.weight / most },
    { title: 'Bytes', value: row => row.bytes, shown: row => bytes(row.bytes) },
    { title: 'Table entries', value: row => row.entries,
      shown: row => `${grouped(row.entries)} ${row.entries === 1 ? 'entry' : 'entries'}` },
    column('Globals', 'globals', 'global'),
    column('Growths', 'growths', 'growth'),
    column('Arguments', 'arguments_', 'value'),
    column('Results', 'results', 'value'),
    column('Actions', 'turns', 'turn'),
  ], 2);
}
