// The table of items: only the rows in sight are on the page, so that ten thousand scroll as smoothly as ten.

import { button, make } from './dom.mjs';
import { follow, say, tell, tellAttribute } from './language.mjs';
import * as R from './rows.mjs';
import { sumsTable } from './sums.mjs';
import { WORDS } from './words.mjs';

// So many rows are drawn on either side of those in sight, and all anew only after so many have passed.
const BESIDE = 8;

const COLUMNS = [
  { at: R.NUMBER, words: WORDS.columnNumber, width: 4.5, kind: 'figure' },
  { at: R.TX_ID, words: WORDS.txId, width: 13, kind: 'code' },
  { at: R.CENTS, words: WORDS.columnEuros, width: 9, kind: 'figure' },
  { at: R.DEBTOR, words: WORDS.debtor, width: 14, kind: null },
  { at: R.IBAN, words: WORDS.columnIban, width: 16, kind: 'code' },
  { at: R.END_TO_END, words: WORDS.endToEnd, width: 13, kind: 'code' },
  { at: R.DATE, words: WORDS.columnDate, width: 9.5, kind: 'figure' },
  { at: R.SEQUENCE, words: WORDS.columnSequence, width: 7, kind: 'code' },
  { at: R.MANDATE, words: WORDS.columnMandate, width: 12, kind: 'code' },
  { at: R.SIGNED, words: WORDS.columnSigned, width: 10.5, kind: 'figure' },
];

// Which other item it doubles stands at the front, where there are such items.
const DOUBLED = { at: R.SAME, words: WORDS.columnDoubled, width: 11, kind: null };

// The columns of a table.
function columnsOf({ marked }) {
  const [number, ...others] = COLUMNS;
  return marked > 0 ? [number, DOUBLED, ...others] : COLUMNS;
}

// The text of a cell.
function cellText(row, { at }) {
  if (at === R.CENTS) return say(row[R.EUROS]);
  if (at !== R.SAME) return String(row[at]);
  if (row[R.SAME]) return `${say(WORDS.sameTxId)} ${row[R.SAME]}`;
  return row[R.ALIKE] ? `${say(WORDS.looksLike)} ${row[R.ALIKE]}` : '';
}

// One row of the page.
function rowElement(row, index, { judged, columns }) {
  const kinds = [R.isMarked(row) ? 'marked' : '', row[R.NUMBER] > judged ? 'unjudged' : ''];
  const element = make('tr', { class: kinds.join(' ').trim() || null, 'aria-rowindex': String(index + 2) });
  for (const column of columns) {
    const text = cellText(row, column);
    element.append(make('td', { class: column.kind, title: text.length > 12 ? text : null }, text));
  }
  return element;
}

// An empty row that stands for those out of sight.
function spacer(rows, height, columns) {
  const element = make('tr', { 'aria-hidden': 'true', class: 'spacer' }, make('td', { colspan: String(columns) }));
  element.style.setProperty('height', `${rows * height}px`);
  return element;
}

// The heading: a button for each column by which the rows are sorted.
function heading(view) {
  const line = make('tr', { 'aria-rowindex': '1' });
  for (const column of view.columns) {
    const sort = () => view.sortBy(column.at);
    line.append(make('th', { scope: 'col', 'aria-sort': 'none', class: column.kind, 'data-at': String(column.at) }, button(column.words, sort)));
  }
  const columns = view.columns.map(({ width }) => {
    const element = make('col');
    element.style.setProperty('width', `${width}rem`);
    return element;
  });
  return [make('colgroup', {}, ...columns), make('thead', {}, line)];
}

// What is shown of the table: which rows, in which order, from where.
class View {
  constructor(told) {
    this.told = told;
    this.columns = columnsOf(told);
    this.column = R.NUMBER;
    this.isFalling = false;
    this.text = '';
    this.onlyMarked = false;
    this.body = make('tbody');
    this.table = make('table', { class: 'items', 'aria-rowcount': String(told.rows.length + 1) }, ...heading(this), this.body);
    this.table.style.setProperty('width', `${this.columns.reduce((sum, { width }) => sum + width, 0)}rem`);
    this.box = make('div', { class: 'scroll', tabindex: '0', role: 'region', onscroll: () => this.draw() }, this.table);
    this.shown = make('p', { class: 'quiet', role: 'status' });
    this.change();
  }

  // Sorts by a column; once more, the other way round.
  sortBy(column) {
    this.isFalling = column === this.column && !this.isFalling;
    this.column = column;
    this.change();
  }

  // Chooses and orders the rows anew.
  change() {
    this.rows = R.sorted(R.filtered(this.told.rows, this.text, this.onlyMarked), this.column, this.isFalling);
    for (const cell of this.table.querySelectorAll('th')) {
      const isIt = Number(cell.dataset.at) === this.column;
      cell.setAttribute('aria-sort', isIt ? (this.isFalling ? 'descending' : 'ascending') : 'none');
    }
    const [all, some] = [this.told.rows.length, this.rows.length];
    const counts = `${some.toLocaleString('en')} ${WORDS.of[0]} ${all.toLocaleString('en')}`;
    const zahlen = `${some.toLocaleString('de')} ${WORDS.of[1]} ${all.toLocaleString('de')}`;
    tell(this.shown, [`${counts} ${WORDS.shownOf[0]}`, `${zahlen} ${WORDS.shownOf[1]}`]);
    this.first = -1;
    this.draw();
  }

  // Draws the rows in sight, and some beside them.
  draw() {
    const height = 2 * parseFloat(getComputedStyle(document.documentElement).fontSize);
    const first = Math.max(0, Math.floor(this.box.scrollTop / height / BESIDE) * BESIDE - BESIDE);
    const count = Math.ceil((this.box.clientHeight || 600) / height) + 3 * BESIDE;
    if (first === this.first) return;
    this.first = first;
    const seen = this.rows.slice(first, first + count);
    const elements = seen.map((row, at) => rowElement(row, first + at, { judged: this.told.judged, columns: this.columns }));
    const behind = this.rows.length - first - seen.length;
    this.body.replaceChildren(spacer(first, height, this.columns.length), ...elements, spacer(behind, height, this.columns.length));
  }
}

// What filters the rows.
function tools(view) {
  const typed = (event) => {
    view.text = event.target.value;
    view.box.scrollTop = 0;
    view.change();
  };
  const field = make('input', { type: 'search', placeholder: WORDS.filterHint, oninput: typed, class: 'filter', spellcheck: 'false' });
  const line = make('div', { class: 'tools' }, make('label', {}, WORDS.filter, field));
  if (view.told.marked > 0) {
    const pressed = (event) => {
      view.onlyMarked = event.target.checked;
      view.change();
    };
    line.append(make('label', { class: 'tick' }, make('input', { type: 'checkbox', onchange: pressed, class: 'only-marked' }), WORDS.onlyMarked));
  }
  line.append(view.shown);
  return line;
}

// The items of a file: their sums, what filters them, and the table.
export function itemsTable(told, name, note) {
  const view = new View(told);
  tellAttribute(view.box, 'aria-label', [`${WORDS.itemsOf[0]} ${name}`, `${WORDS.itemsOf[1]} ${name}`]);
  follow(view.box, () => {
    view.first = -1;
    view.draw();
  });
  const parts = [note ? make('p', { class: 'note' }, note) : null, sumsTable(told), tools(view), view.box];
  return make('div', { class: 'listing' }, ...parts);
}
