// The sums of a bulk's items by sequence type.

import { make } from './dom.mjs';
import { WORDS } from './words.mjs';

// One line: what, how many, how much.
function line(tag, name, count, euros) {
  return make('tr', {}, make('th', { scope: 'row' }, name), make(tag, { class: 'figure' }, count), make(tag, { class: 'figure' }, euros));
}

// The table of the sums; types without an item are left out.
export function sumsTable(told) {
  const heads = [WORDS.sequence, WORDS.count, WORDS.total];
  const head = make('tr', {}, ...heads.map((words, at) => make('th', { scope: 'col', class: at ? 'figure' : null }, words)));
  const used = told.sums.filter(({ count }) => count > 0);
  const lines = used.map((sum) => line('td', WORDS[sum.sequence], sum.items, sum.euros));
  const count = [told.rows.length.toLocaleString('en'), told.rows.length.toLocaleString('de')];
  const foot = make('tfoot', {}, line('td', WORDS.all, count, told.total));
  const table = make('table', { class: 'sums' }, make('caption', {}, WORDS.sums), make('thead', {}, head), make('tbody', {}, ...lines), foot);
  return make('div', { class: 'wide' }, table);
}
