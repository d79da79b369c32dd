// What is told of a refusal: where, which payment, what was found, the excerpt, doubled items, the page of its number.

import { facts, make } from './dom.mjs';
import { callJson } from './asking.mjs';
import { WORDS } from './words.mjs';

let pages = null;

// The pages of all refusals, asked for once.
export async function refusalPages() {
  pages = pages ?? callJson('pages', {});
  return (await pages).answer;
}

// The rows of a page: labels and texts.
export function pageRows(page) {
  const list = make('dl', { class: 'page' });
  for (const [label, text] of page.rows) list.append(make('dt', {}, label), make('dd', {}, text));
  return list;
}

// The line of the place, with the place marked, and a caret below it as the command has it.
export function excerptElement([before, behind]) {
  const letters = Array.from(behind);
  const mark = make('mark', {}, letters[0] ?? '\u00a0');
  const caret = `${' '.repeat(Array.from(before).length)}^`;
  return make('pre', { class: 'excerpt', tabindex: '0', 'aria-label': WORDS.excerpt }, before, mark, `${letters.slice(1).join('')}\n${caret}`);
}

// What is told of doubled items: headings, and below each what belongs to it.
export function doubledElement(pair) {
  const box = make('div', { class: 'doubled' });
  const [english, german] = pair.map((text) => text.split('\n').filter((line) => line !== ''));
  english.forEach((line, at) => {
    const both = [line.trim(), german[at].trim()];
    if (line.startsWith('    ')) box.lastChild.append(make('li', {}, both));
    else box.append(make('p', {}, both), make('ul'));
  });
  return box;
}

// The facts of a refusal.
function place(refusal) {
  const at = String(refusal.place);
  return facts([
    [WORDS.lineColumn, `${refusal.line}, ${refusal.column}`, 'figure'],
    [WORDS.place, at, 'figure'],
    [WORDS.element, refusal.element, 'code long'],
    [WORDS.item, refusal.item === null ? null : String(refusal.item), 'figure'],
    [WORDS.txId, refusal.tx_id, 'code'],
    [WORDS.endToEnd, refusal.end_to_end_id, 'code'],
    [WORDS.debtor, refusal.debtor],
    [WORDS.amount, refusal.item_euros, 'figure'],
    [WORDS.value, refusal.found, 'long'],
  ]);
}

// The page of the refusal's number, to be opened.
function explanation(number) {
  const box = make('details', { class: 'explanation' }, make('summary', {}, WORDS.explanation));
  box.addEventListener('toggle', async () => {
    if (!box.open || box.children.length > 1) return;
    const page = (await refusalPages()).find((one) => one.number === number);
    if (page && box.children.length === 1) box.append(pageRows(page));
  });
  return box;
}

// All of it.
export function refusalElement({ refusal }) {
  const sentence = make('p', { class: 'sentence' }, refusal.meaning);
  const against = refusal.against ? make('p', { class: 'against' }, refusal.against) : null;
  const excerpt = refusal.excerpt ? excerptElement(refusal.excerpt) : null;
  return make('div', {}, sentence, against, place(refusal), excerpt, explanation(refusal.number));
}
