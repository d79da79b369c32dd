// The day book of this window. Every call on it is made by the proved library.

import { callJson } from './asking.mjs';
import { button, byId, facts, make } from './dom.mjs';
import { addFiles, judgedFile } from './files.mjs';
import { stamp } from './sheet.mjs';
import { WORDS, troubleWords } from './words.mjs';

let book = new Uint8Array(0);
let open = [];
let calls = Promise.resolve();

// The open bulks, each with a button that withdraws it.
function openTable(told) {
  const words = [WORDS.service, WORDS.msgId, WORDS.agent, WORDS.settlement, WORDS.total];
  const heads = words.map((one, at) => make('th', { scope: 'col', class: at === 4 ? 'figure' : null }, one));
  const lines = told.open.map((bulk, at) => {
    const label = WORDS.withdraw.map((word) => `${word}: ${bulk.msg_id}`);
    const withdraw = button(WORDS.withdraw, () => withdrawAt(at), { 'data-do': 'withdraw', 'aria-label': label });
    const cells = [bulk.service, bulk.msg_id, bulk.bic, bulk.date].map((text) => make('td', { class: 'code' }, text));
    return make('tr', {}, ...cells, make('td', { class: 'figure' }, bulk.euros), make('td', {}, withdraw));
  });
  const head = make('thead', {}, make('tr', {}, ...heads, make('th')));
  const table = make('table', { class: 'open' }, make('caption', {}, WORDS.open), head, make('tbody', {}, ...lines));
  return make('div', { class: 'wide' }, table);
}

// Draws the book as it is behind a call.
function draw(told) {
  open = told.open;
  const count = [String(open.length), String(open.length)];
  const sum = facts([[WORDS.open, count, 'figure large'], [WORDS.openTotal, told.total, 'figure large']]);
  const list = open.length > 0 ? openTable(told) : make('p', { class: 'quiet' }, WORDS.bookEmpty);
  byId('open').replaceChildren(sum, list);
}

// Notes a call, with its time.
function note(words, verdict) {
  const line = make('li', { 'data-verdict': verdict }, make('span', { class: 'quiet figure' }, `${stamp(new Date())} `), make('span', {}, words));
  byId('calls').prepend(line);
}

// Makes one call on the book, behind all that were made before.
function made(name, lent, more) {
  const ask = async () => {
    const { answer, book: behind } = await callJson(name, { ...lent, book }, more);
    book = behind;
    draw(answer);
    const words = answer.words.map((text) => text.split('\n')[0]);
    note(words, answer.verdict);
    return words;
  };
  const answered = calls.then(ask);
  calls = answered.catch(() => {});
  return answered;
}

// Enters a judged file.
export function enterFile(file) {
  const [lent, expected] = judgedFile(file);
  return made('enter', lent, { expected });
}

// Withdraws the bulk at a place.
async function withdrawAt(place) {
  try {
    await made('withdraw', {}, { numbers: [place] });
  } catch (error) {
    note(troubleWords(error.message), 'failed');
  }
  byId('book-files').focus();
}

// Files that are chosen here are judged with the others, and those accepted are entered.
async function enterFiles(files) {
  const { added, judged } = addFiles(files);
  await judged;
  for (const file of added) {
    if (file.state === 'judged') await enterFile(file).catch((error) => note(troubleWords(error.message), 'failed'));
    else note(troubleWords(file.error).map((words) => `${file.name}: ${words}`), 'failed');
  }
}

// Begins the view. The window asks before it is closed while bulks are open.
export function beginBook() {
  draw({ open: [], total: ['0.00 EUR', '0,00 EUR'] });
  byId('book-files').addEventListener('change', (event) => {
    enterFiles(event.target.files);
    event.target.value = '';
  });
  window.addEventListener('beforeunload', (event) => {
    if (open.length > 0) event.preventDefault();
  });
}
