// The card of one file: its verdict, what is told of it, and what can be done with it.

import { callJson } from './asking.mjs';
import { enterFile } from './book.mjs';
import { button, byId, facts, make } from './dom.mjs';
import { judgedFile, removeFile } from './files.mjs';
import { say, tell } from './language.mjs';
import { doubledElement, refusalElement } from './refused.mjs';
import { save } from './save.mjs';
import { printSheet, sizeOf } from './sheet.mjs';
import { itemsTable } from './table.mjs';
import { WORDS, troubleWords } from './words.mjs';

const WITH_ITEMS = [14, 15, 24];

// What a screen reader is told without being asked.
export function announce(text) {
  byId('announce').textContent = text;
}

// The verdict: a sign and a word, and the number of a refusal.
function verdictElement(file) {
  const kind = { judging: 'judging', failed: 'unread' }[file.state] ?? file.told.verdict;
  const sign = { judging: '…', unread: '!', accepted: '✓', refused: '✕' }[kind];
  const number = kind === 'refused' ? make('span', { class: 'number' }, String(file.told.refusal.number)) : null;
  return make('p', { class: 'verdict' }, make('span', { class: 'sign', 'aria-hidden': 'true' }, sign), make('strong', {}, WORDS[kind]), number);
}

// What is signed.
function acceptedElement(told) {
  return facts([
    [WORDS.count, told.count, 'figure large'],
    [WORDS.total, told.euros, 'figure large'],
    [WORDS.msgId, told.msg_id, 'code'],
    [WORDS.settlement, told.settlement_date, 'figure'],
    [WORDS.service, told.instrument],
    [WORDS.version, told.version],
  ]);
}

// Whether there is a table of its items, and what must be said of it.
function listing(told) {
  if (told.verdict === 'accepted') return { has: true, note: null };
  const { number } = told.refusal;
  return { has: WITH_ITEMS.includes(number), note: number === 24 ? WORDS.notJudged : WORDS.notMatched };
}

// The card of a file.
export class Card {
  constructor(file) {
    this.file = file;
    this.body = make('div', { class: 'card-body' });
    this.said = make('p', { class: 'said', role: 'status' });
    const id = `file-${file.id}`;
    this.title = make('h3', { id }, file.name);
    const label = WORDS.remove.map((word) => `${word}: ${file.name}`);
    const remove = button(WORDS.remove, () => this.remove(), { class: 'plain', 'data-do': 'remove', 'aria-label': label });
    const head = make('header', {}, this.title, make('span', { class: 'quiet figure' }, sizeOf(file.size)), remove);
    this.element = make('article', { class: 'card', 'aria-labelledby': id, tabindex: '-1' }, head, this.body, this.said);
    this.draw();
  }

  // Draws the card anew.
  draw() {
    const { file } = this;
    this.title.textContent = file.told?.file ?? file.name;
    this.element.dataset.verdict = file.state === 'judged' ? file.told.verdict : file.state;
    this.items = make('div', { class: 'items-place' });
    const parts = [verdictElement(file)];
    if (file.state === 'failed') parts.push(make('p', { class: 'sentence' }, troubleWords(file.error)));
    if (file.state === 'judged') parts.push(...this.told(file.told));
    if (file.state === 'judged') parts.push(this.actions(), this.items);
    this.body.replaceChildren(...parts.filter((part) => part !== null));
    if (file.state === 'judged') announce(say(file.told.words).split('\n')[0]);
    if (file.state === 'failed') announce(`${file.name}: ${say(troubleWords(file.error))}`);
  }

  // The verdict's details and the warnings.
  told(told) {
    return [
      told.verdict === 'accepted' ? acceptedElement(told) : refusalElement(told),
      told.doubled ? doubledElement(told.doubled) : null,
      told.same_msg_id ? make('p', { class: 'warning' }, told.same_msg_id) : null,
    ];
  }

  // What can be done: as much as the verdict allows.
  actions() {
    const { file } = this;
    const line = make('div', { class: 'actions' });
    const add = (words, act, kind) => line.append(button(words, () => this.attempt(act), { 'data-do': kind }));
    const { has } = listing(file.told);
    if (has) add(WORDS.showItems, () => this.toggle(line.firstChild), 'items');
    add(WORDS.print, () => printSheet(file), 'print');
    if (file.told.verdict === 'accepted') {
      add(WORDS.enter, async () => tell(this.said, await enterFile(file)), 'enter');
      add(WORDS.saveRecords, () => this.saved('records'), 'records');
      add(WORDS.savePlain, () => this.saved('plain'), 'plain');
    }
    if (has && file.told.refusal?.number !== 24) add(WORDS.saveCsv, () => this.saved('csv'), 'csv');
    return line;
  }

  // Saves something, and says so.
  async saved(what) {
    const name = await save(this.file, what);
    tell(this.said, [`${WORDS.saved[0]}: ${name}`, `${WORDS.saved[1]}: ${name}`]);
  }

  // Does something; what goes wrong is told on the card.
  async attempt(act) {
    tell(this.said, ['', '']);
    try {
      await act();
    } catch (error) {
      tell(this.said, troubleWords(error.message));
    }
  }

  // Shows the table of items, or hides it.
  async toggle(pressed) {
    const isOpen = this.items.childElementCount > 0;
    if (isOpen) this.items.replaceChildren();
    else {
      const [lent, expected] = judgedFile(this.file);
      const { answer } = await callJson('items', lent, { expected });
      this.items.replaceChildren(itemsTable(answer, this.file.told.file, listing(this.file.told).note));
    }
    tell(pressed, isOpen ? WORDS.showItems : WORDS.hideItems);
    pressed.setAttribute('aria-expanded', String(!isOpen));
  }

  // Takes the file from the list; the next key press is where files are chosen.
  remove() {
    removeFile(this.file);
    byId('choose').focus({ preventScroll: true });
  }
}
