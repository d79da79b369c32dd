// Two bulks compared by their plain forms.

import { callJson } from './asking.mjs';
import { byId, make } from './dom.mjs';
import { addFiles, allFiles, onFiles } from './files.mjs';
import { WORDS, troubleWords } from './words.mjs';

const SIDES = ['first', 'second'];

// The file that is chosen on a side.
function chosen(side) {
  const id = Number(byId(`${side}-bulk`).value);
  return allFiles().find((file) => file.id === id && file.state === 'judged') ?? null;
}

// The files to choose from, on either side.
function offer() {
  for (const side of SIDES) {
    const list = byId(`${side}-bulk`);
    const before = list.value;
    const judged = allFiles().filter((file) => file.state === 'judged');
    const option = (file) => make('option', { value: String(file.id) }, file.told.file);
    list.replaceChildren(make('option', { value: '' }, WORDS.noFile), ...judged.map(option));
    list.value = judged.some((file) => String(file.id) === before) ? before : '';
  }
}

// A value of one side.
function side(value) {
  return value === null ? make('td', { class: 'quiet' }, WORDS.missing) : make('td', { class: 'code' }, value);
}

// The differences: all of the header, and the first of the first item.
function differences(told) {
  const heads = [WORDS.item, WORDS.element, WORDS.here, WORDS.there].map((words) => make('th', { scope: 'col' }, words));
  const lines = told.differences.map((one) => {
    const where = one.item === 0 ? WORDS.header : String(one.item);
    const element = one.element === null ? make('td', {}, WORDS.onlyHere) : make('td', { class: 'code' }, one.element);
    return make('tr', {}, make('td', {}, where), element, side(one.here), side(one.there));
  });
  const head = make('thead', {}, make('tr', {}, ...heads));
  return make('div', { class: 'wide' }, make('table', { class: 'differences' }, head, make('tbody', {}, ...lines)));
}

// The result of a comparison.
function result(told) {
  const [kind, sign] = { same: ['accepted', '='], different: ['refused', '≠'], refused: ['unread', '!'] }[told.verdict];
  const word = { same: WORDS.same, different: WORDS.different, refused: WORDS.notCompared }[told.verdict];
  const head = make('p', { class: 'verdict' }, make('span', { class: 'sign', 'aria-hidden': 'true' }, sign), make('strong', {}, word));
  const parts = [head, make('div', { class: 'told' }, told.words)];
  if (told.differences.length > 0) parts.splice(1, 0, differences(told));
  return make('div', { class: 'card', 'data-verdict': kind }, ...parts);
}

// Compares what is chosen, if it is two files.
async function compare() {
  const place = byId('compared');
  const [one, other] = SIDES.map(chosen);
  if (!one || !other) return place.replaceChildren();
  const lent = { name: one.name, message: one.file, otherName: other.name, otherMessage: other.file };
  try {
    const { answer } = await callJson('same', lent, { expected: { message: one.sha, otherMessage: other.sha } });
    return place.replaceChildren(result(answer));
  } catch (error) {
    return place.replaceChildren(make('p', { class: 'warning' }, troubleWords(error.message)));
  }
}

// A file that is chosen here is judged with the others first.
async function choose(name, file) {
  const { added, judged } = addFiles([file]);
  await judged;
  byId(`${name}-bulk`).value = String(added[0].id);
  await compare();
}

// Begins the view.
export function beginComparing() {
  onFiles(offer);
  offer();
  for (const name of SIDES) {
    byId(`${name}-bulk`).addEventListener('change', compare);
    byId(`${name}-file`).addEventListener('change', (event) => {
      if (event.target.files.length > 0) choose(name, event.target.files[0]);
      event.target.value = '';
    });
  }
}
