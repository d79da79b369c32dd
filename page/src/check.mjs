// One value, checked as she types it.

import { callJson } from './asking.mjs';
import { byId, make } from './dom.mjs';
import { KINDS, WORDS, troubleWords } from './words.mjs';

let asked = 0;

// The verdict on a value.
function checked(told) {
  const isAccepted = told.verdict === 'accepted';
  const sign = make('span', { class: 'sign', 'aria-hidden': 'true' }, isAccepted ? '✓' : '✕');
  const head = make('p', { class: 'verdict' }, sign, make('strong', {}, WORDS[told.verdict]));
  return make('div', { class: 'card', 'data-verdict': told.verdict }, head, make('div', { class: 'told text' }, told.words));
}

// Checks what is typed. An answer that another value has overtaken is not shown.
async function check() {
  const own = ++asked;
  const value = byId('value').value;
  const place = byId('checked');
  if (value === '') return place.replaceChildren(make('p', { class: 'quiet' }, WORDS.emptyValue));
  try {
    const { answer } = await callJson('check', { name: byId('kind').value, message: value });
    return own === asked ? place.replaceChildren(checked(answer)) : null;
  } catch (error) {
    return place.replaceChildren(make('p', { class: 'warning' }, troubleWords(error.message)));
  }
}

// Begins the view.
export function beginChecking() {
  byId('kind').append(...KINDS.map(([name, words]) => make('option', { value: name }, words)));
  byId('kind').addEventListener('change', check);
  byId('value').addEventListener('input', check);
  check();
}
