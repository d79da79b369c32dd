// Elements. Text is only ever put in as text: there is no way here by which bytes of a message become markup.

import { tell, tellAttribute } from './language.mjs';

// Whether a child is a pair of texts in both languages.
function isPair(child) {
  return Array.isArray(child) && child.length === 2 && typeof child[0] === 'string';
}

// Sets one property: a listener for `onclick`, a text in both languages for a pair, nothing for null and false.
function set(element, name, value) {
  if (value === null || value === undefined || value === false) return;
  if (name.startsWith('on')) element.addEventListener(name.slice(2), value);
  else if (isPair(value)) tellAttribute(element, name, value);
  else element.setAttribute(name, value === true ? '' : value);
}

// An element with its attributes and children: texts, pairs of texts, elements, or null for none.
export function make(tag, attributes = {}, ...children) {
  const element = document.createElement(tag);
  for (const [name, value] of Object.entries(attributes)) set(element, name, value);
  const [only] = children;
  if (children.length === 1 && isPair(only)) return tell(element, only);
  element.append(...children.filter((child) => child !== null).map((child) => (isPair(child) ? make('span', {}, child) : child)));
  return element;
}

// A list of terms and what they are; a term whose value is null is left out.
export function facts(pairs, attributes = {}) {
  const list = make('dl', { class: 'facts', ...attributes });
  for (const [term, value, kind] of pairs) {
    if (value === null || value === undefined) continue;
    list.append(make('div', { class: kind?.includes('long') ? 'long' : null }, make('dt', {}, term), make('dd', { class: kind ?? null }, value)));
  }
  return list;
}

// A button.
export function button(words, onclick, attributes = {}) {
  return make('button', { type: 'button', onclick, ...attributes }, words);
}

// The element of an id.
export function byId(id) {
  return document.getElementById(id);
}
