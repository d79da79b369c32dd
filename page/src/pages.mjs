// All refusals, each with its page.

import { byId, make } from './dom.mjs';
import { pageRows, refusalPages } from './refused.mjs';

// One refusal, to be opened.
function pageElement(page) {
  const head = make('summary', {}, make('span', { class: 'figure' }, String(page.number)), make('span', {}, page.sentence));
  return make('details', { class: 'explanation' }, head, pageRows(page));
}

// Begins the view.
export async function beginPages() {
  const pages = await refusalPages().catch(() => []);
  byId('all-pages').append(...pages.map(pageElement));
}
