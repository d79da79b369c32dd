// The views, one at a time, chosen by tabs: with the mouse, or with the arrow keys.

import { byId } from './dom.mjs';

const NAMES = ['judge', 'compare', 'check', 'book', 'refusals'];

// Brings a view to the front.
export function show(name) {
  for (const other of NAMES) {
    const isIt = other === name;
    byId(`view-${other}`).hidden = !isIt;
    byId(`tab-${other}`).setAttribute('aria-selected', String(isIt));
    byId(`tab-${other}`).tabIndex = isIt ? 0 : -1;
  }
}

// The tab that a key leads to.
function led(key, at) {
  const last = NAMES.length - 1;
  return { ArrowRight: at === last ? 0 : at + 1, ArrowLeft: at === 0 ? last : at - 1, Home: 0, End: last }[key];
}

// Begins the tabs.
export function beginViews() {
  NAMES.forEach((name, at) => {
    const tab = byId(`tab-${name}`);
    tab.addEventListener('click', () => show(name));
    tab.addEventListener('keydown', (event) => {
      const to = led(event.key, at);
      if (to === undefined) return;
      event.preventDefault();
      show(NAMES[to]);
      byId(`tab-${NAMES[to]}`).focus();
    });
  });
  show('judge');
}
