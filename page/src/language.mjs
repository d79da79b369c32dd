// The language: which one, and every text on the page that must follow it. A text is a pair, [English, German].

const texts = new WeakMap();
let chosen = 0;

// 0 for English, 1 for German.
export function language() {
  return chosen;
}

// The member of a pair in the chosen language.
export function say(pair) {
  return pair[chosen];
}

// Keeps a pair for an element: as its text (''), or as one of its attributes.
function keep(element, where, pair) {
  const kept = texts.get(element) ?? {};
  kept[where] = pair;
  texts.set(element, kept);
  element.setAttribute('data-told', '');
  put(element, where, pair);
}

// Puts the chosen member of a pair where it belongs.
function put(element, where, pair) {
  if (where === '') element.textContent = say(pair);
  else element.setAttribute(where, say(pair));
}

// The element's text, now and after a change of language.
export function tell(element, pair) {
  keep(element, '', pair);
  return element;
}

// One of its attributes likewise.
export function tellAttribute(element, name, pair) {
  keep(element, name, pair);
  return element;
}

// Calls a function after each change of language, as long as the element is on the page.
export function follow(element, listener) {
  element.setAttribute('data-follows', '');
  element.addEventListener('language', listener);
}

// What was chosen before, else what the browser prefers.
export function preferred(stored, browser) {
  const wanted = stored ?? browser ?? '';
  return /^de\b/i.test(wanted) ? 1 : 0;
}

// Chooses a language, and lets every text follow.
export function speak(wanted, root) {
  chosen = wanted;
  root.documentElement.lang = ['en', 'de'][chosen];
  for (const element of root.querySelectorAll('[data-told]')) {
    const kept = texts.get(element) ?? {};
    for (const [where, pair] of Object.entries(kept)) put(element, where, pair);
  }
  for (const element of root.querySelectorAll('[data-follows]')) element.dispatchEvent(new Event('language'));
}
