// The page: its texts, its views, its worker.

import { beginAsking } from './asking.mjs';
import { beginBook } from './book.mjs';
import { beginChecking } from './check.mjs';
import { beginComparing } from './compare.mjs';
import { byId } from './dom.mjs';
import { beginJudging } from './judging.mjs';
import { preferred, speak, tell, tellAttribute } from './language.mjs';
import { beginPages } from './pages.mjs';
import { beginSheet } from './sheet.mjs';
import { beginViews, show } from './views.mjs';
import { WORDS } from './words.mjs';

const KEPT = 'bulk.language';

// What was chosen in this browser before; a browser may forbid to keep anything.
function stored() {
  try {
    return localStorage.getItem(KEPT);
  } catch {
    return null;
  }
}

// Keeps the choice, where that is allowed.
function keepLanguage(name) {
  try {
    localStorage.setItem(KEPT, name);
  } catch {
    // Then the browser's own language is taken the next time.
  }
}

// The texts that stand in the page itself.
function tellAll() {
  for (const element of document.querySelectorAll('[data-words]')) tell(element, WORDS[element.dataset.words]);
  for (const element of document.querySelectorAll('[data-label]')) tellAttribute(element, 'aria-label', WORDS[element.dataset.label]);
  tell(document.querySelector('title'), WORDS.title);
}

// Chooses a language and marks its button.
function choose(at) {
  speak(at, document);
  ['en', 'de'].forEach((name, other) => byId(`language-${name}`).setAttribute('aria-pressed', String(at === other)));
}

// Begins all of it.
function begin() {
  tellAll();
  choose(preferred(stored(), navigator.languages?.[0] ?? navigator.language));
  ['en', 'de'].forEach((name, at) => {
    byId(`language-${name}`).addEventListener('click', () => {
      choose(at);
      keepLanguage(name);
    });
  });
  beginAsking(() => {
    byId('too-old').hidden = false;
  });
  beginViews();
  beginJudging(show);
  beginComparing();
  beginChecking();
  beginBook();
  beginPages();
  beginSheet();
}

begin();
