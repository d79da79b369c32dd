// The view of the judged files: they are dropped or chosen, and each has its card.

import { callJson } from './asking.mjs';
import { Card } from './card.mjs';
import { byId } from './dom.mjs';
import { addFiles, allFiles, clearFiles, onFiles } from './files.mjs';
import { tell } from './language.mjs';

const cards = new Map();

// The plain verdict of each file, on a line.
function verdicts() {
  return allFiles().map((file) => (file.state === 'judged' ? file.told.plain : 'unread')).join('\n');
}

// The closing line of several files.
async function close() {
  const line = byId('closing');
  const files = allFiles();
  line.hidden = files.length < 2 || files.some((file) => file.state === 'judging');
  if (line.hidden) return;
  const told = await callJson('closing', { message: verdicts() }).catch(() => null);
  if (told) tell(line, told.answer);
}

// Brings the cards in line with the files. New ones stand behind the others.
function arrange(changed) {
  if (changed) cards.get(changed)?.draw();
  const files = allFiles();
  for (const file of cards.keys()) {
    if (files.includes(file)) continue;
    cards.get(file).element.remove();
    cards.delete(file);
  }
  for (const file of files) {
    if (cards.has(file)) continue;
    cards.set(file, new Card(file));
    byId('cards').append(cards.get(file).element);
  }
  byId('clear').hidden = files.length === 0;
  close();
}

// Files may be dropped anywhere in the window.
function acceptDrops(whenDropped) {
  const mark = (isOver) => document.body.classList.toggle('dropping', isOver);
  window.addEventListener('dragover', (event) => {
    event.preventDefault();
    mark(true);
  });
  window.addEventListener('dragleave', (event) => mark(event.relatedTarget !== null));
  window.addEventListener('drop', (event) => {
    event.preventDefault();
    mark(false);
    if (event.dataTransfer.files.length > 0) whenDropped(event.dataTransfer.files);
  });
}

// Begins the view; `show` brings it to the front.
export function beginJudging(show) {
  onFiles(arrange);
  acceptDrops((files) => {
    show('judge');
    addFiles(files);
  });
  byId('choose').addEventListener('change', (event) => {
    addFiles(event.target.files);
    event.target.value = '';
  });
  byId('clear').addEventListener('click', () => {
    clearFiles();
    byId('choose').focus();
  });
}
