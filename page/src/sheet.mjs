// The sheet for the signature folder.

import { callJson } from './asking.mjs';
import { byId, facts, make } from './dom.mjs';
import { judgedFile } from './files.mjs';
import { MOST } from './limit.mjs';
import { doubledElement, excerptElement } from './refused.mjs';
import { sumsTable } from './sums.mjs';
import { WORDS } from './words.mjs';

// A number of two digits.
function two(number) {
  return String(number).padStart(2, '0');
}

// A time with its offset: 2026-10-28 18:42:07 +01:00.
export function stamp(date) {
  const day = `${date.getFullYear()}-${two(date.getMonth() + 1)}-${two(date.getDate())}`;
  const time = `${two(date.getHours())}:${two(date.getMinutes())}:${two(date.getSeconds())}`;
  const behind = Math.abs(date.getTimezoneOffset());
  const sign = date.getTimezoneOffset() > 0 ? '-' : '+';
  return `${day} ${time} ${sign}${two(Math.floor(behind / 60))}:${two(behind % 60)}`;
}

// A size in bytes, grouped for the eye.
export function sizeOf(bytes) {
  return [`${bytes.toLocaleString('en')} ${WORDS.bytes[0]}`, `${bytes.toLocaleString('de')} ${WORDS.bytes[1]}`];
}

// The lines to sign on.
function lines() {
  const line = (words) => make('div', { class: 'line' }, make('span', {}, words));
  return make('div', { class: 'signing' }, line(WORDS.placeDate), line(WORDS.signature));
}

// The facts of every sheet.
function about(file) {
  const { told } = file;
  return facts([
    [WORDS.fileName, told.file, 'code'],
    [WORDS.size, sizeOf(file.size)],
    // Of a file that is too large not all was read, so it has none.
    [WORDS.sha, file.size > MOST ? null : file.sha, 'code long sha'],
    [WORDS.judgedAt, stamp(file.at), 'figure'],
    [WORDS.msgId, told.msg_id, 'code'],
    [WORDS.settlement, told.settlement_date, 'figure'],
    [WORDS.service, told.instrument],
    [WORDS.agent, told.bic, 'code'],
    [WORDS.version, told.version],
  ]);
}

// The verdict on an accepted bulk: count and total in figures.
function signedFor(told) {
  return facts([[WORDS.count, told.count, 'figure large'], [WORDS.total, told.euros, 'figure large']]);
}

// Why a refused one is refused.
function refusedFor({ refusal }) {
  const where = `${refusal.line}, ${refusal.column}`;
  const list = facts([
    [WORDS.number, String(refusal.number), 'figure large'],
    [WORDS.lineColumn, where, 'figure'],
    [WORDS.element, refusal.element, 'code long'],
    [WORDS.txId, refusal.tx_id, 'code'],
    [WORDS.value, refusal.found, 'long'],
  ]);
  const against = refusal.against ? make('p', {}, refusal.against) : null;
  return make('div', {}, make('p', {}, refusal.meaning), against, list, refusal.excerpt ? excerptElement(refusal.excerpt) : null);
}

// The whole sheet.
function sheetOf(file, items) {
  const { told } = file;
  const isAccepted = told.verdict === 'accepted';
  const word = isAccepted ? WORDS.accepted : WORDS.refused;
  const parts = [
    make('h1', {}, WORDS.sheetTitle),
    make('p', { class: 'sheet-verdict' }, make('span', {}, WORDS.verdict), make('strong', {}, word)),
    isAccepted ? signedFor(told) : refusedFor(told),
    about(file),
    isAccepted && items ? sumsTable(items) : null,
    told.doubled ? doubledElement(told.doubled) : null,
    told.same_msg_id ? make('p', {}, told.same_msg_id) : null,
    isAccepted ? lines() : make('p', { class: 'not-to-sign' }, WORDS.notToSign),
    make('p', { class: 'quiet' }, WORDS.sheetNote),
  ];
  return parts.filter((part) => part !== null);
}

// Prints the sheet of a judged file. Its bytes must still be those that were judged.
export async function printSheet(file) {
  const [lent, expected] = judgedFile(file);
  const isAccepted = file.told.verdict === 'accepted';
  const items = isAccepted ? (await callJson('items', lent, { expected })).answer : null;
  byId('sheet').replaceChildren(...sheetOf(file, items));
  document.body.classList.add('has-sheet');
  window.print();
}

// Behind the print there is no sheet: whoever prints the page itself gets what is on the screen.
export function beginSheet() {
  window.addEventListener('afterprint', () => {
    document.body.classList.remove('has-sheet');
    byId('sheet').replaceChildren();
  });
}
