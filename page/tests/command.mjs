// The page against the command, on the samples and on generated cases: command.mjs CASES. What is told in words, in both languages,
// items as CSV, records, plain forms, comparisons, single values and the pages of the refusals must be the same bytes.

import assert from 'node:assert/strict';
import { writeFileSync } from 'node:fs';
import { join } from 'node:path';
import { ask } from '../src/module.mjs';
import { KINDS } from '../src/words.mjs';
import { cases, command, folder, run, samples, theModule } from './common.mjs';

const module = theModule();
const encoder = new TextEncoder();
const decoder = new TextDecoder();
const LANGUAGES = ['--en', '--de'];
const here = folder('command');

// The files: every sample, and of the generated cases the first that are small, many kinds of refusal among them.
function files() {
  const all = samples();
  let number = 0;
  for (const { message } of cases(process.argv[2])) {
    if (number === 200) break;
    if (message.length < 20000) all.push({ name: `case-${number++}.xml`, bytes: message });
  }
  const evening = all.find(({ name }) => name === 'evening.xml').bytes.toString('latin1');
  const odd = (name, text) => all.push({ name, bytes: Buffer.from(text) });
  odd('empty.xml', '');
  odd('März <b>.xml', evening.replace('Anna Gluehbirne', '<script>alert(1)</script>'));
  odd('escape.xml', evening.replace('Anna Gluehbirne', 'A\u001b[31m\u202eB\u0000 \u00fc \u{1f600}'));
  odd('count.xml', evening.replace('<NbOfTxs>5<', '<NbOfTxs>6<'));
  odd('total.xml', evening.replace('2024.90', '2024.91'));
  for (const { name, bytes } of all) writeFileSync(join(here, name), bytes);
  return all;
}

const FILES = files();

// A call of the page; none where it is refused.
function page(call, lent, ...numbers) {
  const bytes = Object.fromEntries(Object.entries(lent).map(([slot, what]) => [slot, typeof what === 'string' ? encoder.encode(what) : what]));
  const { status, answer } = ask(module, call, bytes, ...numbers);
  assert.notEqual(status, 2, 'the page disagrees with the library');
  return status === 0 ? Buffer.from(answer) : null;
}

// The same, of an answer in JSON.
const told = (call, lent, ...numbers) => JSON.parse(decoder.decode(page(call, lent, ...numbers)));

// Whether what the page makes is what the command makes.
function sameBytes(name, made, words) {
  const due = command(here, ...words);
  if (made === null) assert.equal(due.length, 0, name);
  else assert.ok(due.equals(made), `${name}: ${words.join(' ')}`);
}

process.exitCode = await run([
  ['the verdict in words, in both languages', () => {
    for (const { name, bytes } of FILES) {
      const { words, plain } = told('judge', { name, message: bytes });
      LANGUAGES.forEach((language, at) => assert.equal(words[at], command(here, language, 'judge', name).toString(), name));
      assert.equal(`${plain}\n`, command(here, '--plain', 'judge', name).toString(), name);
    }
    return `${FILES.length} messages`;
  }],
  ['line, column, element, payment and doubled items', () => {
    for (const { name, bytes } of FILES) {
      const { refusal, msg_id: msgId } = told('judge', { name, message: bytes });
      const due = JSON.parse(command(here, '--json', '--de', 'judge', name));
      assert.equal(msgId, due.msg_id, name);
      for (const key of ['number', 'place', 'line', 'column', 'element', 'item']) assert.equal(refusal?.[key] ?? null, due[key], `${name}: ${key}`);
      assert.equal(refusal?.meaning[1] ?? null, due.meaning, name);
      if (due.why) assert.ok(refusal.found?.[1].includes(due.why) , `${name}: ${refusal.found?.[1]}: ${due.why}`);
    }
  }],
  ['items as CSV, records and plain forms, byte for byte', () => {
    let made = 0;
    for (const { name, bytes } of FILES) {
      const csv = LANGUAGES.map((_, at) => page('csv', { message: bytes }, at));
      LANGUAGES.forEach((language, at) => sameBytes(name, csv[at], ['items', '--csv', language, name]));
      const records = page('records', { message: bytes });
      if (records === null) continue;
      sameBytes(name, records, ['records', name, '-']);
      sameBytes(name, page('plain', { message: bytes }), ['plain', name, '-']);
      made += 1;
    }
    assert.ok(made > 30, `${made} accepted`);
    return `${made} of them accepted`;
  }],
  ['the rows of the table', () => {
    for (const { name, bytes } of FILES) {
      const { refusal } = told('judge', { name, message: bytes });
      if (refusal && ![14, 15].includes(refusal.number)) continue;
      const { rows } = told('items', { message: bytes });
      const due = command(here, '--json', 'items', name).toString().trim().split('\n').map((line) => JSON.parse(line));
      const keys = ['item', 'place', 'tx_id', 'end_to_end_id', 'debtor', 'debtor_iban', 'cents'];
      assert.deepEqual(rows.map((row) => row.slice(0, 7)), due.map((item) => keys.map((key) => item[key])), name);
      assert.deepEqual(rows.map((row) => [row[8], row[9], row[10], row[11], row[13] || null]),
        due.map((item) => [item.collection_date, item.mandate, item.mandate_date, item.sequence, item.looks_doubled]), name);
    }
  }],
  ['two files compared', () => {
    const accepted = FILES.filter(({ bytes }) => page('records', { message: bytes }) !== null).slice(0, 14);
    const some = [...accepted, FILES.find(({ name }) => name === 'october.xml')];
    for (const one of some) {
      for (const other of some) {
        const { words, verdict } = told('same', { name: one.name, message: one.bytes, otherName: other.name, otherMessage: other.bytes });
        const due = command(here, '--de', 'same', one.name, other.name).toString();
        if (verdict === 'refused') assert.ok(due.startsWith(words[1]), one.name);
        else assert.equal(words[1], due, `${one.name}, ${other.name}`);
      }
    }
    return `${some.length ** 2} pairs`;
  }],
  ['single values of every kind', () => {
    const values = ['DE87200500001234567890', 'DE8720050000123456789', '', 'A', '12.34', '12,34', '0', '2026-02-30', '2026-10-25T02:30:00+02:00', 'HAFNDEHHXXX',
      '1AFNDEHHXXX', 'DE98ZZZ09999999999', ' RENT 2023 04 ', 'a//b', 'é', '<b>', 'x'.repeat(141)];
    for (const [kind] of KINDS) {
      for (const value of values.slice(kind === 'iban' ? 0 : 3)) {
        const { words } = told('check', { name: kind, message: value });
        LANGUAGES.forEach((language, at) => assert.equal(`${words[at]}\n`, command(here, language, 'check', kind, value).toString()));
      }
    }
    assert.equal(page('check', { name: 'none', message: 'x' }), null);
  }],
  ['the pages of the refusals', () => {
    const squeezed = (text) => text.replace(/\s+/g, ' ').trim();
    for (const { number, sentence, rows } of told('pages', {})) {
      LANGUAGES.forEach((language, at) => {
        const due = squeezed(command(here, language, 'explain', String(number)).toString());
        const all = [`${number} ${sentence[at]}`, ...rows.map(([label, text]) => `${label[at]} ${text[at]}`)].join(' ');
        assert.equal(squeezed(all), due);
      });
    }
  }],
  ['what several files come to', () => {
    const names = FILES.slice(0, 12).map(({ name }) => name);
    const verdicts = command(here, '--plain', 'judge', ...names).toString().split('\n').map((line) => line.split('\t')[0]).filter(Boolean);
    const closing = told('closing', { message: verdicts.join('\n') });
    LANGUAGES.forEach((language, at) => {
      assert.ok(command(here, language, 'judge', ...names).toString().endsWith(closing[at]), closing[at]);
    });
  }],
  ['the day book, call by call', () => {
    writeFileSync(join(here, 'day.book'), 'enter evening.xml\nenter evening.xml\nenter partner.xml\nenter october.xml\nwithdraw CORE BULK-2026-10-28-EVENING HAFNDEHHXXX 2026-10-30\n');
    const due = command(here, '--de', 'book', 'day.book').toString();
    let [book, all] = [new Uint8Array(0), ''];
    const call = (name, lent, ...numbers) => {
      const made = ask(module, name, { ...lent, book }, ...numbers);
      assert.equal(made.status, 0);
      book = made.book;
      all += JSON.parse(decoder.decode(made.answer)).words[1];
    };
    for (const name of ['evening.xml', 'evening.xml', 'partner.xml', 'october.xml']) {
      call('enter', { name: encoder.encode(name), message: FILES.find((file) => file.name === name).bytes });
    }
    call('withdraw', {}, 0);
    assert.equal(all, due);
  }],
]);
