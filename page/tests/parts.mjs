// The page's own parts that need no browser: sorting, filtering, the language, times; and that no source writes markup.

import assert from 'node:assert/strict';
import { readdirSync, readFileSync } from 'node:fs';
import { join } from 'node:path';
import { preferred } from '../src/language.mjs';
import { CENTS, DEBTOR, NUMBER, SAME, filtered, sorted } from '../src/rows.mjs';
import { KINDS, WORDS } from '../src/words.mjs';
import { PAGE, ROOT, run } from './common.mjs';

const row = (number, debtor, cents, same = 0, alike = 0) => {
  const euros = (cents / 100).toFixed(2);
  return [number, 0, `TX-${number}`, 'E2E', debtor, 'DE87200500001234567890', cents, [euros, euros.replace('.', ',')], '2026-10-30', 'M', '2026-01-01', 'RCUR', same, alike];
};
const ROWS = [row(1, 'Zoe', 500), row(2, 'Anna', 123456, 4), row(3, 'Anna', 7, 0, 5), row(4, 'Ben', 500, 2), row(5, 'Carl', 7, 0, 3)];
const numbers = (rows) => rows.map((one) => one[NUMBER]);
const sources = readdirSync(join(ROOT, 'page/src')).map((name) => [name, readFileSync(join(ROOT, 'page/src', name), 'utf8')]);

process.exitCode = await run([
  ['sorted by each column, both ways, equal ones in the order of the file', () => {
    assert.deepEqual(numbers(sorted(ROWS, CENTS, false)), [3, 5, 1, 4, 2]);
    assert.deepEqual(numbers(sorted(ROWS, CENTS, true)), [2, 1, 4, 3, 5]);
    assert.deepEqual(numbers(sorted(ROWS, DEBTOR, false)), [2, 3, 4, 5, 1]);
    assert.deepEqual(numbers(sorted(ROWS, SAME, false)), [2, 4, 3, 5, 1]);
    assert.deepEqual(numbers(ROWS), [1, 2, 3, 4, 5]);
  }],
  ['filtered by words, amounts in either spelling, doubled ones alone', () => {
    assert.deepEqual(numbers(filtered(ROWS, 'anna', false)), [2, 3]);
    assert.deepEqual(numbers(filtered(ROWS, 'anna 1234.56', false)), [2]);
    assert.deepEqual(numbers(filtered(ROWS, '1234,56', false)), [2]);
    assert.deepEqual(numbers(filtered(ROWS, '', true)), [2, 3, 4, 5]);
    assert.deepEqual(numbers(filtered(ROWS, 'nobody', false)), []);
    assert.deepEqual(numbers(filtered(ROWS, '.*', false)), []);
  }],
  ['the language: what was chosen, else the browser\'s', () => {
    assert.deepEqual([preferred(null, 'de-AT'), preferred(null, 'en-GB'), preferred(null, 'fr'), preferred(null, undefined)], [1, 0, 0, 0]);
    assert.deepEqual([preferred('en', 'de'), preferred('de', 'en'), preferred(null, 'den')], [0, 1, 0]);
  }],
  ['every text is there in both languages', () => {
    for (const [name, pair] of [...Object.entries(WORDS), ...KINDS]) assert.ok(pair.length === 2 && pair.every((text) => text.length > 0), name);
    const used = new Set(sources.flatMap(([, text]) => [...text.matchAll(/WORDS\.([A-Za-z]+)/g)].map((found) => found[1])));
    const html = readFileSync(join(ROOT, 'page/page.html'), 'utf8');
    for (const found of html.matchAll(/data-(?:words|label)="([A-Za-z]+)"/g)) used.add(found[1]);
    for (const name of used) assert.ok(WORDS[name], name);
    const byName = ['accepted', 'refused', 'unread', 'judging', 'unreadable', 'changed', 'broken', 'disagreed', 'refusedNow', 'FRST', 'RCUR', 'FNAL', 'OOFF'];
    for (const name of Object.keys(WORDS)) assert.ok(used.has(name) || byName.includes(name), `never used: ${name}`);
  }],
  ['no source writes markup, runs text or connects; functions are short', () => {
    for (const [name, text] of sources) {
      assert.ok(!/innerHTML|outerHTML|insertAdjacentHTML|document\.write|eval\(|new Function|fetch\(|XMLHttpRequest|WebSocket|sendBeacon|console\.|https?:/.test(text), name);
      const blocks = text.split(/^(?=(?:export )?(?:async )?function |  [a-z]+\(.*\) \{$|  async [a-z]+\()/m);
      for (const block of blocks.slice(1)) assert.ok(block.split(/^ {0,2}\}$/m)[0].split('\n').length < 40, `${name}: ${block.split('\n')[0]}`);
    }
  }],
  ['one file under 400 KB, whose policy allows no connection', () => {
    const page = readFileSync(PAGE, 'utf8');
    assert.ok(Buffer.byteLength(page) < 400000);
    const [, policy] = page.match(/Content-Security-Policy" content="(.*?)"/);
    for (const due of ["default-src 'none'", "connect-src 'none'", "form-action 'none'", "base-uri 'none'"]) assert.ok(policy.includes(due), due);
    assert.ok(!/unsafe-inline|'unsafe-eval'|https?:|\*/.test(policy), policy);
    assert.ok(!/(src|href)="(?!data:)/.test(page.replace(/<script[^]*?<\/script>/g, '')), 'nothing outside is named');
    return `${Buffer.byteLength(page)} bytes`;
  }],
]);
