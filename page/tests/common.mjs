// What the tests share: the module, the samples, the command, messages made from the evening.

import { spawnSync } from 'node:child_process';
import { mkdtempSync, readdirSync, readFileSync, rmSync } from 'node:fs';
import { tmpdir } from 'node:os';
import { dirname, join } from 'node:path';
import { fileURLToPath } from 'node:url';

export const ROOT = dirname(dirname(dirname(fileURLToPath(import.meta.url))));
export const PAGE = join(ROOT, 'target/page/bulk.html');
const COMMAND = join(ROOT, 'target/front/bulk');

// The module that is in the page.
export function theModule() {
  return new WebAssembly.Module(readFileSync(join(ROOT, 'target/page/bulk.wasm')));
}

// A folder of its own, removed at the end.
export function folder(name) {
  const path = mkdtempSync(join(tmpdir(), `page-${name}-`));
  process.once('exit', () => rmSync(path, { recursive: true, force: true }));
  return path;
}

// The sample messages: names and bytes.
export function samples() {
  const names = readdirSync(join(ROOT, 'samples')).filter((name) => name.endsWith('.xml'));
  return names.map((name) => ({ name, bytes: readFileSync(join(ROOT, 'samples', name)) }));
}

// What the command answers: its bytes on standard output. A status of 2 is a fault of the test.
export function command(cwd, ...words) {
  const told = spawnSync(COMMAND, words, { cwd, maxBuffer: 1 << 28, env: { LC_ALL: 'C' } });
  if (told.error || told.status === 2 || told.status === null) throw new Error(`bulk ${words.join(' ')}: ${told.error ?? told.stderr}`);
  return told.stdout;
}

// The cases of front/differ with the library's own answers, one after the other (front/differ/src/answers.rs).
export function* cases(file) {
  const all = readFileSync(file);
  let at = 0;
  const number = () => all.readUInt32LE((at += 4) - 4);
  const word = () => all.readBigUInt64LE((at += 8) - 8);
  const bytes = () => {
    const length = number();
    return all.subarray((at += length) - length, at);
  };
  while (at < all.length) {
    const message = bytes();
    const judge = [word(), word(), word()];
    const items = Array.from({ length: number() }, () => [word(), [word(), word(), word()]]);
    yield { message, judge, items, records: bytes(), plain: bytes() };
  }
}

// The evening's first item so many times, each with a TxId of its own; count and total fit.
export function manyItems(count) {
  const evening = readFileSync(join(ROOT, 'samples/evening.xml'), 'latin1');
  const [head] = evening.split('<DrctDbtTxInf>');
  const item = evening.match(/<DrctDbtTxInf>.*?<\/DrctDbtTxInf>/s)[0];
  const total = (845 * count).toFixed(2);
  const fitting = head.replace(/<NbOfTxs>.*?</, `<NbOfTxs>${count}<`).replace(/(<TtlIntrBkSttlmAmt Ccy="EUR">).*?</, `$1${total}<`);
  const items = Array.from({ length: count }, (_, at) => item.replace(/<TxId>.*?</, `<TxId>TX-${String(at).padStart(6, '0')}<`)
    .replace(/<EndToEndId>.*?</, `<EndToEndId>RENT-${String((at * 7919) % count).padStart(6, '0')}<`));
  return `${fitting}${items.join('')}</FIToFICstmrDrctDbt></Document>`;
}

// Runs tests by their names, tells each, and ends with 1 where one fails.
export async function run(tests) {
  let failed = 0;
  for (const [name, test] of tests) {
    const begun = Date.now();
    try {
      const more = await test();
      console.log(`  ok: ${name}${more ? `, ${more}` : ''} (${Date.now() - begun} ms)`);
    } catch (error) {
      failed += 1;
      console.log(`  FAILED: ${name}: ${error.stack}`);
    }
  }
  return failed;
}
