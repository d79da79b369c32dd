// The page in a real browser: browser.mjs Chromium|Firefox. It opens the file as she does, and looks at what she sees.

import assert from 'node:assert/strict';
import { createHash } from 'node:crypto';
import { existsSync, readFileSync, truncateSync, writeFileSync } from 'node:fs';
import { createServer } from 'node:http';
import { join } from 'node:path';
import { begin, pause, until } from './driver.mjs';
import { command, folder, manyItems, PAGE, ROOT, run, samples } from './common.mjs';

const name = process.argv[2];
const here = folder('browser');
const saved = join(here, 'saved');
const SAMPLES = samples().map((sample) => sample.name);
for (const sample of samples()) writeFileSync(join(here, sample.name), sample.bytes);

const browser = await begin(name, saved, { language: 'de' });
const path = (file) => join(here, file);
const cards = '#cards .card';

// The visible text of every card, by the name of its file.
function texts() {
  return browser.run(`
    const all = [...document.querySelectorAll('${cards}')];
    return Object.fromEntries(all.map((card) => [card.querySelector('h3').textContent, card.innerText]));`);
}

// Chooses files, and waits until each has its card and no card waits.
async function choose(...files) {
  const before = await browser.run(`return document.querySelectorAll('${cards}').length`);
  await browser.type('#choose', files.map(path).join('\n'));
  const done = `
    const all = document.querySelectorAll('${cards}').length;
    return all === ${before + files.length} && !document.querySelector('${cards}[data-verdict=judging]');`;
  await until(`${files} judged`, () => browser.run(done));
}

// Empties the list.
const clear = () => browser.run("const button = document.getElementById('clear'); if (!button.hidden) button.click()");

// A button of a file's card, by what it does.
async function press(file, what) {
  await browser.run(`
    const all = [...document.querySelectorAll('${cards}')];
    for (const card of all) card.id = '';
    all.find((card) => card.querySelector('h3').textContent === arguments[0]).id = 'it';`, file);
  await browser.run('document.querySelector(arguments[0]).scrollIntoView({ block: "center" })', `#it [data-do=${what}]`);
  await browser.click(`#it [data-do=${what}]`);
}

// A file that the browser saves, when it is whole.
async function savedFile(file) {
  const whole = join(saved, file);
  await until(`${file} saved`, () => existsSync(whole) && !existsSync(`${whole}.part`) && readFileSync(whole).length > 0);
  await pause(100);
  return readFileSync(whole);
}

// A key, so many times.
const key = (value, times = 1) => browser.keys(Array.from({ length: times }, () => [{ type: 'keyDown', value }, { type: 'keyUp', value }]).flat());
const KEYS = { tab: '\ue004', enter: '\ue007', right: '\ue014', space: ' ' };

// Presses Tab until something holds of the element with the focus.
async function tabTo(what, holds) {
  for (let times = 0; times < 60; times += 1) {
    if (await browser.run(`const at = document.activeElement; return ${holds}`)) return;
    await key(KEYS.tab);
  }
  throw new Error(`${what} is not reached by Tab`);
}

// What each card of the samples must show, as the command tells it in a language.
function due(language) {
  const lines = command(here, '--json', language, 'judge', ...SAMPLES).toString().trim().split('\n');
  return lines.map((line) => JSON.parse(line));
}

// Holds what is seen of the samples against the command.
async function samplesIn(language, accepted, refused) {
  const seen = await texts();
  for (const told of due(language)) {
    const text = seen[told.file];
    const word = told.verdict === 'accepted' ? accepted : `${refused}\\s*${told.number}`;
    assert.match(text, new RegExp(word), told.file);
    const signed = [told.msg_id, told.settlement_date, told.instrument, told.version];
    const refusal = [told.meaning, `${told.line}, ${told.column}`, told.element, told.tx_id];
    const parts = told.verdict === 'accepted' ? signed : refusal;
    for (const part of parts.filter(Boolean)) assert.ok(text.includes(part), `${told.file}: ${part}\n${text}`);
    for (const group of [...told.doubled, ...told.looks_doubled]) assert.ok(text.includes(group.items.join(', ')), `${told.file}: doubled`);
  }
  return `${SAMPLES.length} samples`;
}

// The first test of all: German is the language of this browser.
async function opened() {
  await browser.size(1280, 900);
  await browser.open(`file://${PAGE}`);
  assert.equal(await browser.run('return document.documentElement.lang'), 'de');
  assert.equal(await browser.text('#tab-judge'), 'Prüfen');
}

async function inBothLanguages() {
  await choose(...SAMPLES);
  await samplesIn('--de', 'Angenommen', 'Abgelehnt');
  await browser.run('window.scrollTo(0, 0)');
  await browser.click('#language-en');
  assert.equal(await browser.text('#tab-judge'), 'Judge');
  assert.equal(await browser.run('return document.title'), 'Bulk: the judge of direct-debit bulks');
  const told = await samplesIn('--en', 'Accepted', 'Refused');
  const closing = command(here, '--en', 'judge', ...SAMPLES).toString().trim().split('\n').at(-1);
  assert.equal(await browser.text('#closing'), closing);
  await browser.open(`file://${PAGE}`);
  assert.equal(await browser.text('#tab-judge'), 'Judge', 'the choice is remembered');
  return told;
}

async function dropped() {
  await browser.run(`
    const dropped = new DataTransfer();
    dropped.items.add(new File([arguments[0]], 'dropped.xml'));
    dropped.items.add(new File(['<a'], 'broken.xml'));
    window.dispatchEvent(new DragEvent('drop', { dataTransfer: dropped, bubbles: true, cancelable: true }));`, readFileSync(path('evening.xml'), 'utf8'));
  const done = `return document.querySelectorAll('${cards}[data-verdict=accepted], ${cards}[data-verdict=refused]').length === 2`;
  await until('both are judged', () => browser.run(done));
  const seen = await texts();
  assert.match(seen['dropped.xml'], /Accepted/);
  assert.match(seen['broken.xml'], /Refused\s*[23]/);
  await clear();
}

async function october() {
  await choose('october.xml');
  await press('october.xml', 'items');
  await until('rows', () => browser.run('return document.querySelectorAll("#it .items tbody tr:not(.spacer)").length === 7'));
  const rows = await browser.run(`
    const cell = (row, at) => row.children[at].textContent;
    return [...document.querySelectorAll('#it .items tr.marked')].map((row) => cell(row, 0) + ' ' + cell(row, 1));`);
  assert.deepEqual(rows, ['2 same TxId as 3', '3 same TxId as 2', '5 same TxId as 6', '6 same TxId as 5']);
  assert.match(await browser.text('#it'), /they were not judged/);
  await browser.click('#it .only-marked');
  assert.equal(await browser.run('return document.querySelectorAll("#it .items tbody tr:not(.spacer)").length'), 4);
}

// Where only the count or the total is wrong, the items are in order by themselves, and are shown.
async function countAndTotal() {
  await clear();
  const evening = readFileSync(path('evening.xml'), 'utf8');
  writeFileSync(path('count.xml'), evening.replace('<NbOfTxs>5<', '<NbOfTxs>6<'));
  writeFileSync(path('total.xml'), evening.replace('2024.90', '2024.91'));
  await choose('count.xml', 'total.xml');
  for (const [file, number, against] of [['count.xml', 14, 'The header says 6, the bulk has 5 items.'], ['total.xml', 15, '(0.01 EUR less)']]) {
    const text = (await texts())[file];
    assert.match(text, new RegExp(`Refused\\s*${number}`));
    assert.ok(text.includes(against), text);
    await press(file, 'items');
    await until('rows', () => browser.run('return document.querySelectorAll("#it .items tbody tr:not(.spacer)").length === 5'));
    assert.match(await browser.text('#it .sums tfoot'), /2,024\.90 EUR/);
    assert.match(await browser.text('#it .note'), /but the bulk is refused/);
  }
}

async function explained() {
  await clear();
  await choose('digit-too-many.xml');
  await browser.click(`${cards} summary`);
  const page = command(here, '--en', 'explain', '19').toString().replace(/\s+/g, ' ');
  await until('the page', () => browser.run('return document.querySelectorAll("#cards .page dd").length > 0'));
  const shown = await browser.run('return [...document.querySelectorAll("#cards .page dd")].map((part) => part.textContent)');
  for (const part of shown) assert.ok(page.includes(part.replace(/\s+/g, ' ')), part);
  const [before, mark] = await browser.run(`
    const line = document.querySelector('.excerpt');
    return [line.firstChild.textContent, line.querySelector('mark').textContent];`);
  assert.ok(before.endsWith('<IBAN>') && mark === 'D', `${before} ${mark}`);
}

async function hostile() {
  await clear();
  const evening = readFileSync(path('evening.xml'), 'utf8');
  const bad = '"><img src=x onerror=window.hit=1><script>window.hit=2</script>\u001b[31m\u202e';
  const file = '<img src=x onerror=window.hit=3>.xml';
  writeFileSync(path(file), evening.replace('Anna Gluehbirne', bad));
  writeFileSync(path('quoted.xml'), evening.replace('BULK-2026-10-28-EVENING', "O'(b):+.,?/x").replace('Anna Gluehbirne', "A'b (c) + d"));
  await choose(file, 'quoted.xml');
  await press('quoted.xml', 'items');
  await until('rows', () => browser.run('return document.querySelectorAll("#it .items tbody tr:not(.spacer)").length === 5'));
  const seen = await texts();
  assert.ok(seen[file].includes('"><img src=x onerror=window.hit=1>'), seen[file]);
  assert.ok(Object.values(seen).every((text) => !/[\u001b\u202e]/.test(text)));
  assert.deepEqual(await browser.run('return [window.hit ?? null, document.querySelectorAll("#screen img, #screen script").length]'), [null, 0]);
}

async function absurd() {
  await clear();
  writeFileSync(path('empty.xml'), '');
  writeFileSync(path('rubbish.bin'), Buffer.from(Array.from({ length: 100000 }, (_, at) => (at * 7919) % 256)));
  writeFileSync(path('huge.xml'), '');
  truncateSync(path('huge.xml'), 200 * 1024 * 1024);
  await choose('empty.xml', 'rubbish.bin', 'huge.xml', 'evening.xml');
  const seen = await texts();
  assert.match(seen['empty.xml'], /Refused\s*3/);
  assert.match(seen['rubbish.bin'], /Refused\s*2/);
  assert.match(seen['huge.xml'], /Refused\s*1\b/);
  await browser.run('window.print = () => { window.printed = 9; }');
  await press('huge.xml', 'print');
  await until('printed', () => browser.run('return window.printed === 9'));
  assert.doesNotMatch(await browser.run('return document.getElementById("sheet").textContent'), /SHA-256[0-9a-f]/, 'no hash of a part');
  assert.match(seen['evening.xml'], /Accepted/);
  writeFileSync(path('moved.xml'), readFileSync(path('evening.xml')));
  await choose('moved.xml');
  writeFileSync(path('moved.xml'), 'another');
  await press('moved.xml', 'records');
  await until('it is told', async () => /could not be read|has changed since/.test(await browser.text('#it .said')));
}

async function tenThousand() {
  await clear();
  writeFileSync(path('many.xml'), manyItems(10000));
  await browser.run(`
    const watched = document.getElementById('cards');
    document.getElementById('choose').addEventListener('change', () => { window.begun = performance.now(); }, { capture: true, once: true });
    const seen = new MutationObserver(() => {
      const open = watched.querySelector('[data-do=items]:not([aria-expanded])');
      if (open) open.click();
      if (watched.querySelectorAll('.items tbody tr').length < 20) return;
      seen.disconnect();
      requestAnimationFrame(() => { window.taken = performance.now() - window.begun; });
    });
    window.taken = null;
    seen.observe(watched, { childList: true, subtree: true });`);
  await choose('many.xml');
  const taken = await until('the table', () => browser.run('return window.taken'));
  assert.ok(taken < 2000, `${taken} ms`);
  const spent = await browser.run(`
    const box = document.querySelector('.scroll'), begun = performance.now();
    for (let at = 0; at < 100; at += 1) { box.scrollTop = at * 3000; box.dispatchEvent(new Event('scroll')); box.getBoundingClientRect(); }
    return (performance.now() - begun) / 100`);
  assert.ok(spent < 100, `${spent} ms for a step`);
  await browser.run('document.querySelector(".scroll").scrollTop = 1e9');
  await until('the last row', () => browser.run('return [...document.querySelectorAll(".items tbody tr:not(.spacer)")].at(-1).children[0].textContent === "10000"'));
  assert.ok(await browser.run('return document.querySelectorAll(".items tr").length < 120'));
  return `${Math.round(taken)} ms from the choice to the table, ${spent.toFixed(1)} ms for a step of scrolling`;
}

async function sortedAndFiltered() {
  const first = (at) => browser.run(`
    const column = [...document.querySelectorAll('.items th')].findIndex((cell) => cell.dataset.at === arguments[0]);
    return document.querySelector('.items tbody tr:not(.spacer)').children[column].textContent;`, at);
  await browser.run('document.querySelector(".scroll").scrollTop = 0');
  await browser.click('.items th[data-at="3"] button');
  assert.equal(await first('3'), 'RENT-000000');
  await browser.click('.items th[data-at="3"] button');
  assert.equal(await first('3'), 'RENT-009999');
  assert.equal(await browser.run('return document.querySelector(".items th[data-at=\\"3\\"]").getAttribute("aria-sort")'), 'descending');
  await browser.type('.filter', 'tx-0042');
  assert.match(await browser.text('.tools [role=status]'), /^100 of 10,000 shown$/);
  await browser.click('#language-de');
  assert.match(await browser.text('.tools [role=status]'), /^100 von 10\.000 angezeigt$/);
  assert.equal(await first('6'), '845,00');
  await browser.click('#language-en');
}

async function savedWhole() {
  await clear();
  await choose('evening-indented.xml', 'alike.xml');
  await press('evening-indented.xml', 'records');
  assert.ok(command(here, 'records', 'evening-indented.xml', '-').equals(await savedFile('evening-indented.records')));
  await press('evening-indented.xml', 'plain');
  assert.ok(command(here, 'plain', 'evening-indented.xml', '-').equals(await savedFile('evening-indented.plain.xml')));
  await press('alike.xml', 'csv');
  assert.ok(command(here, 'items', '--csv', '--en', 'alike.xml').equals(await savedFile('alike.csv')));
}

async function dayBook() {
  await clear();
  await choose('evening.xml', 'partner.xml');
  for (const file of ['evening.xml', 'evening.xml', 'partner.xml']) {
    await press(file, 'enter');
    await until('told', async () => (await browser.text('#it .said')) !== '');
  }
  await browser.click('#tab-book');
  const lines = await browser.run('return [...document.querySelectorAll("#calls li")].map((line) => line.dataset.verdict)');
  assert.deepEqual(lines, ['entered', 'refused', 'entered']);
  writeFileSync(path('day.book'), 'enter evening.xml\nenter partner.xml\ntotal\n');
  const total = command(here, '--en', 'book', 'day.book').toString().trim().split('\n').at(-1).match(/[\d,.]+ EUR/)[0];
  assert.ok((await browser.text('#open')).includes(total), total);
  await browser.click('#open tbody tr:nth-child(1) [data-do=withdraw]');
  await until('one is left', () => browser.run('return document.querySelectorAll("#open tbody tr").length === 1'));
  await browser.click('#open tbody tr:nth-child(1) [data-do=withdraw]');
  await until('none is left', async () => (await browser.text('#open')).includes('No bulk is open'));
  await browser.click('#tab-judge');
}

async function printed() {
  await clear();
  await choose('evening.xml', 'october.xml');
  await browser.run('window.printed = 0; window.print = () => { window.printed += 1; }');
  await press('evening.xml', 'print');
  await until('printed', () => browser.run('return window.printed === 1'));
  const sheet = await browser.run('return document.getElementById("sheet").textContent');
  const bytes = readFileSync(path('evening.xml'));
  const sha = createHash('sha256').update(bytes).digest('hex');
  const parts = ['evening.xml', '5,402 bytes', sha, 'Accepted', '2,024.90 EUR', 'RCUR, recurrent', '1,965.50 EUR', 'Signature'];
  for (const part of [...parts, String(new Date().getFullYear())]) assert.ok(sheet.includes(part), `${part}: ${sheet}`);
  const pdf = Buffer.from(await browser.pdf(), 'base64').toString('latin1');
  assert.ok(pdf.startsWith('%PDF-') && pdf.length > 3000);
  writeFileSync(join(ROOT, `target/page/sheet-${name}.pdf`), pdf, 'latin1');
  await press('october.xml', 'print');
  await until('printed', () => browser.run('return window.printed === 2'));
  assert.match(await browser.run('return document.getElementById("sheet").textContent'), /Refused.*not to be signed/s);
}

async function compared() {
  const pair = async (one, other) => {
    await browser.type('#first-file', path(one));
    await until('the first', () => browser.run('return document.getElementById("first-bulk").value !== ""'));
    await browser.type('#second-file', path(other));
    await until('compared', () => browser.run('return document.querySelector("#compared .told") !== null'));
    const told = await browser.text('#compared');
    await browser.click('#tab-judge');
    await clear();
    await browser.click('#tab-compare');
    await browser.run('document.getElementById("compared").replaceChildren()');
    return told;
  };
  await clear();
  await browser.click('#tab-compare');
  assert.match(await pair('evening-indented.xml', 'evening-padded.xml'), /The same/);
  assert.match(await pair('evening.xml', 'evening08.xml'), /Different[^]*pacs\.003\.001\.02[^]*pacs\.003\.001\.08/);
  assert.match(await pair('evening.xml', 'october.xml'), /Not compared/);
}

async function checked() {
  await browser.click('#tab-check');
  await browser.type('#value', 'DE8720050000123456789');
  await until('refused', async () => /Refused[^]*19/.test(await browser.text('#checked')));
  await browser.type('#value', '0');
  await until('accepted', async () => /Accepted/.test(await browser.text('#checked')));
  assert.equal(await browser.text('#checked .told'), command(here, '--en', 'check', 'iban', 'DE87200500001234567890').toString().trim());
}

async function keyboard() {
  await browser.open(`file://${PAGE}`);
  await tabTo('the language', 'at.id === "language-de"');
  await key(KEYS.enter);
  assert.equal(await browser.text('#tab-judge'), 'Prüfen');
  await tabTo('the tabs', 'at.id === "tab-judge"');
  await key(KEYS.right, 2);
  await tabTo('the value', 'at.id === "value"');
  await browser.keys([...'DE1'].flatMap((value) => [{ type: 'keyDown', value }, { type: 'keyUp', value }]));
  await until('checked', async () => /Abgelehnt/.test(await browser.text('#checked')));
  await browser.run('document.getElementById("tab-check").focus()');
  await key('\ue011');
  await tabTo('the choice of files', 'at.id === "choose"');
  await choose('evening.xml');
  await tabTo('the items', 'at.dataset.do === "items"');
  await key(KEYS.enter);
  await until('rows', () => browser.run('return document.querySelectorAll(".items tbody tr").length > 4'));
  await tabTo('the table', 'at.classList.contains("scroll")');
  await browser.run('window.print = () => { window.printed = 1; }');
  await browser.run('document.querySelector("[data-do=items]").focus()');
  await tabTo('the print button', 'at.dataset.do === "print"');
  await key(KEYS.space);
  await until('printed', () => browser.run('return window.printed === 1'));
}

async function named() {
  const bare = await browser.run(`
    const named = (one) => one.getAttribute('aria-label') || one.labels?.length || one.textContent.trim() || one.getAttribute('aria-labelledby');
    const all = document.querySelectorAll('button, input, select, [role=region], [role=tabpanel], [role=group], summary');
    return [...all].filter((one) => !named(one)).map((one) => one.outerHTML)`);
  assert.deepEqual(bare, []);
  const unknown = await browser.run(`
    const named = (one) => one.getAttribute('aria-controls') ?? one.getAttribute('aria-labelledby') ?? one.htmlFor;
    const all = document.querySelectorAll('[aria-controls], [aria-labelledby], label[for]');
    return [...all].map(named).filter((id) => !document.getElementById(id))`);
  assert.deepEqual(unknown, []);
}

async function narrow() {
  await choose('october.xml', 'digit-too-many.xml');
  for (const width of [640, 500]) {
    await browser.size(width, 800);
    for (const view of ['judge', 'compare', 'check', 'book', 'refusals']) {
      await browser.run(`document.getElementById('tab-${view}').click()`);
      const [wide, seen] = await browser.run('return [document.documentElement.scrollWidth, document.documentElement.clientWidth]');
      assert.ok(wide <= seen, `${view} at ${seen}: ${wide}`);
    }
  }
  await browser.run("document.getElementById('tab-judge').click(); document.documentElement.style.fontSize = '200%'");
  const [wide, seen] = await browser.run('return [document.documentElement.scrollWidth, document.documentElement.clientWidth]');
  assert.ok(wide <= seen, `letters twice as large at ${seen}: ${wide}`);
}

async function noRequest() {
  const heard = await browser.heard();
  assert.deepEqual(heard.console, []);
  const outside = heard.requests.filter((url) => !url.startsWith(`file://${PAGE}`) && !url.startsWith('blob:') && !url.startsWith('data:'));
  assert.deepEqual(outside, []);
}

// Copies of the page whose worker runs out of stack, out of memory, or finds an old browser. (The policy names the page's own
// script and not the worker's, which is text until it runs.)
async function stopped() {
  const page = readFileSync(PAGE, 'utf8');
  const call = 'const status = exports[';
  const copy = async (file, text) => {
    assert.notEqual(text, page);
    writeFileSync(path(file), text);
    await browser.open(`file://${path(file)}`);
    await browser.click('#language-en');
  };
  for (const [file, stop] of [['stack.html', '(function deep() { deep(); })();'], ['memory.html', 'exports.page_lend(1, 0xfff00000);']]) {
    await copy(file, page.replace(call, `if (call === 'judge') { ${stop} } ${call}`));
    await choose('evening.xml');
    const seen = (await texts())['evening.xml'];
    assert.match(seen, /No verdict[^]*out of memory or stack/);
    assert.doesNotMatch(seen, /Accepted|Refused/);
    await browser.click('#tab-check');
    await browser.type('#value', 'DE87200500001234567890');
    await until('the rest goes on', async () => /Accepted/.test(await browser.text('#checked')));
  }
  await copy('old.html', page.replace('async function unpacked(text) {', 'async function unpacked(text) { const DecompressionStream = undefined;'));
  await until('it is told', async () => /too old/.test(await browser.text('#too-old')));
  await browser.open(`file://${PAGE}`);
}

// That the policy holds, and that an error would be heard: a request and an error are tried.
async function wouldBeSeen() {
  let asked = 0;
  const server = createServer((request, response) => {
    asked += 1;
    response.end();
  });
  await new Promise((done) => { server.listen(0, '127.0.0.1', done); });
  const address = `http://127.0.0.1:${server.address().port}/`;
  await browser.run(`window.refused = null; fetch(arguments[0]).then(() => { window.refused = false; }, () => { window.refused = true; });
    const image = new Image(); image.src = arguments[0]; document.body.append(image); setTimeout(() => { throw new Error('probe'); });`, address);
  await until('the request is refused', () => browser.run('return window.refused !== null'));
  assert.equal(await browser.run('return window.refused'), true);
  await pause(300);
  const heard = await browser.heard();
  assert.ok(heard.console.some((line) => line.includes('probe')), JSON.stringify(heard.console));
  assert.equal(asked, 0);
  // The worker is under the same policy: a copy of the page whose worker asks too.
  const head = 'async function unpacked(text) {';
  writeFileSync(path('asking.html'), readFileSync(PAGE, 'utf8').replace(head, `${head} self.tried = fetch('${address}').catch(() => {}); await self.tried;`));
  await browser.open(`file://${path('asking.html')}`);
  await choose('evening.xml');
  assert.equal(Object.keys(await texts()).length, 1);
  assert.equal(asked, 0, 'from the worker');
  server.close();
}

const failed = await run([
  ['opened from the disk, in the language of the browser', opened],
  ['each sample as the command tells it, in both languages; the choice is remembered', inBothLanguages],
  ['files dropped', dropped],
  ["October's doubled items are marked", october],
  ['items where the count or the total is wrong', countAndTotal],
  ['the page of the refusal, and the excerpt', explained],
  ['markup and escapes in values and names are shown as text', hostile],
  ['empty, broken, huge and changed files are told', absurd],
  ['10,000 items', tenThousand],
  ['sorted, filtered', sortedAndFiltered],
  ['records, plain form and CSV saved, byte for byte', savedWhole],
  ['the day book', dayBook],
  ['the sheet', printed],
  ['two bulks compared', compared],
  ['a value checked while it is typed', checked],
  ['with the keyboard alone', keyboard],
  ['everything has a name', named],
  ['narrow windows, and letters twice as large', narrow],
  ['no request was made, no error in the console', noRequest],
  ['out of stack, out of memory, an old browser: told, and never a verdict', stopped],
  ['a request would be refused, an error would be seen', wouldBeSeen],
]);
await browser.end();
process.exit(failed === 0 ? 0 : 1);
