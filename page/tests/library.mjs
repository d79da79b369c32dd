// The library in the page's module against the same library on this machine, on the generated cases of front/differ:
// library.mjs CASES. Judge, items, records and plain forms through the C face; then the page's own calls on the same messages.

import assert from 'node:assert/strict';
import { ask, fresh, lend } from '../src/module.mjs';
import { cases, run, theModule } from './common.mjs';

const INDEX = 16384;
const module = theModule();
const decoder = new TextDecoder();

// One call of the C face on an instance: the message, what stands before the index, and the answer's words.
function words(exports, name, message, more, index) {
  const answer = exports.page_lend(0, 24);
  exports[name](message.at, BigInt(message.length), ...more, index, BigInt(INDEX), answer);
  return Array.from(new BigUint64Array(exports.memory.buffer.slice(answer, answer + 24)));
}

// An index with rubbish in it.
function rubbish(exports) {
  const at = exports.page_lend(2, 4 * INDEX);
  new Uint8Array(exports.memory.buffer, at, 4 * INDEX).fill(0xa5);
  return at;
}

// Whether every number of the index is 0.
function isClear(exports, at) {
  return new Uint32Array(exports.memory.buffer.slice(at, at + 4 * INDEX)).every((number) => number === 0);
}

// An area, and what it holds behind the call: it is lent full of another byte.
function area(exports, length, call) {
  const at = exports.page_lend(3, length + 16);
  new Uint8Array(exports.memory.buffer, at, length + 16).fill(0xee);
  const told = call([at, BigInt(length)]);
  const held = Buffer.from(exports.memory.buffer.slice(at, at + length + 16));
  assert.ok(held.subarray(length).every((byte) => byte === 0xee), 'nothing is written behind the area');
  return [told, held.subarray(0, length)];
}

// Holds one case against the module.
function held(one) {
  const exports = fresh(module);
  lend(exports, { message: one.message });
  const message = { at: exports.page_lend(1, one.message.length), length: one.message.length };
  new Uint8Array(exports.memory.buffer, message.at, message.length).set(one.message);
  const asked = (name, more = []) => {
    const index = rubbish(exports);
    const told = words(exports, name, message, more, index);
    assert.ok(isClear(exports, index), `${name} clears the index`);
    return told;
  };
  assert.deepEqual(asked('bulk_judge'), one.judge);
  for (const [i, due] of one.items) assert.deepEqual(asked('bulk_item', [i]), due, `item ${i}`);
  const isAccepted = one.judge[0] === 0n;
  const [ofRecords, records] = area(exports, one.records.length, (lent) => asked('bulk_records', lent));
  assert.deepEqual(ofRecords, one.judge, 'records');
  if (isAccepted) assert.ok(records.equals(one.records), 'the records');
  const [ofPlain, plain] = area(exports, one.plain.length, (lent) => asked('bulk_plain', lent));
  assert.deepEqual(ofPlain, isAccepted ? [0n, BigInt(one.plain.length), 0n] : one.judge, 'plain');
  if (isAccepted) assert.ok(plain.equals(one.plain), 'the plain form');
}

// Holds one case against the page's own calls.
function pageHeld(one) {
  const [number, first, second] = one.judge;
  const told = ask(module, 'judge', { message: one.message });
  const { plain } = JSON.parse(decoder.decode(told.answer));
  assert.equal(plain, number === 0n ? `accepted ${first} ${second}` : `refused ${number} ${first}`);
  for (const what of ['records', 'plain']) {
    const { status, answer } = ask(module, what, { message: one.message });
    assert.equal(status, number === 0n ? 0 : 1, what);
    if (status === 0) assert.ok(one[what].equals(answer), what);
  }
}

const counts = new Map();

process.exitCode = await run([
  ['the generated cases of front/differ', () => {
    let all = 0;
    for (const one of cases(process.argv[2])) {
      held(one);
      if (all % 5 === 0) pageHeld(one);
      all += 1;
      counts.set(Number(one.judge[0]), (counts.get(Number(one.judge[0])) ?? 0) + 1);
    }
    assert.ok(all >= 5000, `${all} cases`);
    assert.ok(counts.size > 15, `only ${counts.size} kinds of verdict`);
    assert.ok(counts.get(0) > 1000, 'many are accepted');
    return `${all} messages, ${counts.get(0)} accepted, ${counts.size - 1} refusal numbers, no difference`;
  }],
  ['out of memory the module stops, and there is no answer', () => {
    assert.throws(() => fresh(module).page_lend(1, 0xfff00000), WebAssembly.RuntimeError);
    assert.throws(() => ask(module, 'judge', { message: { length: 0xfff00000 } }));
  }],
]);
