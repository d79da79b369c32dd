// The module: the proved library and the command's own parts, in WebAssembly. Each call has a memory of its own.

const SLOTS = { name: 0, message: 1, otherName: 2, otherMessage: 3, book: 4 };

// What a call comes to.
export const ANSWERED = 0;
export const REFUSED = 1;
export const DISAGREED = 2;

// A copy of bytes that lie in the module's memory.
function copied(exports, at, length) {
  return new Uint8Array(exports.memory.buffer, at, length).slice();
}

// Lends bytes in slots.
export function lend(exports, lent) {
  for (const [slot, bytes] of Object.entries(lent)) {
    const at = exports.page_lend(SLOTS[slot], bytes.length);
    new Uint8Array(exports.memory.buffer, at >>> 0, bytes.length).set(bytes);
  }
}

// A fresh instance: nothing of an earlier file is in its memory.
export function fresh(module) {
  return new WebAssembly.Instance(module, {}).exports;
}

// One call on what is lent: its status, its answer, and the day book behind it where it has one. A module that runs out of
// memory or stack throws, and there is no answer.
export function ask(module, call, lent, ...numbers) {
  const exports = fresh(module);
  lend(exports, lent);
  const status = exports[`page_${call}`](...numbers);
  const answer = copied(exports, exports.page_answer() >>> 0, exports.page_answer_length());
  const book = copied(exports, exports.page_book() >>> 0, exports.page_book_length());
  return { status, answer, book };
}
