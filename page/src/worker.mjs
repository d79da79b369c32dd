// The worker: files are read and judged here, so that the window never waits.

import { MOST } from './limit.mjs';
import { ANSWERED, DISAGREED, ask } from './module.mjs';

const encoder = new TextEncoder();
let ready = null;

// The module from its packed text.
async function unpacked(text) {
  const packed = Uint8Array.from(atob(text.trim()), (letter) => letter.charCodeAt(0));
  const plain = new Blob([packed]).stream().pipeThrough(new DecompressionStream('gzip'));
  return WebAssembly.compile(await new Response(plain).arrayBuffer());
}

// The bytes of what is lent: of a file no more than the judge takes and one, and of a text its UTF-8.
async function bytesOf(lent) {
  if (typeof lent === 'string') return encoder.encode(lent);
  if (lent instanceof Uint8Array) return lent;
  try {
    return new Uint8Array(await lent.slice(0, MOST + 1).arrayBuffer());
  } catch {
    throw new Error('unreadable');
  }
}

// The SHA-256 of a file's bytes, in hexadecimal digits.
async function sha256(bytes) {
  const digest = new Uint8Array(await crypto.subtle.digest('SHA-256', bytes));
  return Array.from(digest, (byte) => byte.toString(16).padStart(2, '0')).join('');
}

// Reads all that is lent. A file that was judged before must still have the bytes that were judged.
async function read(lent, expected) {
  const bytes = {};
  let sha = null;
  for (const [slot, what] of Object.entries(lent)) {
    bytes[slot] = await bytesOf(what);
    if (!(what instanceof Blob)) continue;
    const own = await sha256(bytes[slot]);
    const isOther = expected[slot] && expected[slot] !== own;
    if (isOther || bytes[slot].length !== Math.min(what.size, MOST + 1)) throw new Error('changed');
    if (slot === 'message') sha = own;
  }
  return { bytes, sha };
}

// One call. Whatever goes wrong is told as an error: there is never a verdict then.
async function answered({ call, lent, numbers, expected }) {
  const module = await ready;
  const { bytes, sha } = await read(lent, expected);
  let told;
  try {
    told = ask(module, call, bytes, ...numbers);
  } catch {
    throw new Error('broken');
  }
  if (told.status === DISAGREED) throw new Error('disagreed');
  if (told.status !== ANSWERED) throw new Error('refusedNow');
  return { answer: told.answer, book: told.book, sha };
}

// The first message has the module, each other a call.
self.onmessage = async ({ data }) => {
  if (data.start) {
    ready = unpacked(data.start);
    ready.then(() => self.postMessage({ started: true }), () => self.postMessage({ started: false }));
    return;
  }
  try {
    self.postMessage({ id: data.id, ...(await answered(data)) });
  } catch (error) {
    self.postMessage({ id: data.id, error: error.message });
  }
};
