// Calls to the worker, one after the other. A worker that fails is replaced; what it was asked is told as an error.

import { byId } from './dom.mjs';

const decoder = new TextDecoder();
const waiting = new Map();
let worker = null;
let next = 1;
let isStarted = false;
let tooOld = () => {};

// The worker's source is in the page. Where the browser guards such addresses, this one is let through.
function source() {
  const address = URL.createObjectURL(new Blob([byId('worker').textContent], { type: 'text/javascript' }));
  const guard = globalThis.trustedTypes?.createPolicy('worker', { createScriptURL: (text) => text });
  return guard ? guard.createScriptURL(address) : address;
}

let address = null;

// A new worker, with the module.
function begin() {
  address = address ?? source();
  worker = new Worker(address);
  worker.onmessage = ({ data }) => heard(data);
  worker.onerror = fallen;
  worker.postMessage({ start: byId('module').textContent });
}

// An answer has come.
function heard(data) {
  if (data.started === true) isStarted = true;
  if (data.started === false) tooOld();
  const asked = waiting.get(data.id);
  if (!asked) return;
  waiting.delete(data.id);
  if (data.error) asked.fail(new Error(data.error));
  else asked.done(data);
}

// The worker itself has failed. One that never started would not start the next time either.
function fallen(event) {
  event.preventDefault();
  worker.terminate();
  const lost = [...waiting.values()];
  waiting.clear();
  if (isStarted) begin();
  else tooOld();
  for (const asked of lost) asked.fail(new Error('broken'));
}

// Begins; `whenTooOld` is called where the browser cannot run the module.
export function beginAsking(whenTooOld) {
  tooOld = whenTooOld;
  try {
    begin();
  } catch {
    tooOld();
  }
}

// One call: what is lent by slot, numbers, and the SHA-256 that a file must still have.
export function call(name, lent, { numbers = [], expected = {} } = {}) {
  return new Promise((done, fail) => {
    const id = next++;
    waiting.set(id, { done, fail });
    worker.postMessage({ id, call: name, lent, numbers, expected });
  });
}

// The same, of a call whose answer is JSON.
export async function callJson(name, lent, more) {
  const told = await call(name, lent, more);
  return { ...told, answer: JSON.parse(decoder.decode(told.answer)) };
}
