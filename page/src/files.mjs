// The files of the window, each with its verdict. They are judged one after the other.

import { callJson } from './asking.mjs';

const files = [];
const listeners = [];
let queue = Promise.resolve();
let next = 1;

// All files, in the order in which they came.
export function allFiles() {
  return files;
}

// Calls a function after each change, with the file that changed, or none where the list itself did.
export function onFiles(listener) {
  listeners.push(listener);
}

// Tells that something has changed.
function changed(file) {
  for (const listener of listeners) listener(file);
}

// The earlier file that has the same MsgId.
function earlierOf(file) {
  const before = files.slice(0, files.indexOf(file));
  return before.find((other) => other.told?.msg_id && other.told.msg_id === file.told.msg_id);
}

// Judges one file, and once more where an earlier one has its MsgId, so that this is told too.
async function judge(file) {
  try {
    const lent = { name: file.name, message: file.file };
    const { answer, sha } = await callJson('judge', lent);
    Object.assign(file, { told: answer, sha, at: new Date(), state: 'judged' });
    const earlier = earlierOf(file);
    file.earlier = earlier ?? null;
    if (earlier) file.told = (await callJson('judge', { ...lent, otherName: earlier.name }, { expected: { message: sha } })).answer;
  } catch (error) {
    Object.assign(file, { state: 'failed', error: error.message, told: null });
  }
  changed(file);
}

// Adds files to the list, each to be judged.
export function addFiles(list) {
  const added = Array.from(list, (file) => ({ id: next++, file, name: file.name, size: file.size, state: 'judging', told: null }));
  files.push(...added);
  changed(null);
  for (const file of added) queue = queue.then(() => judge(file));
  return { added, judged: queue };
}

// Takes a file from the list; those that were told of its MsgId are judged again.
export function removeFile(file) {
  files.splice(files.indexOf(file), 1);
  for (const other of files) if (other.earlier === file) queue = queue.then(() => judge(other));
  changed(null);
}

// Empties the list.
export function clearFiles() {
  files.length = 0;
  changed(null);
}

// What a later call lends of a judged file: its bytes must still be those that were judged.
export function judgedFile(file) {
  return [{ name: file.name, message: file.file }, { message: file.sha }];
}
