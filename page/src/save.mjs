// Saving what is made of a bulk.

import { call } from './asking.mjs';
import { language } from './language.mjs';
import { judgedFile } from './files.mjs';
import { make } from './dom.mjs';

// The name of a file without its ending.
function stem(name) {
  return name.replace(/\.[^.]*$/, '') || name;
}

// Hands bytes to the browser, to be saved under a name.
function download(bytes, name, type) {
  const address = URL.createObjectURL(new Blob([bytes], { type }));
  const link = make('a', { href: address, download: name, hidden: true });
  document.body.append(link);
  link.click();
  link.remove();
  setTimeout(() => URL.revokeObjectURL(address), 60000);
}

// What can be saved: the call that makes it, the ending of its name, its type.
const MADE = {
  records: ['.records', 'application/octet-stream'],
  plain: ['.plain.xml', 'application/octet-stream'],
  csv: ['.csv', 'text/csv'],
};

// Makes one of them of a judged file, and saves it.
export async function save(file, what) {
  const [lent, expected] = judgedFile(file);
  const numbers = what === 'csv' ? [language()] : [];
  const { answer } = await call(what, lent, { numbers, expected });
  const [ending, type] = MADE[what];
  download(answer, `${stem(file.name)}${ending}`, type);
  return `${stem(file.name)}${ending}`;
}
