// Rows of items: sorted by a column, filtered by what she types. A row is as the module answers it.

export const NUMBER = 0;
export const TX_ID = 2;
export const END_TO_END = 3;
export const DEBTOR = 4;
export const IBAN = 5;
export const CENTS = 6;
export const EUROS = 7;
export const DATE = 8;
export const MANDATE = 9;
export const SIGNED = 10;
export const SEQUENCE = 11;
export const SAME = 12;
export const ALIKE = 13;

const texts = new WeakMap();

// All of a row that can be searched, in small letters; amounts as either language writes them.
function searched(row) {
  let text = texts.get(row);
  if (text === undefined) {
    const cells = [TX_ID, END_TO_END, DEBTOR, IBAN, DATE, MANDATE, SIGNED, SEQUENCE].map((at) => row[at]);
    const plain = `${row[EUROS][0].replaceAll(',', '')} ${row[EUROS][1].replaceAll('.', '')}`;
    text = [...cells, ...row[EUROS], plain].join('\n').toLowerCase();
    texts.set(row, text);
  }
  return text;
}

// Whether an item shares its TxId with another, or looks like another.
export function isMarked(row) {
  return row[SAME] !== 0 || row[ALIKE] !== 0;
}

// The rows that hold every word of a text, and of these the marked ones alone where that is asked.
export function filtered(rows, text, onlyMarked) {
  const words = text.toLowerCase().split(/\s+/).filter((word) => word !== '');
  return rows.filter((row) => (!onlyMarked || isMarked(row)) && words.every((word) => searched(row).includes(word)));
}

// What a row is sorted by. The first of a pair stands for the pair, so that doubles come together.
function keyOf(row, column) {
  if (column === SAME) return isMarked(row) ? Math.min(row[NUMBER], row[SAME] || row[ALIKE]) : Infinity;
  return row[column];
}

// The rows in the order of a column, rising or falling; equal ones stay in the order of the file.
export function sorted(rows, column, isFalling) {
  const sign = isFalling ? -1 : 1;
  const order = (one, other) => {
    const [here, there] = [keyOf(one, column), keyOf(other, column)];
    if (here === there) return one[NUMBER] - other[NUMBER];
    return here < there ? -sign : sign;
  };
  return [...rows].sort(order);
}
