//! The day book of the window. Between two calls the page keeps it as bytes: the entries as they lie in
//! front/bulk.h, and behind them the two numbers, little-endian. No bytes at all are the empty book.

use crate::both;
use face::book::{self, Entry, Numbers, BOOK, KEY};
use std::ffi::OsStr;
use told::booked::{Ask, Book, Line, Made};
use told::json::Object;
use told::language::Language;
use told::show::shown;
use told::Disagreement;

/// The bytes of one entry, without those that are never read.
const ENTRY: usize = KEY + 8;

/// What is told of a call, and the book behind it.
pub struct Behind {
    pub told: String,
    pub book: Vec<u8>,
}

/// Enters a message.
pub fn enter(lent: &[u8], file: &OsStr, message: &[u8]) -> Result<Behind, Disagreement> {
    call(lent, Ask::Enter(file.to_owned()), message)
}

/// Withdraws the bulk that is open at a place, by its key.
pub fn withdraw(lent: &[u8], place: usize) -> Result<Behind, Disagreement> {
    let book = of_bytes(lent).ok_or(Disagreement)?;
    let entry = book.open().get(place).ok_or(Disagreement)?;
    let named = book::parts(&entry.key).map(<[u8]>::to_vec);
    call(lent, Ask::Withdraw(named), b"")
}

/// Makes one call on the book that these bytes are.
fn call(lent: &[u8], ask: Ask, message: &[u8]) -> Result<Behind, Disagreement> {
    let mut book = of_bytes(lent).ok_or(Disagreement)?;
    let line = Line { number: 1, ask };
    let told = told(&book.make(&line, message)?);
    Ok(Behind { told, book: bytes_of(&book) })
}

/// The call in words, and all that is open behind it.
fn told(made: &Made) -> String {
    let verdict = made.plain();
    let verdict = verdict.split_whitespace().next().unwrap_or("");
    let open = made.open.iter().map(|entry| {
        let [service, msg_id, bic, date] = book::parts(&entry.key).map(shown);
        Object::default()
            .text("service", service.as_bytes())
            .text("msg_id", msg_id.as_bytes())
            .text("bic", bic.as_bytes())
            .text("date", date.as_bytes())
            .raw("euros", &both(|language: Language| language.euros(entry.cents.into())))
            .end()
    });
    Object::default()
        .text("verdict", verdict.as_bytes())
        .raw("words", &both(|language| made.words(language)))
        .list("open", open)
        .raw("total", &both(|language| language.euros(made.cents.into())))
        .end()
}

/// The bytes of a book.
fn bytes_of(book: &Book) -> Vec<u8> {
    let entry = |entry: &Entry| [&entry.key[..], &entry.cents.to_le_bytes()].concat();
    let mut bytes: Vec<u8> = book.entries.iter().flat_map(entry).collect();
    bytes.extend(book.numbers.open.to_le_bytes());
    bytes.extend(book.numbers.total.to_le_bytes());
    bytes
}

/// The book of some bytes; none where they are no book's.
fn of_bytes(bytes: &[u8]) -> Option<Book> {
    let mut book = Book::default();
    if bytes.is_empty() {
        return Some(book);
    }
    let word = |at: usize| Some(u64::from_le_bytes(bytes.get(at..at + 8)?.try_into().ok()?));
    for (at, entry) in book.entries.iter_mut().enumerate() {
        entry.key = bytes.get(at * ENTRY..at * ENTRY + KEY)?.try_into().ok()?;
        entry.cents = word(at * ENTRY + KEY)?;
    }
    book.numbers = Numbers { open: word(BOOK * ENTRY)?, total: word(BOOK * ENTRY + 8)? };
    (book.numbers.open <= BOOK as u64).then_some(book)
}
