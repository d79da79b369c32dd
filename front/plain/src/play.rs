//! Playback (document 02, request 13): "we must rerun the day from a recording: 64-byte records, no
//! header", with the plain judge and the plain day book. No index is lent, so there is no 25 here.

use crate::book::{key, padded, Book, Key, MOST, NO_BOOK};
use crate::message::{read, Refusal};
use crate::value::{bicfi, code, date, days_in, reference, time};
use crate::{judge, Verdict};

/// The bytes of one record of a recording.
pub const RECORD: usize = 64;

/// "26 a field not of its kind .. or a wrong last length; 27 time falls; 28 no message left, or its end
/// falls or lies outside the buffer", and "key does not agree", and "if messages are left over".
const NO_RECORD: u8 = 26;
const TIME_FALLS: u8 = 27;
const NO_MATCH: u8 = 28;

/// "a two by four table of the open cents, by service and sequence type".
pub type Table = [[u64; 4]; 2];

/// Its rows and its columns.
const SERVICES: [&[u8]; 2] = [b"CORE", b"B2B"];
const SEQUENCES: [&[u8]; 4] = [b"FRST", b"RCUR", b"FNAL", b"OOFF"];

/// What a day is rerun from. "The messages lie one after another in one lent buffer, with a lent list of
/// their ends."
#[derive(Clone, Copy, Debug)]
pub struct Day<'d> {
    /// The records.
    pub recording: &'d [u8],
    /// The messages. "Bytes past the last end are not read."
    pub buffer: &'d [u8],
    /// Where each of them ends.
    pub ends: &'d [u64],
}

/// What a run that was not refused answers.
#[derive(Clone, Copy, Debug, PartialEq, Eq)]
pub struct Played {
    /// The number of records.
    pub records: usize,
    /// The open cents.
    pub table: Table,
}

/// A run: the book, and what the records so far leave for the next.
struct Run<'d, 'b, 'l> {
    day: &'d Day<'d>,
    book: &'b mut Book<'l>,
    /// So many messages were entered, and the last of them ends here.
    entered: usize,
    end: usize,
    /// The instant of the record before.
    last: Option<i64>,
    /// The cents of each open bulk, in the order of the book.
    tables: Vec<Table>,
}

/// What a record says.
struct Line {
    /// In seconds.
    instant: i64,
    /// `E`, and not `W`.
    is_entry: bool,
    key: Key,
}

/// Reruns a day. "The run first empties the book; the end state is that of the same calls made one by
/// one". "Refusals, place the record's number from 0, book as before that record: first .. 29 for a book
/// under 64 places (.. place 0, book as lent)"; "After the last record, 28 with the number of records if
/// messages are left over."
pub fn play(day: &Day, book: &mut Book) -> Result<Played, Refusal> {
    if book.entries.len() < MOST {
        return Err(NO_BOOK);
    }
    (book.open, book.total) = (0, 0);
    let mut run = Run { day, book, entered: 0, end: 0, last: None, tables: Vec::new() };
    // The last one may be shorter.
    let records = day.recording.chunks(RECORD);
    let count = records.len();
    for (place, record) in records.enumerate() {
        run.step(record).map_err(|number| (number, place))?;
    }
    if run.entered < day.ends.len() {
        return Err((NO_MATCH, count));
    }
    Ok(Played { records: count, table: run.tables.iter().fold(Table::default(), plus) })
}

impl Run<'_, '_, '_> {
    /// One record: "26 a field not of its kind ..; 27 time falls", then its call.
    fn step(&mut self, record: &[u8]) -> Result<(), u8> {
        let line = line(record).ok_or(NO_RECORD)?;
        if self.last.is_some_and(|last| line.instant < last) {
            return Err(TIME_FALLS);
        }
        self.last = Some(line.instant);
        match line.is_entry {
            true => self.enter(&line.key),
            false => self.withdraw(&line.key),
        }
    }

    /// "Each `E` is matched with the next of them; its key must agree." "28 no message left, or its end
    /// falls or lies outside the buffer; the judge's own; 28 key does not agree; the book's own."
    fn enter(&mut self, due: &Key) -> Result<(), u8> {
        let end = *self.day.ends.get(self.entered).ok_or(NO_MATCH)?;
        let end = usize::try_from(end).map_err(|_| NO_MATCH)?;
        let message = self.day.buffer.get(self.end..end).ok_or(NO_MATCH)?;
        if let Verdict::Refused { number, .. } = judge(message) {
            return Err(number);
        }
        if key(message) != *due {
            return Err(NO_MATCH);
        }
        self.book.enter(message).map_err(|(number, _)| number)?;
        self.tables.push(table(message));
        (self.entered, self.end) = (self.entered + 1, end);
        Ok(())
    }

    /// The book's own, or the bulk goes, and its cents.
    fn withdraw(&mut self, key: &Key) -> Result<(), u8> {
        let at = self.book.find(key);
        self.book.withdraw(key).map_err(|(number, _)| number)?;
        if let Ok(Some(at)) = at {
            self.tables.remove(at);
        }
        Ok(())
    }
}

/// The cents of an accepted message.
fn table(message: &[u8]) -> Table {
    let mut table = Table::default();
    let place = |codes: &[&[u8]], value| codes.iter().position(|code| *code == value);
    // The message is accepted, so this second reading takes the values as they lie.
    let read = read::<true, true>(message, |_, item| {
        let row = place(&SERVICES, item.instrument);
        let column = place(&SEQUENCES, item.sequence_type);
        if let (Some(row), Some(column)) = (row, column) {
            table[row][column] += item.cents;
        }
    });
    debug_assert_eq!(read.map(|(_, cents)| cents), Ok(table.as_flattened().iter().sum()));
    table
}

/// Two tables together.
fn plus(one: Table, other: &Table) -> Table {
    std::array::from_fn(|row| std::array::from_fn(|column| one[row][column] + other[row][column]))
}

/// "Bytes 0 to 24 hold a time without fraction, always with a written offset; byte 25 `E` or `W`; 26 to
/// 29 service and 30 to 40 BIC, space-padded; 41 to 50 settlement date; 51 to 62 MsgId, at most 12 bytes,
/// space-padded; 63 LF." Nothing where a field is "not of its kind (BIC the wider form)".
fn line(record: &[u8]) -> Option<Line> {
    if record.len() != RECORD || record[63] != b'\n' {
        return None;
    }
    let (service, bic) = (unpadded(&record[26..30]), unpadded(&record[30..41]));
    let (settled, msg_id) = (&record[41..51], unpadded(&record[51..63]));
    code::local_instrument(service).ok()?;
    bicfi(bic).ok()?;
    date(settled).ok()?;
    reference(msg_id).ok()?;
    let is_entry = match record[25] {
        b'E' => true,
        b'W' => false,
        _ => return None,
    };
    let key = Key {
        service: padded(service),
        msg_id: padded(msg_id),
        bic: padded(bic),
        date: padded(settled),
    };
    Some(Line { instant: instant(&record[..25])?, is_entry, key })
}

/// A value without the spaces behind it.
fn unpadded(mut field: &[u8]) -> &[u8] {
    while let [before @ .., b' '] = field {
        field = before;
    }
    field
}

/// The instant of a time, in seconds: its date and clock, less its offset. A time of 25 bytes has no
/// fraction, and a written offset: no other form is so long.
fn instant(written: &[u8]) -> Option<i64> {
    time(written).ok()?;
    let number = |from: usize, to: usize| {
        written[from..to].iter().fold(0, |number, digit| number * 10 + i64::from(digit - b'0'))
    };
    let days = days_before(number(0, 4), number(5, 7)) + number(8, 10);
    let clock = |from: usize| number(from, from + 2) * 3600 + number(from + 3, from + 5) * 60;
    let local = days * 86_400 + clock(11) + number(17, 19);
    Some(match written[19] {
        b'-' => local + clock(20),
        _ => local - clock(20),
    })
}

/// The days before a month, from the year 1 on: each year has 365, each fourth one more, but of the
/// hundreds each fourth alone.
fn days_before(year: i64, month: i64) -> i64 {
    let past = year - 1;
    let years = past * 365 + past / 4 - past / 100 + past / 400;
    years + (1..month).map(|month| i64::from(days_in(year as u32, month as u32))).sum::<i64>()
}

#[cfg(test)]
mod tests;
