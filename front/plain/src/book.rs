//! The day book (document 02, requests 5 and 12): a bulk is entered, withdrawn, searched for, and the
//! open total, which is stored, is asked. Nothing is allocated but by the judge.

use crate::message::Refusal;
use crate::value::HEADER_MOST;
use crate::{judge, Verdict};

/// "keeps at most 64 open bulks"; a list of fewer places is no book.
pub const MOST: usize = 64;

/// "20, key open already; 21, 64 open; for a withdrawal 22, key not open"; "29 .. the lent book is
/// none". All are "at place 0".
const OPEN_ALREADY: Refusal = (20, 0);
const FULL: Refusal = (21, 0);
const NOT_OPEN: Refusal = (22, 0);
pub(crate) const NO_BOOK: Refusal = (29, 0);

/// "A bulk's key, after document 001, is service (its items' LclInstrm), MsgId, instructing BIC and
/// settlement date." With PmtTpInf in the header "the day book's service is the header's". Each value
/// has spaces behind it, to the most bytes that its kind allows.
#[derive(Clone, Copy, Debug, PartialEq, Eq)]
pub struct Key {
    /// `CORE` or `B2B`.
    pub service: [u8; 4],
    /// MsgId.
    pub msg_id: [u8; 35],
    /// The BIC of InstgAgt, of either version: the key does not tell them apart.
    pub bic: [u8; 11],
    /// IntrBkSttlmDt.
    pub date: [u8; 10],
}

/// An open bulk, or what a place past the open ones holds.
#[derive(Clone, Copy, Debug, PartialEq, Eq)]
pub struct Entry {
    /// Its key.
    pub key: Key,
    /// Its total in cents.
    pub cents: u64,
}

/// "The open bulks are a lent list of entries and the number open, the open ones first in order of
/// entry".
#[derive(Debug)]
pub struct Book<'l> {
    /// The lent list.
    pub entries: &'l mut [Entry],
    /// The number open.
    pub open: usize,
    /// "Store the open total in the book beside the number open".
    pub total: u64,
}

impl Book<'_> {
    /// Enters a message behind the open ones, and answers its cents. "29 first, from any call ..; for
    /// an entry the judge's own, then 20, key open already; 21, 64 open".
    pub fn enter(&mut self, message: &[u8]) -> Result<u64, Refusal> {
        self.kept()?;
        let bulk = bulk(message)?;
        if self.find(&bulk.key)?.is_some() {
            return Err(OPEN_ALREADY);
        }
        if self.open == MOST {
            return Err(FULL);
        }
        self.entries[self.open] = bulk;
        self.open += 1;
        self.total += bulk.cents;
        Ok(bulk.cents)
    }

    /// Withdraws a key, and answers the cents of its bulk. "a withdrawal names a key and keeps the
    /// others' order; places past the open ones keep what they held", also the last one, which the
    /// others have left.
    pub fn withdraw(&mut self, key: &Key) -> Result<u64, Refusal> {
        self.kept()?;
        let at = self.find(key)?.ok_or(NOT_OPEN)?;
        let cents = self.entries[at].cents;
        self.entries.copy_within(at + 1..self.open, at);
        self.open -= 1;
        self.total -= cents;
        Ok(cents)
    }

    /// "A search answers the first entry with an equal key, or that there is none." It does not look at
    /// the stored total.
    pub fn find(&self, key: &Key) -> Result<Option<usize>, Refusal> {
        Ok(self.held()?.iter().position(|entry| entry.key == *key))
    }

    /// "29 is also given to an entry or withdrawal where the stored total is not what summing gives."
    pub fn kept(&self) -> Result<(), Refusal> {
        match sum(self.held()?) == u128::from(self.total) {
            true => Ok(()),
            false => Err(NO_BOOK),
        }
    }

    /// The open ones of a book, or 29: "the lent book is none (under 64 places, over 64 open, two open
    /// keys equal, the open sums together above the header's upper range)".
    pub fn held(&self) -> Result<&[Entry], Refusal> {
        if self.entries.len() < MOST || self.open > MOST {
            return Err(NO_BOOK);
        }
        let open = &self.entries[..self.open];
        let is_doubled = |(at, entry): (usize, &Entry)| {
            open[at + 1..].iter().any(|later| later.key == entry.key)
        };
        if open.iter().enumerate().any(is_doubled) || sum(open) > u128::from(HEADER_MOST) {
            return Err(NO_BOOK);
        }
        Ok(open)
    }
}

/// The sum of entries, wide enough for whatever their cents are.
fn sum(entries: &[Entry]) -> u128 {
    entries.iter().map(|entry| u128::from(entry.cents)).sum()
}

/// What a message enters, or the judge's own refusal.
fn bulk(message: &[u8]) -> Result<Entry, Refusal> {
    match judge(message) {
        Verdict::Accepted { cents, .. } => Ok(Entry { key: key(message), cents }),
        Verdict::Refused { number, place } => Err((number, place)),
    }
}

/// The key of an accepted message. No value holds a `<`, so a tag is found wherever it stands; the
/// first FinInstnId is that of InstgAgt and holds its BIC alone, whatever the version calls it, and
/// the first LclInstrm is the header's or that of all items.
pub(crate) fn key(message: &[u8]) -> Key {
    Key {
        service: padded(value_behind(behind(message, b"<LclInstrm>"), b"<Cd>")),
        msg_id: padded(value_behind(message, b"<MsgId>")),
        bic: padded(value_behind(behind(message, b"<FinInstnId>"), b">")),
        date: padded(value_behind(message, b"<IntrBkSttlmDt>")),
    }
}

/// What follows the first tag like this one.
fn behind<'m>(message: &'m [u8], tag: &[u8]) -> &'m [u8] {
    let at = message.windows(tag.len()).position(|part| part == tag);
    at.map_or(b"", |at| &message[at + tag.len()..])
}

/// The value behind the first tag like this one.
fn value_behind<'m>(message: &'m [u8], tag: &[u8]) -> &'m [u8] {
    let rest = behind(message, tag);
    &rest[..rest.iter().position(|&byte| byte == b'<').unwrap_or(rest.len())]
}

/// A value with spaces behind it.
pub(crate) fn padded<const N: usize>(value: &[u8]) -> [u8; N] {
    let mut field = [b' '; N];
    field[..value.len()].copy_from_slice(value);
    field
}

#[cfg(test)]
mod tests;
