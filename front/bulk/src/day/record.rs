//! A record of a recording: 64 bytes, the time, `E` or `W`, the key, LF.

use crate::recording::Field;
use face::book::{self, Key};
use std::ops::Range;

pub use crate::recording::is_entry;
pub use face::play::RECORD;

/// The most bytes of a MsgId that a record has room for.
pub const MOST_MSG_ID: usize = 12;

/// Service, MsgId, BIC and settlement date, in the order of a key.
const KEY: [Field; 4] = [Field::Service, Field::MsgId, Field::Bic, Field::Date];

pub type Record = [u8; RECORD];

/// A time as a record has it: `2026-10-25T02:30:00+02:00`.
pub type Time = [u8; 25];

/// What a record tells of.
#[derive(Clone, Copy, Debug, PartialEq, Eq)]
pub enum Kind {
    Entry,
    Withdrawal,
}

/// The record of a call at a time, with service, MsgId, BIC and settlement date of the bulk; none
/// where one of them is longer than its field.
pub fn made(time: &Time, kind: Kind, parts: [&[u8]; 4]) -> Option<Record> {
    let mut record = [b' '; RECORD];
    let call: &[u8] = match kind {
        Kind::Entry => b"E",
        Kind::Withdrawal => b"W",
    };
    let mut put = |field: Range<usize>, value: &[u8]| {
        record[field].get_mut(..value.len()).map(|place| place.copy_from_slice(value))
    };
    put(Field::Time.range(), time)?;
    put(Field::Call.range(), call)?;
    for (field, part) in KEY.into_iter().zip(parts) {
        put(field.range(), part)?;
    }
    put(Field::End.range(), b"\n")?;
    Some(record)
}

/// The time of a record, as it stands there.
pub fn time(record: &[u8]) -> &[u8] {
    Field::Time.of(record)
}

/// The key of a record, as the day book has it.
pub fn key(record: &[u8]) -> Option<Key> {
    book::key(KEY.map(|field| field.of(record)))
}

#[cfg(test)]
mod tests {
    use super::*;

    const PARTS: [&[u8]; 4] = [b"B2B", b"MSG/1", b"BANKDEFF", b"2010-12-03"];

    #[test]
    fn every_field_lies_where_the_request_says() {
        let made = made(b"2026-10-25T02:30:00+02:00", Kind::Withdrawal, PARTS).unwrap();
        let due = "2026-10-25T02:30:00+02:00WB2B BANKDEFF   2010-12-03MSG/1       \n";
        assert_eq!(String::from_utf8(made.to_vec()).unwrap(), due);
        assert_eq!((time(&made), is_entry(&made)), (&due.as_bytes()[..25], false));
        assert_eq!(key(&made), book::key(PARTS));
    }

    #[test]
    fn a_part_that_is_too_long_makes_no_record() {
        for (at, most) in [4, MOST_MSG_ID, 11, 10].into_iter().enumerate() {
            for (length, fits) in [(most, true), (most + 1, false)] {
                let (long, mut parts) = (vec![b'X'; length], PARTS);
                parts[at] = &long;
                let made = made(b"2026-10-25T02:30:00+02:00", Kind::Entry, parts);
                assert_eq!(made.is_some(), fits, "part {at} of {length} bytes");
            }
        }
    }
}
