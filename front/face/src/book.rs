//! The day book: a lent list of entries, the open ones first in order of entry, and beside it the
//! number open and their total. The caller lends both, and a call that changes the book changes both.

use super::{answered, answered_with, own_index, Length, Words};
use std::mem::{align_of, size_of};

/// The most bulks that are open, and the fewest places that a book has.
pub const BOOK: usize = 64;

/// The bytes of a key.
pub const KEY: usize = 60;

/// The four parts of a key and the bytes of each: service, MsgId, instructing BIC, settlement date.
const PARTS: [usize; 4] = [4, 35, 11, 10];

/// A bulk's key: its four parts, each with spaces behind it.
pub type Key = [u8; KEY];

/// One place of a book, as front/bulk.h has it.
#[repr(C)]
#[derive(Clone, Copy, Debug, PartialEq, Eq)]
pub struct Entry {
    pub key: Key,
    /// Never read; no call promises what it holds afterwards.
    pub unused: [u8; 4],
    pub cents: u64,
}

const _: () = assert!(size_of::<Entry>() == 72 && align_of::<Entry>() == 8);

/// What stands beside the entries of a book, as front/bulk.h has it. The empty book has 0 and 0.
#[repr(C)]
#[derive(Clone, Copy, Debug, Default, PartialEq, Eq)]
pub struct Numbers {
    /// The number open.
    pub open: u64,
    /// The open total, in cents, as it is stored.
    pub total: u64,
}

const _: () = assert!(size_of::<Numbers>() == 16 && align_of::<Numbers>() == 8);

/// The places of the fields, wherever the compiler can tell them: that for WebAssembly is too old.
#[cfg(not(target_arch = "wasm32"))]
mod places {
    use super::{Entry, Numbers};
    use std::mem::offset_of;

    const _: () = assert!(offset_of!(Entry, key) == 0 && offset_of!(Entry, cents) == 64);
    const _: () = assert!(offset_of!(Numbers, open) == 0 && offset_of!(Numbers, total) == 8);
}

extern "C" {
    fn bulk_book_enter(
        entries: *mut Entry,
        places: Length,
        numbers: *mut Numbers,
        message: *const u8,
        length: Length,
        index: *mut u32,
        index_length: Length,
        answer: *mut u64,
    );
    fn bulk_book_withdraw(
        entries: *mut Entry,
        places: Length,
        numbers: *mut Numbers,
        key: *const u8,
        answer: *mut u64,
    );
    fn bulk_book_find(
        entries: *const Entry,
        places: Length,
        numbers: *const Numbers,
        key: *const u8,
        answer: *mut u64,
    );
    fn bulk_book_total(numbers: *const Numbers, answer: *mut u64);
    fn bulk_book_check(
        entries: *const Entry,
        places: Length,
        numbers: *const Numbers,
        answer: *mut u64,
    );
}

/// Enters a message: `0, number open, cents of the bulk`, its entry behind the open ones; or `number,
/// place, 0` and every entry and both numbers as lent.
pub fn enter(entries: &mut [Entry], numbers: &mut Numbers, message: &[u8]) -> Words {
    enter_with(entries, numbers, message, &mut own_index())
}

/// The same with the caller's index; 29 comes before its 25.
pub fn enter_with(
    entries: &mut [Entry],
    numbers: &mut Numbers,
    message: &[u8],
    index: &mut [u32],
) -> Words {
    let (lent, places) = (entries.as_mut_ptr(), entries.len() as Length);
    let (bytes, length) = (message.as_ptr(), message.len() as Length);
    // SAFETY: entries, numbers and index are lent mutably for the call, the message too, the answer
    // is three words.
    answered_with(index, |index, many, answer| unsafe {
        bulk_book_enter(lent, places, numbers, bytes, length, index, many, answer)
    })
}

/// Withdraws a key: `0, number open, cents of the bulk`, the open ones behind it one place further
/// down; or `number, 0, 0` and every entry and both numbers as lent.
pub fn withdraw(entries: &mut [Entry], numbers: &mut Numbers, key: &Key) -> Words {
    let (lent, places, key) = (entries.as_mut_ptr(), entries.len() as Length, key.as_ptr());
    // SAFETY: entries and numbers are lent mutably for the call, the key has its bytes, the answer is
    // three words.
    answered(|answer| unsafe { bulk_book_withdraw(lent, places, numbers, key, answer) })
}

/// The first open entry with a key: `0, 1, its place from 0`; `0, 0, 0` for none; or `29, 0, 0`. The
/// stored total is not looked at.
pub fn find(entries: &[Entry], numbers: &Numbers, key: &Key) -> Words {
    let (lent, places, key) = (entries.as_ptr(), entries.len() as Length, key.as_ptr());
    // SAFETY: entries and numbers are lent for the call, the key has its bytes, the answer is three
    // words.
    answered(|answer| unsafe { bulk_book_find(lent, places, numbers, key, answer) })
}

/// The open total as it is stored: `0, number open, cents`.
pub fn total(numbers: &Numbers) -> Words {
    // SAFETY: the numbers are lent for the call, the answer is three words.
    answered(|answer| unsafe { bulk_book_total(numbers, answer) })
}

/// Whether an entry and a withdrawal take what is lent for a book: `0, 0, 0`; or `29, 0, 0`.
pub fn check(entries: &[Entry], numbers: &Numbers) -> Words {
    let (lent, places) = (entries.as_ptr(), entries.len() as Length);
    // SAFETY: entries and numbers are lent for the call, the answer is three words.
    answered(|answer| unsafe { bulk_book_check(lent, places, numbers, answer) })
}

/// The places of an empty book, all blank; its numbers are `Numbers::default()`.
pub fn empty() -> Vec<Entry> {
    vec![Entry { key: [b' '; KEY], unused: [0; 4], cents: 0 }; BOOK]
}

/// The key of service, MsgId, instructing BIC and settlement date; none where one of them is longer
/// than its part.
pub fn key(parts: [&[u8]; 4]) -> Option<Key> {
    let mut key = [b' '; KEY];
    let mut at = 0;
    for (part, length) in parts.into_iter().zip(PARTS) {
        key[at..at + length].get_mut(..part.len())?.copy_from_slice(part);
        at += length;
    }
    Some(key)
}

/// Service, MsgId, instructing BIC and settlement date of a key, without the spaces behind them.
pub fn parts(key: &Key) -> [&[u8]; 4] {
    let mut rest = &key[..];
    PARTS.map(|length| {
        let (part, behind) = rest.split_at(length);
        rest = behind;
        let end = part.iter().rposition(|byte| !byte.is_ascii_whitespace());
        &part[..end.map_or(0, |end| end + 1)]
    })
}

#[cfg(test)]
mod tests {
    use super::*;

    const FOUR: [&[u8]; 4] = [b"B2B", b"MSG/1", b"BANKDEFF", b"2010-12-03"];

    #[test]
    fn a_key_has_its_parts_with_spaces_behind_them() {
        let due = format!("{:4}{:35}{:11}{:10}", "B2B", "MSG/1", "BANKDEFF", "2010-12-03");
        let made = key(FOUR).expect("each part fits");
        assert_eq!(made, due.as_bytes());
        assert_eq!(parts(&made), FOUR);
    }

    #[test]
    fn a_part_that_is_too_long_makes_no_key() {
        for (at, length) in PARTS.into_iter().enumerate() {
            for (more, fits) in [(0, true), (1, false), (100, false)] {
                let long = vec![b'X'; length + more];
                let mut four = FOUR;
                four[at] = &long;
                assert_eq!(key(four).is_some(), fits, "part {at}, {more} more");
            }
        }
    }

    /// The library takes and leaves entries and numbers in this layout: the example is entered and
    /// found again.
    #[test]
    fn the_layout_is_the_library_s() {
        let example = include_bytes!("../../../samples/example.xml");
        let due = key([b"CORE", b"MSG/1", b"BANKDEFF", b"2010-12-03"]).expect("each part fits");
        let (mut book, mut numbers) = (empty(), Numbers::default());
        assert_eq!(enter(&mut book, &mut numbers, example), [0, 1, 1234]);
        assert_eq!((book[0].key, book[0].cents), (due, 1234));
        let one = Numbers { open: 1, total: 1234 };
        assert_eq!((numbers, find(&book, &one, &due), total(&one)), (one, [0, 1, 0], [0, 1, 1234]));
        assert_eq!(enter(&mut book, &mut numbers, example), [20, 0, 0]);
        assert_eq!((numbers, check(&book, &numbers)), (one, [0, 0, 0]));
        assert_eq!(withdraw(&mut book, &mut numbers, &due), [0, 0, 1234]);
        assert_eq!(
            (numbers, withdraw(&mut book, &mut numbers, &due)),
            (Numbers::default(), [22, 0, 0])
        );
        assert_eq!(check(&book[1..], &numbers), [29, 0, 0]);
    }

    /// A book made by hand with another total than summing gives: 29 for an entry, a withdrawal and a
    /// check, which leave it as it is; asking answers what is stored, and a search finds the entry.
    #[test]
    fn another_total_than_summing_gives() {
        let example = include_bytes!("../../../samples/example.xml");
        let due = key([b"CORE", b"MSG/1", b"BANKDEFF", b"2010-12-03"]).expect("each part fits");
        let mut book = empty();
        book[0] = Entry { key: due, cents: 5, ..book[0] };
        let before = book.clone();
        for wrong in [0, 4, 6, u64::MAX] {
            let lent = Numbers { open: 1, total: wrong };
            let mut numbers = lent;
            assert_eq!(enter(&mut book, &mut numbers, example), [29, 0, 0], "{wrong}");
            assert_eq!(withdraw(&mut book, &mut numbers, &due), [29, 0, 0], "{wrong}");
            assert_eq!(check(&book, &numbers), [29, 0, 0], "{wrong}");
            assert_eq!((total(&numbers), find(&book, &numbers, &due)), ([0, 1, wrong], [0, 1, 0]));
            assert_eq!((&book, numbers), (&before, lent));
        }
        let mut numbers = Numbers { open: 1, total: 5 };
        assert_eq!(check(&book, &numbers), [0, 0, 0]);
        assert_eq!(withdraw(&mut book, &mut numbers, &due), [0, 0, 5]);
        assert_eq!(numbers, Numbers::default());
    }

    /// A short index is 25, but where the book is none: 29.
    #[test]
    fn an_entry_with_the_caller_s_index() {
        let example = include_bytes!("../../../samples/example.xml");
        let mut book = empty();
        let mut index = vec![7; crate::INDEX];
        let mut numbers = Numbers::default();
        assert_eq!(enter_with(&mut book, &mut numbers, example, &mut index[1..]), [25, 0, 0]);
        let short = &mut index[1..];
        assert_eq!(enter_with(&mut book[1..], &mut numbers, example, short), [29, 0, 0]);
        assert_eq!((&index, &book), (&vec![7; crate::INDEX], &empty()));
        assert_eq!(enter_with(&mut book, &mut numbers, example, &mut index), [0, 1, 1234]);
        assert_eq!(index, vec![0; crate::INDEX]);
    }
}
