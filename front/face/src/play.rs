//! Playback: a day is rerun from its recording, on a lent book that is emptied first.

use super::book::{Entry, Numbers};
use super::{answered_with, own_index, Length};

/// The bytes of one record of a recording, as front/bulk.h has its fields.
pub const RECORD: usize = 64;

/// The words of an answer.
pub const PLAYED: usize = 10;

/// The ten words of an answer: `0, number of records` and eight sums, or a refusal number, the number
/// of the record from 0, and eight zeros.
pub type Played = [u64; PLAYED];

/// The open cents: rows CORE and B2B, columns FRST, RCUR, FNAL and OOFF.
pub type Table = [[u64; 4]; 2];

/// What a day is rerun from: its recording, and its messages one after another with where each ends.
#[derive(Clone, Copy, Debug)]
pub struct Day<'d> {
    pub recording: &'d [u8],
    pub buffer: &'d [u8],
    pub ends: &'d [u64],
}

extern "C" {
    fn bulk_play(
        recording: *const u8,
        recording_length: Length,
        buffer: *const u8,
        buffer_length: Length,
        ends: *const u64,
        messages: Length,
        entries: *mut Entry,
        places: Length,
        numbers: *mut Numbers,
        index: *mut u32,
        index_length: Length,
        answer: *mut u64,
    );
}

/// Reruns a day: `0, number of records` and the table row by row, the book as after the last record; or
/// `number, record` and zeros, the book as before that record, of 25 and of 29 for under 64 places as lent.
pub fn play(day: Day, entries: &mut [Entry], numbers: &mut Numbers) -> Played {
    play_with(day, entries, numbers, &mut own_index())
}

/// The same with the caller's index; 25 comes before all others.
pub fn play_with(
    day: Day,
    entries: &mut [Entry],
    numbers: &mut Numbers,
    index: &mut [u32],
) -> Played {
    let Day { recording, buffer, ends } = day;
    let (lent, places) = (entries.as_mut_ptr(), entries.len() as Length);
    // SAFETY: entries, numbers and index are lent mutably for the call, the recording, the buffer and the
    // ends too, the answer is ten words.
    answered_with(index, |index, many, answer| unsafe {
        bulk_play(
            recording.as_ptr(),
            recording.len() as Length,
            buffer.as_ptr(),
            buffer.len() as Length,
            ends.as_ptr(),
            ends.len() as Length,
            lent,
            places,
            numbers,
            index,
            many,
            answer,
        )
    })
}

/// The table of an answer.
pub fn table(played: &Played) -> Table {
    std::array::from_fn(|row| std::array::from_fn(|column| played[2 + 4 * row + column]))
}

#[cfg(test)]
mod tests {
    use super::*;
    use crate::book::{self, empty};
    use crate::INDEX;

    const EXAMPLE: &[u8] = include_bytes!("../../../samples/example.xml");

    /// Records of the example's key: each its time, and `E` or `W`.
    fn recording(calls: &[(&str, &str)]) -> String {
        let record = |(time, call): &(&str, &str)| {
            format!("2026-10-25T{time}{call}CORE{:11}2010-12-03{:12}\n", "BANKDEFF", "MSG/1")
        };
        calls.iter().map(record).collect()
    }

    /// The library takes and leaves a book in this layout, and answers in this order: the hour of October,
    /// forwards and backwards.
    #[test]
    fn the_layout_is_the_library_s() {
        let buffer = [EXAMPLE, EXAMPLE, b"not read"].concat();
        let ends = [EXAMPLE.len() as u64, 2 * EXAMPLE.len() as u64];
        let day = [("02:30:00+02:00", "E"), ("02:30:00+01:00", "W"), ("02:30:00+01:00", "E")];
        let (mut entries, mut numbers) = (empty(), Numbers { open: 7, total: 7 });
        let recording = recording(&day);
        let day = Day { recording: recording.as_bytes(), buffer: &buffer, ends: &ends };
        let played = play(day, &mut entries, &mut numbers);
        assert_eq!(played, [0, 3, 0, 1234, 0, 0, 0, 0, 0, 0]);
        assert_eq!(table(&played), [[0, 1234, 0, 0], [0; 4]]);
        let due = book::key([b"CORE", b"MSG/1", b"BANKDEFF", b"2010-12-03"]).expect("they fit");
        assert_eq!((numbers, entries[0].key), (Numbers { open: 1, total: 1234 }, due));
        assert_eq!(entries[0].cents, 1234);
        let back = self::recording(&[("02:30:00+01:00", "E"), ("02:30:00+02:00", "W")]);
        let day = Day { recording: back.as_bytes(), ..day };
        let played = play(day, &mut entries, &mut numbers);
        assert_eq!(played, [27, 1, 0, 0, 0, 0, 0, 0, 0, 0]);
        assert_eq!(numbers, Numbers { open: 1, total: 1234 });
    }

    /// A short index is 25, also where the book has too few places, which else is 29; both leave all as
    /// lent.
    #[test]
    fn with_the_caller_s_index() {
        let mut entries = empty();
        let lent = Numbers { open: 3, total: 9 };
        let (mut numbers, mut index) = (lent, vec![7; INDEX]);
        let day = Day { recording: b"?", buffer: b"", ends: &[] };
        let refused = |number| [number, 0, 0, 0, 0, 0, 0, 0, 0, 0];
        let short = &mut index[1..];
        assert_eq!(play_with(day, &mut entries, &mut numbers, short), refused(25));
        assert_eq!(play_with(day, &mut entries[1..], &mut numbers, short), refused(25));
        assert_eq!(index, vec![7; INDEX]);
        assert_eq!(play_with(day, &mut entries[1..], &mut numbers, &mut index), refused(29));
        assert_eq!((&index, numbers, &entries), (&vec![0; INDEX], lent, &empty()));
        assert_eq!(play_with(day, &mut entries, &mut numbers, &mut index), refused(26));
        assert_eq!((numbers, &entries), (Numbers::default(), &empty()));
    }
}
