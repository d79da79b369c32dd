//! The playback of a day, by which every call on it is answered.

use crate::trouble::Trouble;
use face::book::{self, Entry, Numbers};
use face::play::{self, Day, Table};

/// What a playback came to.
pub struct Played {
    /// Number and place of a refusal. The book is as before that record then, and the table zero.
    pub refused: Option<(u64, u64)>,
    /// The open cents, by service and sequence type.
    pub table: Table,
    entries: Vec<Entry>,
    numbers: Numbers,
}

impl Played {
    /// The open bulks in order of entry.
    pub fn open(&self) -> &[Entry] {
        &self.entries[..self.numbers.open as usize]
    }

    /// Their total in cents.
    pub fn total(&self) -> u64 {
        self.numbers.total
    }

    /// What is told of a day comes from here, so the open bulks must come to the total, and so must
    /// the table of a day that was not refused.
    pub fn agreed(self) -> Result<Played, Trouble> {
        let add = |sum: u64, cents: u64| sum.checked_add(cents);
        let open = self.open().iter().try_fold(0, |sum, entry| add(sum, entry.cents));
        let table = self.table.iter().flatten().try_fold(0, |sum, cents| add(sum, *cents));
        let due = if self.refused.is_none() { self.total() } else { 0 };
        match open == Some(self.total()) && table == Some(due) {
            true => Ok(self),
            false => Err(Trouble::Disagreement),
        }
    }
}

/// Plays a recording back from nothing, with the messages of its entries one after another in a
/// buffer and the place where each ends.
pub fn played(recording: &[u8], buffer: &[u8], ends: &[u64]) -> Played {
    let (mut entries, mut numbers) = (book::empty(), Numbers::default());
    let day = Day { recording, buffer, ends };
    let answer = play::play(day, &mut entries, &mut numbers);
    let refused = (answer[0] != 0).then_some((answer[0], answer[1]));
    Played { refused, table: play::table(&answer), entries, numbers }
}
