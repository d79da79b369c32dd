//! The open bulks of a day against those of the clearer's report, by key and amount.

use super::clearer::Row;
use face::book::Entry;

/// Where the two do not agree.
#[derive(Debug, PartialEq, Eq)]
pub enum Difference<'a> {
    OnlyHere(&'a Entry),
    OnlyThere(&'a Row),
    /// The same key, and another amount.
    Amount(&'a Entry, &'a Row),
}

/// All differences: the bulks that are open here in order of entry, then those that the report has
/// alone, in its order. A key is open here once, so where the report has it twice, the second is
/// only there.
pub fn differences<'a>(open: &'a [Entry], rows: &'a [Row]) -> Vec<Difference<'a>> {
    let first = |entry: &Entry| rows.iter().position(|row| row.key == entry.key);
    let met: Vec<Option<usize>> = open.iter().map(first).collect();
    let here = open.iter().zip(&met).filter_map(|(entry, row)| match row.map(|at| &rows[at]) {
        None => Some(Difference::OnlyHere(entry)),
        Some(row) if row.cents != entry.cents => Some(Difference::Amount(entry, row)),
        Some(_) => None,
    });
    let is_met = |at: &usize| met.contains(&Some(*at));
    let there = (0..rows.len()).filter(|at| !is_met(at)).map(|at| Difference::OnlyThere(&rows[at]));
    here.chain(there).collect()
}

#[cfg(test)]
mod tests {
    use super::*;
    use face::book;

    /// The key with this MsgId.
    fn key(msg_id: &str) -> book::Key {
        book::key([b"CORE", msg_id.as_bytes(), b"BANKDEFF", b"2026-10-30"]).unwrap()
    }

    /// An open bulk.
    fn entry(msg_id: &str, cents: u64) -> Entry {
        Entry { key: key(msg_id), unused: [0; 4], cents }
    }

    /// A line of the report.
    fn row(line: usize, msg_id: &str, cents: u64) -> Row {
        Row { line, key: key(msg_id), cents }
    }

    #[test]
    fn every_difference_and_no_other() {
        let open = [entry("A", 1), entry("B", 2), entry("C", 3)];
        let rows = [row(1, "C", 4), row(2, "D", 5), row(3, "B", 2), row(4, "B", 2)];
        assert_eq!(
            differences(&open, &rows),
            [
                Difference::OnlyHere(&open[0]),
                Difference::Amount(&open[2], &rows[0]),
                Difference::OnlyThere(&rows[1]),
                Difference::OnlyThere(&rows[3]),
            ]
        );
        let same = [row(1, "C", 3), row(2, "A", 1), row(3, "B", 2)];
        assert_eq!(differences(&open, &same), []);
        assert_eq!(differences(&[], &[]), []);
    }
}
