//! The library under test, asked by the kinds of these tests, and each time with rubbish in the index.

use crate::indexed::filled;
use crate::kind::Kind;
pub use face::{item_with, judge_plainly, judge_with, plain_with, records_with};
pub use face::{judge_by_table as judge_by_table_with, records_by_table as records_by_table_with};
pub use face::{Words, FOLDER, INDEX, RECORD};

/// The judge: `0, count, cents`, or `number, place, 0`.
pub fn judge(message: &[u8]) -> Words {
    judge_with(message, &mut filled(message.len()))
}

/// The same by the table-led engine; all else here is asked of the straight one.
pub fn judge_by_table(message: &[u8]) -> Words {
    judge_by_table_with(message, &mut filled(message.len()))
}

/// Where item `i` lies, from 0: `0, start, end`, or `number, place, 0`.
pub fn item(message: &[u8], i: u64) -> Words {
    item_with(message, i, &mut filled(message.len()))
}

/// The records: `0, count, cents` and the area written, or `number, place, 0` and the area as lent.
pub fn records(message: &[u8], area: &mut [u8]) -> Words {
    records_with(message, area, &mut filled(message.len()))
}

/// The same by the table-led engine.
pub fn records_by_table(message: &[u8], area: &mut [u8]) -> Words {
    records_by_table_with(message, area, &mut filled(message.len()))
}

/// The plain form: `0, length, 0` and the form at the area's start, or `number, place, 0`.
pub fn plain(message: &[u8], area: &mut [u8]) -> Words {
    plain_with(message, area, &mut filled(message.len()))
}

/// The single checker of a kind: `0, number or cents, 0`, or `number, 0, 0`.
pub fn check(kind: Kind, value: &[u8]) -> Words {
    let kind = match kind {
        Kind::Iban => face::Kind::Iban,
        Kind::CreditorId => face::Kind::CreditorId,
        Kind::Bic => face::Kind::Bic,
        Kind::Bicfi => face::Kind::Bicfi,
        Kind::Date => face::Kind::Date,
        Kind::Time => face::Kind::Time,
        Kind::Reference => face::Kind::Reference,
        Kind::EndToEnd => face::Kind::EndToEnd,
        Kind::Text70 => face::Kind::Text70,
        Kind::Text140 => face::Kind::Text140,
        Kind::Count => face::Kind::Count,
        Kind::ItemAmount => face::Kind::ItemAmount,
        Kind::HeaderAmount => face::Kind::HeaderAmount,
        Kind::Code(_) => panic!("a code has no single checker"),
    };
    face::check(kind, value)
}
