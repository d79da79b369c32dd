//! A plain judge of one SEPA interbank collection message (pacs.003.001.02 or .08), by documents 01
//! and 02.
//!
//! The message lies in lent bytes and is read once, left to right; the first fault met ends the
//! reading. Nothing is allocated but a set of the TxIds (request 11): no index is lent, so there is no
//! 25 here.
//!
//! `message` is the exact reader, in the words of the paper, over the checkers of `value`. Before it,
//! item by item, stands a quick one, `quick` over `usual`, which takes what is usual and leaves all else
//! to the exact one.

#![forbid(unsafe_code)]
#![warn(missing_docs)]

pub mod book;
mod form;
mod message;
pub mod play;
mod quick;
mod record;
mod seen;
mod usual;
mod value;

pub use value::{
    bic, bicfi, count, creditor_id, date, end_to_end, header_amount, iban, item_amount, reference,
    text140, text70, time,
};

use message::{read, Refusal, LONGEST};
use value::number;

/// What the judge answers.
#[derive(Clone, Copy, Debug, PartialEq, Eq)]
pub enum Verdict {
    /// The message is of the profile.
    Accepted {
        /// The items that stand in it.
        count: u64,
        /// Their sum in cents.
        cents: u64,
    },
    /// The message is not of the profile.
    Refused {
        /// The refusal's number in the paper's table.
        number: u8,
        /// Its place, at most the message's length.
        place: usize,
    },
}

/// Judges a message: its count and its total in cents, or the first fault met.
pub fn judge(message: &[u8]) -> Verdict {
    verdict(read::<false, true>(message, |_, _| {}))
}

/// The same by the exact reader alone, as the reference for the quick one.
pub fn judge_exactly(message: &[u8]) -> Verdict {
    verdict(read::<false, false>(message, |_, _| {}))
}

/// Where item `i` (from 0) lies: the place of the `<` of its start tag and the place after the `>`
/// of its end tag. The judge's refusal comes first; then "18: asked for an item not there (from 0),
/// place 0".
pub fn item(message: &[u8], i: u64) -> Result<(usize, usize), (u8, usize)> {
    let mut asked = None;
    read::<false, true>(message, |at, item| {
        if at as u64 == i {
            asked = Some((item.start, item.end));
        }
    })?;
    asked.ok_or((number::NO_SUCH_ITEM, 0))
}

/// Judges a message and writes one record of 320 bytes for each item, record i to bytes 320i to
/// 320i+319. "Bytes beyond the last record keep what they held." A refusal "leaves the record area
/// exactly as lent"; 17, which "compares with 320 times the count", place 0, comes after the judge's.
pub fn records(message: &[u8], area: &mut [u8]) -> Verdict {
    let judged = judge(message);
    let Verdict::Accepted { count, .. } = judged else {
        return judged;
    };
    if (area.len() as u64) < record::LENGTH as u64 * count {
        return Verdict::Refused { number: number::AREA_TOO_SMALL, place: 0 };
    }
    // The message is accepted, so this second reading takes the values as they lie.
    verdict(read::<true, true>(message, |at, item| {
        record::write(&mut area[record::LENGTH * at..][..record::LENGTH], item);
    }))
}

/// Judges a message, writes its plain form to the area's start and answers its length. It "stays in"
/// the version that the root names. "Bytes after it stay. Refusals, area unchanged: the judge's own;
/// then 1, place 0, when the plain form would pass 16,777,216 bytes; then 17 when it is longer than
/// the lent area", at place 0 too.
pub fn plain_form(message: &[u8], area: &mut [u8]) -> Result<usize, (u8, usize)> {
    read::<false, true>(message, |_, _| {})?;
    let mut length = 0;
    form::write(message, |part| length += part.len());
    // No plain form is that long: in version .08 10,000 items of at most 1,354 bytes, each with its own
    // PmtTpInf, and 518 around them. With PmtTpInf in the header, or in version .02, it is shorter.
    if length > LONGEST {
        return Err((number::TOO_LONG, 0));
    }
    if length > area.len() {
        return Err((number::AREA_TOO_SMALL, 0));
    }
    let mut at = 0;
    form::write(message, |part| {
        area[at..at + part.len()].copy_from_slice(part);
        at += part.len();
    });
    Ok(length)
}

/// What was read, as a verdict.
fn verdict(read: Result<(u64, u64), Refusal>) -> Verdict {
    match read {
        Ok((count, cents)) => Verdict::Accepted { count, cents },
        Err((number, place)) => Verdict::Refused { number, place },
    }
}

#[cfg(test)]
mod tests;
