//! The C face of the proved library: the only unsafe code towards it. (The command has some of its
//! own towards the system, front/bulk/src/system.rs.) The functions here are safe: each lends a slice
//! for the call, and three words for the answer, or ten for that of playback. Whatever judges a message
//! lends an index too: one of its own, or, where its name ends in `_with`, the caller's.

pub mod book;
pub mod play;

use std::io::Write;

/// The three words of an answer: `0` and two values, or a refusal number, its place, and 0.
pub type Words = [u64; 3];

/// The bytes of one posting record, with its LF.
pub const RECORD: usize = 320;

/// The fewest numbers that an index has; with fewer it is 25.
pub const INDEX: usize = 16_384;

/// The folder that the library was linked from. What tests leave behind lies beside it.
pub const FOLDER: &str = env!("BULK_FOLDER");

/// The kinds of value that have a single checker.
#[derive(Clone, Copy, Debug, PartialEq, Eq)]
pub enum Kind {
    Iban,
    CreditorId,
    Bic,
    Bicfi,
    Count,
    ItemAmount,
    HeaderAmount,
    Date,
    Time,
    Reference,
    EndToEnd,
    Text70,
    Text140,
}

/// A length as the library takes it: 64 bits on every machine, also where an address has 32, as in
/// WebAssembly.
type Length = u64;

/// A single checker, as the library exports it.
type Checker = unsafe extern "C" fn(*const u8, Length, *mut u64);

extern "C" {
    fn bulk_iban(value: *const u8, length: Length, answer: *mut u64);
    fn bulk_creditor_id(value: *const u8, length: Length, answer: *mut u64);
    fn bulk_bic(value: *const u8, length: Length, answer: *mut u64);
    fn bulk_bicfi(value: *const u8, length: Length, answer: *mut u64);
    fn bulk_date(value: *const u8, length: Length, answer: *mut u64);
    fn bulk_time(value: *const u8, length: Length, answer: *mut u64);
    fn bulk_reference(value: *const u8, length: Length, answer: *mut u64);
    fn bulk_end_to_end(value: *const u8, length: Length, answer: *mut u64);
    fn bulk_text70(value: *const u8, length: Length, answer: *mut u64);
    fn bulk_text140(value: *const u8, length: Length, answer: *mut u64);
    fn bulk_count(value: *const u8, length: Length, answer: *mut u64);
    fn bulk_item_amount(value: *const u8, length: Length, answer: *mut u64);
    fn bulk_header_amount(value: *const u8, length: Length, answer: *mut u64);
    fn bulk_judge(
        message: *const u8,
        length: Length,
        index: *mut u32,
        index_length: Length,
        answer: *mut u64,
    );
    fn bulk_judge_by_table(
        message: *const u8,
        length: Length,
        index: *mut u32,
        index_length: Length,
        answer: *mut u64,
    );
    fn bulk_judge_plainly(message: *const u8, length: Length, answer: *mut u64);
    fn bulk_item(
        message: *const u8,
        length: Length,
        i: u64,
        index: *mut u32,
        index_length: Length,
        answer: *mut u64,
    );
    fn bulk_records(
        message: *const u8,
        length: Length,
        area: *mut u8,
        area_length: Length,
        index: *mut u32,
        index_length: Length,
        answer: *mut u64,
    );
    fn bulk_records_by_table(
        message: *const u8,
        length: Length,
        area: *mut u8,
        area_length: Length,
        index: *mut u32,
        index_length: Length,
        answer: *mut u64,
    );
    fn bulk_plain(
        message: *const u8,
        length: Length,
        area: *mut u8,
        area_length: Length,
        index: *mut u32,
        index_length: Length,
        answer: *mut u64,
    );
}

/// What the words of an answer hold before the call, and the guard words beside them before and after
/// it. No answer has it.
const UNWRITTEN: u64 = u64::MAX - 1;

/// The words of an answer between two guards.
#[repr(C)]
struct Guarded<const N: usize> {
    before: u64,
    answer: [u64; N],
    after: u64,
}

/// Lends so many words between two guards and answers them. Where a guard was overwritten, or a word
/// left unwritten, it ends the program: what the memory holds then cannot be believed.
fn answered<const N: usize>(call: impl FnOnce(*mut u64)) -> [u64; N] {
    let mut words = Guarded { before: UNWRITTEN, answer: [UNWRITTEN; N], after: UNWRITTEN };
    // A pointer into all of them, so that a write beside the answer is seen and not reasoned away.
    let all: *mut Guarded<N> = &mut words;
    call(all.cast::<u64>().wrapping_add(1));
    let Guarded { before, answer, after } = words;
    if before != UNWRITTEN || after != UNWRITTEN {
        end("it wrote beside the answer");
    }
    if answer.contains(&UNWRITTEN) {
        end("it wrote no whole answer");
    }
    answer
}

/// Lends an index too. Where it has numbers enough, all of them are 0 afterwards, whatever they were;
/// where it has not, it is as lent. It ends the program where that is otherwise.
fn answered_with<const N: usize>(
    index: &mut [u32],
    call: impl FnOnce(*mut u32, Length, *mut u64),
) -> [u64; N] {
    let is_short = index.len() < INDEX;
    let lent = if is_short { index.to_vec() } else { Vec::new() };
    let (numbers, length) = (index.as_mut_ptr(), index.len() as Length);
    let words = answered(|answer| call(numbers, length, answer));
    if is_short && *index != *lent {
        end("it wrote into an index that is too short");
    }
    // All numbers joined, with no test of each: so the compiler takes many at once.
    if !is_short && index.iter().fold(0, |joined, number| joined | number) != 0 {
        end("it left the index uncleared");
    }
    words
}

/// An index of just the numbers that are due, for one call.
fn own_index() -> Vec<u32> {
    vec![0; INDEX]
}

/// Ends the program at once, with a message: nothing is unwound, nothing more is written.
fn end(why: &str) -> ! {
    let told =
        writeln!(std::io::stderr(), "bulk: The library failed: {why}. The program is ended.");
    // Where the message cannot be written either, the program ends all the same.
    drop(told);
    std::process::abort()
}

/// The single checker of a kind: `0, number or cents, 0`, or `number, 0, 0`.
pub fn check(kind: Kind, value: &[u8]) -> Words {
    let checker: Checker = match kind {
        Kind::Iban => bulk_iban,
        Kind::CreditorId => bulk_creditor_id,
        Kind::Bic => bulk_bic,
        Kind::Bicfi => bulk_bicfi,
        Kind::Count => bulk_count,
        Kind::ItemAmount => bulk_item_amount,
        Kind::HeaderAmount => bulk_header_amount,
        Kind::Date => bulk_date,
        Kind::Time => bulk_time,
        Kind::Reference => bulk_reference,
        Kind::EndToEnd => bulk_end_to_end,
        Kind::Text70 => bulk_text70,
        Kind::Text140 => bulk_text140,
    };
    // SAFETY: the value is lent for the call, the answer is three words.
    answered(|answer| unsafe { checker(value.as_ptr(), value.len() as Length, answer) })
}

/// The judge: `0, count, cents`, or `number, place, 0`.
pub fn judge(message: &[u8]) -> Words {
    judge_with(message, &mut own_index())
}

/// The same with the caller's index; `25, 0, 0` where it is too short.
pub fn judge_with(message: &[u8], index: &mut [u32]) -> Words {
    // SAFETY: the message is lent for the call, the index mutably so, the answer is three words.
    answered_with(index, |index, numbers, answer| unsafe {
        bulk_judge(message.as_ptr(), message.len() as Length, index, numbers, answer)
    })
}

/// The judge by the table-led engine, with the caller's index: it answers the same.
pub fn judge_by_table(message: &[u8], index: &mut [u32]) -> Words {
    // SAFETY: the message is lent for the call, the index mutably so, the answer is three words.
    answered_with(index, |index, numbers, answer| unsafe {
        bulk_judge_by_table(message.as_ptr(), message.len() as Length, index, numbers, answer)
    })
}

/// The judge without an index, by the plain search: it answers the same.
pub fn judge_plainly(message: &[u8]) -> Words {
    // SAFETY: the message is lent for the call, the answer is three words.
    answered(|answer| unsafe {
        bulk_judge_plainly(message.as_ptr(), message.len() as Length, answer)
    })
}

/// Where item `i` lies, from 0: `0, start, end`, or `number, place, 0`. It judges the whole message.
pub fn item(message: &[u8], i: u64) -> Words {
    item_with(message, i, &mut own_index())
}

/// The same with the caller's index.
pub fn item_with(message: &[u8], i: u64, index: &mut [u32]) -> Words {
    // SAFETY: the message is lent for the call, the index mutably so, the answer is three words.
    answered_with(index, |index, numbers, answer| unsafe {
        bulk_item(message.as_ptr(), message.len() as Length, i, index, numbers, answer)
    })
}

/// The records: `0, count, cents` and the area written, or `number, place, 0` and the area as lent.
pub fn records(message: &[u8], area: &mut [u8]) -> Words {
    records_with(message, area, &mut own_index())
}

/// The same with the caller's index.
pub fn records_with(message: &[u8], area: &mut [u8], index: &mut [u32]) -> Words {
    let (lent, length) = (area.as_mut_ptr(), area.len() as Length);
    // SAFETY: the message is lent for the call, area and index mutably so, the answer is three words.
    answered_with(index, |index, numbers, answer| unsafe {
        bulk_records(
            message.as_ptr(),
            message.len() as Length,
            lent,
            length,
            index,
            numbers,
            answer,
        )
    })
}

/// The records by the table-led engine, with the caller's index: the same answer, the same area.
pub fn records_by_table(message: &[u8], area: &mut [u8], index: &mut [u32]) -> Words {
    let (lent, length) = (area.as_mut_ptr(), area.len() as Length);
    // SAFETY: the message is lent for the call, area and index mutably so, the answer is three words.
    answered_with(index, |index, numbers, answer| unsafe {
        bulk_records_by_table(
            message.as_ptr(),
            message.len() as Length,
            lent,
            length,
            index,
            numbers,
            answer,
        )
    })
}

/// The plain form: `0, length, 0` and the form at the area's start, or `number, place, 0` and the
/// area as lent. Bytes behind the form are as lent.
pub fn plain(message: &[u8], area: &mut [u8]) -> Words {
    plain_with(message, area, &mut own_index())
}

/// The same with the caller's index.
pub fn plain_with(message: &[u8], area: &mut [u8], index: &mut [u32]) -> Words {
    let (lent, length) = (area.as_mut_ptr(), area.len() as Length);
    // SAFETY: the message is lent for the call, area and index mutably so, the answer is three words.
    answered_with(index, |index, numbers, answer| unsafe {
        bulk_plain(message.as_ptr(), message.len() as Length, lent, length, index, numbers, answer)
    })
}

#[cfg(test)]
mod tests;
