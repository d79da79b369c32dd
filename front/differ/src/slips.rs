//! Every slip of an accepted message: one digit replaced by another, two unequal neighbouring digits
//! exchanged, in a count, a total, an amount, an IBAN, or a creditor identifier outside positions 5
//! to 7; an item left out; an item doubled. Each must be refused, and it is known how. And every slip
//! in the letters of an IBAN: refused too, but for three pairs that must be accepted.

use crate::damage::{twice, Case, Known};
use crate::kind::Kind;
use crate::letters;
use crate::message::{accepted, Message, Part, Plan, What};
use crate::random::Random;
use crate::value;

/// So many slips of one message have a number of their own.
pub const NUMBERS: u64 = 100_000;

type Give<'a> = &'a mut dyn FnMut(Vec<u8>, &'static str, Known);

/// The slips of the message of this seed and case. A slip's number is 100,000 times the case and its
/// own.
pub fn slips(seed: u64, case: u64, mut each: impl FnMut(u64, Case)) {
    let random = &mut Random::new(seed ^ 0x511B, case);
    let mut plan = Plan::by_chance(random, 4);
    plan.small = random.once_in(3);
    let message = accepted(&plan, random);
    let mut number = NUMBERS * case;
    let mut give = |bytes: Vec<u8>, slip: &'static str, known: Known| {
        each(number, Case::new(bytes, slip, known));
        number += 1;
    };
    in_values(&message, &mut give);
    in_letters(&message, &mut give);
    left_out(&message, &mut give);
    doubled(&message, &mut give);
    assert!(number < NUMBERS * (case + 1), "each slip has a number of its own");
}

/// A slip at this byte counts: everywhere but at positions 5 to 7 of an identifier.
fn counts(kind: Kind, at: usize) -> bool {
    kind != Kind::CreditorId || !(4..7).contains(&at)
}

/// Every slip of every count, amount, IBAN and identifier.
fn in_values(message: &Message, give: Give) {
    for part in 0..message.parts.len() {
        let What::Value(kind) = message.parts[part].what else { continue };
        let numbers = [Kind::Count, Kind::HeaderAmount, Kind::ItemAmount];
        if !numbers.contains(&kind) && !matches!(kind, Kind::Iban | Kind::CreditorId) {
            continue;
        }
        let place = message.place(part);
        let (bytes, value) = (message.bytes(), &message.parts[part].bytes);
        let mut with = |slipped: Vec<u8>, slip| {
            let mut other = bytes.clone();
            other[place..place + slipped.len()].copy_from_slice(&slipped);
            give(other, slip, known(message, part, &slipped));
        };
        for at in 0..value.len() {
            if counts(kind, at) {
                digits(value, at, |slipped| with(slipped, "slip: digit replaced"));
            }
            // Of two neighbours it is enough that one of them counts: that one is replaced.
            if counts(kind, at) || counts(kind, at + 1) {
                exchanged(value, at, |slipped| with(slipped, "slip: digits exchanged"));
            }
        }
    }
}

/// Every slip in the letters of every IBAN: what the checker says of it, the judge says.
fn in_letters(message: &Message, give: Give) {
    let (bytes, (count, cents)) = (message.bytes(), (message.count, message.cents));
    for part in 0..message.parts.len() {
        if message.parts[part].what != What::Value(Kind::Iban) {
            continue;
        }
        let place = message.place(part);
        letters::iban(&message.parts[part].bytes, &mut |slipped, slip, answer| {
            let mut other = bytes.clone();
            other[place..place + slipped.len()].copy_from_slice(&slipped);
            let refused = |number| Known::Refused { number, place };
            give(other, slip, answer.map_or_else(refused, |_| Known::Accepted { count, cents }));
        });
    }
}

/// The value with its digit at this byte replaced by each other.
fn digits(value: &[u8], at: usize, mut give: impl FnMut(Vec<u8>)) {
    for digit in (b'0'..=b'9').filter(|&digit| value[at].is_ascii_digit() && digit != value[at]) {
        let mut slipped = value.to_vec();
        slipped[at] = digit;
        give(slipped);
    }
}

/// The value with the digit at this byte and the next one exchanged, if they are two.
fn exchanged(value: &[u8], at: usize, mut give: impl FnMut(Vec<u8>)) {
    if let [one, other, ..] = value[at..] {
        if one.is_ascii_digit() && other.is_ascii_digit() && one != other {
            let mut slipped = value.to_vec();
            slipped.swap(at, at + 1);
            give(slipped);
        }
    }
}

/// How the message with this value slipped is refused: 8 at an account, 14 at the count, 9 at an
/// amount that leaves its range, else 15 at the total.
fn known(message: &Message, part: usize, slipped: &[u8]) -> Known {
    let refused = |number, part| Known::Refused { number, place: message.place(part) };
    let most = match message.parts[part].what {
        What::Value(Kind::Iban | Kind::CreditorId) => return refused(8, part),
        What::Value(Kind::Count) => return refused(14, part),
        What::Value(Kind::ItemAmount) => value::ITEM_MOST,
        _ => value::HEADER_MOST,
    };
    if !(1..=most).contains(&value::cents_of(slipped)) {
        return refused(9, part);
    }
    refused(15, message.header_value("TtlIntrBkSttlmAmt"))
}

/// 14 at the count.
fn count_wrong(message: &Message) -> Known {
    Known::Refused { number: 14, place: message.place(message.header_value("NbOfTxs")) }
}

/// Each item left out: 14; the only one: 4 at the tag that comes instead.
fn left_out(message: &Message, give: Give) {
    for &(first, after) in &message.items {
        let mut other = message.clone();
        other.parts.drain(first..after);
        let end = |part: &Part| part.what == What::End && part.name == "FIToFICstmrDrctDbt";
        let known = match message.items.len() {
            1 => Known::Refused { number: 4, place: other.place(other.parts_that(end)[0]) },
            _ => count_wrong(message),
        };
        give(other.bytes(), "slip: item left out", known);
    }
}

/// Each item once more: right behind it, behind white space, before the first and behind the last. 24
/// at the second one of the two.
fn doubled(message: &Message, give: Give) {
    let (top, bottom) = (message.items[0].0, message.items[message.items.len() - 1].1);
    for &(first, after) in &message.items {
        let item = &message.parts[first..after];
        for white in ["", " ", "\n", "\r\n\t  "] {
            for at in [after, top, bottom] {
                let mut other = message.clone();
                let white = Part::new(What::White, "", white.into());
                other.parts.splice(at..at, [&[white], item].concat());
                give(other.bytes(), "slip: item doubled", twice(&other));
            }
        }
    }
}
