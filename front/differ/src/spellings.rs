//! Messages spelled in every way: each amount and each count, white space at each place where it may
//! stand, between tags and in the values that collapse; and messages whose plain form is as long as it
//! can be, or longer than they are. Of each the plain form is known from its making.

use crate::collapse::{spelled_to, white_runs, words};
use crate::damage::{fine, kind_of, values_of, Case, MOST_ITEMS};
use crate::handmade::EXAMPLES;
use crate::kind::Kind;
use crate::message::{accepted, Message, Part, Plan, Spacing, Version, What};
use crate::random::Random;
use crate::twins::{collapses, may_have_white, with_header};
use crate::value::{self, Valid, ITEM_MOST, WHITE};

type Give<'a> = &'a mut dyn FnMut(Case);

/// Cents with every number of decimals that must be written, short and long.
const CENTS: [u64; 10] = [1, 5, 10, 99, 100, 530, 1000, 123_450, ITEM_MOST - 99, ITEM_MOST];

/// A plan for so many short items without white space: with a declaration in version .02, without one
/// in .08.
fn compact(items: usize, declaration: bool) -> Plan {
    let (spacing, optional) = (Spacing::None, Some(declaration));
    let version = if declaration { Version::V02 } else { Version::V08 };
    Plan { items, spacing, small: true, declaration, optional, type_in_header: false, version }
}

/// All spellings of small messages. Each case has its number, so that it can be made again.
pub fn spellings(seed: u64, mut each: impl FnMut(u64, Case)) {
    let mut number = 0;
    let mut give = |case: Case| {
        each(number, case);
        number += 1;
    };
    let random = &mut Random::new(seed, 0x59E1);
    for declaration in [true, false] {
        let message = accepted(&compact(1, declaration), random);
        white_space(&message, &mut give);
        collapsing(&message, random, &mut give);
        amounts(&message, &mut give);
        counts(&message, &mut give);
        counts(&accepted(&compact(12, declaration), random), &mut give);
    }
    let in_header = Plan { type_in_header: true, ..compact(1, true) };
    white_space(&accepted(&in_header, random), &mut give);
}

/// A message as a case with its plain form.
fn made(message: &Message, way: &'static str) -> Case {
    Case { plain: message.plain(), ..Case::new(message.bytes(), way, fine(message)) }
}

/// White space of each kind, and of all, before each tag that may have it and at the end.
fn white_space(message: &Message, give: Give) {
    give(made(message, "white space nowhere"));
    for white in WHITE.chunks(1).chain([WHITE]) {
        let part = || Part::new(What::White, "", white.to_vec());
        for at in 0..=message.parts.len() {
            if at == message.parts.len() || may_have_white(&message.parts, at) {
                let mut other = message.clone();
                other.parts.insert(at, part());
                give(made(&other, "white space at one place"));
            }
        }
    }
}

/// White space in each value that collapses: each run at each place, and beside the longest value. The
/// records are known too.
fn collapsing(message: &Message, random: &mut Random, give: Give) {
    for at in message.parts_that(collapses) {
        let (kind, meant) = (kind_of(&message.parts[at]), message.parts[at].meant.clone());
        for run in white_runs() {
            for place in 0..=meant.len() {
                let (before, after) = meant.split_at(place);
                let bytes = [before, &run, after].concat();
                let meant = with_space(&meant, place);
                give(with_value(message, at, Valid { bytes, meant, worth: 0 }));
            }
        }
        let longest = kind.longest_collapsed().unwrap_or(0);
        for meant in [words(longest), vec![b'A'; longest], words(longest - 1)] {
            for more in 0..40 {
                let bytes = spelled_to(&meant, meant.len() + more, random);
                give(with_value(message, at, Valid { bytes, meant: meant.clone(), worth: 0 }));
            }
        }
    }
}

/// A collapsed value with a space put in before a byte of it: none where white space stands already,
/// nor at the ends.
fn with_space(meant: &[u8], at: usize) -> Vec<u8> {
    match meant.split_at(at) {
        ([], _) | (_, []) | ([.., b' '], _) | (_, [b' ', ..]) => meant.to_vec(),
        (before, after) => [before, b" ", after].concat(),
    }
}

/// The message of one item with this value for that of a part, as a case with its plain form and its
/// record.
fn with_value(message: &Message, at: usize, value: Valid) -> Case {
    let mut other = message.clone();
    let mut records = other.records.concat();
    if kind_of(&other.parts[at]) == Kind::EndToEnd {
        let field = &mut records[35..70];
        field.fill(b' ');
        field[..value.meant.len()].copy_from_slice(&value.meant);
    }
    other.parts[at].say(value);
    Case { records, ..made(&other, "white space in a value") }
}

/// Each way to write an item's amount with each way to write the total.
fn amounts(message: &Message, give: Give) {
    let item = values_of(message, Kind::ItemAmount)[0];
    let total = message.header_value("TtlIntrBkSttlmAmt");
    for cents in CENTS {
        let mut other = with_header(message.clone(), 1, cents);
        for amount in value::amounts(cents) {
            other.parts[item].bytes = amount;
            for amount in value::amounts(cents) {
                other.parts[total].bytes = amount;
                give(made(&other, "amounts in every way"));
            }
        }
    }
}

/// The count with each number of leading zeros.
fn counts(message: &Message, give: Give) {
    let count = message.header_value("NbOfTxs");
    let digits = message.count.to_string();
    for zeros in 0..=15 - digits.len() {
        let mut other = message.clone();
        other.parts[count].bytes = format!("{}{digits}", "0".repeat(zeros)).into_bytes();
        give(made(&other, "count in every way"));
    }
}

/// At the limits: the longest plain form, and one that is longer than the message, by as much as that
/// can be.
pub fn limits(give: Give) {
    let random = &mut Random::new(1, 4);
    let plan = Plan { optional: Some(true), ..compact(MOST_ITEMS, false) };
    let mut longest = accepted(&plan, random);
    for part in &mut longest.parts {
        if let What::Value(kind) = part.what {
            part.say(Valid::new(longest_value(kind), 0));
        }
    }
    // No two items have one TxId.
    for (number, part) in longest.transactions().into_iter().enumerate() {
        longest.parts[part].say(Valid::new(format!("{number:035}").into_bytes(), 0));
    }
    let items = MOST_ITEMS as u64;
    give(made(&with_header(longest, items, items * ITEM_MOST), "longest plain form"));

    // White space in a value that does not count would make the form shorter.
    let mut growing = accepted(&compact(MOST_ITEMS, false), random).as_meant();
    for at in values_of(&growing, Kind::ItemAmount) {
        growing.parts[at].bytes = b"5".to_vec();
    }
    let mut growing = with_header(growing, items, items * 500);
    let total = growing.header_value("TtlIntrBkSttlmAmt");
    growing.parts[total].bytes = b"50000".to_vec();
    give(made(&growing, "plain form longer than the message"));
}

/// A value of a kind that is as long in the plain form as one can be.
fn longest_value(kind: Kind) -> Vec<u8> {
    match kind {
        Kind::Reference | Kind::EndToEnd => vec![b'A'; 35],
        Kind::Text70 => vec![b'A'; 70],
        Kind::Text140 => vec![b'A'; 140],
        Kind::CreditorId => [b"DE98ZZZ09999999999".as_slice(), &[b'+'; 17]].concat(),
        Kind::Iban => {
            let longest = EXAMPLES.iter().max_by_key(|example| example.len());
            longest.expect("there are examples").as_bytes().to_vec()
        }
        Kind::Bic | Kind::Bicfi => b"BANKDEFFXXX".to_vec(),
        Kind::Date => b"2010-12-03".to_vec(),
        Kind::Time => b"2010-12-01T09:30:00.000+01:00".to_vec(),
        Kind::ItemAmount | Kind::HeaderAmount => value::euros(ITEM_MOST).into_bytes(),
        Kind::Count => b"1".to_vec(),
        Kind::Code(list) => {
            let longest = list.iter().max_by_key(|code| code.len());
            longest.expect("a list has codes").as_bytes().to_vec()
        }
    }
}
