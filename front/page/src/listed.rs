//! The items of a file as rows, and their sums by sequence type.

use crate::both;
use std::ffi::OsStr;
use told::doubled::{by_item, other, Doubled, Group};
use told::json::{string, Object};
use told::message::{self, Contents, Item};
use told::show::shown;
use told::verdict::{Judged, Verdict};
use told::{csv as sheet, rows, Disagreement};

use crate::LANGUAGES;

/// The sequence types, in the order of the profile.
const SEQUENCES: [&[u8]; 4] = [b"FRST", b"RCUR", b"FNAL", b"OOFF"];

/// The items of an accepted message, or of one whose count or total alone is wrong; of one with a TxId
/// twice all that are found by their tags, of which those behind the place were not judged (`judged` is how
/// many were). None of any other.
pub fn json(message: &[u8]) -> Result<Option<String>, Disagreement> {
    let judged = Judged::of(OsStr::new(""), message);
    match judged.verdict {
        verdict if verdict.has_items() => {
            rows::agree(&judged)?;
            let count = judged.contents.items.len();
            Ok(Some(table(&judged.contents, &judged.doubled, count)))
        }
        Verdict::Refused { number: 24, .. } => {
            let contents = message::read(message, message.len());
            let before = judged.contents.items.len() - 1;
            Ok(Some(table(&contents, &judged.doubled, before)))
        }
        _ => Ok(None),
    }
}

/// The rows and the sums.
fn table(contents: &Contents, doubled: &Doubled, judged: usize) -> String {
    let items = &contents.items;
    let same: Vec<Group> = doubled.same.iter().map(|(_, group)| group.clone()).collect();
    let (same, alike) = (by_item(&same, items.len()), by_item(&doubled.alike, items.len()));
    let rows = (0..items.len()).map(|at| row(at + 1, &items[at], same[at], alike[at]));
    let sum = |group: &Group| group.len() as u64 - 1;
    let more = same.iter().chain(&alike).flatten().map(|group| sum(group).min(1)).sum();
    Object::default()
        .number("judged", judged as u64)
        .number("marked", more)
        .list("rows", rows)
        .list("sums", SEQUENCES.iter().map(|sequence| sums(items, sequence)))
        .raw("total", &total(items))
        .end()
}

/// A row: number, place, TxId, EndToEndId, debtor, IBAN, cents, euros in both languages, collection date,
/// mandate, mandate date, sequence type, another item with its TxId or 0, another that looks like it or 0.
fn row(number: usize, item: &Item, same: Option<&Group>, alike: Option<&Group>) -> String {
    let text = |bytes: &[u8]| string(shown(bytes).as_bytes());
    let cents = item.cents.unwrap_or(0);
    let euros = |language: told::language::Language| {
        item.cents.map_or(String::new(), |cents| {
            language.euros(cents.into()).trim_end_matches(" EUR").to_string()
        })
    };
    let mark = |group: Option<&Group>| group.map_or(0, |group| other(group, number));
    let cells = [
        number.to_string(),
        item.place.to_string(),
        text(item.tx_id),
        text(&item.end_to_end_id),
        text(&item.debtor),
        text(item.debtor_iban),
        cents.to_string(),
        both(euros),
        text(item.collection_date),
        text(item.mandate),
        text(item.mandate_date),
        text(item.sequence),
        mark(same).to_string(),
        mark(alike).to_string(),
    ];
    format!("[{}]", cells.join(","))
}

/// How many items a sequence type has, and what they come to.
fn sums(items: &[Item], sequence: &[u8]) -> String {
    let of = || items.iter().filter(|item| item.sequence == sequence);
    let cents: u128 = of().filter_map(|item| item.cents).map(u128::from).sum();
    Object::default()
        .text("sequence", sequence)
        .number("count", of().count() as u64)
        .raw("items", &both(|language| language.number(of().count() as u128)))
        .raw("euros", &both(|language| language.euros(cents)))
        .end()
}

/// What all items come to.
fn total(items: &[Item]) -> String {
    let cents: u128 = items.iter().filter_map(|item| item.cents).map(u128::from).sum();
    both(|language| language.euros(cents))
}

/// The items for a spreadsheet, as the command has them; none where it lists none.
pub fn csv(message: &[u8], language: usize) -> Result<Option<String>, Disagreement> {
    let judged = Judged::of(OsStr::new(""), message);
    if !judged.verdict.has_items() {
        return Ok(None);
    }
    rows::agree(&judged)?;
    Ok(Some(sheet::of(&rows::rows(&judged), LANGUAGES[language])))
}
