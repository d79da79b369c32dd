//! The messages that are made for the straight engine's quick reader, and those of the stopwatch, are what
//! they promise to be.

use differ::ask::verdict_words;
use differ::bench::{guessed, GUESSES};
use differ::damage::{Case, Known, LONGEST};
use differ::edges;
use differ::in_items::{Bases, SHARE};
use differ::kind::{Kind, CHECKED};
use differ::layouts::{self, FULL, GATE};
use differ::message::{Message, Part, Version, What};
use differ::typed;
use differ::usual::{usual, Layout};
use differ::value;
use std::collections::{BTreeMap, BTreeSet};

/// The messages that the gate's run of seed 1 is made from.
fn messages() -> impl Iterator<Item = Message> {
    (0..GATE).map(|base| layouts::message(1, base).0)
}

/// Each run of tags of an item, between two values: the tags, and how they are spelled.
fn runs(parts: &[Part]) -> Vec<(Vec<u8>, Vec<u8>)> {
    let mut runs = vec![(Vec::new(), Vec::new())];
    for part in parts {
        let (tags, spelled) = runs.last_mut().expect("there is one");
        match part.what {
            What::Value(_) => runs.push((Vec::new(), Vec::new())),
            What::White => spelled.extend(&part.bytes),
            _ => {
                tags.extend(&part.bytes);
                spelled.extend(&part.bytes);
            }
        }
    }
    runs
}

/// How a run is spelled, beside the run of the same tags that was last spelled with white space in an
/// earlier item.
fn guess(tags: &[u8], spelled: &[u8], last: Option<&Vec<u8>>) -> &'static str {
    match last {
        _ if tags == spelled => "compact",
        None => "the first",
        Some(last) if last == spelled => "as before",
        Some(last) if last.len() == spelled.len() => "as long as before",
        Some(last) if last.len() < spelled.len() => "longer",
        Some(_) => "shorter",
    }
}

/// Each run of tags that an item can have stands in an item behind the first in every relation to what was
/// before.
#[test]
fn every_guess_of_every_run() {
    let mut seen: BTreeMap<Vec<u8>, BTreeSet<&str>> = BTreeMap::new();
    for message in messages() {
        let mut last: BTreeMap<Vec<u8>, Vec<u8>> = BTreeMap::new();
        for (item, &(first, after)) in message.items.iter().enumerate() {
            for (tags, spelled) in runs(&message.parts[first..after]) {
                let guess = guess(&tags, &spelled, last.get(&tags));
                if item > 0 {
                    seen.entry(tags.clone()).or_default().insert(guess);
                }
                if tags != spelled {
                    last.insert(tags, spelled);
                }
            }
        }
    }
    // 19 in both versions, InstrId and RmtInf there or not, the payment type in the item or the header;
    // five of each version alone.
    assert_eq!(seen.len(), 29);
    for (tags, guesses) in seen {
        assert_eq!(guesses.len(), 6, "{}: {guesses:?}", tags.escape_ascii());
    }
}

/// The messages have 3 to 12 items, and some more; both versions, and the payment type in either place;
/// optional elements in each combination.
#[test]
fn every_sort_of_message() {
    let (mut sorts, mut counts) = (BTreeSet::new(), BTreeSet::new());
    for message in messages() {
        counts.insert(message.items.len());
        for &(first, after) in &message.items[1..] {
            let has = |name| message.parts[first..after].iter().any(|part| part.name == name);
            let is_08 = message.version == Version::V08;
            sorts.insert((is_08, typed::is_in_header(&message), has("InstrId"), has("RmtInf")));
        }
    }
    assert_eq!(sorts.len(), 16);
    assert!((3..=12).all(|count| counts.contains(&count)), "{counts:?}");
    assert!(counts.iter().filter(|count| **count > 18).count() > 2, "{counts:?}");
}

/// The elements whose length is at an edge.
const WITH_LENGTHS: [&str; 6] = ["InstrId", "EndToEndId", "TxId", "MndtId", "Nm", "Ustrd"];

/// In items behind the first, a value of every length about the edges: those of accepted messages, which
/// are not too long.
#[test]
fn values_at_the_edges() {
    let mut seen = BTreeSet::new();
    let mut kinds = BTreeMap::new();
    for message in messages() {
        for part in &message.parts[message.items[1].0..] {
            if let (What::Value(kind), true) = (part.what, WITH_LENGTHS.contains(&part.name)) {
                seen.insert((part.name, part.bytes.len()));
                kinds.insert(part.name, kind);
            }
        }
    }
    assert_eq!(kinds.len(), WITH_LENGTHS.len());
    for (name, kind) in kinds {
        for &length in edges::lengths(kind).iter().filter(|length| **length <= edges::longest(kind))
        {
            assert!(seen.contains(&(name, length)), "{name} of {length}");
        }
    }
}

/// In which item a place of a message lies, from 1; 0 before the first.
fn item_of(bytes: &[u8], place: usize) -> usize {
    let tag = b"<DrctDbtTxInf>";
    bytes[..place.min(bytes.len())].windows(tag.len()).filter(|window| window == tag).count()
}

/// What the plain judge says: the number, and how the place lies.
fn said(case: &Case) -> (u64, usize) {
    let [number, place, _] = verdict_words(plain::judge(&case.bytes));
    (number, place as usize)
}

/// The ways of damage, and the numbers that each of them must have given.
const DAMAGES: [(&str, &[u64]); 12] = [
    ("layout", &[0]),
    ("layout, byte replaced", &[0, 4, 7, 8, 9, 10, 15, 19]),
    ("layout, byte replaced and cut", &[3, 4, 7, 8, 10, 19]),
    ("layout, byte deleted", &[0, 4, 7, 8, 10, 19]),
    ("layout, byte put in", &[0, 4, 7, 8, 10, 19]),
    ("layout, cut", &[0, 3]),
    ("layout, value of a length", &[0, 7]),
    ("layout, value of a length, damaged", &[0, 4, 7]),
    ("layout, value replaced", &[0, 4, 7, 8, 9, 10, 11, 15, 19]),
    ("layout, digits that weigh the same", &[7, 8]),
    ("layout, tag malformed", &[4, 7]),
    ("layout, any damage", &[0, 2, 3, 4, 6, 7, 8, 10, 11, 14, 15, 16, 19, 23, 24]),
];

/// Over 100,000 cases; each way of damage with each number that it should give, in the second, the third and
/// a later item; what is known of a case the plain judge says.
#[test]
fn damages_behind_the_first_item() {
    let (mut seen, mut items, mut cases) = (BTreeSet::new(), BTreeSet::new(), 0);
    let mut ends = BTreeSet::new();
    for base in 0..GATE {
        layouts::layouts(1, base, |_, case| {
            let (number, place) = said(&case);
            cases += 1;
            seen.insert((case.damage, number));
            if !matches!(number, 0 | 14 | 15) {
                items.insert((case.damage, item_of(&case.bytes, place).min(4)));
            }
            if matches!(number, 4 | 7..=10 | 19) {
                let left = case.bytes.len() - place;
                ends.insert([12, 36, 64, 161].iter().filter(|least| left < **least).count());
            }
            if case.damage == "layout, white space put in" {
                assert_eq!(number, 0);
            }
        });
    }
    assert!(cases > 100_000, "{cases}");
    for (damage, numbers) in DAMAGES {
        for &number in numbers {
            assert!(seen.contains(&(damage, number)), "{damage}: {number}");
        }
        for item in [2, 3, 4] {
            let is_due = damage != "layout";
            assert_eq!(items.contains(&(damage, item)), is_due, "{damage} in item {item}");
        }
    }
    // A fault with fewer than 12, 36, 64 and 161 bytes behind it, and with more.
    assert_eq!(ends, (0..=4).collect());
}

/// One message of so many is damaged at every place of an item: each byte of it is replaced, deleted, has
/// one put in before it, and is the first that is cut off.
#[test]
fn every_place_of_an_item() {
    for base in [0, FULL, 2 * FULL] {
        let (message, _) = layouts::message(1, base);
        let whole = message.bytes();
        let mut lengths: BTreeMap<&str, BTreeSet<usize>> = BTreeMap::new();
        layouts::layouts(1, base, |_, case| {
            let same =
                whole.iter().zip(&case.bytes).take_while(|(one, other)| one == other).count();
            lengths.entry(case.damage).or_default().insert(same);
        });
        let cut = &lengths["layout, cut"];
        let is_whole = |(from, to): &(usize, usize)| (*from..*to).all(|place| cut.contains(&place));
        assert!(message.item_places()[1..].iter().any(is_whole), "base {base}");
        assert!(cut.is_subset(&lengths["layout, byte replaced"]), "base {base}");
    }
}

/// Each value of a length is known to be fine, or to be too long, of each kind that has lengths.
#[test]
fn lengths_that_are_known() {
    let mut seen = BTreeSet::new();
    for base in 0..GATE {
        layouts::layouts(1, base, |_, case| {
            if case.damage == "layout, value of a length" {
                seen.insert(match case.known {
                    Known::Accepted { .. } => 0,
                    Known::Refused { number, .. } => number,
                    Known::Bad | Known::Nothing => 255,
                });
            }
        });
    }
    assert!(seen.is_superset(&[0, 7].into()), "{seen:?}");
}

/// Values of every kind in items: what the checkers say of them is known and the plain judge says it, whole
/// and cut close behind; those of an item in the second and in the last.
#[test]
fn values_in_items() {
    let (mut seen, mut places) = (BTreeSet::new(), BTreeSet::new());
    let bases = Bases::new(1);
    let kind_at = |kind| CHECKED.iter().position(|one| *one == kind).expect("it is listed");
    value::sweep(1, |number, value| {
        if number % SHARE == 0 {
            let case = bases.with(number, &value);
            let (number, place) = said(&case);
            if let Known::Refused { number: known, place: at } = case.known {
                assert_eq!((number, place), (u64::from(known), at), "{:?}", value.kind);
            }
            seen.insert((kind_at(value.kind), case.damage, number));
            places.insert((kind_at(value.kind), item_of(&case.bytes, place)));
        }
    });
    for (at, kind) in CHECKED.into_iter().enumerate() {
        let has = |damage, number| seen.contains(&(at, damage, number));
        let (whole, cut) = ("value in an item", "value in an item, cut");
        assert!(has(whole, 7) && has(cut, 7) && has(cut, 3), "{kind:?}");
        let right = match kind {
            Kind::Count => 14,
            Kind::ItemAmount | Kind::HeaderAmount => 15,
            _ => 0,
        };
        assert!(has(whole, right), "{kind:?} {right}");
        let more: &[u64] = match kind {
            Kind::Iban => &[8, 19],
            Kind::CreditorId => &[8],
            Kind::ItemAmount | Kind::HeaderAmount => &[9],
            _ => &[],
        };
        let is_met = |number: &u64| has(whole, *number) || has(cut, *number);
        assert!(more.iter().all(is_met), "{kind:?}");
        let of_header = matches!(kind, Kind::Count | Kind::HeaderAmount | Kind::Time);
        let due: &[usize] = if of_header { &[0] } else { &[2, 3] };
        assert!(due.iter().all(|&item| places.contains(&(at, item))), "{kind:?}");
    }
}

/// The usual messages are those of the figures before: as many bytes, and accepted.
#[test]
fn the_usual_messages() {
    for (items, indented, length) in [(1000, false, 1_022_427), (1000, true, 1_636_547)] {
        let message = usual(items, indented);
        assert_eq!(message.len(), length);
        assert_eq!(verdict_words(plain::judge(&message))[..2], [0, items as u64]);
    }
}

/// The values of an element of a message, one behind the other.
fn values(message: &[u8], start: &str) -> Vec<String> {
    let text = String::from_utf8(message.to_vec()).expect("an accepted message is ASCII");
    let value = |piece: &str| piece.split('<').next().unwrap_or("").to_string();
    text.split(start).skip(1).map(value).filter(|value| !value.trim().is_empty()).collect()
}

/// How many there are of it.
fn distinct(values: impl IntoIterator<Item = String>) -> usize {
    values.into_iter().collect::<BTreeSet<String>>().len()
}

/// The white space of each item, before each of its tags, with this between.
fn whites(message: &[u8], between: &str) -> Vec<String> {
    let text = String::from_utf8(message.to_vec()).expect("an accepted message is ASCII");
    let white = |item: &str| {
        let pieces = item.split('>').map(|piece| piece.split('<').next().unwrap_or(""));
        pieces.filter(|piece| piece.trim().is_empty()).collect::<Vec<&str>>().join(between)
    };
    text.split("<DrctDbtTxInf>").skip(1).map(white).collect()
}

/// The messages with bad guesses are accepted, and each is otherwise in what it says and in nothing else.
#[test]
fn bad_guesses() {
    const ITEMS: usize = 300;
    for (what, layout, [optional, countries, creditors]) in GUESSES {
        let message = guessed(ITEMS, layout, [optional, countries, creditors]);
        let answer = verdict_words(plain::judge(&message));
        assert_eq!(answer[..2], [0, ITEMS as u64], "{what}");
        assert!(
            guessed(10_000, layout, [optional, countries, creditors]).len() <= LONGEST,
            "{what}"
        );
        for name in ["<InstrId>", "<Ustrd>"] {
            let count = values(&message, name).len();
            assert_eq!((100..200).contains(&count), optional, "{what}: {count}");
            assert_eq!(count == ITEMS, !optional, "{what}: {count}");
        }
        let ibans = values(&message, "<IBAN>");
        let (own, debtors) = (ibans.iter().step_by(2), ibans.iter().skip(1).step_by(2));
        let lands = distinct(debtors.map(|iban| iban[..2].to_string()));
        assert_eq!(lands > 25, countries, "{what}: {lands}");
        assert_eq!(lands == 1, !countries, "{what}: {lands}");
        let own = [own.cloned().collect(), values(&message, "<Othr><Id>")];
        for owned in own.map(distinct).into_iter().filter(|_| layout == Layout::Compact) {
            assert_eq!(owned > 200, creditors, "{what}: {owned}");
            assert_eq!(owned == 1, !creditors, "{what}: {owned}");
        }
        let whites = whites(&message, if optional { "" } else { "|" });
        let pairs = whites[..ITEMS - 1].windows(2).filter(|pair| pair[0] != pair[1]).count();
        let is_changing = matches!(layout, Layout::Changing | Layout::ByChance);
        assert_eq!(pairs, if is_changing { ITEMS - 2 } else { 0 }, "{what}");
    }
}
