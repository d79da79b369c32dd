//! Request 14: messages for the straight engine's quick reader, which guesses how an item is laid out from
//! the items before it, and reads values by many bytes at once. The items of a message have one of a few
//! layouts each, often with a twist, optional elements by chance and values at the edges of what is read
//! at once; often also the payment type, the terms and the creditor's side of the item before, which is
//! then not judged again; then one damage in an item behind the first, so that it lies behind a guess.

use crate::damage::{damaged, due, fine, is_tag, is_value, kind_of, malform, whole};
use crate::damage::{Case, Known, MALFORMED};
use crate::edges;
use crate::kind::Kind;
use crate::message::{concat, laid_out, Message, Part, Plan, Spacing, Version, What};
use crate::random::Random;
use crate::twins::may_have_white;
use crate::value::{self, Valid, WHITE};

/// So many cases of one message have a number of their own.
pub const NUMBERS: u64 = 100_000;
/// The gate's run damages so many messages, which makes over 100,000 cases.
pub const GATE: u64 = 120;
/// Of every so many messages one is damaged at every place of the item, the others here and there.
pub const FULL: u64 = 16;
/// Of every so many messages one has 13 to 24 items.
const LONG: u64 = 12;
/// So many cases of a message for each damage that is not made place by place.
const EACH: usize = 16;

/// The layouts, also such as have equally many bytes.
const LAYOUTS: [Spacing; 16] = [
    Spacing::None,
    Spacing::None,
    Spacing::Some,
    Spacing::Everywhere,
    Spacing::Indented,
    Spacing::Indented,
    Spacing::Lines("\n", "\t"),
    Spacing::Lines("\n", " "),
    Spacing::Lines("\r", " "),
    Spacing::Lines("\r\n", "  "),
    Spacing::Lines("\r\n", "\t"),
    Spacing::Lines("\n", ""),
    Spacing::Lines("\r", ""),
    Spacing::Lines("\n\n", "    "),
    Spacing::Lines("", " "),
    Spacing::Lines("\t", " "),
];

type Give<'a> = &'a mut dyn FnMut(Case);

/// The accepted message that the cases of this number are made from, and the numbers that go on from
/// there.
pub fn message(seed: u64, base: u64) -> (Message, Random) {
    let mut random = Random::new(seed ^ 0x1A70, base);
    let usual = match random.below(6) {
        0 => random.between(5, 12),
        _ => random.between(3, 4),
    };
    // Some so long that a run of tags of which nothing was kept for eight items is kept again.
    let items = if base % LONG == 7 { 13 + (base / LONG) as usize % 12 } else { usual };
    let few = random.between(1, 4);
    let layouts: Vec<Spacing> = (0..few).map(|_| LAYOUTS[random.below(LAYOUTS.len())]).collect();
    let plan = Plan {
        items,
        spacing: LAYOUTS[random.below(LAYOUTS.len())],
        small: false,
        declaration: random.once_in(2),
        optional: None,
        type_in_header: random.once_in(3),
        version: Version::ALL[random.below(2)],
    };
    let mut message = laid_out(&plan, &layouts, &mut random);
    for item in 0..items {
        if random.once_in(2) {
            twist(&mut message, item, &mut random);
        }
    }
    (message, random)
}

/// One white place of an item otherwise: a byte of it another, one more, one less; or white space where
/// none was.
fn twist(message: &mut Message, item: usize, random: &mut Random) {
    let (first, after) = message.items[item];
    let is_white = |at: &usize| message.parts[*at].what == What::White;
    let whites: Vec<usize> = (first..after).filter(is_white).collect();
    if whites.is_empty() || random.once_in(4) {
        let may = |at: &usize| may_have_white(&message.parts, *at);
        let places: Vec<usize> = (first + 1..after).filter(may).collect();
        let at = places[random.below(places.len())];
        return put_white(message, at, random.bytes(WHITE, 1));
    }
    let bytes = &mut message.parts[whites[random.below(whites.len())]].bytes;
    let at = random.below(bytes.len());
    match random.below(4) {
        0 if bytes.len() > 1 => drop(bytes.remove(at)),
        1 => bytes.insert(at, random.of(WHITE)),
        _ => bytes[at] = random.of(WHITE),
    }
}

/// White space before a tag inside an item.
fn put_white(message: &mut Message, at: usize, bytes: Vec<u8>) {
    message.parts.insert(at, Part::new(What::White, "", bytes));
    for (first, after) in &mut message.items {
        *first += usize::from(*first >= at);
        *after += usize::from(*after > at);
    }
}

/// The cases of the message of this seed and number. A case's own number is 100,000 times that number and
/// so many more.
pub fn layouts(seed: u64, base: u64, mut each: impl FnMut(u64, Case)) {
    let (message, mut random) = message(seed, base);
    let mut number = NUMBERS * base;
    let mut give = |case: Case| {
        each(number, case);
        number += 1;
    };
    give(Case { damage: "layout", ..whole(message.clone()) });
    let item = [1, 2, message.items.len() - 1][random.below(3)];
    let one = Item::new(&message, item);
    let stride = if base % FULL == 0 { 1 } else { random.between(12, 40) };
    let random = &mut random;
    bytes(&one, stride, random, &mut give);
    lengths(&one, random, &mut give);
    values(&one, random, &mut give);
    figures(&one, random, &mut give);
    tags(&one, random, &mut give);
    white_space(&one, random, &mut give);
    for _ in 0..EACH {
        give(Case { damage: "layout, any damage", ..damaged(message.clone(), random) });
    }
    assert!(number < NUMBERS * (base + 1), "each case has a number of its own");
}

/// The item of a message that is damaged.
struct Item<'a> {
    message: &'a Message,
    bytes: Vec<u8>,
    /// Its parts.
    parts: (usize, usize),
    /// Its bytes.
    place: (usize, usize),
}

impl<'a> Item<'a> {
    /// This one of a message.
    fn new(message: &'a Message, item: usize) -> Item<'a> {
        let (parts, place) = (message.items[item], message.item_places()[item]);
        Item { message, bytes: message.bytes(), parts, place }
    }

    /// One of its parts that are so.
    fn part(&self, is: fn(&Part) -> bool, random: &mut Random) -> usize {
        let parts: Vec<usize> =
            (self.parts.0..self.parts.1).filter(|&at| is(&self.message.parts[at])).collect();
        parts[random.below(parts.len())]
    }

    /// The message with these bytes for a part.
    fn with(&self, part: usize, bytes: &[u8]) -> Vec<u8> {
        let (before, after) = self.message.parts.split_at(part);
        [&concat(before), bytes, &concat(&after[1..])].concat()
    }
}

/// So many bytes behind an item are damaged too; and so near behind a damage a message may end.
const BEHIND: usize = 70;

/// At the places of the item and just behind it: the byte replaced, deleted, one put in; the message cut
/// there; a byte replaced and the message cut close behind.
fn bytes(item: &Item, stride: usize, random: &mut Random, give: Give) {
    let all = &item.bytes;
    let end = due(item.message);
    let cut_to = |length: usize| match length >= end {
        true => fine(item.message),
        false => Known::Refused { number: 3, place: length },
    };
    let last = all.len().min(item.place.1 + BEHIND);
    let mut at = item.place.0 + random.below(stride);
    while at < last {
        let (before, after) = all.split_at(at);
        let new = other_byte(all[at], random);
        let replaced = [before, &[new], &after[1..]].concat();
        let near = all.len().min(at + random.between(1, BEHIND));
        let cut = replaced[..near].to_vec();
        give(Case::new(replaced, "layout, byte replaced", Known::Nothing));
        give(Case::new(cut, "layout, byte replaced and cut", Known::Nothing));
        let deleted = [before, &after[1..]].concat();
        give(Case::new(deleted, "layout, byte deleted", Known::Nothing));
        let inserted = [before, &[value::foreign(random)], after].concat();
        give(Case::new(inserted, "layout, byte put in", Known::Nothing));
        give(Case::new(before.to_vec(), "layout, cut", cut_to(at)));
        at += stride;
    }
}

/// Another byte: a neighbour of this one, its other case, white space, or any that damages have.
fn other_byte(old: u8, random: &mut Random) -> u8 {
    let new = match random.below(6) {
        0 => old ^ 0x20,
        1 => old.wrapping_add(1),
        2 => old.wrapping_sub(1),
        3 => random.of(WHITE),
        _ => value::foreign(random),
    };
    if new == old {
        return old ^ 1;
    }
    new
}

/// Two values of the item with each of the lengths about the edges, and what is known of it: too long is 7.
/// Of such a value also one byte otherwise, at the edge.
fn lengths(item: &Item, random: &mut Random, give: Give) {
    let has_lengths = |part: &Part| is_value(part) && !edges::lengths(kind_of(part)).is_empty();
    for _ in 0..2 {
        let part = item.part(has_lengths, random);
        let (kind, place) = (kind_of(&item.message.parts[part]), item.message.place(part));
        for &length in edges::lengths(kind) {
            let mut value = edges::of_length(kind, length, random);
            let mut other = item.message.clone();
            other.parts[part].say(Valid::new(value.clone(), 0));
            let known = match other.second_transaction() {
                None if length <= edges::longest(kind) => fine(&other),
                None => Known::Refused { number: 7, place },
                Some(_) => Known::Nothing,
            };
            give(Case::new(other.bytes(), "layout, value of a length", known));
            let near = [length - 1, length - 1, length / 2, random.below(length)];
            value[near[random.below(4)]] = value::foreign(random);
            let bytes = item.with(part, &value);
            give(Case::new(bytes, "layout, value of a length, damaged", Known::Nothing));
        }
    }
}

/// Values of the item replaced: nearly valid, damaged, valid.
fn values(item: &Item, random: &mut Random, give: Give) {
    for way in 0..2 * EACH {
        let part = item.part(is_value, random);
        let make = [value::near, value::damaged, |kind, random: &mut Random| {
            value::valid(kind, random).bytes
        }][way % 3];
        let value = make(kind_of(&item.message.parts[part]), random);
        let bytes = item.with(part, &value);
        give(Case::new(bytes, "layout, value replaced", Known::Nothing));
    }
}

/// Two digits that follow each other in values of the item, written so that they would weigh the same to
/// one who takes any byte for a digit: one more or less in the first, ten less or more in the second.
fn figures(item: &Item, random: &mut Random, give: Give) {
    let weighs = |part: &Part| {
        let kinds = [Kind::Iban, Kind::CreditorId, Kind::ItemAmount, Kind::Date];
        kinds.iter().any(|kind| part.what == What::Value(*kind))
    };
    for _ in 0..EACH {
        let part = item.part(weighs, random);
        let mut value = item.message.parts[part].bytes.clone();
        let are_digits = |at: &usize| value[*at..at + 2].iter().all(u8::is_ascii_digit);
        let pairs: Vec<usize> = (0..value.len() - 1).filter(are_digits).collect();
        if !pairs.is_empty() {
            let at = pairs[random.below(pairs.len())];
            (value[at], value[at + 1]) = match random.once_in(2) {
                true => (value[at] - 1, value[at + 1] + 10),
                false => (value[at] + 1, value[at + 1] - 10),
            };
            let bytes = item.with(part, &value);
            give(Case::new(bytes, "layout, digits that weigh the same", Known::Nothing));
        }
    }
}

/// Tags of the item that are no longer what they were.
fn tags(item: &Item, random: &mut Random, give: Give) {
    for _ in 0..EACH {
        let part = item.part(is_tag, random);
        let mut tag = item.message.parts[part].bytes.clone();
        malform(&mut tag, random.below(MALFORMED), random);
        give(Case::new(item.with(part, &tag), "layout, tag malformed", Known::Bad));
    }
}

/// White space before tags of the item: where it may stand, all is as it was.
fn white_space(item: &Item, random: &mut Random, give: Give) {
    for _ in 0..EACH {
        let part = item.part(is_tag, random);
        if may_have_white(&item.message.parts, part) {
            let (length, place) = (random.length(1, 5), item.message.place(part));
            let (before, after) = item.bytes.split_at(place);
            let bytes = [before, &random.bytes(WHITE, length), after].concat();
            let case = Case::new(bytes, "layout, white space put in", fine(item.message));
            give(Case { records: item.message.records.concat(), ..case });
        }
    }
}
