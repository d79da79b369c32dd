//! Request 11: no TxId twice in a bulk. Items with the TxId of an earlier one at every distance, and
//! such as nearly have it; other faults before and behind the second one; TxIds that fall into one slot
//! of the library's index. What is known comes from the making.

use crate::damage::{
    cut_to, fine, form_number, is_value, kind_of, twice, whole, Case, Known, MOST_ITEMS,
};
use crate::message::{accepted, Message, Plan, Spacing, Version, What, INSTRUMENTS};
use crate::random::Random;
use crate::typed::{self, Places};
use crate::value::{Valid, LETTERS_DIGITS};

type Give<'a> = &'a mut dyn FnMut(Case);

/// The sweep of small messages.
pub fn sweep(seed: u64, mut each: impl FnMut(u64, Case)) {
    let mut number = 0;
    let mut give = |case: Case| {
        each(number, case);
        number += 1;
    };
    for version in Version::ALL {
        for type_in_header in [false, true] {
            let is_spaced = type_in_header == (version == Version::V02);
            let spacing = if is_spaced { Spacing::Everywhere } else { Spacing::None };
            let plan = |items| small(items, version, spacing, type_in_header);
            let random = &mut Random::new(seed, 0x74C3);
            pairs(&accepted(&plan(7), random), &mut give);
            groups(&accepted(&plan(5), random), &mut give);
            near(&accepted(&plan(2), random), &mut give);
            elsewhere(&accepted(&plan(4), random), &mut give);
            others(&accepted(&plan(3), random), &mut give);
        }
    }
    let random = &mut Random::new(seed, 0x74C4);
    distances(&accepted(&compact(120), random), &mut give);
    slots(random, &mut give);
}

/// At the limit of items: of 10,000 the last or any other has an earlier one's TxId.
pub fn limits(give: Give) {
    let most = accepted(&compact(MOST_ITEMS), &mut Random::new(1, 0x74C5));
    let (ids, last) = (ids(&most), MOST_ITEMS - 1);
    give(with_ids(&most, &ids, None, "10,000 TxIds"));
    for (one, other) in [(0, last), (last - 1, last), (0, 1), (last / 2, last)] {
        give(with_second(&most, &ids, one, other, "10,000 TxIds, one twice"));
    }
    beyond(&most, give);
}

/// 10,000 TxIds that all fall into one slot, the last one: the search takes as long as it can.
pub fn one_slot(mut each: impl FnMut(u64, Case)) {
    let most = accepted(&compact(MOST_ITEMS), &mut Random::new(1, 0x74C6));
    let (ids, last) = (in_slot(SLOTS - 1, MOST_ITEMS), MOST_ITEMS - 1);
    each(0, with_ids(&most, &ids, None, "10,000 TxIds of one slot"));
    each(1, with_second(&most, &ids, 0, last, "10,000 TxIds of one slot, one twice"));
    each(2, with_second(&most, &ids, last - 1, last, "10,000 TxIds of one slot, one twice"));
}

/// The slots of the library's index.
const SLOTS: usize = 16_384;

/// A plan for so many short items.
fn small(items: usize, version: Version, spacing: Spacing, type_in_header: bool) -> Plan {
    let (declaration, optional) = (spacing == Spacing::None, None);
    Plan { items, spacing, small: true, declaration, optional, type_in_header, version }
}

/// The same, compact.
fn compact(items: usize) -> Plan {
    Plan { optional: Some(false), ..small(items, Version::V08, Spacing::None, true) }
}

/// The TxIds of a message.
fn ids(message: &Message) -> Vec<Vec<u8>> {
    message.transactions().into_iter().map(|part| message.parts[part].bytes.clone()).collect()
}

/// The message with these TxIds; the item of this number, from 0, is the first with that of an earlier
/// one.
fn with_ids(
    message: &Message,
    ids: &[Vec<u8>],
    second: Option<usize>,
    damage: &'static str,
) -> Case {
    let mut other = message.clone();
    let parts = message.transactions();
    for ((part, id), record) in parts.iter().zip(ids).zip(&mut other.records) {
        other.parts[*part].say(Valid::new(id.clone(), 0));
        record[..35].fill(b' ');
        record[..id.len()].copy_from_slice(id);
    }
    match second {
        None => Case { damage, ..whole(other) },
        Some(item) => {
            let place = other.place(parts[item]);
            Case::new(other.bytes(), damage, Known::Refused { number: 24, place })
        }
    }
}

/// The message with these TxIds, but that the second of two items has that of the first.
fn with_second(
    message: &Message,
    ids: &[Vec<u8>],
    one: usize,
    other: usize,
    damage: &'static str,
) -> Case {
    let mut ids = ids.to_vec();
    ids[other] = ids[one].clone();
    with_ids(message, &ids, Some(other), damage)
}

/// Each item with the TxId of each earlier one.
fn pairs(message: &Message, give: Give) {
    let ids = ids(message);
    give(with_ids(message, &ids, None, "no TxId twice"));
    for other in 1..ids.len() {
        for one in 0..other {
            give(with_second(message, &ids, one, other, "TxId twice"));
        }
    }
}

/// Every way in which items share TxIds: all the same, two pairs, three of one, and so on.
fn groups(message: &Message, give: Give) {
    let (ids, count) = (ids(message), message.items.len());
    for way in 0..count.pow(count as u32) {
        let names: Vec<usize> = (0..count).map(|at| way / count.pow(at as u32) % count).collect();
        // Each way once: a name is new only in its turn.
        let mut new = 0;
        let is_in_turn = names.iter().all(|&name| {
            new += usize::from(name == new);
            name < new
        });
        if is_in_turn {
            let second = (0..count).find(|&at| names[..at].contains(&names[at]));
            let shared: Vec<Vec<u8>> = names.iter().map(|&name| ids[name].clone()).collect();
            give(with_ids(message, &shared, second, "TxIds shared"));
        }
    }
}

/// The first and each other one, and each one and the last.
fn distances(message: &Message, give: Give) {
    let (ids, last) = (ids(message), message.items.len() - 1);
    for at in 1..=last {
        give(with_second(message, &ids, 0, at, "TxId twice, at a distance"));
        give(with_second(message, &ids, last - at, last, "TxId twice, at a distance"));
    }
}

/// Two items, for each length: the same TxId; and one with a byte otherwise, more or less at each place,
/// or a letter of the other case.
fn near(message: &Message, give: Give) {
    let all = b"Aa0zB/b1Z+cC2y.dD3xE(e)4w-F?f:5v,G'";
    for length in 1..=all.len() {
        let id = if all[length - 1] == b'/' { b"AAAAAA" } else { &all[..length] };
        let mut pair = |other: Vec<u8>| {
            let is_same = other == id;
            for ids in [[id.to_vec(), other.clone()], [other.clone(), id.to_vec()]] {
                let damage =
                    if is_same { "TxId twice, of each length" } else { "TxIds nearly the same" };
                give(with_ids(message, &ids, is_same.then_some(1), damage));
            }
        };
        pair(id.to_vec());
        for at in 0..id.len() {
            for byte in [b'Q', id[at] ^ 0x20] {
                let mut other = id.to_vec();
                if byte.is_ascii_alphanumeric() && id[at] != b'/' {
                    other[at] = byte;
                    pair(other);
                }
            }
        }
        if id.len() < 35 {
            pair([id, b"0"].concat());
            pair([b"0", id].concat());
        }
        if id.len() > 1 && id[id.len() - 2] != b'/' {
            pair(id[..id.len() - 1].to_vec());
        }
    }
}

/// No element counts but TxId: the other references of each item are the TxId of the next one, and of
/// all items the same.
fn elsewhere(message: &Message, give: Give) {
    let (ids, mut other) = (ids(message), message.clone());
    for part in 0..message.parts.len() {
        let item = message.items.iter().position(|&(first, after)| (first..after).contains(&part));
        let name = message.parts[part].name;
        if is_value(&message.parts[part])
            && ["MsgId", "InstrId", "EndToEndId", "MndtId"].contains(&name)
        {
            let next = item.map_or(0, |item| (item + 1) % ids.len());
            other.parts[part].say(Valid::new(ids[next].clone(), 0));
        }
    }
    let known = fine(&other);
    give(Case::new(other.bytes(), "TxIds in other elements", known));
    let twice = with_second(&other, &ids, 0, ids.len() - 1, "TxIds in other elements, one twice");
    give(twice);
}

/// Three items, of which the last has the TxId of the first, and another fault: before that it comes
/// first, behind it not.
fn others(message: &Message, give: Give) {
    let mut message = message.clone();
    let first = ids(&message)[0].clone();
    message.set_transaction(2, &first);
    let part = message.transactions()[2];
    cuts(&message, part, give);
    ends(&message, part, give);
    parts(&message, part, give);
    types(&message, give);
    instruments(&message, part, give);
}

/// Cut behind each byte: 3 as long as no `<` stands behind the second one.
fn cuts(message: &Message, part: usize, give: Give) {
    let end = message.place(part + 1);
    for length in 0..=message.bytes().len() {
        let (bytes, _) = cut_to(message, length);
        let known = match length > end {
            true => twice(message),
            false => Known::Refused { number: 3, place: length },
        };
        give(Case::new(bytes, "TxId twice, cut", known));
    }
}

/// Another end of the second one, or another value of it.
fn ends(message: &Message, part: usize, give: Give) {
    let place = message.place(part);
    let refused = |number| Known::Refused { number, place };
    let (before, id) = (&message.bytes()[..place], &message.parts[part].bytes);
    for (more, behind, known) in [
        ("", "</TxID>", refused(24)),
        ("", "< /TxId>", refused(24)),
        ("", "<", refused(24)),
        ("", "<!-- -->", refused(24)),
        ("", "</TxId", refused(24)),
        ("", "</TxId><TxId>", refused(24)),
        (" ", "</TxId>", refused(7)),
        ("_", "</TxId>", refused(7)),
        ("/", "<", refused(7)),
        ("\n", "<", refused(7)),
    ] {
        let bytes = [before, id, more.as_bytes(), behind.as_bytes()].concat();
        give(Case::new(bytes, "TxId twice, another end", known));
    }
    for no in [&b""[..], b" ", b"\xff"] {
        give(Case::new([before, no, b"<"].concat(), "TxId twice, no reference", refused(7)));
    }
    let long = vec![b'A'; 36];
    give(Case::new([before, &long, b"<"].concat(), "TxId twice, no reference", refused(7)));
}

/// Each part behind the second one left out, or put in twice: still 24. Each value before it empty: 7 or
/// 10 there; each behind it: 24. Something behind the end, and a wrong count or total: 24.
fn parts(message: &Message, part: usize, give: Give) {
    let known = twice(message);
    // The end tag of the second one itself stays: without it white space would be the value's.
    for at in part + 2..message.parts.len() {
        for copies in [0, 2] {
            let mut other = message.clone();
            let copy = vec![other.parts[at].clone(); copies];
            other.parts.splice(at..=at, copy);
            give(Case::new(other.bytes(), "TxId twice, a fault behind it", known));
        }
    }
    for at in message.parts_that(is_value) {
        let mut other = message.clone();
        other.parts[at].bytes.clear();
        let number = form_number(kind_of(&message.parts[at]));
        let empty = Known::Refused { number, place: message.place(at) };
        let known = if at <= part { empty } else { known };
        give(Case::new(other.bytes(), "TxId twice, an empty value", known));
    }
    for (name, value) in [("NbOfTxs", "9"), ("TtlIntrBkSttlmAmt", "1.00")] {
        let (mut other, at) = (message.clone(), message.header_value(name));
        other.parts[at].bytes = value.into();
        give(Case::new(other.bytes(), "TxId twice, count or total wrong", twice(&other)));
    }
    let bytes = [message.bytes(), b"x".to_vec()].concat();
    give(Case::new(bytes, "TxId twice, bytes after the end", known));
}

/// PmtTpInf in the header or not, and in any of the items: 23 or 4 before the last item, and 24 in it.
fn types(message: &Message, give: Give) {
    for ways in 0..16_u32 {
        let [header, one, two, three] = [0, 1, 2, 3].map(|way| ways >> way & 1 == 1);
        let places = Places { header, items: vec![one, two, three] };
        let (made, known) = typed::placed(message, &places);
        let known = match places.wrong() {
            Some(item) if item < 2 => known,
            _ => twice(&made),
        };
        give(Case::new(made.bytes(), "TxId twice, payment type here and there", known));
    }
}

/// One item of the other local instrument: 11 in an item before the last, else 24.
fn instruments(message: &Message, part: usize, give: Give) {
    let values = message.parts_that(|part| part.what == What::Value(INSTRUMENTS));
    for item in 0..values.len() {
        let mut other = message.clone();
        let code = &mut other.parts[values[item]].bytes;
        *code = if code == b"CORE" { b"B2B".to_vec() } else { b"CORE".to_vec() };
        let known = match values.get(item.max(1)) {
            Some(&at) if at < part => Known::Refused { number: 11, place: other.place(at) },
            _ => twice(&other),
        };
        give(Case::new(other.bytes(), "TxId twice, local instruments mixed", known));
    }
}

/// Item 10,001 is 12, also with the TxId of another; one that stands before it is 24.
fn beyond(most: &Message, give: Give) {
    let (last, after) = most.items[MOST_ITEMS - 1];
    let place = most.place(after);
    let mut more = most.clone();
    more.parts.splice(after..after, most.parts[last..after].to_vec());
    let known = Known::Refused { number: 12, place };
    give(Case::new(more.bytes(), "10,001 items, the last one twice", known));
    let (ids, parts) = (ids(most), most.transactions());
    more.parts[parts[MOST_ITEMS - 1]].bytes = ids[0].clone();
    let known = Known::Refused { number: 24, place: more.place(parts[MOST_ITEMS - 1]) };
    give(Case::new(more.bytes(), "10,001 items, one before them twice", known));
}

// ---- Slots

/// The mixing sum of the library (crates/twice/specs/Engine.antt). No answer depends on it: here it only
/// tells which TxIds meet in its index.
fn mix(value: &[u8]) -> u32 {
    let on = |sum: u32, number: u32| sum.wrapping_add(sum << 5).wrapping_add(number);
    let (mut sum, mut fours) = (0, value.chunks_exact(4));
    for four in fours.by_ref() {
        sum = on(sum, u32::from_le_bytes([four[0], four[1], four[2], four[3]]));
    }
    let sum = fours.remainder().iter().fold(sum, |sum, byte| on(sum, u32::from(*byte)));
    let low = sum.wrapping_add(sum >> 16);
    let high = low.wrapping_add(low << 11);
    high.wrapping_add(high >> 13)
}

/// The slot where the search for a TxId begins.
pub fn slot(id: &[u8]) -> usize {
    mix(id) as usize % SLOTS
}

/// A TxId: four bytes, and then twelve times two that stand four bytes apart and add the same to the
/// sum, 33 times the first and once the second, in each of three ways.
fn one_sum(first: usize, number: usize) -> Vec<u8> {
    let letter = |power: u32| LETTERS_DIGITS[first / 62_usize.pow(power) % 62];
    let mut id: Vec<u8> = (0..4).map(letter).chain([0; 24]).collect();
    for at in 0..12 {
        let (one, other) = [(b'A', b'z'), (b'B', b'Y'), (b'C', b'8')][number / 3_usize.pow(at) % 3];
        let place = 4 + at as usize / 4 * 8 + at as usize % 4;
        (id[place], id[place + 4]) = (one, other);
    }
    id
}

/// So many TxIds of one mixing sum, which begin at this slot.
pub fn in_slot(begin: usize, many: usize) -> Vec<Vec<u8>> {
    let first = (0..).find(|&first| slot(&one_sum(first, 0)) == begin).expect("there is one");
    (0..many).map(|number| one_sum(first, number)).collect()
}

/// So many TxIds of different sums, which begin at this slot or at one of the few behind it, round
/// about.
pub fn about_slot(begin: usize, many: usize) -> Vec<Vec<u8>> {
    let few = |id: &Vec<u8>| (slot(id) + SLOTS - begin) % SLOTS < 8;
    (0..).map(|number| format!("TX-{number}").into_bytes()).filter(few).take(many).collect()
}

/// TxIds that meet in the library's index: all different, and the last one that of each earlier one. At
/// the last slots the search goes on at the first.
fn slots(random: &mut Random, give: Give) {
    let message = accepted(&compact(64), random);
    for begin in [0, 1, SLOTS / 2, SLOTS - 1] {
        let ids = in_slot(begin, 64);
        give(with_ids(&message, &ids, None, "TxIds of one slot"));
        for one in 0..63 {
            give(with_second(&message, &ids, one, 63, "TxIds of one slot, one twice"));
        }
    }
    let message = accepted(&compact(200), random);
    for begin in [0, SLOTS - 4] {
        let ids = about_slot(begin, 200);
        give(with_ids(&message, &ids, None, "TxIds of few slots"));
        for one in [0, 1, 99, 197, 198] {
            give(with_second(&message, &ids, one, 199, "TxIds of few slots, one twice"));
        }
    }
    let message = accepted(&compact(3_000), random);
    let ids = in_slot(SLOTS - 1, 3_000);
    give(with_ids(&message, &ids, None, "TxIds of one slot"));
    give(with_second(&message, &ids, 0, 2_999, "TxIds of one slot, one twice"));
    give(with_second(&message, &ids, 2_998, 2_999, "TxIds of one slot, one twice"));
}
