//! Every byte and every part of small messages damaged, and messages at the limits. Each case has
//! its number, so that it can be made again.

use crate::collapse::{self, white_runs};
use crate::damage::{
    cut_to, element_at, fine, form_number, is_tag, is_value, kind_of, known_with_white, malform,
    values_of, whole, Case, Known, LONGEST, MALFORMED, MOST_ITEMS,
};
use crate::handmade::{handmade, EXAMPLES, UNLISTED};
use crate::kind::Kind;
use crate::message::{accepted, concat, Message, Part, Plan, Spacing, Version, What};
use crate::random::Random;
use crate::spellings;
use crate::twice;
use crate::value::{self, WHITE};

type Give<'a> = &'a mut dyn FnMut(Vec<u8>, &'static str, Known);

/// The small messages that are swept: everything optional, behind a declaration, compact and as meant,
/// and in white space; nothing optional and two items, with PmtTpInf in each and in the header. The
/// compact one in both versions, of the others every other one.
fn small_messages(seed: u64) -> [Message; 5] {
    let small = |version: Version, spacing: Spacing, full: bool, type_in_header: bool| {
        let random = &mut Random::new(seed, u64::MAX - u64::from(full));
        let (items, declaration, optional) = (if full { 1 } else { 2 }, full, Some(full));
        let plan =
            Plan { items, spacing, small: true, declaration, optional, type_in_header, version };
        accepted(&plan, random)
    };
    [
        small(Version::V02, Spacing::None, true, false).as_meant(),
        small(Version::V08, Spacing::None, true, false).as_meant(),
        small(Version::V08, Spacing::Everywhere, true, false),
        small(Version::V02, Spacing::None, false, false),
        small(Version::V08, Spacing::None, false, true),
    ]
}

/// The sweeps, over each of the small messages.
pub fn sweep(seed: u64, mut each: impl FnMut(u64, Case)) {
    let mut number = 0;
    let mut give = |bytes: Vec<u8>, damage: &'static str, known: Known| {
        each(number, Case::new(bytes, damage, known));
        number += 1;
    };
    for message in small_messages(seed) {
        cuts(&message, &mut give);
        bytes_set(&message, &mut give);
        bytes_moved(&message, &mut give);
        white_space(&message, &mut give);
        parts(&message, &mut give);
        tags(&message, &mut give);
        elements(&message, &mut give);
        values(&message, &mut give);
        accounts(&message, &mut give);
        totals(&message, &mut give);
    }
}

/// Cut behind each byte.
fn cuts(message: &Message, give: Give) {
    for length in 0..=message.bytes().len() {
        let (bytes, known) = cut_to(message, length);
        give(bytes, "cut", known);
    }
}

/// A byte that stands nowhere in an accepted message.
fn is_foreign(byte: u8) -> bool {
    !byte.is_ascii() || (byte.is_ascii_control() && !WHITE.contains(&byte))
}

/// Bytes of every sort.
const SORTS: &[u8] = b"<>/&\"'=?!;-.:[]@`{AZaz019 \n\x00\x0b\x0c\x1f\x7f\x80\xa0\xc3\xe9\xef\xff";

/// Each byte set to each other; in a message with white space or two items, to one of every sort, to
/// the one before and the one behind, and to the other case.
fn bytes_set(message: &Message, give: Give) {
    let bytes = message.bytes();
    let all = message.parts.iter().all(|part| part.what != What::White) && message.count == 1;
    for (at, &old) in bytes.iter().enumerate() {
        let near = [old.wrapping_add(1), old.wrapping_sub(1), old ^ 0x20];
        for new in (0..=255).filter(|new| all || SORTS.contains(new) || near.contains(new)) {
            if new != old {
                let mut other = bytes.clone();
                other[at] = new;
                let known = if is_foreign(new) { Known::Bad } else { Known::Nothing };
                give(other, "byte set", known);
            }
        }
    }
}

/// Each byte left out, doubled, exchanged with the next, and preceded by one of many.
fn bytes_moved(message: &Message, give: Give) {
    let bytes = message.bytes();
    for at in 0..bytes.len() {
        let (before, after) = bytes.split_at(at);
        give([before, &after[1..]].concat(), "byte left out", Known::Nothing);
        give([before, &after[..1], after].concat(), "byte doubled", Known::Nothing);
        let mut other = bytes.clone();
        if at + 1 < bytes.len() && bytes[at] != bytes[at + 1] {
            other.swap(at, at + 1);
            give(other, "bytes exchanged", Known::Nothing);
        }
    }
    for at in 0..=bytes.len() {
        let (before, after) = bytes.split_at(at);
        for &new in SORTS {
            let known = if is_foreign(new) || new == b'<' { Known::Bad } else { Known::Nothing };
            give([before, &[new], after].concat(), "byte put in", known);
        }
    }
}

/// What is known when white space is put in before byte `at` of a part.
fn with_white(message: &Message, part: usize, at: usize, white: &[u8]) -> Known {
    let Part { what, name, bytes, .. } = &message.parts[part];
    let last = part.checked_sub(1).map(|last| message.parts[last].what);
    let place = message.place(part);
    match what {
        What::White => fine(message),
        What::Declaration if at == 0 => Known::Refused { number: 2, place: place + white.len() },
        What::Declaration => Known::Refused { number: 2, place },
        What::Start if *name == "Document" && at > 0 => Known::Refused { number: 2, place },
        What::Start | What::End if at > 0 => Known::Refused { number: 4, place },
        What::End if matches!(last, Some(What::Value(_))) => {
            known_with_white(message, part - 1, message.parts[part - 1].bytes.len())
        }
        What::Start | What::End => fine(message),
        What::Value(_) => {
            debug_assert!(at < bytes.len());
            known_with_white(message, part, at)
        }
    }
}

/// White space before each byte and at the end: where it may stand and where not.
fn white_space(message: &Message, give: Give) {
    let all = message.bytes();
    for white in [b" ".as_slice(), b"\t", b"\r", b"\n", b"\r\n  ", b" \t\r\n \t\r\n"] {
        for part in 0..message.parts.len() {
            for at in 0..message.parts[part].bytes.len() {
                let (before, after) = all.split_at(message.place(part) + at);
                let known = with_white(message, part, at, white);
                give([before, white, after].concat(), "white space put in", known);
            }
        }
        give([&all, white].concat(), "white space put in", fine(message));
    }
}

/// Each part dropped, doubled, replaced by `<`, exchanged with the next, and with the next but one.
fn parts(message: &Message, give: Give) {
    let parts = &message.parts;
    for at in 0..parts.len() {
        let (before, after) = (&parts[..at], &parts[at + 1..]);
        let one = std::slice::from_ref(&parts[at]);
        give([concat(before), concat(after)].concat(), "part dropped", Known::Nothing);
        let doubled = [before, one, one, after].concat();
        give(concat(&doubled), "part doubled", Known::Nothing);
        let known = if is_tag(&parts[at]) { Known::Bad } else { Known::Nothing };
        let bracket = [concat(before), b"<".to_vec(), concat(after)].concat();
        give(bracket, "part a bracket", known);
        for other in [at + 1, at + 2] {
            if other < parts.len() {
                let mut swapped = parts.clone();
                swapped.swap(at, other);
                give(concat(&swapped), "parts exchanged", Known::Nothing);
            }
        }
    }
}

/// Each tag malformed in each way, dropped, doubled, and replaced by each other.
fn tags(message: &Message, give: Give) {
    let random = &mut Random::new(0, 0x7A65);
    let tags = message.parts_that(is_tag);
    for &at in &tags {
        let mut with = |bytes: Vec<u8>, damage| {
            let mut other = message.clone();
            other.parts[at].bytes = bytes;
            give(other.bytes(), damage, Known::Bad);
        };
        let tag = &message.parts[at].bytes;
        for way in 0..MALFORMED {
            let mut malformed = tag.clone();
            malform(&mut malformed, way, random);
            with(malformed, "tag malformed");
        }
        with(Vec::new(), "tag dropped");
        with([tag.as_slice(), tag].concat(), "tag doubled");
        for &other in &tags {
            if message.parts[other].bytes != *tag {
                with(message.parts[other].bytes.clone(), "tag replaced by another");
            }
        }
    }
}

/// Each element dropped, doubled, and behind its next sibling.
fn elements(message: &Message, give: Give) {
    for start in message.parts_that(|part| part.what == What::Start) {
        let (first, after) = element_at(message, start);
        let (before, element) = (&message.parts[..first], &message.parts[first..after]);
        let behind = &message.parts[after..];
        let optional = matches!(element[0].name, "InstrId" | "RmtInf");
        let known = if optional { fine(message) } else { Known::Bad };
        give(concat(&[before, behind].concat()), "element dropped", known);
        let doubled = [before, element, element, behind].concat();
        give(concat(&doubled), "element doubled", Known::Bad);
        let Some(next) = behind.iter().position(|part| part.what != What::White) else { continue };
        if behind[next].what == What::Start {
            let (_, last) = element_at(message, after + next);
            let mut swapped = message.parts.clone();
            swapped[first..last].rotate_left(after - first);
            let same = behind[next].name == element[0].name;
            let known = if same { fine(message) } else { Known::Bad };
            give(concat(&swapped), "elements exchanged", known);
        }
    }
}

/// Each value empty, each run of white space alone, and each of the values that were made by hand for
/// its kind.
fn values(message: &Message, give: Give) {
    for at in message.parts_that(is_value) {
        let kind = kind_of(&message.parts[at]);
        let mut other = message.clone();
        other.parts[at].bytes.clear();
        let known = Known::Refused { number: form_number(kind), place: message.place(at) };
        give(other.bytes(), "value empty", known);
        for white in white_runs() {
            other.parts[at].bytes = white;
            give(other.bytes(), "white space for a value", known);
        }
        for value in handmade(kind) {
            other.parts[at].bytes = value.as_bytes().to_vec();
            give(other.bytes(), "value made by hand", Known::Nothing);
        }
    }
}

/// Each IBAN replaced: by the examples, by those made shorter and longer with right check digits
/// and with wrong ones, and by those of countries that are not listed.
fn accounts(message: &Message, give: Give) {
    let mut with = |at: usize, value: Vec<u8>, known: Result<u64, u8>| {
        let mut other = message.clone();
        other.parts[at].bytes = value;
        let refused = |number| Known::Refused { number, place: message.place(at) };
        give(other.bytes(), "IBAN replaced", known.map_or_else(refused, |_| fine(message)));
    };
    for at in values_of(message, Kind::Iban) {
        for example in EXAMPLES.map(str::as_bytes) {
            with(at, example.to_vec(), Ok(0));
            for length in [14, 15, example.len() - 1, example.len() + 1, 34, 35] {
                let mut body = example[4..].to_vec();
                body.resize(length - 4, b'7');
                let right = value::with_digits(&example[..2], &body);
                let wrong = value::digits_off(&right);
                with(at, wrong.clone(), value::known_iban(&wrong, false));
                with(at, right.clone(), value::known_iban(&right, true));
            }
        }
        UNLISTED.into_iter().for_each(|unlisted| with(at, unlisted.into(), Err(19)));
    }
}

/// Wrong counts, wrong totals, and each wrong count with each wrong total.
fn totals(message: &Message, give: Give) {
    let (count, total) =
        (message.header_value("NbOfTxs"), message.header_value("TtlIntrBkSttlmAmt"));
    let places = (message.place(count), message.place(total));
    let counts = [0, 1, 2, 3, 9, 10, 11, 10_000, 10_001, (1 << 32) + message.count];
    let cents = message.cents;
    let sums = [cents, cents - 1, cents + 1, cents + 100, 10 * cents, (1 << 32) + cents];
    let random = &mut Random::new(0, 0x7074);
    for number in counts.into_iter().chain([message.count, 999_999_999_999_999]) {
        for sum in sums.into_iter().chain([value::HEADER_MOST]) {
            let mut other = message.clone();
            other.parts[count].bytes = number.to_string().into_bytes();
            other.parts[total].bytes = value::amount(sum, random);
            let moved = other.parts[count].bytes.len() - message.parts[count].bytes.len();
            let known = match (number == message.count, sum == cents, sum) {
                (_, _, 0) => Known::Refused { number: 9, place: places.1 + moved },
                (true, true, _) => fine(message),
                (true, false, _) => Known::Refused { number: 15, place: places.1 + moved },
                (false, _, _) => Known::Refused { number: 14, place: places.0 },
            };
            give(other.bytes(), "count and total", known);
        }
    }
}

/// Messages at the limits of length and of items, with what is known of each.
pub fn limits(mut each: impl FnMut(u64, Case)) {
    let mut number = 0;
    let mut give = |case: Case| {
        each(number, case);
        number += 1;
    };
    lengths(&mut |bytes, damage, known| give(Case::new(bytes, damage, known)));
    let most = accepted(&compact(MOST_ITEMS), &mut Random::new(1, 2));
    give(whole(most.clone()));
    most_items(&most, &mut |bytes, damage, known| give(Case::new(bytes, damage, known)));
    spellings::limits(&mut give);
    long_values(&mut give);
    twice::limits(&mut give);
}

/// Values of as many bytes as a message can have. The raw length of those that collapse is free; what
/// they mean, their records and their plain form are known.
fn long_values(give: &mut dyn FnMut(Case)) {
    let random = &mut Random::new(1, 5);
    let plan = Plan { optional: Some(true), ..compact(1) };
    let message = accepted(&plan, random);
    for kind in [Kind::EndToEnd, Kind::Text70, Kind::Text140, Kind::Reference] {
        let part = values_of(&message, kind)[0];
        let room = LONGEST - message.bytes().len() + message.parts[part].bytes.len();
        let mut other = message.clone();
        other.parts[part].bytes = random.bytes(WHITE, room);
        let refused = Known::Refused { number: 7, place: message.place(part) };
        give(Case::new(other.bytes(), "white space of 16 million bytes", refused));
        let bytes = collapse::spelled_to(&message.parts[part].meant, room, random);
        other.parts[part].bytes = bytes;
        let known = match kind.longest_collapsed() {
            Some(_) => whole(other),
            None => Case::new(other.bytes(), "none", refused),
        };
        give(Case { damage: "a value of 16 million bytes", ..known });
    }
}

/// A plan for so many short items.
fn compact(items: usize) -> Plan {
    let (spacing, optional, version) = (Spacing::None, Some(false), Version::V02);
    Plan {
        items,
        spacing,
        small: true,
        declaration: true,
        optional,
        type_in_header: false,
        version,
    }
}

/// Messages of the longest length, and of one byte more.
fn lengths(give: Give) {
    let one = accepted(&compact(1), &mut Random::new(1, 1));
    let filled = |length| {
        let mut bytes = one.bytes();
        bytes.resize(length, b'\n');
        bytes
    };
    let too_long = Known::Refused { number: 1, place: 0 };
    give(filled(LONGEST - 1), "white space at the end", fine(&one));
    give(filled(LONGEST), "white space at the end", fine(&one));
    give(filled(LONGEST + 1), "white space at the end", too_long);
    let place = LONGEST;
    give(vec![0; LONGEST], "NUL", Known::Refused { number: 2, place: 0 });
    give(vec![0; LONGEST + 1], "NUL", too_long);
    give(vec![b' '; LONGEST], "white space alone", Known::Refused { number: 3, place });
    give(vec![b' '; LONGEST + 1], "white space alone", too_long);
    let mut open = one.bytes();
    open.truncate(one.place(one.header_value("MsgId")));
    open.resize(LONGEST, b'A');
    give(open.clone(), "a value without end", Known::Refused { number: 3, place });
    let place = one.place(one.header_value("MsgId"));
    open[LONGEST - 1] = b'<';
    give(open, "a value of 16 million bytes", Known::Refused { number: 7, place });
}

/// The item behind the 10,000th: cut, begun, malformed, whole; and an item doubled or left out.
fn most_items(most: &Message, give: Give) {
    let (last, after) = most.items[MOST_ITEMS - 1];
    let place = most.place(after);
    let before = concat(&most.parts[..after]);
    for (more, number, further) in [
        ("", 3, 0),
        (" <DrctDbtTxInf", 3, 14),
        (" <DrctDbtTxInf>", 12, 1),
        (" <DrctDbtTxInf>_", 12, 1),
        (" <DrctDbtTxInf/>", 4, 1),
    ] {
        let bytes = [&before, more.as_bytes()].concat();
        let known = Known::Refused { number, place: place + further };
        give(bytes, "item 10,001 begins", known);
    }
    let mut more = most.clone();
    more.parts.splice(after..after, most.parts[last..after].to_vec());
    give(more.bytes(), "10,001 items", Known::Refused { number: 12, place });
    let mut fewer = most.clone();
    fewer.parts.drain(last..after);
    let place = most.place(most.header_value("NbOfTxs"));
    give(fewer.bytes(), "9,999 of 10,000 items", Known::Refused { number: 14, place });
    let random = &mut Random::new(1, 3);
    for _ in 0..3 {
        let (bytes, known) = cut_to(most, random.between(before.len() - 2000, before.len()));
        give(bytes, "10,000 items, cut", known);
    }
}
