//! Request 10: both versions, and messages that mix them: elements of the other version, roots of the
//! other version and of neither, each tag that parts them cut behind each byte, BICs that one version
//! has alone. What is known comes from the making.

use crate::damage::{cut_to, fine, whole, Case, Known, Twin};
use crate::handmade::handmade;
use crate::message::{accepted, Message, Part, Plan, Spacing, Version, What};
use crate::random::Random;
use crate::value::{known_bic, Valid, WHITE};

/// Where the two BICs of an item stand in its record: the creditor agent's, then the debtor agent's.
const RECORDED: [std::ops::Range<usize>; 2] = [244..255, 173..184];

/// What a root of neither version ends with, in place of `02">` or `08">`.
const NEITHER: [&str; 15] = [
    "03\">", "09\">", "01\">", "00\">", "018\">", "028\">", "82\">", "8\">", "2\">", "\">",
    "O8\">", "08\" >", "08'>", "08\"/>", " 08\">",
];

/// The parts of a message that are so of its BIC elements: their start tags, values or end tags.
fn of_bics(message: &Message, are: impl Fn(What) -> bool) -> Vec<usize> {
    let name = message.version.bic().0;
    message.parts_that(|part| part.name == name && are(part.what))
}

/// The values of the BIC elements: the header's, then of each item the creditor agent's and the debtor
/// agent's.
pub fn bics(message: &Message) -> Vec<usize> {
    of_bics(message, |what| matches!(what, What::Value(_)))
}

/// A tag as the other version has it.
fn renamed(part: &Part, version: Version) -> Vec<u8> {
    let slash = if part.what == What::End { "/" } else { "" };
    format!("<{slash}{}>", version.bic().0).into_bytes()
}

/// The part that is the root's start tag.
fn root(message: &Message) -> usize {
    message.parts_that(|part| part.what == What::Start && part.name == "Document")[0]
}

/// An accepted message in the other version; nothing where that has not all its BICs.
pub fn moved(message: &Message) -> Option<Message> {
    let version = message.version.other();
    let (name, kind) = version.bic();
    let mut other = message.clone();
    for at in bics(message) {
        known_bic(kind, &message.parts[at].bytes).ok()?;
        other.parts[at].what = What::Value(kind);
        for tag in [at - 1, at + 1] {
            other.parts[tag].bytes = renamed(&message.parts[tag], version);
        }
        (at - 1..=at + 1).for_each(|part| other.parts[part].name = name);
    }
    other.parts[root(message)] = Part::new(What::Start, "Document", version.root().into());
    other.version = version;
    Some(other)
}

/// The message with the tags of these of its BIC elements as the other version has them: 4 at the
/// first, accepted with none.
fn mixed(message: &Message, tags: &[usize]) -> (Vec<u8>, Known) {
    let mut other = message.clone();
    for &tag in tags {
        other.parts[tag].bytes = renamed(&message.parts[tag], message.version.other());
    }
    let refused = |&first| Known::Refused { number: 4, place: message.place(first) };
    (other.bytes(), tags.iter().min().map_or(fine(message), refused))
}

/// A message with one tag or both of a BIC element, or all of all, as the other version has them.
pub fn elements_mixed(message: Message, random: &mut Random) -> Option<(Vec<u8>, Known)> {
    let values = bics(&message);
    let at = values[random.below(values.len())];
    let tags = match random.below(4) {
        0 => vec![at - 1],
        1 => vec![at + 1],
        2 => vec![at - 1, at + 1],
        _ => of_bics(&message, |what| what != What::Value(message.version.bic().1)),
    };
    Some(mixed(&message, &tags))
}

/// A message under the root of the other version: 4 at its first BIC element.
pub fn root_of_other(mut message: Message, _: &mut Random) -> Option<(Vec<u8>, Known)> {
    let at = root(&message);
    message.parts[at].bytes = message.version.other().root().into();
    let place = message.place(bics(&message)[0] - 1);
    Some((message.bytes(), Known::Refused { number: 4, place }))
}

/// A root with this end in place of that of a version.
fn root_ending(end: &str) -> String {
    let root = Version::V02.root();
    [&root[..root.len() - "02\">".len()], end].concat()
}

/// The message under a root of neither version, with this end: 2 at it.
fn under_neither(message: &Message, end: &str) -> (Vec<u8>, Known) {
    let (at, mut other) = (root(message), message.clone());
    other.parts[at].bytes = root_ending(end).into_bytes();
    (other.bytes(), Known::Refused { number: 2, place: message.place(at) })
}

/// A message under a root of neither version.
pub fn root_of_neither(message: Message, random: &mut Random) -> Option<(Vec<u8>, Known)> {
    Some(under_neither(&message, random.pick(&NEITHER)))
}

/// A message with one BIC replaced by one that only version .08 has, or none: 7 at it, or accepted.
pub fn wider_bic(mut message: Message, random: &mut Random) -> Option<(Vec<u8>, Known)> {
    let (values, kind) = (bics(&message), message.version.bic().1);
    let part = values[random.below(values.len())];
    let bytes = random.pick(handmade(kind)).as_bytes().to_vec();
    let known = match known_bic(kind, &bytes) {
        Ok(_) => fine(&message),
        Err(number) => Known::Refused { number, place: message.place(part) },
    };
    message.parts[part].bytes = bytes;
    Some((message.bytes(), known))
}

/// The sweep: small messages of two items in both versions, compact and in white space.
pub fn sweep(seed: u64, mut each: impl FnMut(u64, Case)) {
    let mut number = 0;
    let mut give = |case: Case| {
        each(number, case);
        number += 1;
    };
    for version in Version::ALL {
        for spacing in [Spacing::None, Spacing::Everywhere] {
            let is_compact = spacing == Spacing::None;
            let (declaration, optional, type_in_header) =
                (is_compact, Some(!is_compact), !is_compact);
            let (items, small) = (2, true);
            let plan =
                Plan { items, spacing, small, declaration, optional, type_in_header, version };
            let message = accepted(&plan, &mut Random::new(seed, 0x7638));
            cuts(&message, &mut give);
            root_bytes(&message, &mut give);
            roots_of_neither(&message, &mut give);
            elements(&message, &mut give);
            elements_cut(&message, &mut give);
            values(&message, &mut give);
        }
    }
}

type Give<'a> = &'a mut dyn FnMut(Case);

/// As it is and in the other version, each cut behind each byte.
fn cuts(message: &Message, give: Give) {
    give(whole(message.clone()));
    let narrow = with_bics(message, b"BANKDEFFXXX");
    let other = moved(&narrow).expect("both versions have this BIC");
    let twin = Some(Twin { bytes: narrow.bytes(), is_same: false });
    give(Case { damage: "the other version", twin, ..whole(other.clone()) });
    for message in [message, &other] {
        for length in 0..=message.bytes().len() {
            let (bytes, known) = cut_to(message, length);
            give(Case::new(bytes, "a version, cut", known));
        }
    }
}

/// The message with this value for each BIC, and its records.
fn with_bics(message: &Message, value: &[u8]) -> Message {
    bics(message)
        .into_iter()
        .enumerate()
        .fold(message.clone(), |other, (which, part)| with_bic(&other, which, part, value))
}

/// The message with this value for one BIC, and its record.
fn with_bic(message: &Message, which: usize, part: usize, value: &[u8]) -> Message {
    let mut other = message.clone();
    other.parts[part].say(Valid::new(value.to_vec(), 0));
    if which > 0 {
        let field = &mut other.records[(which - 1) / 2][RECORDED[(which - 1) % 2].clone()];
        field.fill(b' ');
        field[..value.len()].copy_from_slice(value);
    }
    other
}

/// Each byte of the root set to each other: 2 at it, but that it may become the other version's.
fn root_bytes(message: &Message, give: Give) {
    let (at, own) = (root(message), message.version.root().as_bytes());
    let first = message.place(bics(message)[0] - 1);
    for (byte, &old) in own.iter().enumerate() {
        for new in (0..=255).filter(|&new| new != old) {
            let mut other = message.clone();
            other.parts[at].bytes[byte] = new;
            let is_other = other.parts[at].bytes == message.version.other().root().as_bytes();
            // White space may stand before the root.
            let place = message.place(at) + usize::from(byte == 0 && WHITE.contains(&new));
            let known = match is_other {
                true => Known::Refused { number: 4, place: first },
                false => Known::Refused { number: 2, place },
            };
            give(Case::new(other.bytes(), "root, byte set", known));
        }
    }
}

/// Roots of neither version, whole and cut behind each byte: 3 as long as one of a version can still
/// follow.
fn roots_of_neither(message: &Message, give: Give) {
    let place = message.place(root(message));
    for end in NEITHER {
        let (bytes, known) = under_neither(message, end);
        give(Case::new(bytes.clone(), "root of neither version", known));
        for length in 0..=root_ending(end).len() {
            let bytes = bytes[..place + length].to_vec();
            let known = match begins_a_root(&bytes[place..]) {
                true => Known::Refused { number: 3, place: place + length },
                false => known,
            };
            give(Case::new(bytes, "root of neither version, cut", known));
        }
    }
}

/// Whether a root of either version begins with these bytes.
fn begins_a_root(bytes: &[u8]) -> bool {
    Version::ALL.iter().any(|version| version.root().as_bytes().starts_with(bytes))
}

/// Each subset of the BIC elements as the other version has them; each of their tags alone; all of
/// them, and the root not; the root, and none of them.
fn elements(message: &Message, give: Give) {
    let values = bics(message);
    for ways in 0..1_u32 << values.len() {
        let chosen = values.iter().enumerate().filter(|(which, _)| ways >> which & 1 == 1);
        let tags: Vec<usize> = chosen.flat_map(|(_, at)| [at - 1, at + 1]).collect();
        let (bytes, known) = mixed(message, &tags);
        give(Case::new(bytes, "elements of the other version", known));
    }
    for tag in values.iter().flat_map(|at| [at - 1, at + 1]) {
        let (bytes, known) = mixed(message, &[tag]);
        give(Case::new(bytes, "one tag of the other version", known));
    }
    let random = &mut Random::new(0, 0);
    let (bytes, known) = root_of_other(message.clone(), random).expect("it always fits");
    give(Case::new(bytes, "root of the other version", known));
}

/// Each tag of a BIC element, its own and the other version's, cut behind each byte and with each other
/// letter behind that: 3 as long as its own can still follow.
fn elements_cut(message: &Message, give: Give) {
    for tag in of_bics(message, |what| matches!(what, What::Start | What::End)) {
        let (place, own) = (message.place(tag), &message.parts[tag].bytes);
        let before = &message.bytes()[..place];
        for text in [own.clone(), renamed(&message.parts[tag], message.version.other())] {
            for length in 0..=text.len() {
                for more in ["", ">", "F", "FI", "X", " ", "/", "<"] {
                    let cut = [&text[..length], more.as_bytes()].concat();
                    give(cut_in_tag(before, own, &cut, message.parts[tag].what));
                }
            }
        }
    }
}

/// A message that ends with these bytes where a tag of a BIC element is due.
fn cut_in_tag(before: &[u8], own: &[u8], cut: &[u8], what: What) -> Case {
    let (place, bytes) = (before.len(), [before, cut].concat());
    // White space may stand before a start tag; before the end tag it would be the value's.
    let white = cut.iter().take_while(|&&byte| what == What::Start && byte == b' ').count();
    let known = match own.starts_with(&cut[white..]) {
        true => Known::Refused { number: 3, place: bytes.len() },
        // What follows a whole start tag, or stands before an end tag, is a value's.
        false if cut.starts_with(own) || (what == What::End && cut[0] != b'<') => Known::Bad,
        false => Known::Refused { number: 4, place: place + white },
    };
    Case::new(bytes, "tag of a version, cut", known)
}

/// Each BIC replaced by each that was made by hand: 7 at it, or accepted, with its records and its
/// plain form.
fn values(message: &Message, give: Give) {
    let kind = message.version.bic().1;
    for (which, part) in bics(message).into_iter().enumerate() {
        for value in handmade(kind).iter().map(|value| value.as_bytes()) {
            let known = known_bic(kind, value);
            match known {
                Ok(_) => {
                    let made = whole(with_bic(message, which, part, value));
                    give(Case { damage: "BIC of a version", ..made });
                }
                Err(number) => {
                    let mut other = message.clone();
                    other.parts[part].bytes = value.to_vec();
                    let known = Known::Refused { number, place: message.place(part) };
                    give(Case::new(other.bytes(), "no BIC of a version", known));
                }
            }
        }
    }
}
