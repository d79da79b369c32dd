//! Damaged messages, with what is known of their refusal.

use crate::collapse;
use crate::kind::Kind;
use crate::message::{
    accepted, concat, Message, Part, Plan, Version, What, DECLARATION, INSTRUMENTS,
};
use crate::random::Random;
use crate::twins::may_have_white;
use crate::typed::{self, Places};
use crate::value::{self, WHITE};
use crate::versions;

/// What is known of the judge's answer, from the way the message was made.
#[derive(Clone, Copy, Debug, PartialEq, Eq)]
pub enum Known {
    Accepted {
        count: u64,
        cents: u64,
    },
    Refused {
        number: u8,
        place: usize,
    },
    /// Refused, whatever the number.
    Bad,
    Nothing,
}

/// One message of a run.
pub struct Case {
    pub bytes: Vec<u8>,
    /// What was done to it.
    pub damage: &'static str,
    pub known: Known,
    /// For a message that is known to be accepted: where each item lies, its records, its plain form.
    pub items: Vec<(usize, usize)>,
    pub records: Vec<u8>,
    pub plain: Vec<u8>,
    pub twin: Option<Twin>,
}

/// Another accepted message, from which a case was made, and whether the two are known to have the
/// same plain form.
pub struct Twin {
    pub bytes: Vec<u8>,
    pub is_same: bool,
}

impl Case {
    /// A case of which no item, no record and no plain form is known.
    pub fn new(bytes: Vec<u8>, damage: &'static str, known: Known) -> Case {
        let (items, records, plain) = (Vec::new(), Vec::new(), Vec::new());
        Case { bytes, damage, known, items, records, plain, twin: None }
    }
}

/// "12: item 10,001 begins"
pub const MOST_ITEMS: usize = 10_000;
/// "1: over 16,777,216 bytes"
pub const LONGEST: usize = 16_777_216;

type Damage = fn(Message, &mut Random) -> Option<(Vec<u8>, Known)>;

const DAMAGES: &[(&str, Damage)] = &[
    ("cut", cut),
    ("cut at a part's end", cut_at_part),
    ("one edit", one_edit),
    ("two edits", two_edits),
    ("byte changed", byte_changed),
    ("byte deleted", byte_deleted),
    ("byte inserted", byte_inserted),
    ("byte doubled", byte_doubled),
    ("tag doubled", tag_doubled),
    ("tag dropped", tag_dropped),
    ("tag swapped with a neighbour", tag_swapped),
    ("tag malformed", tag_malformed),
    ("tag replaced by another", tag_replaced),
    ("`<` alone", lone_bracket),
    ("element dropped", element_dropped),
    ("element doubled", element_doubled),
    ("elements swapped", elements_swapped),
    ("element not listed", element_not_listed),
    ("count wrong", count_off),
    ("total wrong", total_off),
    ("count and total wrong", both_off),
    ("slip in IBAN", slip_in_iban),
    ("slip in identifier", slip_in_identifier),
    ("slip in amount", slip_in_amount),
    ("slip in count", slip_in_count),
    ("slip in total", slip_in_total),
    ("check digits 00, 01 or 99", alias),
    ("IBAN of another length", other_length),
    ("IBAN of another country", other_country),
    ("white space in a tag", white_in_tag),
    ("white space before the declaration", white_before_declaration),
    ("white space before a value", white_before_value),
    ("white space behind a value", white_behind_value),
    ("white space in a value", white_in_value),
    ("white space for a value", white_for_value),
    ("foreign byte set", foreign_set),
    ("foreign byte inserted", foreign_inserted),
    ("currency changed", currency),
    ("local instruments mixed", mixed),
    ("payment type here and there", type_here_and_there),
    ("payment type once more", type_once_more),
    ("element of the other version", versions::elements_mixed),
    ("root of the other version", versions::root_of_other),
    ("root of neither version", versions::root_of_neither),
    ("BIC of one version", versions::wider_bic),
    ("value empty", empty_value),
    ("value nearly valid", near_value),
    ("value damaged", damaged_value),
    ("value random", random_value),
    ("value nearly valid, then cut", near_value_cut),
    ("value valid, another", other_value),
    ("names and remittance replaced", texts_replaced),
    ("item doubled", item_doubled),
    ("item doubled, count and total right", item_doubled_right),
    ("item doubled at the end", item_doubled_at_end),
    ("TxId of another item", transaction_twice),
    ("TxIds nearly the same", transactions_near),
    ("item dropped", item_dropped),
    ("no item", no_item),
    ("bytes after the end", after_end),
    ("beginning wrong", beginning),
    ("random bytes", random_bytes),
    ("pieces of tags", pieces),
    ("two damages", two_damages),
];

/// The accepted message that a case is made from, and the numbers that go on from there.
pub fn message(seed: u64, case: u64) -> (Message, Random) {
    let mut random = Random::new(seed, case);
    let most_items = match random.below(400) {
        0 => 300,
        1..=20 => 40,
        _ => 8,
    };
    let mut plan = Plan::by_chance(&mut random, most_items);
    plan.small = random.once_in(2);
    let message = accepted(&plan, &mut random);
    (message, random)
}

/// One message of the run with this seed: accepted as it is, once in four, or damaged.
pub fn case(seed: u64, case: u64) -> Case {
    let (message, mut random) = message(seed, case);
    if random.once_in(4) {
        return whole(message);
    }
    damaged(message, &mut random)
}

/// A message of thousands of items, every other time damaged. Every third has 10,000, and of every
/// four the last two have PmtTpInf in the header; of every eight the first four are of version .08. One that is over the limit of length is known to be
/// refused for that.
pub fn large(seed: u64, case: u64) -> Case {
    let random = &mut Random::new(seed ^ 0x1A46E, case);
    let mut plan = Plan::by_chance(random, 1);
    plan.items = if case % 3 == 0 { MOST_ITEMS } else { random.between(2000, MOST_ITEMS) };
    plan.small = random.once_in(2);
    plan.type_in_header = case / 2 % 2 == 1;
    plan.version = Version::ALL[usize::from(case / 4 % 2 == 0)];
    let message = accepted(&plan, random);
    let made = match case % 2 {
        0 => whole(message),
        _ => damaged(message, random),
    };
    if made.bytes.len() > LONGEST {
        return Case::new(made.bytes, "too long", Known::Refused { number: 1, place: 0 });
    }
    made
}

/// A message damaged in any way that fits it.
pub(crate) fn damaged(message: Message, random: &mut Random) -> Case {
    loop {
        let (damage, make) = DAMAGES[random.below(DAMAGES.len())];
        if let Some((bytes, known)) = make(message.clone(), random) {
            return Case::new(bytes, damage, known);
        }
    }
}

/// The ways of damage.
pub fn ways() -> impl Iterator<Item = &'static str> {
    DAMAGES.iter().map(|(damage, _)| *damage)
}

/// A message as it is.
pub fn whole(message: Message) -> Case {
    Case {
        bytes: message.bytes(),
        damage: "none",
        known: fine(&message),
        items: message.item_places(),
        records: message.records.concat(),
        plain: message.plain(),
        twin: None,
    }
}

/// What is known of a message that nothing was done to.
pub(crate) fn fine(message: &Message) -> Known {
    Known::Accepted { count: message.count, cents: message.cents }
}

/// Whether a part is a tag.
pub(crate) fn is_tag(part: &Part) -> bool {
    matches!(part.what, What::Start | What::End)
}

/// Whether a part is a value.
pub(crate) fn is_value(part: &Part) -> bool {
    matches!(part.what, What::Value(_))
}

/// The kind of a part that is a value.
pub(crate) fn kind_of(part: &Part) -> Kind {
    match part.what {
        What::Value(kind) => kind,
        _ => panic!("not a value"),
    }
}

/// The number for a value that is not of its kind's form.
pub(crate) fn form_number(kind: Kind) -> u8 {
    match kind {
        Kind::Code(_) => 10,
        _ => 7,
    }
}

/// One of these parts by chance; nothing where there is none.
fn pick(parts: &[usize], random: &mut Random) -> Option<usize> {
    (!parts.is_empty()).then(|| parts[random.below(parts.len())])
}

/// The parts that are values of a kind.
pub(crate) fn values_of(message: &Message, kind: Kind) -> Vec<usize> {
    message.parts_that(|part| part.what == What::Value(kind))
}

/// The length up to the end of `</Document>`.
pub(crate) fn due(message: &Message) -> usize {
    let trailing = message.parts.last().filter(|part| part.what == What::White);
    message.bytes().len() - trailing.map_or(0, |part| part.bytes.len())
}

/// The message cut to a length: "3: ends where more is due", unless only white space goes.
pub(crate) fn cut_to(message: &Message, length: usize) -> (Vec<u8>, Known) {
    let known = match length >= due(message) {
        true => fine(message),
        false => Known::Refused { number: 3, place: length },
    };
    let mut bytes = message.bytes();
    bytes.truncate(length);
    (bytes, known)
}

/// The message cut anywhere.
fn cut(message: Message, random: &mut Random) -> Option<(Vec<u8>, Known)> {
    let length = random.between(0, message.bytes().len());
    Some(cut_to(&message, length))
}

/// The message cut between two parts.
fn cut_at_part(message: Message, random: &mut Random) -> Option<(Vec<u8>, Known)> {
    let part = random.between(0, message.parts.len());
    Some(cut_to(&message, message.place(part)))
}

/// One edit of a byte anywhere.
fn one_edit(message: Message, random: &mut Random) -> Option<(Vec<u8>, Known)> {
    let mut bytes = message.bytes();
    value::edit(&mut bytes, random);
    Some((bytes, Known::Nothing))
}

/// Two edits of bytes anywhere.
fn two_edits(message: Message, random: &mut Random) -> Option<(Vec<u8>, Known)> {
    let mut bytes = message.bytes();
    value::edit(&mut bytes, random);
    value::edit(&mut bytes, random);
    Some((bytes, Known::Nothing))
}

/// One byte set to another.
fn byte_changed(message: Message, random: &mut Random) -> Option<(Vec<u8>, Known)> {
    let mut bytes = message.bytes();
    let at = random.below(bytes.len());
    bytes[at] = value::foreign(random);
    Some((bytes, Known::Nothing))
}

/// One byte taken out.
fn byte_deleted(message: Message, random: &mut Random) -> Option<(Vec<u8>, Known)> {
    let mut bytes = message.bytes();
    bytes.remove(random.below(bytes.len()));
    Some((bytes, Known::Nothing))
}

/// One byte put in.
fn byte_inserted(message: Message, random: &mut Random) -> Option<(Vec<u8>, Known)> {
    let mut bytes = message.bytes();
    bytes.insert(random.between(0, bytes.len()), value::foreign(random));
    Some((bytes, Known::Nothing))
}

/// One byte put in twice.
fn byte_doubled(message: Message, random: &mut Random) -> Option<(Vec<u8>, Known)> {
    let mut bytes = message.bytes();
    let at = random.below(bytes.len());
    bytes.insert(at, bytes[at]);
    Some((bytes, Known::Nothing))
}

/// One tag twice.
fn tag_doubled(mut message: Message, random: &mut Random) -> Option<(Vec<u8>, Known)> {
    let at = pick(&message.parts_that(is_tag), random)?;
    message.parts.insert(at, message.parts[at].clone());
    Some((message.bytes(), Known::Bad))
}

/// One tag taken out.
fn tag_dropped(mut message: Message, random: &mut Random) -> Option<(Vec<u8>, Known)> {
    let at = pick(&message.parts_that(is_tag), random)?;
    message.parts.remove(at);
    Some((message.bytes(), Known::Bad))
}

/// Two tags that follow each other, exchanged.
fn tag_swapped(mut message: Message, random: &mut Random) -> Option<(Vec<u8>, Known)> {
    let tags = message.parts_that(is_tag);
    let at = random.below(tags.len() - 1);
    message.parts.swap(tags[at], tags[at + 1]);
    Some((message.bytes(), Known::Bad))
}

/// The ways that [`malform`] knows.
pub(crate) const MALFORMED: usize = 17;

/// Makes a tag one that is no tag of the profile.
pub(crate) fn malform(tag: &mut Vec<u8>, way: usize, random: &mut Random) {
    let last = tag.len() - 1;
    match way {
        0 => {
            let letters: Vec<usize> =
                (0..tag.len()).filter(|&at| tag[at].is_ascii_alphabetic()).collect();
            tag[letters[random.below(letters.len())]] ^= 0x20;
        }
        1 => drop(tag.splice(last..last, *b" a=\"1\"")),
        2 => tag.insert(last, random.of(WHITE)),
        3 => tag.insert(last, b'/'),
        4 => drop(tag.remove(0)),
        5 => drop(tag.remove(last)),
        6 => drop(tag.splice(1..1, *b"ns:")),
        7 => drop(tag.remove(last - 1)),
        8 => tag.insert(0, b'<'),
        9 => tag.push(b'>'),
        10 => drop(tag.splice(0..0, *b"<!-- -->")),
        11 => drop(tag.splice(0..0, *b"<![CDATA[]]>")),
        12 => drop(tag.splice(0..0, *b"&amp;")),
        13 => drop(tag.splice(0..0, *b"<?pi?>")),
        14 => tag.insert(1, b'/'),
        15 => tag.insert(random.between(1, last), random.of(WHITE)),
        _ => tag.truncate(random.between(1, last)),
    }
}

/// One tag that is no longer one.
fn tag_malformed(mut message: Message, random: &mut Random) -> Option<(Vec<u8>, Known)> {
    let at = pick(&message.parts_that(is_tag), random)?;
    let way = random.below(MALFORMED);
    malform(&mut message.parts[at].bytes, way, random);
    Some((message.bytes(), Known::Bad))
}

/// One tag with the text of another.
fn tag_replaced(mut message: Message, random: &mut Random) -> Option<(Vec<u8>, Known)> {
    let tags = message.parts_that(is_tag);
    let (one, other) = (pick(&tags, random)?, pick(&tags, random)?);
    if message.parts[one].bytes == message.parts[other].bytes {
        return None;
    }
    message.parts[one].bytes = message.parts[other].bytes.clone();
    Some((message.bytes(), Known::Bad))
}

/// A `<` alone: in place of a tag, or put in anywhere.
fn lone_bracket(mut message: Message, random: &mut Random) -> Option<(Vec<u8>, Known)> {
    if random.once_in(2) {
        let at = pick(&message.parts_that(is_tag), random)?;
        message.parts[at].bytes = b"<".to_vec();
        // The last tag: `<` and the end, which is a beginning of it.
        return Some((message.bytes(), Known::Bad));
    }
    let mut bytes = message.bytes();
    bytes.insert(random.between(0, bytes.len()), b'<');
    Some((bytes, Known::Bad))
}

/// The parts of the element whose start tag this is: itself to its end tag.
pub(crate) fn element_at(message: &Message, start: usize) -> (usize, usize) {
    let mut depth = 0;
    for at in start..message.parts.len() {
        match message.parts[at].what {
            What::Start => depth += 1,
            What::End => depth -= 1,
            _ => {}
        }
        if depth == 0 {
            return (start, at + 1);
        }
    }
    panic!("the start tag has an end tag")
}

/// The parts of one element by chance.
fn any_element(message: &Message, random: &mut Random) -> (usize, usize) {
    let starts = message.parts_that(|part| part.what == What::Start);
    element_at(message, starts[random.below(starts.len())])
}

/// One element taken out; two of them may be missing.
fn element_dropped(mut message: Message, random: &mut Random) -> Option<(Vec<u8>, Known)> {
    let (first, after) = any_element(&message, random);
    let known = match message.parts[first].name {
        "InstrId" | "RmtInf" => fine(&message),
        _ => Known::Bad,
    };
    message.parts.drain(first..after);
    Some((message.bytes(), known))
}

/// One element twice.
fn element_doubled(mut message: Message, random: &mut Random) -> Option<(Vec<u8>, Known)> {
    let (first, after) = any_element(&message, random);
    let copy = message.parts[first..after].to_vec();
    message.parts.splice(after..after, copy);
    Some((message.bytes(), Known::Bad))
}

/// Two elements that follow each other, exchanged.
fn elements_swapped(mut message: Message, random: &mut Random) -> Option<(Vec<u8>, Known)> {
    let (first, after) = any_element(&message, random);
    let next = (after..message.parts.len()).find(|&at| message.parts[at].what != What::White)?;
    if message.parts[next].what != What::Start {
        return None;
    }
    let (_, next_after) = element_at(&message, next);
    // Two items may change places (only their local instruments must agree, and they do).
    let known = match message.parts[first].name == message.parts[next].name {
        true => fine(&message),
        false => Known::Bad,
    };
    message.parts[first..next_after].rotate_left(after - first);
    Some((message.bytes(), known))
}

/// Something before a tag that the profile does not have.
fn element_not_listed(mut message: Message, random: &mut Random) -> Option<(Vec<u8>, Known)> {
    let element = random.pick(&[
        "<CtrlSum>1</CtrlSum>",
        "<InstdAgt><FinInstnId><BIC>BANKDEFF</BIC></FinInstnId></InstdAgt>",
        "<InstdAgt><FinInstnId><BICFI>BANKDEFF</BICFI></FinInstnId></InstdAgt>",
        "<ClrSysRef>A</ClrSysRef>",
        "<CtgyPurp><Cd>CASH</Cd></CtgyPurp>",
        "<UltmtDbtr><Nm>A</Nm></UltmtDbtr>",
        "<PstlAdr><Ctry>DE</Ctry></PstlAdr>",
        "<Strd>A</Strd>",
        "<AmdmntInd>false</AmdmntInd>",
        "<X/>",
        "<!-- x -->",
        "<![CDATA[x]]>",
        "&#65;",
    ]);
    let at = pick(&message.parts_that(is_tag), random)?;
    message.parts[at].bytes.splice(0..0, element.bytes());
    Some((message.bytes(), Known::Bad))
}

/// Another number than this one: one more or less, a few, ten times, a tenth, none, the largest.
fn another(number: u64, most: u64, random: &mut Random) -> u64 {
    loop {
        let other = match random.below(8) {
            0 | 1 => number + 1,
            2 | 3 => number - 1,
            4 => number + random.worth(1, 1000),
            5 => number.saturating_mul(10),
            6 => number / 10,
            _ => *random.pick(&[&0, &1, &most]),
        };
        if other != number && other <= most {
            return other;
        }
    }
}

/// Makes NbOfTxs another number: 14.
fn set_count_off(message: &mut Message, random: &mut Random) -> Known {
    let part = message.header_value("NbOfTxs");
    let number = another(message.count, 999_999_999_999_999, random);
    message.parts[part].bytes = value::with_zeros(number, random);
    Known::Refused { number: 14, place: message.place(part) }
}

/// Makes the total another amount: 15, or 9 for none.
fn set_total_off(message: &mut Message, random: &mut Random) -> Known {
    let part = message.header_value("TtlIntrBkSttlmAmt");
    let cents = another(message.cents, value::HEADER_MOST, random);
    message.parts[part].bytes = value::amount(cents, random);
    Known::Refused { number: if cents == 0 { 9 } else { 15 }, place: message.place(part) }
}

/// The count wrong.
fn count_off(mut message: Message, random: &mut Random) -> Option<(Vec<u8>, Known)> {
    let known = set_count_off(&mut message, random);
    Some((message.bytes(), known))
}

/// The total wrong.
fn total_off(mut message: Message, random: &mut Random) -> Option<(Vec<u8>, Known)> {
    let known = set_total_off(&mut message, random);
    Some((message.bytes(), known))
}

/// The count and the total wrong: 14, but a total of none is met first.
fn both_off(mut message: Message, random: &mut Random) -> Option<(Vec<u8>, Known)> {
    let count = set_count_off(&mut message, random);
    let total = set_total_off(&mut message, random);
    let known = match total {
        Known::Refused { number: 9, .. } => total,
        _ => count,
    };
    Some((message.bytes(), known))
}

/// A slip in one value of a kind. Answers the part.
fn slip(message: &mut Message, kind: Kind, random: &mut Random) -> Option<usize> {
    let part = pick(&values_of(message, kind), random)?;
    value::slip(kind, &mut message.parts[part].bytes, random).then_some(part)
}

/// A slip in a value with check digits: 8.
fn check_digits_slip(
    mut message: Message,
    kind: Kind,
    random: &mut Random,
) -> Option<(Vec<u8>, Known)> {
    let part = slip(&mut message, kind, random)?;
    Some((message.bytes(), Known::Refused { number: 8, place: message.place(part) }))
}

/// A slip in an IBAN.
fn slip_in_iban(message: Message, random: &mut Random) -> Option<(Vec<u8>, Known)> {
    check_digits_slip(message, Kind::Iban, random)
}

/// A slip in a creditor identifier.
fn slip_in_identifier(message: Message, random: &mut Random) -> Option<(Vec<u8>, Known)> {
    check_digits_slip(message, Kind::CreditorId, random)
}

/// A slip in an item's amount: 15 at the total, or 9 where it leaves the range.
fn slip_in_amount(mut message: Message, random: &mut Random) -> Option<(Vec<u8>, Known)> {
    let part = slip(&mut message, Kind::ItemAmount, random)?;
    let cents = value::cents_of(&message.parts[part].bytes);
    let known = match (1..=value::ITEM_MOST).contains(&cents) {
        true => (15, message.header_value("TtlIntrBkSttlmAmt")),
        false => (9, part),
    };
    Some((message.bytes(), Known::Refused { number: known.0, place: message.place(known.1) }))
}

/// A slip in NbOfTxs: 14.
fn slip_in_count(mut message: Message, random: &mut Random) -> Option<(Vec<u8>, Known)> {
    let part = slip(&mut message, Kind::Count, random)?;
    Some((message.bytes(), Known::Refused { number: 14, place: message.place(part) }))
}

/// A slip in the total: 15, or 9 for none.
fn slip_in_total(mut message: Message, random: &mut Random) -> Option<(Vec<u8>, Known)> {
    let part = slip(&mut message, Kind::HeaderAmount, random)?;
    let number = if value::cents_of(&message.parts[part].bytes) == 0 { 9 } else { 15 };
    Some((message.bytes(), Known::Refused { number, place: message.place(part) }))
}

/// Check digits 00, 01 or 99 that leave the right rest: 8.
fn alias(mut message: Message, random: &mut Random) -> Option<(Vec<u8>, Known)> {
    let kind = if random.once_in(2) { Kind::Iban } else { Kind::CreditorId };
    let part = pick(&values_of(&message, kind), random)?;
    message.parts[part].bytes = value::alias(kind, random);
    Some((message.bytes(), Known::Refused { number: 8, place: message.place(part) }))
}

/// An IBAN of a wrong length for its country, or of none: 19.
fn other_length(mut message: Message, random: &mut Random) -> Option<(Vec<u8>, Known)> {
    let part = pick(&values_of(&message, Kind::Iban), random)?;
    message.parts[part].bytes = value::other_length(random);
    Some((message.bytes(), Known::Refused { number: 19, place: message.place(part) }))
}

/// One letter of an IBAN's country replaced by another: 19, or 8 where that country has its length.
fn other_country(mut message: Message, random: &mut Random) -> Option<(Vec<u8>, Known)> {
    let part = pick(&values_of(&message, Kind::Iban), random)?;
    let value = &mut message.parts[part].bytes;
    let (at, letter) = (random.below(2), random.of(value::CAPITALS));
    if value[at] == letter {
        return None;
    }
    value[at] = letter;
    let number = value::known_iban(value, false).expect_err("one letter is noticed");
    Some((message.bytes(), Known::Refused { number, place: message.place(part) }))
}

/// White space within a tag or the declaration.
fn white_in_tag(mut message: Message, random: &mut Random) -> Option<(Vec<u8>, Known)> {
    let tags = message.parts_that(|part| is_tag(part) || part.what == What::Declaration);
    let part = pick(&tags, random)?;
    let at = random.between(1, message.parts[part].bytes.len() - 1);
    message.parts[part].bytes.insert(at, random.of(WHITE));
    let opening = message.parts[part].what == What::Declaration
        || (message.parts[part].name == "Document" && message.parts[part].what == What::Start);
    let number = if opening { 2 } else { 4 };
    Some((message.bytes(), Known::Refused { number, place: message.place(part) }))
}

/// White space before the declaration: 2 at the declaration.
fn white_before_declaration(message: Message, random: &mut Random) -> Option<(Vec<u8>, Known)> {
    if message.parts[0].what != What::Declaration {
        return None;
    }
    let place = random.length(1, 5);
    let bytes = [random.bytes(WHITE, place), message.bytes()].concat();
    Some((bytes, Known::Refused { number: 2, place }))
}

/// What is known when white space is put into a value before its byte `at`: the kinds that collapse
/// may have it.
pub(crate) fn known_with_white(message: &Message, part: usize, at: usize) -> Known {
    let Part { bytes, meant, .. } = &message.parts[part];
    let kind = kind_of(&message.parts[part]);
    match collapse::known_with_white(kind, bytes, meant, at) {
        Ok(_) => fine(message),
        Err(_) => Known::Refused { number: form_number(kind), place: message.place(part) },
    }
}

/// White space put into a value, at a place of its length that is chosen.
fn white_at(
    mut message: Message,
    random: &mut Random,
    choose: fn(usize, &mut Random) -> usize,
) -> Option<(Vec<u8>, Known)> {
    let part = pick(&message.parts_that(is_value), random)?;
    let at = choose(message.parts[part].bytes.len(), random);
    let known = known_with_white(&message, part, at);
    let length = random.length(1, 5);
    message.parts[part].bytes.splice(at..at, random.bytes(WHITE, length));
    Some((message.bytes(), known))
}

/// White space before a value.
fn white_before_value(message: Message, random: &mut Random) -> Option<(Vec<u8>, Known)> {
    white_at(message, random, |_, _| 0)
}

/// White space behind a value.
fn white_behind_value(message: Message, random: &mut Random) -> Option<(Vec<u8>, Known)> {
    white_at(message, random, |length, _| length)
}

/// White space anywhere in a value.
fn white_in_value(message: Message, random: &mut Random) -> Option<(Vec<u8>, Known)> {
    white_at(message, random, |length, random| random.between(0, length))
}

/// White space for a value: collapsed, nothing is left.
fn white_for_value(mut message: Message, random: &mut Random) -> Option<(Vec<u8>, Known)> {
    let part = pick(&message.parts_that(is_value), random)?;
    let length = random.length(1, 50);
    message.parts[part].bytes = random.bytes(WHITE, length);
    let number = form_number(kind_of(&message.parts[part]));
    Some((message.bytes(), Known::Refused { number, place: message.place(part) }))
}

/// A byte that may stand nowhere.
fn no_ascii(random: &mut Random) -> u8 {
    match random.below(3) {
        0 => 0,
        1 => random.of(b"\x01\x0b\x0c\x7f\x80\xa0\xc2\xe2\xff"),
        _ => 128 | random.bits() as u8,
    }
}

/// One byte set to one that may stand nowhere.
fn foreign_set(message: Message, random: &mut Random) -> Option<(Vec<u8>, Known)> {
    let mut bytes = message.bytes();
    let at = random.below(bytes.len());
    bytes[at] = no_ascii(random);
    Some((bytes, Known::Bad))
}

/// A byte put in that may stand nowhere.
fn foreign_inserted(message: Message, random: &mut Random) -> Option<(Vec<u8>, Known)> {
    let mut bytes = message.bytes();
    bytes.insert(random.between(0, bytes.len()), no_ascii(random));
    Some((bytes, Known::Bad))
}

/// Another currency: 6 if it is three capitals, else 4 at the tag.
fn currency(mut message: Message, random: &mut Random) -> Option<(Vec<u8>, Known)> {
    let amounts = message.parts_that(|part| {
        part.what == What::Start && matches!(part.name, "IntrBkSttlmAmt" | "TtlIntrBkSttlmAmt")
    });
    let part = pick(&amounts, random)?;
    let currency = random.pick(&[
        "USD", "CHF", "AAA", "ZZZ", "EUS", "XUR", "eur", "E1R", "EUr", "EU", "EURO", "", "E R",
        "EU\"", "USD ", "\u{20ac}", "E[R", "@UR",
    ]);
    let start = message.place(part);
    let name = message.parts[part].name;
    message.parts[part].bytes = format!("<{name} Ccy=\"{currency}\">").into_bytes();
    let known = match currency.len() == 3 && currency.bytes().all(|c| c.is_ascii_uppercase()) {
        true => Known::Refused { number: 6, place: start + name.len() + 7 },
        false => Known::Refused { number: 4, place: start },
    };
    Some((message.bytes(), known))
}

/// One item of the other local instrument: 11.
fn mixed(mut message: Message, random: &mut Random) -> Option<(Vec<u8>, Known)> {
    let instruments = values_of(&message, INSTRUMENTS);
    if instruments.len() < 2 {
        return None;
    }
    let item = random.below(instruments.len());
    let part = instruments[item];
    message.parts[part].bytes = match message.parts[part].bytes.as_slice() {
        b"CORE" => b"B2B".to_vec(),
        _ => b"CORE".to_vec(),
    };
    let place = message.place(instruments[item.max(1)]);
    Some((message.bytes(), Known::Refused { number: 11, place }))
}

/// PmtTpInf in the header or not, and in any of the items.
fn type_here_and_there(message: Message, random: &mut Random) -> Option<(Vec<u8>, Known)> {
    let header = random.once_in(2);
    let items = message.items.iter().map(|_| random.once_in(2)).collect();
    let (message, known) = typed::placed(&message, &Places { header, items });
    Some((message.bytes(), known))
}

/// One more PmtTpInf before a tag.
fn type_once_more(message: Message, random: &mut Random) -> Option<(Vec<u8>, Known)> {
    let may_stand = |at: &usize| may_have_white(&message.parts, *at);
    let tags: Vec<usize> = (0..message.parts.len()).filter(may_stand).collect();
    Some(typed::once_more_at(&message, pick(&tags, random)?))
}

/// A value taken out, its tags left.
fn empty_value(mut message: Message, random: &mut Random) -> Option<(Vec<u8>, Known)> {
    let part = pick(&message.parts_that(is_value), random)?;
    message.parts[part].bytes.clear();
    let number = form_number(kind_of(&message.parts[part]));
    Some((message.bytes(), Known::Refused { number, place: message.place(part) }))
}

/// One value replaced by what is made for its kind.
fn replace_value(
    mut message: Message,
    random: &mut Random,
    make: fn(Kind, &mut Random) -> Vec<u8>,
) -> Option<(Vec<u8>, Known)> {
    let part = pick(&message.parts_that(is_value), random)?;
    message.parts[part].bytes = make(kind_of(&message.parts[part]), random);
    Some((message.bytes(), Known::Nothing))
}

/// One value replaced by one that is nearly valid.
fn near_value(message: Message, random: &mut Random) -> Option<(Vec<u8>, Known)> {
    replace_value(message, random, value::near)
}

/// One value replaced by a damaged one.
fn damaged_value(message: Message, random: &mut Random) -> Option<(Vec<u8>, Known)> {
    replace_value(message, random, value::damaged)
}

/// One value replaced by random bytes.
fn random_value(message: Message, random: &mut Random) -> Option<(Vec<u8>, Known)> {
    replace_value(message, random, value::random)
}

/// One value replaced by another valid one.
fn other_value(message: Message, random: &mut Random) -> Option<(Vec<u8>, Known)> {
    replace_value(message, random, |kind, random| value::valid(kind, random).bytes)
}

/// One value nearly valid, then the message cut.
fn near_value_cut(message: Message, random: &mut Random) -> Option<(Vec<u8>, Known)> {
    let (mut bytes, _) = near_value(message, random)?;
    bytes.truncate(random.below(bytes.len()));
    Some((bytes, Known::Nothing))
}

/// "A legal Nm or Ustrd replaced by another legal one of equal length alters no answer", of equal raw
/// length since request 4.
fn texts_replaced(mut message: Message, random: &mut Random) -> Option<(Vec<u8>, Known)> {
    for part in &mut message.parts {
        if let What::Value(kind @ (Kind::Text70 | Kind::Text140)) = part.what {
            part.bytes = collapse::text_of_raw_length(kind, part.bytes.len(), random);
        }
    }
    Some((message.bytes(), fine(&message)))
}

/// The parts of one item by chance.
fn any_item(message: &Message, random: &mut Random) -> (usize, usize) {
    message.items[random.below(message.items.len())]
}

/// 24 at the first TxId that an earlier item has.
pub(crate) fn twice(message: &Message) -> Known {
    let part = message.second_transaction().expect("an item stands twice");
    Known::Refused { number: 24, place: message.place(part) }
}

/// One item twice, the header as it was: 24, before the count is compared.
fn item_doubled(mut message: Message, random: &mut Random) -> Option<(Vec<u8>, Known)> {
    let (first, after) = any_item(&message, random);
    let copy = message.parts[first..after].to_vec();
    message.parts.splice(after..after, copy);
    Some((message.bytes(), twice(&message)))
}

/// One item twice, and a header that fits: 24 all the same.
fn item_doubled_right(mut message: Message, random: &mut Random) -> Option<(Vec<u8>, Known)> {
    let (first, after) = any_item(&message, random);
    let copy = message.parts[first..after].to_vec();
    let amount = copy.iter().find(|part| part.what == What::Value(Kind::ItemAmount))?;
    message.cents += value::cents_of(&amount.bytes);
    message.count += 1;
    let total = message.header_value("TtlIntrBkSttlmAmt");
    message.parts.splice(after..after, copy);
    message.parts[total].bytes = value::amount(message.cents, random);
    let count = message.header_value("NbOfTxs");
    message.parts[count].bytes = value::with_zeros(message.count, random);
    Some((message.bytes(), twice(&message)))
}

/// One item once more behind the last.
fn item_doubled_at_end(mut message: Message, random: &mut Random) -> Option<(Vec<u8>, Known)> {
    let ((first, after), end) = (any_item(&message, random), message.items.last()?.1);
    let copy = message.parts[first..after].to_vec();
    message.parts.splice(end..end, copy);
    Some((message.bytes(), twice(&message)))
}

/// One item with the TxId of another, of two or of all of them: 24, and all else is in order.
fn transaction_twice(mut message: Message, random: &mut Random) -> Option<(Vec<u8>, Known)> {
    let count = message.items.len();
    if count < 2 {
        return None;
    }
    let (one, parts) = (random.below(count), message.transactions());
    let id = message.parts[parts[one]].bytes.clone();
    let others = match random.below(4) {
        0 => (0..count).collect(),
        _ => vec![(one + random.between(1, count - 1)) % count],
    };
    others.into_iter().for_each(|other| message.set_transaction(other, &id));
    Some((message.bytes(), twice(&message)))
}

/// One item with nearly the TxId of another: accepted, unless that is a third one's.
fn transactions_near(mut message: Message, random: &mut Random) -> Option<(Vec<u8>, Known)> {
    let count = message.items.len();
    if count < 2 {
        return None;
    }
    let (one, parts) = (random.below(count), message.transactions());
    let id = value::near_reference(&message.parts[parts[one]].bytes, random);
    message.set_transaction((one + random.between(1, count - 1)) % count, &id);
    let known = match message.second_transaction() {
        None => fine(&message),
        Some(_) => twice(&message),
    };
    Some((message.bytes(), known))
}

/// One item of several taken out: 14.
fn item_dropped(mut message: Message, random: &mut Random) -> Option<(Vec<u8>, Known)> {
    if message.items.len() < 2 {
        return None;
    }
    let (first, after) = any_item(&message, random);
    message.parts.drain(first..after);
    let place = message.place(message.header_value("NbOfTxs"));
    Some((message.bytes(), Known::Refused { number: 14, place }))
}

/// "No item at all: 4 at `</FIToFICstmrDrctDbt>`".
fn no_item(mut message: Message, random: &mut Random) -> Option<(Vec<u8>, Known)> {
    let (first, after) = (message.items[0].0, message.items.last()?.1);
    message.parts.drain(first..after);
    if random.once_in(2) {
        let count = message.header_value("NbOfTxs");
        message.parts[count].bytes = b"0".to_vec();
    }
    let close =
        message.parts_that(|part| part.what == What::End && part.name == "FIToFICstmrDrctDbt")[0];
    Some((message.bytes(), Known::Refused { number: 4, place: message.place(close) }))
}

/// Something behind the end: 16 at its first byte that is not white.
fn after_end(message: Message, random: &mut Random) -> Option<(Vec<u8>, Known)> {
    let mut bytes = message.bytes();
    let length = random.between(0, 3);
    bytes.extend(random.bytes(WHITE, length));
    let place = bytes.len();
    match random.below(4) {
        0 => bytes.extend(message.bytes()),
        1 => bytes.push(b'<'),
        2 => bytes.extend(b"<!-- -->"),
        _ => bytes.push(no_ascii(random)),
    }
    // With a message right behind that starts with white space, the first other byte.
    let white = bytes[place..].iter().take_while(|byte| WHITE.contains(byte)).count();
    Some((bytes, Known::Refused { number: 16, place: place + white }))
}

/// "BOM, NUL, comment, DOCTYPE, other root spellings: 2 at that byte"; a second declaration too.
fn beginning(message: Message, random: &mut Random) -> Option<(Vec<u8>, Known)> {
    let bytes = message.bytes();
    if random.once_in(4) {
        if message.parts[0].what != What::Declaration {
            return None;
        }
        let bytes = [DECLARATION.as_bytes(), &bytes].concat();
        return Some((bytes, Known::Refused { number: 2, place: DECLARATION.len() }));
    }
    let wrong = random.pick(&[
        "\u{feff}",
        "\0",
        "<!-- -->",
        "<!DOCTYPE Document>",
        "<?xml version='1.0' encoding='UTF-8'?>",
        "<?xml version=\"1.0\"?>",
        "<?xml version=\"1.1\" encoding=\"UTF-8\"?>",
        "<?xml version=\"1.0\" encoding=\"utf-8\"?>",
        "<?xml version=\"1.0\" encoding=\"UTF-8\" ?>",
        "<?xml version=\"1.0\" encoding=\"UTF-8\" standalone=\"yes\"?>",
        "<?pi?>",
        "<??>",
        "<Document>",
        "<document xmlns=\"urn:iso:std:iso:20022:tech:xsd:pacs.003.001.02\">",
        "<Document xmlns=\"urn:iso:std:iso:20022:tech:xsd:pacs.003.001.01\">",
        "<Document xmlns=\"urn:iso:std:iso:20022:tech:xsd:pacs.003.001.09\">",
        "<document xmlns=\"urn:iso:std:iso:20022:tech:xsd:pacs.003.001.08\">",
        "<Document xmlns='urn:iso:std:iso:20022:tech:xsd:pacs.003.001.08'>",
        "<Document  xmlns=\"urn:iso:std:iso:20022:tech:xsd:pacs.003.001.02\">",
        "<Document xmlns='urn:iso:std:iso:20022:tech:xsd:pacs.003.001.02'>",
        "x",
        "&",
    ]);
    Some(([wrong.as_bytes(), &bytes].concat(), Known::Refused { number: 2, place: 0 }))
}

/// No message at all.
fn random_bytes(_: Message, random: &mut Random) -> Option<(Vec<u8>, Known)> {
    let length = random.between(0, 120);
    let bytes = match random.below(3) {
        0 => (0..length).map(|_| random.bits() as u8).collect(),
        1 => random.bytes(b"<>/? Dx!", length),
        _ => random.bytes(b" \t\r\n<", length),
    };
    Some((bytes, Known::Bad))
}

/// Parts of a message in any order.
fn pieces(message: Message, random: &mut Random) -> Option<(Vec<u8>, Known)> {
    let start = random.below(message.parts.len());
    let mut parts = message.parts[..start].to_vec();
    for _ in 0..random.between(1, 6) {
        parts.push(message.parts[random.below(message.parts.len())].clone());
    }
    Some((concat(&parts), Known::Nothing))
}

/// Two damages: a replaced value and an edit of bytes, the first met decides.
fn two_damages(mut message: Message, random: &mut Random) -> Option<(Vec<u8>, Known)> {
    for _ in 0..2 {
        let part = pick(&message.parts_that(is_value), random)?;
        message.parts[part].bytes = value::near(kind_of(&message.parts[part]), random);
    }
    let tag = pick(&message.parts_that(is_tag), random)?;
    value::edit(&mut message.parts[tag].bytes, random);
    Some((message.bytes(), Known::Nothing))
}
