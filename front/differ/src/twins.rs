//! Accepted messages in pairs. The one is written otherwise and means the same, so both have one
//! plain form; or it means something else, however little, and the plain forms differ.

use crate::collapse;
use crate::damage::{self, element_at, fine, kind_of, values_of, Case, Twin};
use crate::kind::Kind;
use crate::message::{Message, Part, What, DECLARATION, INSTRUMENTS};
use crate::random::Random;
use crate::typed;
use crate::value::{self, Valid, WHITE};
use crate::versions;

/// A way to make another message; nothing where it does not fit.
type Way = fn(Message, &mut Random) -> Option<Message>;

/// The ways that change no meaning.
const SAME: &[(&str, Way)] = &[
    ("nothing otherwise", |message, _| Some(message)),
    ("white space otherwise", white_otherwise),
    ("declaration otherwise", declaration_otherwise),
    ("count otherwise written", count_otherwise),
    ("amounts otherwise written", amounts_otherwise),
    ("collapsing values otherwise written", values_otherwise),
    ("all otherwise written", all_otherwise),
];

/// The ways that change one.
const OTHER: &[(&str, Way)] = &[
    ("another value", another_value),
    ("a value nearly the same", nearly_the_same),
    ("the other local instrument", other_instrument),
    ("payment type at the other place", |message, _| Some(typed::moved(&message))),
    ("the other version", |message, _| versions::moved(&message)),
    ("a cent more", cent_more),
    ("a cent from one item to another", cent_moved),
    ("optional element left out", left_out),
    ("optional element put in", put_in),
    ("item left out", item_left_out),
    ("item doubled under another TxId", item_doubled),
    ("items exchanged", items_exchanged),
];

/// The names of all ways, and whether the plain form is the same.
pub fn ways() -> impl Iterator<Item = (&'static str, bool)> {
    let same = SAME.iter().map(|(way, _)| (*way, true));
    same.chain(OTHER.iter().map(|(way, _)| (*way, false)))
}

/// One pair of the run with this seed: the message of that case, and what was made from it, with no TxId
/// twice. Every other time that one is written otherwise as well.
pub fn case(seed: u64, case: u64) -> Case {
    let (message, mut random) = damage::message(seed ^ 0x7419, case);
    loop {
        let is_same = random.once_in(2);
        let ways = if is_same { SAME } else { OTHER };
        let (way, make) = ways[random.below(ways.len())];
        let Some(made) = make(message.clone(), &mut random) else { continue };
        if made.second_transaction().is_some() {
            continue;
        }
        let made = match random.once_in(2) {
            true => all_otherwise(made, &mut random).expect("it always fits"),
            false => made,
        };
        let twin = Some(Twin { bytes: message.bytes(), is_same });
        let (bytes, known, plain) = (made.bytes(), fine(&made), made.plain());
        return Case { plain, twin, ..Case::new(bytes, way, known) };
    }
}

/// Whether white space may stand before a part: before every tag but that which ends a value.
pub(crate) fn may_have_white(parts: &[Part], at: usize) -> bool {
    let behind_value = at > 0 && matches!(parts[at - 1].what, What::Value(_));
    matches!(parts[at].what, What::Start | What::End) && !behind_value
}

/// White space nowhere, wherever it may stand, or now and then. The places of the items are lost.
fn white_otherwise(mut message: Message, random: &mut Random) -> Option<Message> {
    message.parts.retain(|part| part.what != What::White);
    let seldom = [0, 1, 1, 6][random.below(4)];
    let mut parts = Vec::new();
    for at in 0..=message.parts.len() {
        let is_end = at == message.parts.len();
        let may = is_end || may_have_white(&message.parts, at);
        if may && seldom > 0 && random.once_in(seldom) {
            let length = random.length(1, 5);
            let bytes = random.bytes(WHITE, length);
            parts.push(Part::new(What::White, "", bytes));
        }
        parts.extend(message.parts.get(at).cloned());
    }
    message.parts = parts;
    Some(message)
}

/// Without the declaration that it has, or with one that it has not.
fn declaration_otherwise(mut message: Message, _: &mut Random) -> Option<Message> {
    if message.parts[0].what == What::Declaration {
        message.parts.remove(0);
    } else {
        let bytes = DECLARATION.as_bytes().to_vec();
        message.parts.insert(0, Part::new(What::Declaration, "", bytes));
    }
    Some(message)
}

/// The count with any leading zeros.
fn count_otherwise(mut message: Message, random: &mut Random) -> Option<Message> {
    let count = message.header_value("NbOfTxs");
    message.parts[count].bytes = value::with_zeros(message.count, random);
    Some(message)
}

/// Each amount with any leading zeros and decimals.
fn amounts_otherwise(mut message: Message, random: &mut Random) -> Option<Message> {
    for part in &mut message.parts {
        if let What::Value(Kind::ItemAmount | Kind::HeaderAmount) = part.what {
            part.bytes = value::amount(value::cents_of(&part.bytes), random);
        }
    }
    Some(message)
}

/// Each EndToEndId, Nm and Ustrd with any white space that does not count.
fn values_otherwise(mut message: Message, random: &mut Random) -> Option<Message> {
    for part in &mut message.parts {
        if collapses(part) {
            part.bytes = collapse::spelled(&part.meant, random);
        }
    }
    Some(message)
}

/// Whether a part is a value that collapses.
pub(crate) fn collapses(part: &Part) -> bool {
    matches!(part.what, What::Value(kind) if kind.longest_collapsed().is_some())
}

/// White space, declaration, count, amounts and the values that collapse otherwise.
fn all_otherwise(message: Message, random: &mut Random) -> Option<Message> {
    let message = white_otherwise(message, random)?;
    let message = match random.once_in(2) {
        true => declaration_otherwise(message, random)?,
        false => message,
    };
    let message = values_otherwise(count_otherwise(message, random)?, random)?;
    amounts_otherwise(message, random)
}

/// Whether a value is one that stands for its own bytes and has another to be replaced by, alone.
fn stands_for_itself(part: &Part) -> bool {
    match part.what {
        What::Value(Kind::Count | Kind::ItemAmount | Kind::HeaderAmount) => false,
        What::Value(kind @ Kind::Code(list)) => list.len() > 1 && kind != INSTRUMENTS,
        What::Value(_) => true,
        _ => false,
    }
}

/// One value replaced by another of its kind.
fn another_value(mut message: Message, random: &mut Random) -> Option<Message> {
    let values = message.parts_that(stands_for_itself);
    let part = &mut message.parts[values[random.below(values.len())]];
    let old = part.meant.clone();
    while part.meant == old {
        part.say(value::valid(kind_of(part), random));
    }
    Some(message)
}

/// One value replaced by one that a reader might take for the same: a zero more before it, a word
/// parted by white space, the branch of a BIC, another sign of the same time, another case of a letter.
fn nearly_the_same(mut message: Message, random: &mut Random) -> Option<Message> {
    let values = message.parts_that(stands_for_itself);
    let part = &mut message.parts[values[random.below(values.len())]];
    let old = part.bytes.as_slice();
    let new = match kind_of(part) {
        Kind::Reference if old.len() < 35 => [b"0", old].concat(),
        kind @ (Kind::EndToEnd | Kind::Text70 | Kind::Text140) => {
            part.say(parted(kind, &part.meant, random)?);
            return Some(message);
        }
        Kind::Bic | Kind::Bicfi if old.len() == 8 => [old, b"XXX"].concat(),
        Kind::CreditorId if old.len() < 35 => [old, b"/"].concat(),
        Kind::CreditorId => other_case(old)?,
        Kind::Time if old.ends_with(b"Z") => [&old[..old.len() - 1], b"+00:00"].concat(),
        Kind::Time if old.ends_with(b"+00:00") => [&old[..old.len() - 6], b"-00:00"].concat(),
        Kind::Time if old.len() == 19 => [old, b".000"].concat(),
        _ => return None,
    };
    part.say(Valid::new(new, 0));
    Some(message)
}

/// A collapsed value with a space more, in the midst of a word and written in any way; nothing where
/// no word has two bytes, or the value is too long then.
fn parted(kind: Kind, meant: &[u8], random: &mut Random) -> Option<Valid> {
    let inside = |at: &usize| meant[at - 1] != b' ' && meant[*at] != b' ';
    let places: Vec<usize> = (1..meant.len()).filter(inside).collect();
    let &at = places.get(random.below(places.len().max(1)))?;
    let meant = [&meant[..at], b" ", &meant[at..]].concat();
    let fits = meant.len() <= kind.longest_collapsed()?;
    fits.then(|| Valid { bytes: collapse::spelled(&meant, random), meant, worth: 0 })
}

/// The letters of positions 5 to 7 in the other case, if there is one.
fn other_case(identifier: &[u8]) -> Option<Vec<u8>> {
    let mut other = identifier.to_vec();
    for byte in &mut other[4..7] {
        *byte ^= if byte.is_ascii_alphabetic() { 0x20 } else { 0 };
    }
    (other != identifier).then_some(other)
}

/// The other local instrument, in the header or in every item.
fn other_instrument(mut message: Message, _: &mut Random) -> Option<Message> {
    for at in values_of(&message, INSTRUMENTS) {
        let part = &mut message.parts[at];
        let other = if part.bytes == b"CORE" { b"B2B".to_vec() } else { b"CORE".to_vec() };
        part.say(Valid::new(other, 0));
    }
    Some(message)
}

/// The header with this count and total.
pub(crate) fn with_header(mut message: Message, count: u64, cents: u64) -> Message {
    (message.count, message.cents) = (count, cents);
    let number = message.header_value("NbOfTxs");
    message.parts[number].bytes = count.to_string().into_bytes();
    let total = message.header_value("TtlIntrBkSttlmAmt");
    message.parts[total].bytes = value::euros(cents).into_bytes();
    message
}

/// Adds cents to an amount; nothing where it leaves its range.
fn add(part: &mut Part, cents: i64) -> Option<()> {
    let sum = value::cents_of(&part.bytes).checked_add_signed(cents)?;
    part.bytes = value::euros(sum).into_bytes();
    (1..=value::ITEM_MOST).contains(&sum).then_some(())
}

/// One item of a cent more, and the total too.
fn cent_more(mut message: Message, random: &mut Random) -> Option<Message> {
    let amounts = values_of(&message, Kind::ItemAmount);
    add(&mut message.parts[amounts[random.below(amounts.len())]], 1)?;
    let (count, cents) = (message.count, message.cents + 1);
    Some(with_header(message, count, cents))
}

/// One item of a cent more, and the next of a cent less: the header is as it was.
fn cent_moved(mut message: Message, random: &mut Random) -> Option<Message> {
    let amounts = values_of(&message, Kind::ItemAmount);
    if amounts.len() < 2 {
        return None;
    }
    let at = random.below(amounts.len() - 1);
    add(&mut message.parts[amounts[at]], 1)?;
    add(&mut message.parts[amounts[at + 1]], -1)?;
    Some(message)
}

/// The start tags of a name.
pub(crate) fn starts(message: &Message, name: &str) -> Vec<usize> {
    message.parts_that(|part| part.what == What::Start && part.name == name)
}

/// InstrId or RmtInf of one item taken out.
fn left_out(mut message: Message, random: &mut Random) -> Option<Message> {
    let found = starts(&message, random.pick(&["InstrId", "RmtInf"]));
    let &start = found.get(random.below(found.len().max(1)))?;
    let (first, after) = element_at(&message, start);
    message.parts.drain(first..after);
    Some(message)
}

/// InstrId or RmtInf put into one item that has none.
fn put_in(mut message: Message, random: &mut Random) -> Option<Message> {
    let (before, kind, names) = match random.below(2) {
        0 => ("<EndToEndId>", Kind::Reference, &["InstrId"][..]),
        _ => ("</DrctDbtTxInf>", Kind::Text140, &["RmtInf", "Ustrd"][..]),
    };
    let (first, after) = message.items[random.below(message.items.len())];
    let item = &message.parts[first..after];
    if item.iter().any(|part| part.name == names[0]) {
        return None;
    }
    let at = first + item.iter().position(|part| part.bytes == before.as_bytes())?;
    let tag = |what, name, text: String| Part::new(what, name, text.into_bytes());
    let starts = names.iter().map(|name| tag(What::Start, *name, format!("<{name}>")));
    let ends = names.iter().rev().map(|name| tag(What::End, *name, format!("</{name}>")));
    let value = [tag(What::Value(kind), names[names.len() - 1], "A1".into())];
    let element: Vec<Part> = starts.chain(value).chain(ends).collect();
    message.parts.splice(at..at, element);
    Some(message)
}

/// The cents of an item.
fn cents_of(message: &Message, (first, after): (usize, usize)) -> u64 {
    let item = &message.parts[first..after];
    let amount = item.iter().find(|part| part.what == What::Value(Kind::ItemAmount));
    value::cents_of(&amount.expect("each item has an amount").bytes)
}

/// One item of several taken out, and a header that fits.
fn item_left_out(mut message: Message, random: &mut Random) -> Option<Message> {
    if message.items.len() < 2 {
        return None;
    }
    let item = message.items[random.below(message.items.len())];
    let (count, cents) = (message.count - 1, message.cents - cents_of(&message, item));
    message.parts.drain(item.0..item.1);
    Some(with_header(message, count, cents))
}

/// One item twice, the second time under another TxId, and a header that fits.
fn item_doubled(mut message: Message, random: &mut Random) -> Option<Message> {
    let item = message.items[random.below(message.items.len())];
    let (count, cents) = (message.count + 1, message.cents + cents_of(&message, item));
    let copy = message.parts[item.0..item.1].to_vec();
    message.parts.splice(item.1..item.1, copy);
    let is_copy = |part: &usize| *part >= item.1;
    let id = message.transactions().into_iter().find(is_copy).expect("the copy has a TxId");
    message.parts[id].say(Valid::new(value::reference(random), 0));
    Some(with_header(message, count, cents))
}

/// Two items that follow each other, exchanged; nothing where they say the same.
fn items_exchanged(mut message: Message, random: &mut Random) -> Option<Message> {
    let pairs = message.items.len() - 1;
    let at = random.below(pairs.max(1));
    let (&(first, middle), &(next, after)) = (message.items.get(at)?, message.items.get(at + 1)?);
    let (one, other) = (&message.parts[first..middle], &message.parts[next..after]);
    let said = |parts: &[Part]| -> Vec<Vec<u8>> {
        let values = parts.iter().filter(|part| stands_for_itself(part));
        values.map(|part| part.meant.clone()).collect()
    };
    if said(one) == said(other) {
        return None;
    }
    let swapped = [other, &message.parts[middle..next], one].concat();
    message.parts.splice(first..after, swapped);
    Some(message)
}
