//! Request 6: PmtTpInf in the header, in every item, in both or in neither, in whichever items; cut
//! behind each byte, and put in wherever a tag may stand. What is known comes from the making.

use crate::damage::{cut_to, element_at, fine, whole, Case, Known};
use crate::message::{accepted, concat, Message, Part, Plan, Spacing, Version, What};
use crate::random::Random;
use crate::twins::{may_have_white, starts};

const NAME: &str = "PmtTpInf";
/// The start tag that gives 23.
const TAG: &[u8] = b"<PmtTpInf>";
/// Where SeqTp stands in a record.
const SEQUENCE: std::ops::Range<usize> = 205..209;

/// Where PmtTpInf stands: whether in the header, and in which items.
pub struct Places {
    pub header: bool,
    pub items: Vec<bool>,
}

impl Places {
    /// Those of an accepted message of so many items: once in the header, or in every item.
    pub fn right(header: bool, items: usize) -> Places {
        Places { header, items: vec![!header; items] }
    }

    /// The first item that has one though the header has one, or that has none though the header has
    /// none.
    pub(crate) fn wrong(&self) -> Option<usize> {
        self.items.iter().position(|&item| item == self.header)
    }
}

/// Whether PmtTpInf stands in the header of an accepted message.
pub fn is_in_header(message: &Message) -> bool {
    starts(message, NAME)[0] < starts(message, "DrctDbtTxInf")[0]
}

/// An accepted message with PmtTpInf at the other place: its first one in the header, or the header's
/// in every item.
pub fn moved(message: &Message) -> Message {
    let places = Places::right(!is_in_header(message), message.items.len());
    placed(message, &places).0
}

/// The message with its first PmtTpInf at these places and no others, and what is known of it. All
/// items have its SeqTp then.
pub fn placed(message: &Message, places: &Places) -> (Message, Known) {
    let payment_type = first_of(message);
    let mut parts = Vec::new();
    let (mut items, mut is_due) = (places.items.iter(), false);
    for part in without(message) {
        if is_due && part.what != What::White {
            parts.extend(payment_type.iter().cloned());
            is_due = false;
        }
        if part.what == What::End {
            is_due = match part.name {
                "SttlmInf" => places.header,
                "PmtId" => *items.next().expect("each item has its place"),
                _ => is_due,
            };
        }
        parts.push(part);
    }
    let made = with_type(message, parts, &payment_type);
    let known = known(&made, places);
    (made, known)
}

/// A message of these parts, whose items all have the SeqTp of this PmtTpInf.
fn with_type(message: &Message, parts: Vec<Part>, payment_type: &[Part]) -> Message {
    let is_sequence = |part: &&Part| part.name == "SeqTp" && matches!(part.what, What::Value(_));
    let sequence = payment_type.iter().find(is_sequence).expect("it has a SeqTp");
    let mut made = Message { parts, ..message.clone() };
    for record in &mut made.records {
        record[SEQUENCE].copy_from_slice(&sequence.bytes);
    }
    let starts = starts(&made, "DrctDbtTxInf");
    made.items = starts.into_iter().map(|start| element_at(&made, start)).collect();
    made
}

/// The parts of the first PmtTpInf.
fn first_of(message: &Message) -> Vec<Part> {
    let (first, after) = element_at(message, starts(message, NAME)[0]);
    message.parts[first..after].to_vec()
}

/// The parts of a message without any PmtTpInf.
fn without(message: &Message) -> Vec<Part> {
    let mut is_inside = false;
    let mut left = Vec::new();
    for part in &message.parts {
        is_inside |= (part.what, part.name) == (What::Start, NAME);
        if !is_inside {
            left.push(part.clone());
        }
        is_inside &= (part.what, part.name) != (What::End, NAME);
    }
    left
}

/// The place of the tag behind PmtId of an item.
fn behind_pmt_id(message: &Message, item: usize) -> usize {
    let is_end = |part: &Part| part.what == What::End && part.name == "PmtId";
    let end = message.parts_that(is_end)[item];
    let is_tag = |at: &usize| message.parts[*at].what != What::White;
    message.place((end + 1..message.parts.len()).find(is_tag).expect("a tag follows"))
}

/// "23, an item's complete PmtTpInf tag though the header has one, at its `<`"; "missing in both is 4
/// at the tag found instead".
fn known(message: &Message, places: &Places) -> Known {
    match places.wrong() {
        None => fine(message),
        Some(item) => {
            let number = if places.header { 23 } else { 4 };
            Known::Refused { number, place: behind_pmt_id(message, item) }
        }
    }
}

/// The message cut to a length, where this is known of it whole: 3 as long as the wrong tag can still
/// become a right one. The tag that gives 23 is wrong when it is whole, the amount's in place of a
/// PmtTpInf from its second byte on.
fn cut(message: &Message, known: Known, length: usize) -> (Vec<u8>, Known) {
    let Known::Refused { number, place } = known else { return cut_to(message, length) };
    let told = place + if number == 23 { TAG.len() } else { 2 };
    let (bytes, _) = cut_to(message, length);
    match length < told {
        true => (bytes, Known::Refused { number: 3, place: length }),
        false => (bytes, known),
    }
}

/// The sweep: small messages of two items, compact in version .02 and in white space in .08, with
/// PmtTpInf at all places and cut behind each byte; then with one more at each place where a tag may
/// stand.
pub fn sweep(seed: u64, mut each: impl FnMut(u64, Case)) {
    let mut number = 0;
    let mut give = |case: Case| {
        each(number, case);
        number += 1;
    };
    let spaced = [(Version::V02, Spacing::None), (Version::V08, Spacing::Everywhere)];
    for (version, spacing) in spaced {
        let (items, optional) = (2, Some(spacing != Spacing::None));
        let (declaration, type_in_header) = (spacing == Spacing::None, false);
        let plan =
            Plan { items, spacing, small: true, declaration, optional, type_in_header, version };
        let message = accepted(&plan, &mut Random::new(seed, 0x7479));
        for ways in 0..8_u32 {
            let [header, one, other] = [0, 1, 2].map(|way| ways >> way & 1 == 1);
            at_places(&message, &Places { header, items: vec![one, other] }, &mut give);
        }
        for header in [false, true] {
            let (message, _) = placed(&message, &Places::right(header, items));
            once_more(&message, &mut give);
        }
    }
}

/// PmtTpInf at these places: whole, and cut behind each byte.
fn at_places(message: &Message, places: &Places, give: &mut dyn FnMut(Case)) {
    let (made, known) = placed(message, places);
    match places.wrong() {
        None => give(Case { damage: "payment type moved", ..whole(made.clone()) }),
        Some(_) => give(Case::new(made.bytes(), "payment type here and there", known)),
    }
    for length in 0..=made.bytes().len() {
        let (bytes, known) = cut(&made, known, length);
        give(Case::new(bytes, "payment type here and there, cut", known));
    }
}

/// An accepted message with one more PmtTpInf before each tag that may have white space.
fn once_more(message: &Message, give: &mut dyn FnMut(Case)) {
    for at in (0..message.parts.len()).filter(|&at| may_have_white(&message.parts, at)) {
        let (bytes, known) = once_more_at(message, at);
        give(Case::new(bytes, "payment type once more", known));
    }
}

/// An accepted message with one more PmtTpInf before this tag: 4 at it, or 23 behind PmtId with one in
/// the header. Where it stands right, the message's own is too many.
pub(crate) fn once_more_at(message: &Message, at: usize) -> (Vec<u8>, Known) {
    let more = first_of(message);
    let (before, after) = (&message.parts[..at], &message.parts[at..]);
    let (tag, place, length) = (&after[0], message.place(at), concat(&more).len());
    let last = before.iter().rev().find(|part| part.what != What::White);
    let is_behind = |name| last.is_some_and(|part| part.what == What::End && part.name == name);
    let (number, place) = match (tag.what, tag.name) {
        (What::Start, "Document") => (2, place),
        (What::Start, NAME) => (4, place + length),
        _ if is_behind("PmtId") => (23, place),
        // In the header, and the items have theirs.
        _ if is_behind("SttlmInf") => (23, behind_pmt_id(message, 0) + length),
        _ => (4, place),
    };
    (concat(&[before, &more, after].concat()), Known::Refused { number, place })
}
