//! The verdict on one file, with all that is told of it, and what is made of an accepted one.

use crate::{both, told_in_both};
use std::ffi::{OsStr, OsString};
use told::doubled;
use told::json::{string, Object};
use told::language::Language;
use told::place;
use told::refusal::Refusal;
use told::show::{name, shown};
use told::verdict::{Judged, Verdict};
use told::{written, Disagreement};

/// One object, with every key whatever the verdict. `words` is what the command prints.
pub fn json(file: &OsStr, message: &[u8], earlier: Option<OsString>) -> String {
    let mut judged = Judged::of(file, message);
    judged.same_msg_id = earlier;
    let header = &judged.contents.header;
    let object = Object::default()
        .text("file", name(file).as_bytes())
        .text("plain", judged.verdict.plain().as_bytes())
        .raw("words", &both(|language| judged.words(language)))
        .text_or_null("msg_id", shown(header.msg_id).as_bytes())
        .text_or_null("settlement_date", shown(header.settlement_date).as_bytes())
        .text_or_null("instrument", shown(judged.contents.instrument()).as_bytes())
        .text_or_null("bic", shown(header.bic).as_bytes())
        .text_or_null("version", judged.version().as_bytes());
    let object = match judged.verdict {
        Verdict::Accepted { count, cents } => accepted(object, count, cents),
        Verdict::Refused { number, place } => {
            refused(object, &judged, &Refusal::of(message, &judged.contents, number, place))
        }
    };
    let doubled = |language| doubled::told(&judged.contents.items, &judged.doubled, language);
    let same = |language| judged.same_msg_id_told(language).unwrap_or_default();
    let object = told_in_both(object, "doubled", doubled);
    told_in_both(object, "same_msg_id", same).end()
}

/// What is signed.
fn accepted(object: Object, count: u64, cents: u64) -> Object {
    object
        .text("verdict", b"accepted")
        .raw("count", &both(|language| language.number(count.into())))
        .raw("items", &both(|language| language.items(count.into())))
        .raw("euros", &both(|language| language.euros(cents.into())))
        .raw("money", &both(|language| language.money(cents)))
        .raw("refusal", "null")
}

/// Where and why.
fn refused(object: Object, judged: &Judged, refusal: &Refusal) -> Object {
    let excerpt = judged.has_excerpt().then(|| place::around(judged.message, refusal.place));
    let excerpt = excerpt.map_or("null".to_string(), |(before, behind)| {
        format!("[{},{}]", string(before.as_bytes()), string(behind.as_bytes()))
    });
    let unread = told::message::Item::default();
    let item = refusal.item.as_ref();
    let of_item = item.map_or(&unread, |(_, item)| item);
    let told = Object::default()
        .number("number", refusal.number)
        .number("place", refusal.place as u64)
        .number("line", refusal.line as u64)
        .number("column", refusal.column as u64)
        .text_or_null("element", refusal.path.as_deref().unwrap_or("").as_bytes())
        .number_or_null("item", item.map(|(number, _)| *number as u64))
        .text_or_null("tx_id", shown(of_item.tx_id).as_bytes())
        .text_or_null("end_to_end_id", shown(&of_item.end_to_end_id).as_bytes())
        .text_or_null("debtor", shown(&of_item.debtor).as_bytes())
        .raw("excerpt", &excerpt);
    let euros = |language: Language| {
        of_item.cents.map_or(String::new(), |cents| language.euros(cents.into()))
    };
    let told = told_in_both(told, "item_euros", euros);
    // It stands in a sentence of the command, behind a comma and a verb; here it stands alone.
    let found = |language: Language| {
        let told = refusal.found_told(language);
        let verb = language.say(", found ", ", gefunden ");
        told.trim_start_matches(verb).trim_start_matches(", ").to_string()
    };
    let told = told_in_both(told, "found", found);
    let meaning = |language| told::pages::sentence(refusal.number, language);
    let told = told_in_both(told, "meaning", meaning);
    let against = |language| refusal.against_told(language).trim_start().to_string();
    let told = told_in_both(told, "against", against);
    let object = ["count", "items", "euros", "money"]
        .iter()
        .fold(object.text("verdict", b"refused"), |object, key| object.raw(key, "null"));
    object.raw("refusal", &told.end())
}

/// The posting records; none of a message that is refused.
pub fn records(message: &[u8]) -> Result<Option<Vec<u8>>, Disagreement> {
    count(message).map(|count| written::records(message, count)).transpose()
}

/// The plain form; none of a message that is refused.
pub fn plain(message: &[u8]) -> Result<Option<Vec<u8>>, Disagreement> {
    count(message).map(|count| written::plain(message, count)).transpose()
}

/// The count of an accepted message.
fn count(message: &[u8]) -> Option<u64> {
    match Verdict::of(message) {
        Verdict::Accepted { count, .. } => Some(count),
        Verdict::Refused { .. } => None,
    }
}
