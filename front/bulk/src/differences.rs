//! What is told of two bulks whose plain forms were compared, in each form.

use crate::compared::{Compared, Difference, ROOT};
use crate::doubled::numbers;
use crate::json::Object;
use crate::language::Language;
use crate::show::{self, shown};
use crate::tags::ITEM;
use crate::verdict::{Judged, Verdict};
use crate::{written, Disagreement};

/// The plain form of a message, if it is accepted.
pub fn form(judged: &Judged) -> Result<Option<Vec<u8>>, Disagreement> {
    match judged.verdict {
        Verdict::Accepted { count, .. } => written::plain(judged.message, count).map(Some),
        Verdict::Refused { .. } => Ok(None),
    }
}

/// Count and cents of both, where they are the same.
fn shared(compared: &Compared, both: &[Judged; 2]) -> Option<(u64, u64)> {
    match both[0].verdict {
        Verdict::Accepted { count, cents } if compared.is_same() => Some((count, cents)),
        _ => None,
    }
}

/// For scripts: one line if they are the same, else one for each difference, with tabs. The header has
/// the number 0.
pub fn plain(compared: &Compared, both: &[Judged; 2]) -> String {
    if let Some((count, cents)) = shared(compared, both) {
        return format!("same {count} {cents}\n");
    }
    let line = |difference: &Difference| {
        let item = difference.item.map_or(0, |(item, _)| item);
        let [here, there] = difference.values.map(|value| shown(value.unwrap_or(b"")));
        format!("different\t{item}\t{}\t{here}\t{there}\n", element(difference))
    };
    compared.differences.iter().map(line).collect()
}

/// The path of an element; of a whole item its name.
fn element(difference: &Difference) -> String {
    difference.element.clone().unwrap_or_else(|| shown(ITEM))
}

/// One object, with every key whether they are the same or not.
pub fn json(compared: &Compared, both: &[Judged; 2]) -> String {
    let verdict = if compared.is_same() { "same" } else { "different" };
    beginning(both, verdict, shared(compared, both))
        .list("differences", compared.differences.iter().map(difference_json))
        .numbers("different_items", &compared.items)
        .raw("refused", "[]")
        .end()
}

/// The first keys of an object: both names, the verdict, count and cents.
pub fn beginning(both: &[Judged; 2], verdict: &str, shared: Option<(u64, u64)>) -> Object {
    Object::default()
        .text("file", show::bytes_of(both[0].name))
        .text("other", show::bytes_of(both[1].name))
        .text("verdict", verdict.as_bytes())
        .number_or_null("count", shared.map(|(count, _)| count))
        .number_or_null("cents", shared.map(|(_, cents)| cents))
}

/// A difference as an object.
fn difference_json(difference: &Difference) -> String {
    let (item, tx_ids) = match difference.item {
        Some((item, tx_ids)) => (Some(item as u64), tx_ids),
        None => (None, [&b""[..]; 2]),
    };
    let [here, there] = difference.values.map(|value| value.unwrap_or(b""));
    Object::default()
        .number_or_null("item", item)
        .text_or_null("tx_id", tx_ids[0])
        .text_or_null("other_tx_id", tx_ids[1])
        .text("element", element(difference).as_bytes())
        .text_or_null("here", here)
        .text_or_null("there", there)
        .end()
}

/// In words: a line for the two, and below it, indented, where they differ.
pub fn words(compared: &Compared, both: &[Judged; 2], language: Language) -> String {
    let [one, other] = [both[0].name, both[1].name].map(show::name);
    let names = language.say(format!("{one} and {other}"), format!("{one} und {other}"));
    if let Some((count, cents)) = shared(compared, both) {
        let same = language.say("the same plain form", "gleiche Normalform");
        return format!("{names}: {same}, {}\n", both[0].signed(count, cents, language));
    }
    let mut text = format!("{names}: {}\n", language.say("different", "ungleich"));
    for difference in &compared.differences {
        text.push_str(&format!("  {}\n", difference_told(difference, language)));
    }
    if matches!(&compared.differences[..], [alone] if is_version(alone)) {
        let rest = language.say("all else is the same", "alles andere ist gleich");
        text.push_str(&format!("  {rest}\n"));
    }
    if compared.items.len() > 1 {
        let heading = language.say("Items that differ", "Abweichende Posten");
        let (count, items) = (compared.items.len(), numbers(&compared.items, language));
        text.push_str(&format!("  {heading} ({count}): {items}\n"));
    }
    text
}

/// Whether the difference is that of the versions.
fn is_version(difference: &Difference) -> bool {
    difference.element.as_deref() == Some(ROOT)
}

/// `the versions differ: pacs.003.001.02 here, pacs.003.001.08 there`.
fn versions_told(difference: &Difference, language: Language) -> String {
    let [here, there] = difference.values.map(|value| shown(value.unwrap_or(b"")));
    language.say(
        format!("the versions differ: {here} here, {there} there"),
        format!("die Versionen sind verschieden: hier {here}, dort {there}"),
    )
}

/// `item 3, TxId T-0815: IntrBkSttlmAmt “12.34” here, “12.43” there`.
fn difference_told(difference: &Difference, language: Language) -> String {
    if is_version(difference) {
        return versions_told(difference, language);
    }
    let place = match difference.item {
        None => language.say("header", "Kopf").to_string(),
        Some((item, _)) => {
            let word = language.say("item", "Posten");
            format!("{word} {item}{}", tx_ids_told(difference, language))
        }
    };
    match (&difference.element, difference.values) {
        (Some(element), values) => format!("{place}: {element} {}", sides(values, language)),
        (None, [Some(_), _]) => format!("{place}: {}", language.say("only here", "nur hier")),
        (None, _) => format!("{place}: {}", language.say("only there", "nur dort")),
    }
}

/// Which payment it is. Where the TxId is what differs, it is told as that.
fn tx_ids_told(difference: &Difference, language: Language) -> String {
    let (one, other) = match difference.item {
        Some((_, [one, other])) => (one, other),
        None => return String::new(),
    };
    match (one, other) {
        _ if difference.element.as_deref() == Some("PmtId/TxId") => String::new(),
        (b"", id) | (id, b"") => format!(", TxId {}", shown(id)),
        _ if one == other => format!(", TxId {}", shown(one)),
        _ => {
            let (one, other) = (shown(one), shown(other));
            language.say(
                format!(", TxId {one} here, {other} there"),
                format!(", TxId hier {one}, dort {other}"),
            )
        }
    }
}

/// The two values, in quotation marks, so that a space at an end is seen.
fn sides(values: [Option<&[u8]>; 2], language: Language) -> String {
    let missing = || language.say("missing", "nicht vorhanden").to_string();
    let [here, there] =
        values.map(|value| value.map_or_else(missing, |value| language.quoted(&shown(value))));
    language.say(format!("{here} here, {there} there"), format!("hier {here}, dort {there}"))
}
