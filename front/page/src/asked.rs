//! One value, two files compared, the pages of the refusals.

use crate::both;
use std::ffi::OsStr;
use told::checked::Checked;
use told::compared::{Compared, Difference};
use told::differences::{self, form};
use told::json::{string, Object};
use told::language::Language;
use told::show::shown;
use told::tally::Tally;
use told::verdict::Judged;
use told::{pages as refusals, Disagreement, Status};

/// A value as the command tells it; none where there is no such kind.
pub fn check(kind: &str, value: &[u8]) -> Option<Vec<u8>> {
    let checked = Checked::of(kind, value)?;
    let verdict: &[u8] = if checked.is_accepted() { b"accepted" } else { b"refused" };
    let object = Object::default()
        .text("verdict", verdict)
        .text("plain", checked.plain().as_bytes())
        .raw("words", &both(|language| checked.told(language)));
    Some(object.end().into_bytes())
}

/// Two files, each its name and its bytes, compared by their plain forms.
pub fn same(one: (&OsStr, &[u8]), other: (&OsStr, &[u8])) -> Result<Vec<u8>, Disagreement> {
    let both_judged = [Judged::of(one.0, one.1), Judged::of(other.0, other.1)];
    let (first, second) = match (form(&both_judged[0])?, form(&both_judged[1])?) {
        (Some(first), Some(second)) => (first, second),
        _ => return Ok(not_compared(&both_judged).into_bytes()),
    };
    let compared = Compared::of(&first, &second);
    if compared.is_same() != (first == second) {
        return Err(Disagreement);
    }
    let verdict: &[u8] = if compared.is_same() { b"same" } else { b"different" };
    let words = |language| differences::words(&compared, &both_judged, language);
    let object = Object::default()
        .text("verdict", verdict)
        .raw("words", &both(words))
        .list("differences", compared.differences.iter().map(difference))
        .numbers("items", &compared.items);
    Ok(object.end().into_bytes())
}

/// One that is refused has no plain form: the words of each that is.
fn not_compared(judged: &[Judged; 2]) -> String {
    let refused = |language: Language| -> String {
        let refused = judged.iter().filter(|one| one.verdict.status() == Status::Refused);
        refused.map(|one| one.words(language)).collect()
    };
    let object = Object::default().text("verdict", b"refused").raw("words", &both(refused));
    object.raw("differences", "[]").raw("items", "[]").end()
}

/// A difference: item (0 for the header), element, what either side says.
fn difference(difference: &Difference) -> String {
    let side = |value: Option<&[u8]>| match value {
        Some(value) => string(shown(value).as_bytes()),
        None => "null".to_string(),
    };
    let [here, there] = difference.values.map(side);
    Object::default()
        .number("item", difference.item.map_or(0, |(item, _)| item as u64))
        .text_or_null("element", difference.element.as_deref().unwrap_or("").as_bytes())
        .raw("here", &here)
        .raw("there", &there)
        .end()
}

/// The closing line of several files, each the words of its plain verdict; one that was not read has none.
pub fn closing(verdicts: &[u8]) -> String {
    let mut tally = Tally::default();
    for line in String::from_utf8_lossy(verdicts).lines() {
        let words: Vec<&str> = line.split(' ').collect();
        tally.files += 1;
        match words[..] {
            ["accepted", count, cents] => {
                tally.accepted += 1;
                tally.items += count.parse().unwrap_or(0);
                tally.cents += cents.parse().unwrap_or(0);
            }
            ["refused", ..] => tally.refused += 1,
            _ => {}
        }
    }
    both(|language| tally.closing(language))
}

/// The pages of the refusals, in their order: number, sentence, and rows of a label and a text.
pub fn pages() -> String {
    let both = |texts: &[&str; 2]| {
        format!("[{},{}]", string(texts[0].as_bytes()), string(texts[1].as_bytes()))
    };
    let page = |page: refusals::Page| {
        let sentence = both(&[&page.sentence[0], &page.sentence[1]]);
        let row = |(label, text): &(_, _)| format!("[{},{}]", both(label), both(text));
        Object::default()
            .number("number", page.number)
            .raw("sentence", &sentence)
            .list("rows", page.rows.iter().map(row))
            .end()
    };
    let pages: Vec<String> = refusals::all().into_iter().map(page).collect();
    format!("[{}]", pages.join(","))
}
