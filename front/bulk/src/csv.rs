//! Items for a spreadsheet: semicolons, a heading, the decimal mark of the language.

use crate::euro;
use crate::language::Language;
use crate::rows::Row;
use crate::show::shown;

const ENGLISH: [&str; 13] = [
    "No",
    "Place",
    "TxId",
    "EndToEndId",
    "Debtor",
    "Debtor IBAN",
    "Cents",
    "EUR",
    "Collection date",
    "Mandate",
    "Mandate date",
    "Sequence type",
    "Doubled",
];

/// No umlaut: a spreadsheet that takes another encoding shows them right all the same.
const GERMAN: [&str; 13] = [
    "Nr.",
    "Stelle",
    "TxId",
    "EndToEndId",
    "Zahlungspflichtiger",
    "IBAN Zahlungspflichtiger",
    "Cent",
    "EUR",
    "Einzug am",
    "Mandatsreferenz",
    "Mandatsdatum",
    "Lastschrift-Typ",
    "Doppelt",
];

/// The heading and a line for each item.
pub fn of(rows: &[Row], language: Language) -> String {
    let mut text = language.say(ENGLISH, GERMAN).map(quoted).join(";") + "\n";
    for row in rows {
        text.push_str(&line(row, language));
    }
    text
}

/// The line of one item.
fn line(row: &Row, language: Language) -> String {
    let item = row.item;
    let euros = euro::euros(row.cents()).replace('.', language.say(".", ","));
    let text = |bytes: &[u8]| guarded(&shown(bytes));
    let cells = [
        row.number.to_string(),
        item.place.to_string(),
        text(item.tx_id),
        text(&item.end_to_end_id),
        text(&item.debtor),
        text(item.debtor_iban),
        row.cents().to_string(),
        euros,
        // A date as it is, so that the spreadsheet knows it.
        shown(item.collection_date),
        text(item.mandate),
        shown(item.mandate_date),
        text(item.sequence),
        quoted(&row.mark(language)),
    ];
    cells.join(";") + "\n"
}

/// A text in quotation marks, those inside doubled.
pub fn quoted(text: &str) -> String {
    format!("\"{}\"", text.replace('"', "\"\""))
}

/// Text, in quotes. A spreadsheet computes what begins with a sign, so an apostrophe stands before it.
pub fn guarded(text: &str) -> String {
    match text.starts_with(['+', '-', '=', '@']) {
        true => quoted(&format!("'{text}")),
        false => quoted(text),
    }
}

#[cfg(test)]
mod tests {
    use super::*;

    #[test]
    fn text_is_quoted_and_never_computed() {
        assert_eq!(guarded("Anna"), "\"Anna\"");
        assert_eq!(guarded("a;\"b"), "\"a;\"\"b\"");
        assert_eq!(guarded("-2+3"), "\"'-2+3\"");
        assert!(GERMAN.iter().all(|heading| heading.is_ascii()));
    }
}
