//! The items of a message as rows, in each form: of one that is accepted or whose count or total alone is
//! wrong.

use crate::doubled::{self, by_item, Group};
use crate::json::Object;
use crate::language::Language;
use crate::message::Item;
use crate::show::shown;
use crate::verdict::{Judged, Verdict};
use crate::{euro, Disagreement};

/// An item as a row: its number from 1, what it says, and the items that look like it. None has its
/// TxId: that is 24.
pub struct Row<'a> {
    pub number: usize,
    pub item: &'a Item<'a>,
    pub alike: Option<&'a Group>,
}

/// The items found by their tags must come to what the library says of an accepted message.
pub fn agree(judged: &Judged) -> Result<(), Disagreement> {
    let (found, cents) = (judged.contents.items.len() as u64, judged.contents.cents());
    match judged.verdict {
        Verdict::Accepted { count, cents: total } if found != count || cents != Some(total) => {
            Err(Disagreement)
        }
        _ if cents.is_none() => Err(Disagreement),
        _ => Ok(()),
    }
}

/// The items as rows, each with those that look like it.
pub fn rows<'a>(judged: &'a Judged) -> Vec<Row<'a>> {
    let items = &judged.contents.items;
    let alike = by_item(&judged.doubled.alike, items.len());
    let row = |(at, item)| Row { number: at + 1, item, alike: alike[at] };
    items.iter().enumerate().map(row).collect()
}

impl Row<'_> {
    /// The cents of an item whose amount was read.
    pub fn cents(&self) -> u64 {
        self.item.cents.unwrap_or(0)
    }

    /// Another item that looks like it: one is enough to find the rest, and ten thousand doubles stay ten
    /// thousand lines.
    pub fn other(&self) -> Option<usize> {
        self.alike.map(|group| doubled::other(group, self.number))
    }

    /// Which item it looks like, in words; empty for none.
    pub fn mark(&self, language: Language) -> String {
        self.other().map_or(String::new(), |number| {
            language.say(format!("looks like {number}"), format!("sieht aus wie {number}"))
        })
    }
}

/// A row for scripts: number, place, TxId, EndToEndId, debtor IBAN, cents, euros.
pub fn plain(row: &Row) -> String {
    let Item { place, tx_id, end_to_end_id, debtor_iban, .. } = row.item;
    let [tx_id, end_to_end_id, iban] = [tx_id, &**end_to_end_id, debtor_iban].map(shown);
    let (cents, euros) = (row.cents(), euro::euros(row.cents()));
    format!("{}\t{place}\t{tx_id}\t{end_to_end_id}\t{iban}\t{cents}\t{euros}\n", row.number)
}

/// A row as an object.
pub fn json(row: &Row) -> String {
    let item = row.item;
    let object = Object::default()
        .number("item", row.number as u64)
        .number("place", item.place as u64)
        .text("tx_id", item.tx_id)
        .text("end_to_end_id", &item.end_to_end_id)
        .text("debtor", &item.debtor)
        .text("debtor_iban", item.debtor_iban)
        .number("cents", row.cents())
        .text("euros", euro::euros(row.cents()).as_bytes())
        .text("collection_date", item.collection_date)
        .text("mandate", item.mandate)
        .text("mandate_date", item.mandate_date)
        .text("sequence", item.sequence)
        .text("instrument", item.instrument)
        // No two items of such a bulk have one TxId. The key stays for the programs that read it.
        .raw("doubled", "null")
        .number_or_null("looks_doubled", row.other().map(|number| number as u64));
    format!("{}\n", object.end())
}

/// The table, each column as wide as it must be, and a last line with count and total. The column for
/// items that look doubled is there only if there are any.
pub fn table(rows: &[Row], cents: u64, language: Language) -> String {
    let heading = language.say(
        ["No", "Place", "TxId", "EndToEndId", "Debtor IBAN", "Cents", "EUR", "Doubled"],
        [
            "Nr.",
            "Stelle",
            "TxId",
            "EndToEndId",
            "IBAN Zahlungspflichtiger",
            "Cent",
            "EUR",
            "Doppelt",
        ],
    );
    let cells: Vec<[String; 8]> = rows.iter().map(|row| cells(row, language)).collect();
    let is_doubled = cells.iter().any(|row| !row[7].is_empty());
    let columns = if is_doubled { 8 } else { 7 };
    let width = |column: usize| {
        let widths = cells.iter().map(|row| row[column].len());
        widths.chain([heading[column].len()]).max().unwrap_or(0)
    };
    let widths: Vec<usize> = (0..columns).map(width).collect();
    let mut text = line(&heading.map(str::to_string), &widths);
    cells.iter().for_each(|row| text.push_str(&line(row, &widths)));
    let (count, money) = (language.items(rows.len() as u128), language.money(cents));
    text.push_str(&format!("{count}, {money}\n"));
    text
}

/// The cells of a row.
fn cells(row: &Row, language: Language) -> [String; 8] {
    let euros = language.euros(row.cents().into());
    [
        row.number.to_string(),
        row.item.place.to_string(),
        shown(row.item.tx_id),
        shown(&row.item.end_to_end_id),
        shown(row.item.debtor_iban),
        row.cents().to_string(),
        euros.trim_end_matches(" EUR").to_string(),
        row.mark(language),
    ]
}

/// One line; numbers stand to the right.
fn line(row: &[String; 8], widths: &[usize]) -> String {
    let cell = |(column, &width): (usize, &usize)| {
        let text = &row[column];
        match column {
            2..=4 | 7 => format!("{text:width$}"),
            _ => format!("{text:>width$}"),
        }
    };
    let cells: Vec<String> = widths.iter().enumerate().map(cell).collect();
    format!("{}\n", cells.join("  ").trim_end())
}
