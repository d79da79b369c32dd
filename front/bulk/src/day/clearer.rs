//! The clearer's day report: a line for each bulk with service, MsgId, BIC, settlement date and
//! amount, between semicolons or commas. A line that is not read exactly is told, and nothing is
//! compared.

use super::amount::{self, Unclear};
use crate::language::Language;
use crate::read;
use crate::show::{beginning, shown};
use face::book::{self, Key};
use face::Kind;

/// The most bytes of a value that are shown.
const MOST_SHOWN: usize = 40;

/// A bulk as the clearer has it.
#[derive(Debug, PartialEq, Eq)]
pub struct Row {
    /// Its line, from 1.
    pub line: usize,
    pub key: Key,
    pub cents: u64,
}

/// What is wrong with a report.
#[derive(Debug, PartialEq, Eq)]
pub enum Fault {
    TooLong,
    Line(usize, Why),
}

/// What is wrong with a line of it.
#[derive(Debug, PartialEq, Eq)]
pub enum Why {
    Quotes,
    Columns(usize),
    /// A column from 0, and what stands there.
    Value(usize, Vec<u8>),
    Amount(Vec<u8>, Unclear),
}

/// The bulks of a report.
pub fn rows(report: &[u8]) -> Result<Vec<Row>, Fault> {
    if report.len() as u64 > read::MOST {
        return Err(Fault::TooLong);
    }
    // A spreadsheet may have put a byte order mark before the first line.
    let report = report.strip_prefix(b"\xef\xbb\xbf").unwrap_or(report);
    let lines = report.split(|byte| *byte == b'\n').map(<[u8]>::trim_ascii);
    let lines = lines.enumerate().filter(|(_, line)| !line.is_empty());
    let (mut rows, mut separator) = (Vec::new(), None);
    for (at, line) in lines {
        let (line, text) = (at + 1, line);
        let is_first = separator.is_none();
        let separator = *separator.get_or_insert(separator_of(text));
        let cells = cells(text, separator).ok_or(Fault::Line(line, Why::Quotes))?;
        let is_blank = cells.iter().all(|cell| cell.is_empty());
        if is_blank || (is_first && is_heading(&cells)) {
            continue;
        }
        rows.push(row(line, &cells).map_err(|why| Fault::Line(line, why))?);
    }
    Ok(rows)
}

/// What stands between the columns: semicolons, where the first line has one. No key has any.
fn separator_of(line: &[u8]) -> u8 {
    if line.contains(&b';') {
        b';'
    } else {
        b','
    }
}

/// Whether the first line is a heading: its last column has no digit, as every amount has.
fn is_heading(cells: &[Vec<u8>]) -> bool {
    cells.last().is_some_and(|amount| !amount.iter().any(u8::is_ascii_digit))
}

/// The columns of a line without the white space at their ends, or without their quotation marks;
/// none where those do not match.
fn cells(line: &[u8], separator: u8) -> Option<Vec<Vec<u8>>> {
    let (mut cells, mut rest) = (Vec::new(), line);
    loop {
        let (cell, behind) = match rest.trim_ascii_start().strip_prefix(b"\"") {
            Some(inside) => quoted(inside)?,
            None => {
                let end = rest.iter().position(|byte| *byte == separator).unwrap_or(rest.len());
                (rest[..end].trim_ascii().to_vec(), &rest[end..])
            }
        };
        cells.push(cell);
        match behind {
            [] => return Some(cells),
            [byte, more @ ..] if *byte == separator => rest = more,
            _ => return None,
        }
    }
}

/// A text up to its closing quotation mark, and what stands behind that. A doubled one is one of
/// the text.
fn quoted(inside: &[u8]) -> Option<(Vec<u8>, &[u8])> {
    let (mut text, mut rest) = (Vec::new(), inside);
    loop {
        let end = rest.iter().position(|byte| *byte == b'"')?;
        text.extend_from_slice(&rest[..end]);
        rest = &rest[end + 1..];
        match rest.strip_prefix(b"\"") {
            Some(more) => {
                text.push(b'"');
                rest = more;
            }
            None => return Some((text.trim_ascii().to_vec(), rest.trim_ascii_start())),
        }
    }
}

/// The bulk of a line.
fn row(line: usize, cells: &[Vec<u8>]) -> Result<Row, Why> {
    let [service, msg_id, bic, date, amount] = cells else {
        return Err(Why::Columns(cells.len()));
    };
    let date = iso(date);
    let is_of = |kind, value: &[u8]| face::check(kind, value)[0] == 0;
    let fits = [
        matches!(&service[..], b"CORE" | b"B2B"),
        is_of(Kind::Reference, msg_id),
        is_of(Kind::Bicfi, bic),
        is_of(Kind::Date, &date),
    ];
    if let Some(column) = fits.iter().position(|fits| !fits) {
        return Err(Why::Value(column, cells[column].clone()));
    }
    let cents = amount::cents(amount).map_err(|unclear| Why::Amount(amount.clone(), unclear))?;
    let key = book::key([service, msg_id, bic, &date]);
    Ok(Row { line, key: key.ok_or(Why::Value(1, msg_id.clone()))?, cents })
}

/// A date as a key has it: `30.10.2026` is `2026-10-30`. Any other stays as it is.
fn iso(date: &[u8]) -> Vec<u8> {
    match date {
        [day @ .., b'.', m, n, b'.', y, e, a, r] if day.len() == 2 => {
            [&[*y, *e, *a, *r, b'-', *m, *n, b'-'], day].concat()
        }
        _ => date.to_vec(),
    }
}

impl Fault {
    /// In words.
    pub fn words(&self, language: Language) -> String {
        let nothing = language.say("Nothing was compared.", "Nichts wurde verglichen.");
        match self {
            Fault::TooLong => language.say(
                format!("The report has more than 16,777,216 bytes. {nothing}"),
                format!("Der Bericht hat mehr als 16.777.216 Bytes. {nothing}"),
            ),
            Fault::Line(line, why) => {
                let word = language.say("Line", "Zeile");
                format!("{word} {line}: {} {nothing}", why.words(language))
            }
        }
    }
}

impl Why {
    /// In words.
    fn words(&self, language: Language) -> String {
        let told = |value: &[u8]| {
            let first = beginning(value, MOST_SHOWN);
            let cut = if first.len() < value.len() { "…" } else { "" };
            language.quoted(&format!("{}{cut}", shown(first)))
        };
        match self {
            Why::Quotes => language
                .say("Its quotation marks do not match.", "Die Anführungszeichen passen nicht.")
                .to_string(),
            Why::Columns(columns) => language.say(
                format!(
                    "It has {columns} columns. Expected: service;MsgId;BIC;settlement date;amount."
                ),
                format!(
                    "Sie hat {columns} Spalten. Erwartet: \
                     Verfahren;MsgId;BIC;Abrechnungsdatum;Betrag."
                ),
            ),
            Why::Value(column, value) => {
                let (english, german) = [
                    ("a service, CORE or B2B", "Verfahren, CORE oder B2B"),
                    ("a MsgId", "MsgId"),
                    ("a BIC", "BIC"),
                    (
                        "a date such as 2026-10-30 or 30.10.2026",
                        "Datum wie 2026-10-30 oder 30.10.2026",
                    ),
                ][*column];
                let value = told(value);
                language.say(
                    format!("{value} is not {english}."),
                    format!("{value} ist kein {german}."),
                )
            }
            Why::Amount(value, unclear) => format!("{} {}.", told(value), unclear.words(language)),
        }
    }
}

#[cfg(test)]
mod tests {
    use super::*;

    const DUE: [&[u8]; 4] = [b"CORE", b"MSG/1", b"BANKDEFF", b"2026-10-30"];

    /// The one bulk of a report.
    fn one(report: &str) -> Result<(usize, Key, u64), Fault> {
        let rows = rows(report.as_bytes())?;
        assert_eq!(rows.len(), 1, "{report}");
        Ok((rows[0].line, rows[0].key, rows[0].cents))
    }

    #[test]
    fn the_same_bulk_however_it_is_written() {
        let key = book::key(DUE).unwrap();
        for (report, line) in [
            ("CORE;MSG/1;BANKDEFF;2026-10-30;1234.56", 1),
            ("CORE,MSG/1,BANKDEFF,2026-10-30,1234.56\n", 1),
            ("CORE;MSG/1;BANKDEFF;30.10.2026;1.234,56\r\n", 1),
            ("\u{feff}Service;MsgId;BIC;Date;Amount\r\nCORE;MSG/1;BANKDEFF;2026-10-30;1234,56", 2),
            (
                "\n\nVerfahren,MsgId,BIC,Datum,Betrag\nCORE,MSG/1,BANKDEFF,2026-10-30,\"1.234,56\"",
                4,
            ),
            ("\"CORE\"; \"MSG/1\" ;BANKDEFF;\"2026-10-30\";\"1,234.56\"\n;;;;\n", 1),
            (" CORE ,MSG/1 ,\tBANKDEFF, 2026-10-30, 1234.56 ", 1),
        ] {
            assert_eq!(one(report), Ok((line, key, 123_456)), "{report}");
        }
        assert_eq!(rows(b""), Ok(Vec::new()));
        assert_eq!(rows(b"Service;MsgId;BIC;Date;Amount\n"), Ok(Vec::new()));
    }

    #[test]
    fn a_comma_in_a_msg_id() {
        let row = "B2B,\"A,1\",BANKDEFFXXX,2026-10-30,5.3";
        let due = book::key([b"B2B", b"A,1", b"BANKDEFFXXX", b"2026-10-30"]).unwrap();
        assert_eq!(one(row), Ok((1, due, 530)));
        assert_eq!(one(&row.replace(',', ";").replace("A;1", "A,1")), Ok((1, due, 530)));
    }

    #[test]
    fn what_is_not_read_exactly() {
        let value = |column, text: &str| Why::Value(column, text.as_bytes().to_vec());
        let amount = |text: &str, unclear| Why::Amount(text.as_bytes().to_vec(), unclear);
        for (row, why) in [
            ("CORE;MSG/1;BANKDEFF;2026-10-30", Why::Columns(4)),
            ("CORE;MSG/1;BANKDEFF;2026-10-30;1.00;EUR", Why::Columns(6)),
            ("CORE,MSG/1,BANKDEFF,2026-10-30,1,00", Why::Columns(6)),
            ("core;MSG/1;BANKDEFF;2026-10-30;1.00", value(0, "core")),
            ("Summe;;;;1.00", value(0, "Summe")),
            ("CORE;;BANKDEFF;2026-10-30;1.00", value(1, "")),
            ("CORE;MSG/1;BANK;2026-10-30;1.00", value(2, "BANK")),
            ("CORE;MSG/1;BANKDEFF;2026-02-29;1.00", value(3, "2026-02-29")),
            ("CORE;MSG/1;BANKDEFF;10/30/2026;1.00", value(3, "10/30/2026")),
            ("CORE;MSG/1;BANKDEFF;1.10.2026;1.00", value(3, "1.10.2026")),
            ("CORE;MSG/1;BANKDEFF;2026-10-30;1234", amount("1234", Unclear::NoDecimals)),
            ("CORE;MSG/1;BANKDEFF;2026-10-30;1.234", amount("1.234", Unclear::ThreeDigits)),
            ("CORE;\"MSG/1;BANKDEFF;2026-10-30;1.00", Why::Quotes),
            ("CORE;\"MSG\"/1;BANKDEFF;2026-10-30;1.00", Why::Quotes),
        ] {
            let report = format!("CORE;MSG/0;BANKDEFF;2026-10-30;1.00\n{row}\n").replace(
                "MSG/0;BANKDEFF;2026-10-30;1.00",
                if row.contains(';') {
                    "MSG/0;BANKDEFF;2026-10-30;1.00"
                } else {
                    "MSG/0,BANKDEFF,2026-10-30,1.00"
                },
            );
            let report =
                if row.contains(';') { report } else { report.replace("CORE;MSG/0", "CORE,MSG/0") };
            assert_eq!(rows(report.as_bytes()), Err(Fault::Line(2, why)), "{row}");
        }
    }
}
