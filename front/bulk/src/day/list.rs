//! `day list`: the open bulks in order of entry, each with the time of its entry.

use super::columns;
use super::played::Played;
use super::store::Store;
use super::told;
use crate::book::{key_told, Answer, Made};
use crate::call::{Call, Form};
use crate::language::Language;
use crate::script::{Ask, Line};
use crate::show::shown;
use crate::trouble::Trouble;
use crate::{csv, euro, Status};
use face::book::{self, Entry};

/// Lists the open bulks.
pub fn list(call: &Call) -> Result<Status, Trouble> {
    let (store, played) = super::read(call)?;
    let text = match call.form {
        Form::Plain => plain(&store, &played),
        Form::Csv => table(&store, &played, call.language),
        Form::Json => {
            let line = Line { number: 0, ask: Ask::List };
            let (open, cents) = (played.open(), played.total());
            let made = Made { line: &line, answer: Answer::List, judged: None, open, cents };
            told::call(call, &store, &made, b"")
        }
        Form::Words => words(&store, &played, call.language),
    };
    told::put(store, &text).map(|()| Status::Accepted)
}

/// The time of a bulk's entry.
fn time(store: &Store, entry: &Entry) -> String {
    shown(store.entry(&entry.key).map_or(&b""[..], |(time, _)| time))
}

/// For scripts: place, key, cents and time of entry of each.
fn plain(store: &Store, played: &Played) -> String {
    let line = |(at, entry): (usize, &Entry)| {
        let (key, cents, time) = (key_told(&entry.key), entry.cents, time(store, entry));
        format!("{at} {key} {cents} {time}\n")
    };
    played.open().iter().enumerate().map(line).collect()
}

/// The heading of a table.
fn heading(language: Language) -> [&'static str; 7] {
    language.say(
        ["Entered", "Service", "MsgId", "BIC", "Settlement", "Cents", "EUR"],
        ["Eingetragen", "Verfahren", "MsgId", "BIC", "Abrechnung", "Cent", "EUR"],
    )
}

/// A table, and how many are open.
fn words(store: &Store, played: &Played, language: Language) -> String {
    let mut rows = vec![heading(language).map(str::to_string).to_vec()];
    for entry in played.open() {
        let [service, msg_id, bic, date] = book::parts(&entry.key).map(shown);
        let euros = language.euros(entry.cents.into());
        let euros = euros.trim_end_matches(" EUR").to_string();
        let cents = entry.cents.to_string();
        rows.push(vec![time(store, entry), service, msg_id, bic, date, cents, euros]);
    }
    let table = if rows.len() > 1 { columns::lines(&rows, 5) } else { String::new() };
    format!("{table}{}\n", open_told(played, language))
}

/// `open: 2 bulks, 2,037.24 EUR (203724 cents)`.
pub fn open_told(played: &Played, language: Language) -> String {
    let line = Line { number: 0, ask: Ask::Total };
    let (open, cents) = (played.open(), played.total());
    let made = Made { line: &line, answer: Answer::Total, judged: None, open, cents };
    made.words(language).trim_end().to_string()
}

/// For a spreadsheet.
fn table(store: &Store, played: &Played, language: Language) -> String {
    let mut text = heading(language).map(csv::quoted).join(";") + "\n";
    for entry in played.open() {
        let [service, msg_id, bic, date] = book::parts(&entry.key).map(shown);
        let cells = [
            time(store, entry),
            csv::guarded(&service),
            csv::guarded(&msg_id),
            csv::guarded(&bic),
            date,
            entry.cents.to_string(),
            euro::euros(entry.cents).replace('.', language.say(".", ",")),
        ];
        text.push_str(&(cells.join(";") + "\n"));
    }
    text
}
