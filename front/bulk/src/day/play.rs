//! `day play`: the day from nothing, and held against the clearer's report, if there is one.

use super::against::{differences, Difference};
use super::clearer::{self, Row};
use super::fault::Fault;
use super::list::open_told;
use super::played::Played;
use super::record::{is_entry, RECORD};
use super::store::Store;
use super::told;
use crate::book::{key_json, key_told};
use crate::call::{Call, Form};
use crate::json::Object;
use crate::language::Language;
use crate::play::records;
use crate::trouble::Trouble;
use crate::{euro, read, Status};
use face::book::Entry;
use std::ffi::OsStr;
use std::os::unix::ffi::OsStrExt;

/// A day that was played back, and the report that it is held against.
struct Run<'a> {
    store: &'a Store,
    played: &'a Played,
    report: Option<&'a OsStr>,
    rows: &'a [Row],
    differences: Vec<Difference<'a>>,
}

/// Plays the day back.
pub fn play(call: &Call, report: Option<&OsStr>) -> Result<Status, Trouble> {
    // A report that cannot be read keeps nobody waiting for the day.
    let rows = report.map_or(Ok(Vec::new()), rows)?;
    let (store, played) = super::read(call)?;
    let differences = match report {
        Some(_) => differences(played.open(), &rows),
        None => Vec::new(),
    };
    let run = Run { store: &store, played: &played, report, rows: &rows, differences };
    let text = match call.form {
        Form::Plain => run.plain(),
        Form::Json => format!("{}\n", run.json()),
        _ => run.words(call.language),
    };
    let status = if run.differences.is_empty() { Status::Accepted } else { Status::Refused };
    told::put(store, &text).map(|()| status)
}

/// The bulks of the report.
fn rows(report: &OsStr) -> Result<Vec<Row>, Trouble> {
    let fault = |fault| Fault::Report(report.to_owned(), fault).into();
    clearer::rows(&read::bytes(report)?).map_err(fault)
}

impl Run<'_> {
    /// How many entries and withdrawals the recording has.
    fn calls(&self) -> (u64, u64) {
        let entries = self.store.recording.chunks(RECORD).filter(|record| is_entry(record));
        let entries = entries.count() as u64;
        (entries, self.store.records() - entries)
    }

    /// How many bulks agree.
    fn agreeing(&self) -> usize {
        let is_here = |difference: &&Difference| !matches!(difference, Difference::OnlyThere(_));
        self.played.open().len() - self.differences.iter().filter(is_here).count()
    }

    /// For scripts: one line, or one for each difference.
    fn plain(&self) -> String {
        let (open, total) = (self.played.open().len(), self.played.total());
        match (self.report, &self.differences[..]) {
            (None, _) => format!("played {} {open} {total}\n", self.store.records()),
            (Some(_), []) => format!("same {open} {total}\n"),
            (Some(_), differences) => differences.iter().map(plain).collect(),
        }
    }

    /// In words.
    fn words(&self, language: Language) -> String {
        let (entries, withdrawals) = self.calls();
        let records = records(self.store.records(), language);
        let open = open_told(self.played, language);
        let mut text = language.say(
            format!("{records} played back, {entries} entered, {withdrawals} withdrawn; {open}\n"),
            format!(
                "{records} nachgespielt, {entries} eingetragen, {withdrawals} zurückgezogen; {open}\n"
            ),
        );
        if self.report.is_some() {
            self.differences.iter().for_each(|one| text.push_str(&words(one, language)));
            text.push_str(&self.closing(language));
        }
        text
    }

    /// How many agree, and how many do not.
    fn closing(&self, language: Language) -> String {
        let count = |is: fn(&&Difference) -> bool| self.differences.iter().filter(is).count();
        let here = count(|one| matches!(one, Difference::OnlyHere(_)));
        let there = count(|one| matches!(one, Difference::OnlyThere(_)));
        let amounts = count(|one| matches!(one, Difference::Amount(..)));
        let (agree, lines) = (self.agreeing(), self.rows.len());
        match self.differences.is_empty() {
            true => language.say(
                format!("The report agrees: {lines} of {lines} bulks.\n"),
                format!("Der Bericht stimmt überein: {lines} von {lines} Bulks.\n"),
            ),
            false => language.say(
                format!(
                    "The report does not agree: {agree} the same, {here} only here, {there} only \
                     there, {amounts} with another amount.\n"
                ),
                format!(
                    "Der Bericht weicht ab: {agree} gleich, {here} nur hier, {there} nur dort, \
                     {amounts} mit anderem Betrag.\n"
                ),
            ),
        }
    }

    /// One object.
    fn json(&self) -> String {
        let verdict = match (self.report, self.differences.is_empty()) {
            (None, _) => "played",
            (Some(_), true) => "same",
            (Some(_), false) => "different",
        };
        let (entries, withdrawals) = self.calls();
        let of = |kind: fn(&Difference) -> Option<Object>| {
            self.differences.iter().filter_map(kind).map(Object::end)
        };
        let object = Object::default()
            .text("call", b"play")
            .text("verdict", verdict.as_bytes())
            .number("records", self.store.records())
            .number("entered", entries)
            .number("withdrawn", withdrawals)
            .number("open", self.played.open().len() as u64)
            .text("open_euros", euro::euros(self.played.total()).as_bytes())
            .text_or_null("report", self.report.map_or(b"", OsStr::as_bytes))
            .list("only_here", of(here_json))
            .list("only_there", of(there_json))
            .list("differs", of(amount_json));
        told::of_day(object, self.store).end()
    }
}

/// A difference for scripts.
fn plain(difference: &Difference) -> String {
    match difference {
        Difference::OnlyHere(entry) => format!("here {} {}\n", key_told(&entry.key), entry.cents),
        Difference::OnlyThere(row) => format!("there {} {}\n", key_told(&row.key), row.cents),
        Difference::Amount(entry, row) => {
            format!("differs {} {} {}\n", key_told(&entry.key), entry.cents, row.cents)
        }
    }
}

/// A difference in words.
fn words(difference: &Difference, language: Language) -> String {
    let (line, money) = (language.say("line", "Zeile"), |cents| language.money(cents));
    match difference {
        Difference::OnlyHere(Entry { key, cents, .. }) => {
            let only = language.say("only here", "nur hier");
            format!("  {only}: {}, {}\n", key_told(key), money(*cents))
        }
        Difference::OnlyThere(row) => {
            let only = language.say("only there", "nur dort");
            format!(
                "  {only} ({line} {}): {}, {}\n",
                row.line,
                key_told(&row.key),
                money(row.cents)
            )
        }
        Difference::Amount(entry, row) => {
            let apart = language.euros(row.cents.abs_diff(entry.cents).into());
            let (differs, here, there) =
                language.say(("differs", "here", "there"), ("anderer Betrag", "hier", "dort"));
            let more = match row.cents > entry.cents {
                true => language.say("more there", "dort mehr"),
                false => language.say("less there", "dort weniger"),
            };
            let (key, at) = (key_told(&entry.key), row.line);
            let (own, other) = (money(entry.cents), money(row.cents));
            format!(
                "  {differs} ({line} {at}): {key}, {here} {own}, {there} {other}, {apart} {more}\n"
            )
        }
    }
}

/// A bulk that is only here, as an object.
fn here_json(difference: &Difference) -> Option<Object> {
    match difference {
        Difference::OnlyHere(entry) => Some(bulk_json(entry.key, entry.cents)),
        _ => None,
    }
}

/// A bulk that is only there, as an object.
fn there_json(difference: &Difference) -> Option<Object> {
    match difference {
        Difference::OnlyThere(row) => {
            Some(bulk_json(row.key, row.cents).number("line", row.line as u64))
        }
        _ => None,
    }
}

/// A bulk whose amounts differ, as an object.
fn amount_json(difference: &Difference) -> Option<Object> {
    match difference {
        Difference::Amount(entry, row) => {
            let object = bulk_json(entry.key, entry.cents).number("line", row.line as u64);
            Some(object.text("there_euros", euro::euros(row.cents).as_bytes()))
        }
        _ => None,
    }
}

/// A bulk as an object, with its amount as text: the clearer's may be too large for a float.
fn bulk_json(key: face::book::Key, cents: u64) -> Object {
    let named = face::book::parts(&key).map(<[u8]>::to_vec);
    key_json(Object::default(), &named).text("euros", euro::euros(cents).as_bytes())
}
