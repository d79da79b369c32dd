//! `play`: a day is rerun from its recording, on a day book that is empty at first.

use crate::book::{bulks, entry_json, key_json};
use crate::call::{Call, Command, Form};
use crate::json::Object;
use crate::language::Language;
use crate::trouble::Trouble;
use crate::unplayed::Reason;
use crate::{euro, out, pages, read, recording, show, Status};
use face::book::{self, Entry, Numbers};
use face::play::{self, Day, Played, Table, RECORD};
use std::ffi::OsStr;
use std::os::unix::ffi::OsStrExt;

/// How it is to be called, in English and in German.
pub const USAGE: (&str, &str) = (
    "Usage: bulk play RECORDING MESSAGE.. A file for each record that enters a bulk, in their order, and \
     - at most once.",
    "Aufruf: bulk play AUFZEICHNUNG NACHRICHT.. Je Satz, der einen Bulk einträgt, eine Datei, in dieser \
     Reihenfolge, und - höchstens einmal.",
);

/// The rows and the columns of the table.
const SERVICES: [&str; 2] = ["CORE", "B2B"];
const SEQUENCES: [&str; 4] = ["FRST", "RCUR", "FNAL", "OOFF"];

/// What a day is rerun from.
pub struct Recorded<'a> {
    pub recording: &'a [u8],
    /// The messages, in their order.
    pub messages: &'a [Message<'a>],
}

/// A file with a message.
pub struct Message<'a> {
    pub name: &'a OsStr,
    pub bytes: Vec<u8>,
}

/// A day that was played, and the book behind it.
struct Run<'a> {
    name: &'a OsStr,
    day: &'a Recorded<'a>,
    words: Played,
    open: &'a [Entry],
    /// The open total.
    cents: u64,
}

/// Plays a recording with the messages of these files, in this order, and tells what it came to.
pub fn play(call: &Call, name: &OsStr, names: &[&OsStr]) -> Result<Status, Trouble> {
    let is_input = |name: &&&OsStr| **name == read::INPUT;
    if [name].iter().chain(names).filter(is_input).count() > 1 {
        return Err(Trouble::Misused(Command::Play));
    }
    let recording = read::bytes(name)?;
    if recording.len() as u64 > read::MOST {
        return Err(Trouble::LongRecording(name.to_owned()));
    }
    let mut messages = Vec::new();
    for &name in names {
        messages.push(Message { name, bytes: read::bytes(name)? });
    }
    let day = Recorded { recording: &recording, messages: &messages };
    let (mut entries, mut numbers) = (book::empty(), Numbers::default());
    let words = day.played(&mut entries, &mut numbers);
    let open = &entries[..numbers.open as usize];
    Run { name, day: &day, words, open, cents: numbers.total }.told(call)
}

impl<'a> Recorded<'a> {
    /// The library's answer, with the messages one after another in one buffer.
    fn played(&self, entries: &mut [Entry], numbers: &mut Numbers) -> Played {
        let (mut buffer, mut ends) = (Vec::new(), Vec::new());
        for message in self.messages {
            buffer.extend_from_slice(&message.bytes);
            ends.push(buffer.len() as u64);
        }
        let day = Day { recording: self.recording, buffer: &buffer, ends: &ends };
        play::play(day, entries, numbers)
    }

    /// The record of this number; none behind the last one.
    pub fn record(&self, number: usize) -> Option<&'a [u8]> {
        recording::records(self.recording).nth(number)
    }

    /// So many messages are entered by the records before this one.
    pub fn entered(&self, number: usize) -> usize {
        let before = recording::records(self.recording).take(number);
        before.filter(|record| recording::is_entry(record)).count()
    }

    /// The message that the record of this number enters, if there is one left.
    pub fn message(&self, number: usize) -> Option<&'a Message<'a>> {
        self.messages.get(self.entered(number))
    }
}

impl<'a> Run<'a> {
    /// Prints it. The stored total must be what the open bulks come to, and so must the table.
    fn told(&self, call: &Call) -> Result<Status, Trouble> {
        let sum = |all: &[u64]| all.iter().try_fold(0_u64, |sum, cents| sum.checked_add(*cents));
        let open: Vec<u64> = self.open.iter().map(|entry| entry.cents).collect();
        let is_table = self.refusal().is_some() || sum(&self.words[2..]) == Some(self.cents);
        if sum(&open) != Some(self.cents) || !is_table {
            return Err(Trouble::Disagreement);
        }
        out::put(&match call.form {
            Form::Plain => self.plain(),
            Form::Json => format!("{}\n", self.json(call.language)),
            _ => self.in_words(call.language),
        })?;
        Ok(if self.refusal().is_some() { Status::Refused } else { Status::Accepted })
    }

    /// The number of a refusal, and the record's number from 0.
    fn refusal(&self) -> Option<(u64, usize)> {
        (self.words[0] != 0).then_some((self.words[0], self.words[1] as usize))
    }

    /// For scripts: one line.
    fn plain(&self) -> String {
        let verdict = match self.refusal() {
            None => "accepted".to_string(),
            Some((number, record)) => format!("refused {number} {record}"),
        };
        let table = self.words[2..].iter().map(u64::to_string).collect::<Vec<_>>().join(" ");
        format!("{verdict} open {} {} table {table}\n", self.open.len(), self.cents)
    }

    /// In words: the table, or why it was refused.
    fn in_words(&self, language: Language) -> String {
        let name = show::name(self.name);
        let (count, money) = (bulks(self.open.len(), language), language.money(self.cents));
        let open = language.say("open", "offen");
        let Some((number, at)) = self.refusal() else {
            let played = language.say("played", "nachgespielt");
            let records = records(self.words[1], language);
            let table = table(play::table(&self.words), language);
            return format!("{name}: {played}, {records}; {open}: {count}, {money}\n{table}");
        };
        let told = Reason::of(self.day, number, at).told(self.day, number, at, language);
        let open = match self.day.record(at) {
            Some(_) => language.say("open before it", "davor offen"),
            None => open,
        };
        format!("{name}: {told}  {open}: {count}, {money}\n")
    }

    /// One object, with every key whatever the verdict.
    fn json(&self, language: Language) -> String {
        let is_refused = self.refusal().is_some();
        let verdict = if is_refused { "refused" } else { "accepted" };
        let object = Object::default()
            .text("recording", self.name.as_bytes())
            .text("verdict", verdict.as_bytes())
            .number("records", self.day.recording.len().div_ceil(RECORD) as u64);
        let object = self
            .refusal_json(object, language)
            .number("open", self.open.len() as u64)
            .text("open_euros", euro::euros(self.cents).as_bytes());
        let sums = sums(play::table(&self.words)).filter(|_| !is_refused).map(sum_json);
        let bulks = self.open.iter().enumerate().map(|(at, entry)| entry_json(at, entry).end());
        object.list("sums", sums).list("bulks", bulks).end()
    }

    /// The keys of a refusal.
    fn refusal_json(&self, object: Object, language: Language) -> Object {
        let (number, at) = self.refusal().unwrap_or((0, usize::MAX));
        let reason = Reason::of(self.day, number, at);
        let refused = (number != 0).then_some(number);
        let (field, found) = reason.found();
        // A record with a fault says nothing else for certain.
        let record = self.day.record(at).filter(|_| number != 26);
        let file = record.filter(|record| recording::is_entry(record));
        let file = file.and_then(|_| self.day.message(at));
        let object = object
            .number_or_null("number", refused)
            .number_or_null("record", refused.map(|_| at as u64))
            .number_or_null("line", self.day.record(at).map(|_| at as u64 + 1))
            .text_or_null("field", field.as_bytes())
            .text_or_null("found", found)
            .text_or_null("why", reason.why(language).as_bytes())
            .text_or_null("meaning", pages::sentence(number, language).as_bytes())
            .text_or_null("file", file.map_or(b"", |message| message.name.as_bytes()));
        let object = key_json(object, &record.map(recording::named).unwrap_or_default());
        match reason {
            Reason::Judge(judged) => object.raw("judged", &judged.json(language).end()),
            _ => object.raw("judged", "null"),
        }
    }
}

/// Each sum of a table: service, sequence type, cents.
pub fn sums(table: Table) -> impl Iterator<Item = (&'static str, &'static str, u64)> {
    let rows = SERVICES.into_iter().zip(table);
    rows.flat_map(|(service, row)| {
        SEQUENCES.into_iter().zip(row).map(move |(sequence, cents)| (service, sequence, cents))
    })
}

/// One of them as an object.
pub fn sum_json((service, sequence, cents): (&str, &str, u64)) -> String {
    let object = Object::default().text("service", service.as_bytes());
    let object = object.text("sequence", sequence.as_bytes());
    object.text("euros", euro::euros(cents).as_bytes()).end()
}

/// `1 record`, `2 records`.
pub fn records(count: u64, language: Language) -> String {
    let word = if count == 1 { ("record", "Satz") } else { ("records", "Sätze") };
    format!("{} {}", language.number(count.into()), language.say(word.0, word.1))
}

/// The open cents by service and sequence type, with their sums, in euros.
pub fn table(table: Table, language: Language) -> String {
    let euros = |cents: u64| {
        let euros = language.euros(cents.into());
        euros.trim_end_matches(" EUR").to_string()
    };
    let total = language.say("Total", "Summe");
    let row = |name: &str, sums: [u64; 4]| {
        let all = sums.into_iter().chain([sums.iter().sum()]).map(euros);
        [name.to_string()].into_iter().chain(all).collect::<Vec<String>>()
    };
    let [frst, rcur, fnal, ooff] = SEQUENCES;
    let heading = ["EUR", frst, rcur, fnal, ooff, total].map(str::to_string);
    let both = std::array::from_fn(|column| table[0][column] + table[1][column]);
    let rows = [
        heading.to_vec(),
        row(SERVICES[0], table[0]),
        row(SERVICES[1], table[1]),
        row(total, both),
    ];
    let width = |column: usize| rows.iter().map(|row| row[column].len()).max().unwrap_or(0);
    let cell = |(column, text): (usize, &String)| match (column, width(column)) {
        (0, width) => format!("{text:width$}"),
        (_, width) => format!("{text:>width$}"),
    };
    let line = |row: &Vec<String>| row.iter().enumerate().map(cell).collect::<Vec<_>>().join("  ");
    rows.iter().map(|row| format!("{}\n", line(row))).collect()
}
