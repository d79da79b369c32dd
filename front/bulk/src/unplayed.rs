//! Why a day was not played to its end: what a refusal is about, beside its number and its record.

use crate::book::{named_told, own_key};
use crate::language::Language;
use crate::pages;
use crate::play::{Message, Recorded};
use crate::recording::{self, Fault, Field};
use crate::script::Named;
use crate::show::{name, shown};
use crate::verdict::Judged;
use std::ops::Range;

/// The most files that are named as left over.
const MOST_NAMED: usize = 3;

/// The key's bytes in a record.
const KEY: Range<usize> = 26..63;

/// What a refusal is about.
pub enum Reason<'a> {
    /// 26: the record, and what is wrong with it.
    Fault(&'a [u8], Fault<'a>),
    /// 27: the record, and the one before it.
    Falls(&'a [u8], &'a [u8]),
    /// 28: none of so many messages is left for the record.
    NoMessage(usize),
    /// 28: the record, its message, and the first field in which they differ.
    Key(&'a [u8], Judged<'a>, Field),
    /// 28: these messages are left over.
    LeftOver(&'a [Message<'a>]),
    /// The judge's own, of the record's message.
    Judge(Judged<'a>),
    /// 20, 21 or 22: the record, and which one entered or withdrew its key before it.
    Book(&'a [u8], Option<usize>),
    /// There is no refusal.
    None,
}

impl<'a> Reason<'a> {
    /// What this refusal of a day is about.
    pub fn of(day: &Recorded<'a>, number: u64, at: usize) -> Reason<'a> {
        let Some(record) = day.record(at) else {
            let entered = day.entered(at).min(day.messages.len());
            let left = &day.messages[entered..];
            return if number == 28 { Reason::LeftOver(left) } else { Reason::None };
        };
        let before = at.checked_sub(1).and_then(|before| day.record(before));
        let judged = || day.message(at).map(|message| Judged::of(message.name, &message.bytes));
        let reason = match number {
            26 => recording::fault(record).map(|fault| Reason::Fault(record, fault)),
            27 => before.map(|before| Reason::Falls(record, before)),
            28 => match judged() {
                None => Some(Reason::NoMessage(day.messages.len())),
                Some(judged) => {
                    let field = other_field(&own_key(&judged), &recording::named(record));
                    field.map(|field| Reason::Key(record, judged, field))
                }
            },
            20..=22 => Some(Reason::Book(record, last_of_key(day, record, at, number == 20))),
            _ => judged().map(Reason::Judge),
        };
        reason.unwrap_or(Reason::None)
    }

    /// The refusal in words, with the record below it; of the judge's own its words too.
    pub fn told(&self, day: &Recorded, number: u64, at: usize, language: Language) -> String {
        let line = at + 1;
        let refused = match day.record(at) {
            Some(_) => language.say(
                format!("refused {number} at record {at} (line {line})"),
                format!("abgelehnt (Nr. {number}) bei Satz {at} (Zeile {line})"),
            ),
            None => language.say(
                format!("refused {number} behind the last record ({at})"),
                format!("abgelehnt (Nr. {number}) nach dem letzten Satz ({at})"),
            ),
        };
        let why = self.why(language);
        let shown =
            day.record(at).map_or(String::new(), |record| recording::excerpt(record, self.range()));
        match self {
            Reason::Judge(judged) => {
                format!("{refused}, {why}:\n{shown}{}", judged.words(language))
            }
            _ => format!("{refused}, {why}: {}\n{shown}", pages::sentence(number, language)),
        }
    }

    /// Why it was refused, as a part of a sentence.
    pub fn why(&self, language: Language) -> String {
        match self {
            Reason::Fault(record, fault) => fault.words(record, language),
            Reason::Falls(record, before) => falls(record, before, language),
            Reason::NoMessage(given) => language.say(
                format!("no message is left for it, {given} given"),
                format!("für ihn ist keine Nachricht mehr übrig, angegeben: {given}"),
            ),
            Reason::Key(record, judged, field) => differs(record, judged, *field, language),
            Reason::LeftOver(messages) => left_over(messages, language),
            Reason::Judge(_) => {
                language.say("its message is refused", "seine Nachricht wird abgelehnt").to_string()
            }
            Reason::Book(record, before) => of_key(record, *before, language),
            Reason::None => String::new(),
        }
    }

    /// The field that it is about, as JSON calls it, and what stands there; of another key what the
    /// message has there.
    pub fn found(&self) -> (&'static str, &'a [u8]) {
        match self {
            Reason::Fault(_, Fault::Length(_)) => ("length", b""),
            Reason::Fault(record, Fault::Field(field, _)) => (field.key(), field.of(record)),
            Reason::Falls(record, _) => (Field::Time.key(), Field::Time.of(record)),
            Reason::Key(_, judged, field) => (field.key(), own_value(judged, *field)),
            _ => ("", b""),
        }
    }

    /// The bytes of the record that it is about.
    fn range(&self) -> Range<usize> {
        match self {
            Reason::Fault(_, fault) => fault.range(),
            Reason::Falls(..) => Field::Time.range(),
            Reason::Key(_, _, field) => field.range(),
            Reason::Book(..) | Reason::Judge(_) => KEY,
            _ => Field::Call.range(),
        }
    }
}

/// The last record before this one that enters its key, or withdraws it.
fn last_of_key(day: &Recorded, record: &[u8], at: usize, is_entry: bool) -> Option<usize> {
    let is = |(_, other): &(usize, &[u8])| {
        recording::is_entry(other) == is_entry && other[KEY] == record[KEY]
    };
    recording::records(day.recording).enumerate().take(at).filter(is).last().map(|one| one.0)
}

/// The first field of a record in which its key is another than this one.
fn other_field(own: &Named, named: &Named) -> Option<Field> {
    let parts = [(Field::Service, 0), (Field::Bic, 2), (Field::Date, 3), (Field::MsgId, 1)];
    parts.into_iter().find(|&(_, part)| own[part] != named[part]).map(|(field, _)| field)
}

/// What a message has in place of a field of its record.
fn own_value<'a>(judged: &Judged<'a>, field: Field) -> &'a [u8] {
    let header = &judged.contents.header;
    match field {
        Field::Service => judged.contents.instrument(),
        Field::Bic => header.bic,
        Field::Date => header.settlement_date,
        _ => header.msg_id,
    }
}

/// How a message's key is another than its record's; one that fits into no record is told so.
fn differs(record: &[u8], judged: &Judged, field: Field, language: Language) -> String {
    let (file, value, name) = (name(judged.name), own_value(judged, field), field.name(language));
    let (room, length) = (field.range().len(), value.len());
    let long = match length > room {
        false => String::new(),
        true => language.say(
            format!(" ({length} characters, a record has room for {room})"),
            format!(" ({length} Zeichen, ein Satz fasst {room})"),
        ),
    };
    let [value, due] = [value, field.of(record)].map(|value| language.quoted(&shown(value)));
    language.say(
        format!("{file} has {name} {value}{long} and not {due}"),
        format!("{file} hat {name} {value}{long} statt {due}"),
    )
}

/// How far the time of a record is before that of the one before it.
fn falls(record: &[u8], before: &[u8], language: Language) -> String {
    let [time, before] = [record, before].map(|record| Field::Time.of(record));
    let instant = |time| recording::instant(time).unwrap_or(0);
    let by = instant(before) - instant(time);
    let by = format!("{}:{:02}:{:02}", by / 3600, by / 60 % 60, by % 60);
    let (time, before) = (shown(time), shown(before));
    language.say(
        format!("its time, {time}, is {by} hours before {before} of the record before it"),
        format!("seine Zeit, {time}, liegt {by} Stunden vor {before} des vorigen Satzes"),
    )
}

/// The messages that are left over.
fn left_over(messages: &[Message], language: Language) -> String {
    let named = messages.iter().take(MOST_NAMED).map(|message| name(message.name));
    let more = (messages.len() > MOST_NAMED).then(|| "…".to_string());
    let names = named.chain(more).collect::<Vec<_>>().join(", ");
    match messages.len() {
        1 => language.say(
            format!("1 message is left over ({names})"),
            format!("1 Nachricht ist übrig ({names})"),
        ),
        count => language.say(
            format!("{count} messages are left over ({names})"),
            format!("{count} Nachrichten sind übrig ({names})"),
        ),
    }
}

/// The key of a record that the book refuses, and where it was entered, or withdrawn, before.
fn of_key(record: &[u8], before: Option<usize>, language: Language) -> String {
    let key = named_told(&recording::named(record));
    let key = language.say(format!("key {key}"), format!("Schlüssel {key}"));
    let Some(at) = before else { return key };
    let done = match recording::is_entry(record) {
        true => language.say("entered", "eingetragen"),
        false => language.say("withdrawn", "zurückgezogen"),
    };
    language.say(
        format!("{key}, {done} at record {at} (line {})", at + 1),
        format!("{key}, {done} bei Satz {at} (Zeile {})", at + 1),
    )
}
