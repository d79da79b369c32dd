//! A day book, the calls on it, and what is told of each in every form.

use crate::json::Object;
use crate::language::Language;
use crate::show::{self, shown};
use crate::verdict::{Judged, Verdict};
use crate::{euro, pages, Disagreement, Status};
use face::book::{self, Entry, Key, Numbers, KEY};
use std::ffi::OsString;

/// Service, MsgId, instructing BIC and settlement date, as a line names them.
pub type Named = [Vec<u8>; 4];

/// What a line asks for.
#[derive(Debug, PartialEq, Eq)]
pub enum Ask {
    Enter(OsString),
    Withdraw(Named),
    Find(Named),
    Total,
    List,
}

/// A line that is a call.
#[derive(Debug, PartialEq, Eq)]
pub struct Line {
    /// From 1.
    pub number: usize,
    pub ask: Ask,
}

/// The open bulks: the entries, and beside them the number open and the open total.
pub struct Book {
    pub entries: Vec<Entry>,
    pub numbers: Numbers,
}

/// What a call answered.
#[derive(Debug, PartialEq, Eq)]
pub enum Answer {
    Entered { cents: u64 },
    Withdrawn { cents: u64 },
    Refused { number: u64, place: u64 },
    At { place: usize, cents: u64 },
    None,
    Total,
    List,
}

/// A call that was made, and the book behind it.
pub struct Made<'a> {
    /// Of a script; a call on a day has no number.
    pub line: &'a Line,
    pub answer: Answer,
    /// Of an entry: the message as `judge` has it.
    pub judged: Option<Judged<'a>>,
    pub open: &'a [Entry],
    /// The open total.
    pub cents: u64,
}

/// The key that a line names. Where a part is longer than any bulk's, it is one that no bulk has.
pub fn key(named: &Named) -> Key {
    book::key([&named[0], &named[1], &named[2], &named[3]]).unwrap_or([0; KEY])
}

/// The key of a message that was read.
pub fn own_key(judged: &Judged) -> [Vec<u8>; 4] {
    let header = &judged.contents.header;
    [judged.contents.instrument(), header.msg_id, header.bic, header.settlement_date]
        .map(<[u8]>::to_vec)
}

impl Default for Book {
    /// The empty book.
    fn default() -> Book {
        Book { entries: book::empty(), numbers: Numbers::default() }
    }
}

impl Book {
    /// Makes one call.
    pub fn make<'a>(
        &'a mut self,
        line: &'a Line,
        message: &'a [u8],
    ) -> Result<Made<'a>, Disagreement> {
        let (answer, judged) = match &line.ask {
            Ask::Enter(file) => {
                let judged = Judged::of(file, message);
                (self.enter(&judged)?, Some(judged))
            }
            Ask::Withdraw(named) => (self.withdraw(&key(named)), None),
            Ask::Find(named) => (self.find(&key(named)), None),
            Ask::Total => (Answer::Total, None),
            Ask::List => (Answer::List, None),
        };
        match book::total(&self.numbers) {
            [0, _, cents] if self.sum() == Some(cents) => {
                Ok(Made { line, answer, judged, open: self.open(), cents })
            }
            _ => Err(Disagreement),
        }
    }

    /// The open entries.
    pub fn open(&self) -> &[Entry] {
        &self.entries[..self.numbers.open as usize]
    }

    /// What the open entries come to: what is told is the stored total, and it must be this.
    fn sum(&self) -> Option<u64> {
        self.open().iter().try_fold(0_u64, |sum, entry| sum.checked_add(entry.cents))
    }

    /// Enters a message. What the book keeps of it must be what the command read of it.
    fn enter(&mut self, judged: &Judged) -> Result<Answer, Disagreement> {
        match book::enter(&mut self.entries, &mut self.numbers, judged.message) {
            [0, _, cents] => {
                let last = self.open().last();
                let is_own = last.map(|entry| entry.key) == Some(key(&own_key(judged)));
                match judged.verdict {
                    Verdict::Accepted { cents: own, .. } if own == cents && is_own => {
                        Ok(Answer::Entered { cents })
                    }
                    _ => Err(Disagreement),
                }
            }
            [number, place, _] => Ok(Answer::Refused { number, place }),
        }
    }

    /// Withdraws a key.
    fn withdraw(&mut self, key: &Key) -> Answer {
        match book::withdraw(&mut self.entries, &mut self.numbers, key) {
            [0, _, cents] => Answer::Withdrawn { cents },
            [number, place, _] => Answer::Refused { number, place },
        }
    }

    /// Looks for a key.
    fn find(&self, key: &Key) -> Answer {
        match book::find(&self.entries, &self.numbers, key) {
            [0, 0, _] => Answer::None,
            [0, _, place] => {
                let place = place as usize;
                Answer::At { place, cents: self.entries[place].cents }
            }
            [number, place, _] => Answer::Refused { number, place },
        }
    }
}

impl Made<'_> {
    /// The exit status of the call.
    pub fn status(&self) -> Status {
        match self.answer {
            Answer::Refused { .. } => Status::Refused,
            _ => Status::Accepted,
        }
    }

    /// For scripts: one line, of a list one for each open bulk.
    pub fn plain(&self) -> String {
        let (open, total) = (self.open.len(), self.cents);
        match self.answer {
            Answer::Entered { .. } => format!("entered {open} {total}\n"),
            Answer::Withdrawn { .. } => format!("withdrawn {open} {total}\n"),
            Answer::Refused { number, place } => format!("refused {number} {place}\n"),
            Answer::At { place, .. } => format!("at {place}\n"),
            Answer::None => "none\n".to_string(),
            Answer::Total => format!("total {total}\n"),
            Answer::List => {
                let line = |(at, entry): (usize, &Entry)| {
                    format!("{at} {} {}\n", key_told(&entry.key), entry.cents)
                };
                self.open.iter().enumerate().map(line).collect()
            }
        }
    }

    /// In words: one line, of an entry with the judge's warnings below it, of a list a table.
    pub fn words(&self, language: Language) -> String {
        let subject = self.subject();
        let money = |cents| language.money(cents);
        match self.answer {
            Answer::Entered { .. } => self.entered(language),
            Answer::Withdrawn { cents } => {
                let withdrawn = language.say("withdrawn", "zurückgezogen");
                let open = self.open_told(language.euros(self.cents.into()), language);
                format!("{subject}: {withdrawn}, {}; {open}\n", money(cents))
            }
            Answer::Refused { number, .. } => self.refused(number, language),
            Answer::At { place, cents } => {
                let at = language.say("open at place", "offen auf Platz");
                format!("{subject}: {at} {place}, {}\n", money(cents))
            }
            Answer::None => format!("{subject}: {}\n", language.say("not open", "nicht offen")),
            Answer::Total => format!("{}\n", self.open_told(money(self.cents), language)),
            Answer::List => {
                let open = self.open_told(money(self.cents), language);
                format!("{}{open}\n", table(self.open, language))
            }
        }
    }

    /// Which bulk it is about: a file, or the key that the line names.
    fn subject(&self) -> String {
        match &self.line.ask {
            Ask::Enter(file) => show::name(file),
            Ask::Withdraw(named) | Ask::Find(named) => named_told(named),
            Ask::Total | Ask::List => String::new(),
        }
    }

    /// How many bulks are open, and their total in these words.
    fn open_told(&self, total: String, language: Language) -> String {
        let open = language.say("open", "offen");
        format!("{open}: {}, {total}", bulks(self.open.len(), language))
    }

    /// A bulk that was entered: what is signed, what is open now, and the warnings of the judge.
    fn entered(&self, language: Language) -> String {
        let (judged, count, cents) = match &self.judged {
            Some(judged @ Judged { verdict: Verdict::Accepted { count, cents }, .. }) => {
                (judged, *count, *cents)
            }
            _ => return String::new(),
        };
        let (entered, signed) =
            (language.say("entered", "eingetragen"), judged.signed(count, cents, language));
        let open = self.open_told(language.euros(self.cents.into()), language);
        let (subject, below) = (self.subject(), judged.below(language));
        format!("{subject}: {entered}, {signed}; {open}\n{below}")
    }

    /// A refusal: the judge's own as `judge` tells it, else the number and its sentence.
    fn refused(&self, number: u64, language: Language) -> String {
        let mut subject = self.subject();
        match &self.judged {
            Some(judged) if judged.verdict.status() == Status::Refused => {
                return judged.words(language)
            }
            Some(judged) => subject.push_str(&format!(", {}", named_told(&own_key(judged)))),
            None => {}
        }
        let sentence = pages::sentence(number, language);
        language.say(
            format!("{subject}: refused {number}: {sentence}\n"),
            format!("{subject}: abgelehnt (Nr. {number}): {sentence}\n"),
        )
    }

    /// One object, with every key whatever the call, but the list of open bulks.
    pub fn json(&self, language: Language) -> Object {
        let (call, file, named) = match &self.line.ask {
            Ask::Enter(file) => ("enter", show::bytes_of(file), self.judged.as_ref().map(own_key)),
            Ask::Withdraw(named) => ("withdraw", &b""[..], Some(named.clone())),
            Ask::Find(named) => ("find", &b""[..], Some(named.clone())),
            Ask::Total => ("total", &b""[..], None),
            Ask::List => ("list", &b""[..], None),
        };
        let object = Object::default()
            .number_or_null("line", Some(self.line.number as u64).filter(|number| *number > 0))
            .text("call", call.as_bytes())
            .text_or_null("file", file);
        let named = named.unwrap_or_default();
        let object = answer_json(key_json(object, &named), &self.answer, language);
        let object = object
            .number("open", self.open.len() as u64)
            .text("open_euros", euro::euros(self.cents).as_bytes());
        match &self.judged {
            Some(judged) => object.raw("judged", &judged.json(language).end()),
            None => object.raw("judged", "null"),
        }
    }
}

/// `1 bulk`, `2 bulks`.
pub fn bulks(count: usize, language: Language) -> String {
    let word = if count == 1 { ("bulk", "Bulk") } else { ("bulks", "Bulks") };
    format!("{count} {}", language.say(word.0, word.1))
}

/// The four keys of a key.
pub fn key_json(object: Object, named: &Named) -> Object {
    let keys = ["service", "msg_id", "bic", "settlement_date"];
    keys.iter().zip(named).fold(object, |object, (key, part)| object.text_or_null(key, part))
}

/// The keys of an answer.
fn answer_json(object: Object, answer: &Answer, language: Language) -> Object {
    let (verdict, cents, at, refusal) = match *answer {
        Answer::Entered { cents } => ("entered", Some(cents), None, None),
        Answer::Withdrawn { cents } => ("withdrawn", Some(cents), None, None),
        Answer::Refused { number, place } => ("refused", None, None, Some((number, place))),
        Answer::At { place, cents } => ("at", Some(cents), Some(place as u64), None),
        Answer::None => ("none", None, None, None),
        Answer::Total => ("total", None, None, None),
        Answer::List => ("list", None, None, None),
    };
    let meaning = refusal.map_or(String::new(), |(number, _)| pages::sentence(number, language));
    object
        .text("verdict", verdict.as_bytes())
        .number_or_null("cents", cents)
        .number_or_null("at", at)
        .number_or_null("number", refusal.map(|(number, _)| number))
        .number_or_null("place", refusal.map(|(_, place)| place))
        .text_or_null("meaning", meaning.as_bytes())
}

/// An open bulk as an object.
pub fn entry_json(at: usize, entry: &Entry) -> Object {
    let named = book::parts(&entry.key).map(<[u8]>::to_vec);
    let object = Object::default().number("at", at as u64);
    key_json(object, &named).number("cents", entry.cents)
}

/// The four parts of a key, with spaces between them.
pub fn key_told(key: &Key) -> String {
    named_told(&book::parts(key).map(<[u8]>::to_vec))
}

/// The same of a key as it is named.
pub fn named_told(named: &Named) -> String {
    named.iter().map(|part| shown(part)).collect::<Vec<_>>().join(" ")
}

/// The open bulks as a table, each column as wide as it must be; nothing where none is open.
fn table(open: &[Entry], language: Language) -> String {
    let heading = language.say(
        ["Place", "Service", "MsgId", "BIC", "Settlement", "Cents", "EUR"],
        ["Platz", "Verfahren", "MsgId", "BIC", "Abrechnung", "Cent", "EUR"],
    );
    let mut rows = vec![heading.map(str::to_string)];
    for (at, entry) in open.iter().enumerate() {
        let [service, msg_id, bic, date] = book::parts(&entry.key).map(shown);
        let euros = language.euros(entry.cents.into());
        let euros = euros.trim_end_matches(" EUR").to_string();
        rows.push([at.to_string(), service, msg_id, bic, date, entry.cents.to_string(), euros]);
    }
    let width = |column: usize| rows.iter().map(|row| row[column].len()).max().unwrap_or(0);
    let widths: [usize; 7] = std::array::from_fn(width);
    let cell = |(column, text): (usize, &String)| match (column, widths[column]) {
        (1..=4, width) => format!("{text:width$}"),
        (_, width) => format!("{text:>width$}"),
    };
    let line = |row: &[String; 7]| row.iter().enumerate().map(cell).collect::<Vec<_>>().join("  ");
    match open.len() {
        0 => String::new(),
        _ => rows.iter().map(|row| format!("{}\n", line(row))).collect(),
    }
}
