//! A recording: the fields of its records, why one of them is not of its kind, and the record shown. The
//! library judges; this only puts its answer into words, and the tests hold it against the library.

use crate::language::Language;
use crate::script::Named;
use crate::show::shown;
use crate::why::{why, Why};
use face::play::RECORD;
use face::Kind;
use std::ops::Range;

/// The fields of a record, in their order.
#[derive(Clone, Copy, Debug, PartialEq, Eq)]
pub enum Field {
    Time,
    Call,
    Service,
    Bic,
    Date,
    MsgId,
    End,
}

/// What is wrong with a record.
#[derive(Clone, Debug, PartialEq, Eq)]
pub enum Fault<'a> {
    /// So many bytes to its line end, or to the end of the recording, are too few.
    Length(usize),
    /// The first field that is not of its kind.
    Field(Field, Why<'a>),
}

/// The records, in order; the last one may be too short.
pub fn records(recording: &[u8]) -> impl ExactSizeIterator<Item = &[u8]> {
    recording.chunks(RECORD)
}

/// What is wrong with a record; none if each field is of its kind.
pub fn fault(record: &[u8]) -> Option<Fault<'_>> {
    let end = record.iter().position(|&byte| byte == b'\n').map_or(record.len(), |at| at + 1);
    if end < RECORD {
        return Some(Fault::Length(end));
    }
    Field::ALL.into_iter().find_map(|field| field.why(record).map(|why| Fault::Field(field, why)))
}

/// Whether a record enters a bulk, and does not withdraw one.
pub fn is_entry(record: &[u8]) -> bool {
    Field::Call.of(record) == b"E"
}

/// The key that a record names: service, MsgId, BIC and settlement date.
pub fn named(record: &[u8]) -> Named {
    [Field::Service, Field::MsgId, Field::Bic, Field::Date].map(|field| field.of(record).to_vec())
}

/// The instant of a time as a record has it, in seconds; none if it is of another form.
pub fn instant(time: &[u8]) -> Option<i64> {
    if time.len() != Field::Time.range().len() || face::check(Kind::Time, time)[0] != 0 {
        return None;
    }
    let digit = |byte: &u8| i64::from(byte - b'0');
    let number = |part: Range<usize>| time[part].iter().fold(0, |sum, byte| sum * 10 + digit(byte));
    let (month, day) = (number(5..7), number(8..10));
    // A year that begins in March has its leap day at the end, and its months turn by 153 days in five.
    let (year, month) =
        if month < 3 { (number(0..4) - 1, month + 9) } else { (number(0..4), month - 3) };
    let days = year * 365 + year / 4 - year / 100 + year / 400 + (153 * month + 2) / 5 + day;
    let minutes = |from: usize| number(from..from + 2) * 60 + number(from + 3..from + 5);
    let offset = if time[19] == b'-' { -minutes(20) } else { minutes(20) };
    Some((days * 24 * 60 + minutes(11) - offset) * 60 + number(17..19))
}

/// A record on a line, and below it carets under these bytes of it. Both lines are indented.
pub fn excerpt(record: &[u8], bytes: Range<usize>) -> String {
    let line = match record {
        [line @ .., b'\n'] if line.len() + 1 == RECORD && bytes.end < RECORD => line,
        _ => record,
    };
    let (start, end) = (bytes.start.min(line.len()), bytes.end.min(line.len()));
    let width = |part: &[u8]| shown(part).chars().count();
    let carets = "^".repeat(width(&line[start..end]).max(1));
    let (line, before) = (shown(line), " ".repeat(width(&line[..start])));
    format!("    {}\n    {before}{carets}\n", line.trim_end_matches(' '))
}

impl Field {
    const ALL: [Field; 7] = [
        Field::Time,
        Field::Call,
        Field::Service,
        Field::Bic,
        Field::Date,
        Field::MsgId,
        Field::End,
    ];

    /// Its bytes in a record.
    pub fn range(self) -> Range<usize> {
        match self {
            Field::Time => 0..25,
            Field::Call => 25..26,
            Field::Service => 26..30,
            Field::Bic => 30..41,
            Field::Date => 41..51,
            Field::MsgId => 51..63,
            Field::End => 63..64,
        }
    }

    /// Its value in a record: of those that have spaces behind them without these. Of a record that is
    /// too short, as much as there is.
    pub fn of(self, record: &[u8]) -> &[u8] {
        let Range { start, end } = self.range();
        let mut value = &record[start.min(record.len())..end.min(record.len())];
        if matches!(self, Field::Service | Field::Bic | Field::MsgId) {
            while let [before @ .., b' '] = value {
                value = before;
            }
        }
        value
    }

    /// Why its value in a record is not of its kind; none if it is.
    fn why(self, record: &[u8]) -> Option<Why<'_>> {
        let value = self.of(record);
        let coded = |codes: &'static [&'static str]| {
            let is_listed = codes.iter().any(|code| code.as_bytes() == value);
            (!is_listed).then_some(Why::Codes(codes))
        };
        match self {
            Field::Time => match why(Kind::Time, value) {
                Some(Why::WrittenAsTime) => Some(Why::WrittenAsRecorded),
                // A time of this length has an offset, and no fraction.
                told => told,
            },
            Field::Call => coded(&["E", "W"]),
            Field::Service => coded(&["CORE", "B2B"]),
            Field::Bic => why(Kind::Bicfi, value),
            Field::Date => why(Kind::Date, value),
            Field::MsgId => why(Kind::Reference, value),
            Field::End => (value != b"\n").then_some(Why::NoLineEnd),
        }
    }

    /// What JSON calls it.
    pub fn key(self) -> &'static str {
        match self {
            Field::Time => "time",
            Field::Call => "call",
            Field::Service => "service",
            Field::Bic => "bic",
            Field::Date => "settlement_date",
            Field::MsgId => "msg_id",
            Field::End => "end",
        }
    }

    /// What it is called.
    pub fn name(self, language: Language) -> &'static str {
        let (english, german) = match self {
            Field::Time => ("time", "Zeit"),
            Field::Call => ("E or W", "E oder W"),
            Field::Service => ("service", "Verfahren"),
            Field::Bic => ("BIC", "BIC"),
            Field::Date => ("settlement date", "Abrechnungsdatum"),
            Field::MsgId => ("MsgId", "MsgId"),
            Field::End => ("line end", "Zeilenende"),
        };
        language.say(english, german)
    }
}

impl Fault<'_> {
    /// The bytes of the record that it is about.
    pub fn range(&self) -> Range<usize> {
        match self {
            Fault::Length(length) => length.saturating_sub(1)..*length,
            Fault::Field(field, _) => field.range(),
        }
    }

    /// In words, as a part of a sentence: `MsgId “A B” (character 2, “ ”, is not allowed)`.
    pub fn words(&self, record: &[u8], language: Language) -> String {
        match self {
            Fault::Length(length) => language.say(
                format!("the record has {length} bytes, and not {RECORD}"),
                format!("der Satz hat {length} statt {RECORD} Bytes"),
            ),
            Fault::Field(field, why) => {
                let value = language.quoted(&shown(field.of(record)));
                format!("{} {value} ({})", field.name(language), why.words(language))
            }
        }
    }
}

#[cfg(test)]
mod tests {
    use super::*;
    use face::book::{empty, Numbers};
    use face::play::{play, Day};

    const GOOD: [&[u8; RECORD]; 3] = [
        b"2026-10-25T02:30:00+02:00WCOREHAFNDEHHXXX2026-10-30EVENING-2810\n",
        b"0001-01-01T00:00:00-14:00WB2B 1BNKDE0O   2000-02-29A/B         \n",
        b"9999-12-31T23:59:59+13:59WCOREBANKDEFF   2010-12-03?           \n",
    ];

    /// A fault is told exactly when the library answers 26 to a recording of this record alone, which else
    /// withdraws a key that is not open.
    fn agrees(record: &[u8]) {
        let day = Day { recording: record, buffer: b"", ends: &[] };
        let [number, place, ..] = play(day, &mut empty(), &mut Numbers::default());
        let told = fault(record);
        let due = match (is_entry(record), told.is_some()) {
            (_, true) => 26,
            (true, _) => 28,
            (false, _) => 22,
        };
        assert_eq!((number, place), (due, 0), "{}: {told:?}", shown(record));
        for (language, fault) in [Language::English, Language::German].iter().zip(&told) {
            assert!(fault.words(record, *language).len() > 10);
            assert!(excerpt(record, fault.range()).lines().count() == 2);
        }
    }

    #[test]
    fn a_fault_for_every_26_and_for_nothing_else() {
        for record in GOOD {
            assert_eq!(fault(record), None);
            for at in 0..RECORD {
                for byte in 0..=255 {
                    let mut other = record.to_vec();
                    other[at] = byte;
                    agrees(&other);
                }
                if at > 0 {
                    agrees(&record[..at]);
                }
            }
        }
    }

    #[test]
    fn faults_in_words() {
        let told = |old: &str, new: &str, language| {
            let record = String::from_utf8_lossy(GOOD[0]).replacen(old, new, 1);
            let record = record.as_bytes();
            fault(record).expect("it has a fault").words(record, language)
        };
        let (english, german) = (Language::English, Language::German);
        assert_eq!(
            told("+02:00", "Z     ", english),
            "time “2026-10-25T02:30:00Z     ” (expected: YYYY-MM-DDThh:mm:ss+hh:mm, with the offset, \
             without a fraction)"
        );
        assert_eq!(
            told("10-25", "02-30", german),
            "Zeit „2026-02-30T02:30:00+02:00“ (diesen Tag gibt es nicht)"
        );
        assert_eq!(told("W", "w", english), "E or W “w” (allowed: E or W)");
        assert_eq!(told("CORE", "COR1", german), "Verfahren „COR1“ (zulässig: CORE oder B2B)");
        assert_eq!(
            told("HHXXX", "HHXX ", english),
            "BIC “HAFNDEHHXX” (10 characters, 8 or 11 are allowed)"
        );
        assert_eq!(
            told("-2810", " 2810", german),
            "MsgId „EVENING 2810“ (das 8. Zeichen, „ “, ist nicht zulässig)"
        );
        assert_eq!(
            told("\n", "\r", english),
            "line end “\\r” (expected: a line feed (LF) as the 64th byte)"
        );
        assert_eq!(told("ING-2810", "ING\n", german), "der Satz hat 59 statt 64 Bytes");
    }

    #[test]
    fn a_record_is_shown_with_its_field() {
        assert_eq!(
            excerpt(GOOD[0], Field::Service.range()),
            format!(
                "    2026-10-25T02:30:00+02:00WCOREHAFNDEHHXXX2026-10-30EVENING-2810\n    {}^^^^\n",
                " ".repeat(26)
            )
        );
        let short = &GOOD[0][..10];
        assert_eq!(excerpt(short, 9..10), format!("    2026-10-25\n    {}^\n", " ".repeat(9)));
    }

    /// Instants of times a second, an hour, a month and a year apart.
    #[test]
    fn instants() {
        let of = |time: &str| instant(time.as_bytes()).expect("it is a time");
        for (one, other, apart) in [
            ("2026-10-25T02:30:00+02:00", "2026-10-25T02:30:00+01:00", 3600),
            ("2026-10-25T02:30:00+02:00", "2026-10-25T00:30:01-00:00", 1),
            ("2024-02-28T00:00:00+00:00", "2024-03-01T00:00:00+00:00", 2 * 86_400),
            ("1900-02-28T00:00:00+00:00", "1900-03-01T00:00:00+00:00", 86_400),
            ("2026-12-31T23:30:00-00:30", "2027-01-01T00:00:00+00:00", 0),
            ("0001-01-01T00:00:00+00:00", "9999-01-01T00:00:00+00:00", 3_651_694 * 86_400),
        ] {
            assert_eq!(of(other) - of(one), apart, "{one} {other}");
        }
        assert_eq!(instant(b"2026-10-25T02:30:00Z"), None);
        assert_eq!(instant(b"2026-10-25T02:30:00+14:01"), None);
    }
}
