//! Playback: the library, the plain playback, the same calls made one by one and what is known of a day
//! are held against each other: every word of the answer, both numbers, every place of the lent list, and
//! every number of the index.

use crate::ask::Asker;
use crate::daybook::{bytes, plain_bytes, plain_key};
use crate::face::{judge, records, INDEX, RECORD};
use crate::indexed::{filled, Index};
use crate::kind::Kind;
use crate::plays::Play;
use crate::slow;
use crate::tally::Name;
use ::face::book::{self, Entry, Key, Numbers, BOOK};
use ::face::play::{self, Day, Played, Table};

/// So many entries stand before and behind the lent ones, and must stay.
const BESIDE: usize = 2;

/// What a run leaves.
struct Left {
    words: Played,
    numbers: Numbers,
    /// The lent entries, byte for byte.
    places: Vec<u8>,
}

/// The library's run, and what it left that must be none: an entry beside the lent ones that changed, a
/// number of the index, or beside it, that is not as it must be.
fn library(play: &Play, seed: usize) -> (Left, bool, Option<(usize, u32, u32)>) {
    let beside = Entry { key: [0xEE; book::KEY], unused: [0xEE; 4], cents: u64::MAX / 3 };
    let mut all = [&[beside; BESIDE], &play.entries[..], &[beside; BESIDE]].concat();
    let end = all.len() - BESIDE;
    let (lent, mut numbers) = (Index::new(play.index, seed), play.numbers);
    let mut index = lent.clone();
    let Play { recording, buffer, ends, .. } = play;
    let day = Day { recording, buffer, ends };
    let words = play::play_with(day, &mut all[BESIDE..end], &mut numbers, index.lent());
    let is_beside_otherwise = all[..BESIDE].iter().chain(&all[end..]).any(|entry| *entry != beside);
    let left = Left { words, numbers, places: bytes(&all[BESIDE..end]) };
    (left, is_beside_otherwise, index.differs(&lent.afterwards()))
}

/// The plain playback's run, which has no index: with too short a one it is not asked.
fn plainly(play: &Play) -> Left {
    let entry =
        |entry: &Entry| plain::book::Entry { key: plain_key(&entry.key), cents: entry.cents };
    let mut entries: Vec<plain::book::Entry> = play.entries.iter().map(entry).collect();
    let Numbers { open, total } = play.numbers;
    let mut book = plain::book::Book { entries: &mut entries, open: open as usize, total };
    let Play { recording, buffer, ends, .. } = play;
    let answer = match play.index < INDEX {
        true => Err((25, 0)),
        false => plain::play::play(&plain::play::Day { recording, buffer, ends }, &mut book),
    };
    let numbers = Numbers { open: book.open as u64, total: book.total };
    let words = match answer {
        Ok(played) => answered(played.records as u64, &played.table),
        Err((number, place)) => refused(number.into(), place),
    };
    Left { words, numbers, places: plain_bytes(&entries) }
}

/// What the plain playback answers.
pub fn plain_words(play: &Play) -> Played {
    plainly(play).words
}

/// The words of a run that was not refused.
fn answered(records: u64, table: &Table) -> Played {
    let [[a, b, c, d], [e, f, g, h]] = *table;
    [0, records, a, b, c, d, e, f, g, h]
}

/// The words of one that was.
fn refused(number: u64, place: usize) -> Played {
    [number, place as u64, 0, 0, 0, 0, 0, 0, 0, 0]
}

/// "the end state is that of the same calls made one by one": the library's own entries and withdrawals,
/// and a reading of the recording of its own.
struct OneByOne<'p> {
    play: &'p Play,
    entries: Vec<Entry>,
    numbers: Numbers,
    /// Where the last message that was entered ends, and how many they are.
    end: u64,
    entered: usize,
    /// The latest instant so far.
    latest: i128,
    /// Each open key and its cents by service and sequence type.
    tables: Vec<(Key, Table)>,
}

/// The run, call by call.
fn one_by_one(play: &Play) -> Left {
    let (entries, numbers) = (play.entries.clone(), play.numbers);
    let (latest, tables) = (i128::MIN, Vec::new());
    let mut run = OneByOne { play, entries, numbers, end: 0, entered: 0, latest, tables };
    let words = run.words();
    Left { words, numbers: run.numbers, places: bytes(&run.entries) }
}

impl OneByOne<'_> {
    /// The answer.
    fn words(&mut self) -> Played {
        if self.play.index < INDEX {
            return refused(25, 0);
        }
        if self.entries.len() < BOOK {
            return refused(29, 0);
        }
        self.numbers = Numbers { open: 0, total: 0 };
        let (mut rest, mut place) = (&self.play.recording[..], 0);
        while !rest.is_empty() {
            let (record, behind) = rest.split_at(rest.len().min(64));
            if let Some(number) = self.call(record) {
                return refused(number, place);
            }
            (rest, place) = (behind, place + 1);
        }
        if self.entered != self.play.ends.len() {
            return refused(28, place);
        }
        let mut table = Table::default();
        for (_, one) in &self.tables {
            for (row, column) in (0..8).map(|at| (at / 4, at % 4)) {
                table[row][column] += one[row][column];
            }
        }
        answered(place as u64, &table)
    }

    /// The call of one record: its refusal number, or none.
    fn call(&mut self, record: &[u8]) -> Option<u64> {
        let Some((instant, is_entry, key)) = read(record) else { return Some(26) };
        if instant < self.latest {
            return Some(27);
        }
        self.latest = instant;
        let answer = match is_entry {
            true => return self.enter(key),
            false => book::withdraw(&mut self.entries, &mut self.numbers, &key)[0],
        };
        self.tables.retain(|(open, _)| answer != 0 || *open != key);
        (answer != 0).then_some(answer)
    }

    /// An entry of the next message: by the library's judge, by the key with which it is entered into an
    /// empty book, and then into this one.
    fn enter(&mut self, key: Key) -> Option<u64> {
        let end = match self.play.ends.get(self.entered) {
            Some(&end) if end >= self.end && end <= self.play.buffer.len() as u64 => end,
            _ => return Some(28),
        };
        let message = &self.play.buffer[self.end as usize..end as usize];
        let [number, count, _] = judge(message);
        if number != 0 {
            return Some(number);
        }
        let mut apart = book::empty();
        book::enter(&mut apart, &mut Numbers::default(), message);
        if apart[0].key != key {
            return Some(28);
        }
        let index = &mut filled(message.len());
        let [number, ..] = book::enter_with(&mut self.entries, &mut self.numbers, message, index);
        if number != 0 {
            return Some(number);
        }
        self.tables.push((key, table(message, count as usize)));
        (self.end, self.entered) = (end, self.entered + 1);
        None
    }
}

/// The cents of a message, by its posting records.
fn table(message: &[u8], count: usize) -> Table {
    let mut area = vec![0; RECORD * count];
    records(message, &mut area);
    let mut table = Table::default();
    for record in area.chunks(RECORD) {
        let column = match &record[205..209] {
            b"FRST" => 0,
            b"RCUR" => 1,
            b"FNAL" => 2,
            _ => 3,
        };
        let cents: u64 = String::from_utf8_lossy(&record[184..195]).parse().expect("11 digits");
        table[usize::from(&record[290..294] == b"B2B ")][column] += cents;
    }
    table
}

/// What a record says: its instant, whether it enters, its key. Nothing where a field is not of its kind.
/// Spaces behind a value are told off from the whole field as text.
fn read(record: &[u8]) -> Option<(i128, bool, Key)> {
    let text =
        std::str::from_utf8(record).ok().filter(|text| text.len() == 64 && text.is_ascii())?;
    let (time, call, service) = (&text[..25], &text[25..26], text[26..30].trim_end_matches(' '));
    let (bic, date) = (text[30..41].trim_end_matches(' '), &text[41..51]);
    let (msg_id, end) = (text[51..63].trim_end_matches(' '), &text[63..]);
    let is = |kind, value: &str| slow::check(kind, value.as_bytes()).is_ok();
    let holds = is(Kind::Time, time)
        && ["E", "W"].contains(&call)
        && ["CORE", "B2B"].contains(&service)
        && is(Kind::Bicfi, bic)
        && is(Kind::Date, date)
        && is(Kind::Reference, msg_id)
        && end == "\n";
    let key = book::key([service, msg_id, bic, date].map(str::as_bytes))?;
    holds.then(|| (instant(time), call == "E", key))
}

/// The instant of a time of 25 bytes, in seconds of the Julian day's count.
fn instant(time: &str) -> i128 {
    let number =
        |from: usize, length: usize| time[from..from + length].parse::<i128>().unwrap_or(0);
    let (year, month, day) = (number(0, 4), number(5, 2), number(8, 2));
    let march = (month - 14) / 12;
    let julian = (1461 * (year + 4800 + march)) / 4 + (367 * (month - 2 - 12 * march)) / 12
        - (3 * ((year + 4900 + march) / 100)) / 4
        + day;
    let offset = number(20, 2) * 3600 + number(23, 2) * 60;
    let local = julian * 86_400 + number(11, 2) * 3600 + number(14, 2) * 60 + number(17, 2);
    local + if &time[19..20] == "-" { offset } else { -offset }
}

impl Asker {
    /// One day, played back in every way.
    pub fn play(&mut self, name: &Name, play: &Play) {
        let text = play.text();
        let text = text.as_bytes();
        let (library, is_beside_otherwise, index) = library(play, name.number as usize);
        self.tally.met(library.words[0]);
        for (who, other) in [("plain", plainly(play)), ("one by one", one_by_one(play))] {
            let (one, two) = (("library", &library.words), (who, &other.words));
            self.tally.hold(name, &|| "answer".to_string(), text, one, two);
            let (one, two) = (("library", &library.numbers), (who, &other.numbers));
            self.tally.hold(name, &|| "numbers".to_string(), text, one, two);
            let (one, two) = (("library", &library.places[..]), (who, &other.places[..]));
            self.tally.hold_areas(name, &|| "places of 68 bytes".to_string(), text, one, two);
        }
        if let Some(known) = play.known {
            let own = (library.words, library.numbers);
            let question = || "answer and numbers".to_string();
            self.tally.hold(name, &question, text, ("library", &own), ("known", &known));
        }
        let question = || "an entry beside the lent ones changed".to_string();
        let stays = ("due", &false);
        self.tally.hold(name, &question, text, ("library", &is_beside_otherwise), stays);
        let question = || "a number of the index, or beside it".to_string();
        self.tally.hold(name, &question, text, ("library", &index), ("due", &None));
        if let [0, _, sums @ ..] = library.words {
            let sum: u64 = sums.iter().sum();
            let question = || "the table's sum".to_string();
            self.tally.hold(
                name,
                &question,
                text,
                ("table", &sum),
                ("stored", &library.numbers.total),
            );
        }
    }
}
