//! Days to be played back: a recording, its messages, and a lent book, with what is known of the run.

use crate::days::{any_entry, enough, message, places, refused, relative, services, Bulk};
use crate::message::Message;
use crate::random::Random;
use crate::value::{self, LETTERS_DIGITS};
use ::face::book::{self, Entry, Numbers, BOOK};
use ::face::play::{Played, Table, RECORD};
use ::face::INDEX;

/// What is lent to a run, and what is known of it.
pub struct Play {
    pub sort: &'static str,
    pub recording: Vec<u8>,
    pub buffer: Vec<u8>,
    pub ends: Vec<u64>,
    /// The book, which may hold anything.
    pub entries: Vec<Entry>,
    pub numbers: Numbers,
    /// So many numbers has the index.
    pub index: usize,
    /// The answer and the numbers of the book afterwards, where they are known from its making.
    pub known: Option<(Played, Numbers)>,
}

type Make = fn(Draft, &mut Random) -> Draft;

const PLAYS: &[(&str, Make)] = &[
    ("played to its end", |draft, _| draft),
    ("a field of another kind", field),
    ("one byte of a record", byte),
    ("a short last record", short_record),
    ("a time that falls", falls),
    ("no message left", no_message),
    ("an end that falls or lies outside", wrong_end),
    ("an end elsewhere", end_elsewhere),
    ("a message that the judge refuses", refused_message),
    ("a key that does not agree", other_key),
    ("an open key entered again", twice),
    ("a key withdrawn that is not open", not_open),
    ("messages left over", left_over),
    ("two faults", two_faults),
    ("64 open", |draft, _| draft),
    ("a book of few places", few_places),
    ("a short index", short_index),
    ("nothing to play", nothing),
    ("any bytes", any_bytes),
];

/// The names of all sorts.
pub fn sorts() -> impl Iterator<Item = &'static str> {
    PLAYS.iter().map(|(sort, _)| *sort)
}

/// One day of the run with this seed.
pub fn play(seed: u64, number: u64) -> Play {
    let random = &mut Random::new(seed ^ 0x91A7, number);
    let (sort, make) = PLAYS[number as usize % PLAYS.len()];
    let mut draft = match sort {
        "64 open" => full(random),
        _ => ordinary(random),
    };
    // Each position of a record in its turn.
    draft.turn = number as usize / PLAYS.len() % RECORD;
    Play { sort, ..make(draft, random).lent(random) }
}

/// A message of the day: its key as a record has it, and its cents by service and sequence type.
#[derive(Clone)]
struct Dealt {
    bytes: Vec<u8>,
    /// Service, BIC, settlement date and MsgId.
    key: [Vec<u8>; 4],
    table: Table,
}

/// What a record does.
#[derive(Clone)]
struct Step {
    instant: i64,
    record: Vec<u8>,
    /// Of an entry, which message; of a withdrawal, that of which entry it takes out.
    message: usize,
    is_entry: bool,
}

/// A fault that was made: the record's number, the order among the faults of one record, the number that
/// it gives.
type Fault = (usize, u8, u64);

/// A day that is played to its end, and the faults that were made in it.
pub struct Draft {
    steps: Vec<Step>,
    messages: Vec<Dealt>,
    /// Messages that do not end where they should.
    ends: Vec<(usize, End)>,
    /// So many of the last messages have no end.
    missing: usize,
    /// Messages that no record enters.
    more: Vec<Vec<u8>>,
    /// The last record is cut to so many bytes.
    cut: Option<usize>,
    faults: Vec<Fault>,
    /// Whether the faults tell what comes of it.
    is_known: bool,
    /// So many places and numbers are lent, where they are too few.
    places: Option<usize>,
    index: Option<usize>,
    /// The position of a record whose turn it is.
    turn: usize,
}

/// Where a message ends that does not end where it should.
enum End {
    /// Below the end before it, by so much.
    Falls(u64),
    /// Past the buffer, by so much.
    Past(u64),
    At(u64),
}

/// The seconds from 1970 to a day of these numbers.
fn seconds(year: i64, month: i64, day: i64) -> i64 {
    let year = if month < 3 { year - 1 } else { year };
    let of_year = (153 * (if month < 3 { month + 9 } else { month - 3 }) + 2) / 5 + day - 1;
    let (era, of_era) = (year.div_euclid(400), year.rem_euclid(400));
    (era * 146_097 + of_era * 365 + of_era / 4 - of_era / 100 + of_year - 719_468) * 86_400
}

/// The first and the last instant that a record can have: at +14:00 and at -14:00.
fn range() -> (i64, i64) {
    (seconds(1, 1, 1) - 14 * 3600, seconds(10_000, 1, 1) - 1 + 14 * 3600)
}

/// An instant as a clock shows it that is so many minutes ahead. Nothing where its year has no four digits.
fn shown(instant: i64, ahead: i64, random: &mut Random) -> Option<Vec<u8>> {
    let local = instant + ahead * 60;
    let (day, second) = (local.div_euclid(86_400) + 719_468, local.rem_euclid(86_400));
    let (era, of_era) = (day.div_euclid(146_097), day.rem_euclid(146_097));
    let year = (of_era - of_era / 1460 + of_era / 36_524 - of_era / 146_096) / 365;
    let of_year = of_era - (365 * year + year / 4 - year / 100);
    let turned = (5 * of_year + 2) / 153;
    let month = if turned < 10 { turned + 3 } else { turned - 9 };
    let (day, year) =
        (of_year - (153 * turned + 2) / 5 + 1, year + era * 400 + i64::from(month < 3));
    let sign = if ahead < 0 || ahead == 0 && random.once_in(2) { '-' } else { '+' };
    let (hour, minute, second) = (second / 3600, second / 60 % 60, second % 60);
    let text = format!(
        "{year:04}-{month:02}-{day:02}T{hour:02}:{minute:02}:{second:02}{sign}{:02}:{:02}",
        ahead.abs() / 60,
        ahead.abs() % 60
    );
    (1..=9999).contains(&year).then(|| text.into_bytes())
}

/// An instant as a record has it: in Berlin's time of October 2026, or with any offset.
fn written(instant: i64, random: &mut Random) -> Vec<u8> {
    let turn = seconds(2026, 10, 25) + 3600;
    loop {
        let ahead = match random.below(6) {
            0..=2 => 60 + 60 * i64::from(instant < turn),
            3 => [0, 840, -840, 839, -839][random.below(5)],
            _ => random.below(2 * 840 + 1) as i64 - 840,
        };
        if let Some(time) = shown(instant, ahead, random) {
            return time;
        }
    }
}

/// When a day begins: mostly before the hour that October has twice.
fn beginning(random: &mut Random) -> i64 {
    let (first, last) = range();
    match random.below(8) {
        0 => seconds(random.between(1, 9998) as i64, random.between(1, 12) as i64, 28) + 80_000,
        1 => seconds([1900, 2000, 2024, 2025, 2100][random.below(5)], 2, 28) + 86_390,
        2 => {
            let any = random.between(2, 9999) as i64;
            let year = [any, 401, 1901, 2001, 2401][random.below(5)];
            seconds(year, 1, 1) - random.below(3) as i64
        }
        3 => [first, first + 1, last - 1, last][random.below(4)],
        _ => seconds(2026, 10, 25) - 600 + random.below(4800) as i64,
    }
}

/// How long it takes from a record to the next: often no time at all.
fn pause(random: &mut Random) -> i64 {
    match random.below(6) {
        0 | 1 => 0,
        2 => 1,
        3 => random.below(40_000) as i64,
        _ => random.below(1200) as i64,
    }
}

/// A record of these fields.
fn record(time: &[u8], call: u8, [service, bic, date, msg_id]: &[Vec<u8>; 4]) -> Vec<u8> {
    let mut record = time.to_vec();
    record.push(call);
    for (field, length) in [(service, 4), (bic, 11), (date, 10), (msg_id, 12)] {
        let end = record.len() + length;
        record.extend(field);
        record.resize(end, b' ');
    }
    record.push(b'\n');
    record
}

/// A MsgId that fits into a record, often just so.
fn short_id(random: &mut Random) -> Vec<u8> {
    let mut id = value::reference(random);
    id.truncate(random.length(1, 12));
    value::alone_and_inside(&mut id, b'/', random);
    id
}

/// Gives a message this MsgId.
fn name(message: &mut Message, id: Vec<u8>) {
    let part = message.header_value("MsgId");
    message.parts[part].bytes = id;
}

/// A message that fits into a record.
fn fitting(random: &mut Random) -> Message {
    let mut message = message(random);
    name(&mut message, short_id(random));
    message
}

/// A message as it is dealt: the key is that of its parts, the cents are those of the records that were
/// made beside it.
fn dealt(message: &Message) -> Dealt {
    let value = |part: usize| message.parts[part].bytes.clone();
    let service = value(services(message)[0]);
    let mut table = Table::default();
    let row = usize::from(service == b"B2B");
    for record in &message.records {
        let column = ["FRST", "RCUR", "FNAL", "OOFF"]
            .iter()
            .position(|code| code.as_bytes() == &record[205..209])
            .expect("a record has a sequence type");
        table[row][column] += digits(&record[184..195]);
    }
    let (bic, date) = (value(message.header_bic()), value(message.header_value("IntrBkSttlmDt")));
    let key = [service, bic, date, value(message.header_value("MsgId"))];
    Dealt { bytes: message.bytes(), key, table }
}

/// What digits write.
fn digits(bytes: &[u8]) -> u64 {
    String::from_utf8_lossy(bytes).parse().expect("they are digits")
}

/// A pool of messages, of which some are related; each fits into a record.
fn pool(count: usize, random: &mut Random) -> Vec<Dealt> {
    let mut last = fitting(random);
    let mut all = Vec::new();
    while all.len() < count {
        let next = match random.below(3) {
            0 => relative(last.clone(), random),
            _ => fitting(random),
        };
        let next_dealt = dealt(&next);
        if next_dealt.key[3].len() <= 12 {
            all.push(next_dealt);
            last = next;
        }
    }
    all
}

/// A day of some calls, none of which is refused.
fn ordinary(random: &mut Random) -> Draft {
    let (kinds, calls) = (random.between(1, 6), random.between(1, 16));
    let pool = pool(kinds, random);
    let mut draft = Draft::new();
    let mut instant = beginning(random);
    for _ in 0..calls {
        let of = &pool[random.below(pool.len())];
        let open = draft.opened(draft.steps.len());
        let at = open.iter().copied().find(|&at| draft.messages[at].key == of.key);
        match at {
            None => draft.enter(of, instant, random),
            Some(at) if random.once_in(2) => draft.withdraw(at, instant, random),
            Some(_) => {}
        }
        instant = (instant + pause(random)).min(range().1);
    }
    draft
}

/// A day on which 64 are entered, or one goes and another comes, and then one more, or one of them again.
fn full(random: &mut Random) -> Draft {
    let bases: Vec<Message> = (0..3).map(|_| fitting(random)).collect();
    let mut draft = Draft::new();
    let mut instant = seconds(2026, 10, 25);
    let mut next = |draft: &mut Draft, random: &mut Random| {
        let mut message = bases[random.below(3)].clone();
        name(&mut message, format!("D{}", draft.messages.len()).into_bytes());
        instant += random.below(60) as i64;
        draft.enter(&dealt(&message), instant, random);
    };
    for _ in 0..BOOK - random.below(2) * random.below(2) {
        next(&mut draft, random);
    }
    if random.once_in(2) {
        let (open, instant) = (draft.opened(draft.steps.len()), last(&draft));
        draft.withdraw(open[random.below(open.len())], instant, random);
        next(&mut draft, random);
    }
    let open = draft.opened(draft.steps.len());
    if open.len() == BOOK {
        let number = match random.once_in(3) {
            true => {
                let again = draft.messages[open[random.below(BOOK)]].clone();
                let instant = last(&draft);
                draft.enter(&again, instant, random);
                20
            }
            false => {
                next(&mut draft, random);
                21
            }
        };
        draft.faults.push((draft.steps.len() - 1, 5, number));
        maybe_worse(&mut draft, random);
    }
    draft
}

/// By chance the last record, which the book refuses, has a fault whose turn comes before: its key does not
/// agree, or the judge refuses its message.
fn maybe_worse(draft: &mut Draft, random: &mut Random) {
    let at = draft.steps.len() - 1;
    match random.below(6) {
        0 => disagree(draft, at, random),
        1 => refuse(draft, at, random),
        _ => {}
    }
}

impl Draft {
    /// Nothing was done yet.
    fn new() -> Draft {
        Draft {
            steps: Vec::new(),
            messages: Vec::new(),
            ends: Vec::new(),
            missing: 0,
            more: Vec::new(),
            cut: None,
            faults: Vec::new(),
            is_known: true,
            places: None,
            index: None,
            turn: 0,
        }
    }

    /// One more entry.
    fn enter(&mut self, of: &Dealt, instant: i64, random: &mut Random) {
        let record = record(&written(instant, random), b'E', &of.key);
        let message = self.messages.len();
        self.messages.push(of.clone());
        self.steps.push(Step { instant, record, message, is_entry: true });
    }

    /// One more withdrawal, of what a message entered.
    fn withdraw(&mut self, message: usize, instant: i64, random: &mut Random) {
        let record = record(&written(instant, random), b'W', &self.messages[message].key);
        self.steps.push(Step { instant, record, message, is_entry: false });
    }

    /// The messages that are open after so many records, in order.
    fn opened(&self, records: usize) -> Vec<usize> {
        let mut open = Vec::new();
        for step in &self.steps[..records] {
            match step.is_entry {
                true => open.push(step.message),
                false => open.retain(|message| *message != step.message),
            }
        }
        open
    }

    /// A record that enters, by chance. The first one always does.
    fn entry(&self, random: &mut Random) -> usize {
        let all: Vec<usize> = (0..self.steps.len()).filter(|&at| self.steps[at].is_entry).collect();
        all[random.below(all.len())]
    }

    /// Any record.
    fn any(&self, random: &mut Random) -> usize {
        random.length(0, self.steps.len() - 1)
    }

    /// What is known: the first fault, or the table of what is open, and the book's numbers.
    fn known(&self, lent: Numbers) -> (Played, Numbers) {
        let mut words = Played::default();
        let fault = self.faults.iter().min();
        let until = match fault {
            Some(&(place, _, number)) => {
                (words[0], words[1]) = (number, place as u64);
                place
            }
            None => {
                words[1] = self.steps.len() as u64;
                self.steps.len()
            }
        };
        if matches!(words[0], 25 | 29) {
            return (words, lent);
        }
        let open = self.opened(until.min(self.steps.len()));
        let mut total = 0;
        for table in open.iter().map(|&message| self.messages[message].table) {
            total += table.as_flattened().iter().sum::<u64>();
            if fault.is_none() {
                words[2..].iter_mut().zip(table.as_flattened()).for_each(|(sum, one)| *sum += one);
            }
        }
        (words, Numbers { open: open.len() as u64, total })
    }

    /// Where the messages end, by their lengths and as they are made otherwise.
    fn ends(&self, buffer: usize) -> Vec<u64> {
        let all = self.messages.iter().map(|message| message.bytes.len());
        let mut end = 0;
        let mut ends: Vec<u64> = all
            .take(self.messages.len() - self.missing)
            .chain(self.more.iter().map(Vec::len))
            .map(|length| {
                end += length as u64;
                end
            })
            .collect();
        for (message, otherwise) in &self.ends {
            let before = message.checked_sub(1).map_or(0, |before| ends[before]);
            ends[*message] = match otherwise {
                End::Falls(by) => before.saturating_sub(*by),
                End::Past(by) => (buffer as u64).saturating_add(*by),
                End::At(end) => *end,
            };
        }
        ends
    }

    /// The lent places. They hold anything, by chance some of the day's own keys.
    fn book(&self, random: &mut Random) -> Vec<Entry> {
        let count = self.places.unwrap_or_else(|| enough(random));
        let mut entries = places(count, random);
        for Dealt { key: [service, bic, date, msg_id], .. } in &self.messages {
            if count > 0 && random.once_in(3) {
                let key = book::key([service, msg_id, bic, date].map(|part| &part[..]));
                let place = random.length(0, count - 1);
                entries[place].key = key.expect("each part has its place");
            }
        }
        entries
    }

    /// What is lent for it. The buffer goes on behind the last end.
    fn lent(self, random: &mut Random) -> Play {
        let mut recording: Vec<u8> =
            self.steps.iter().flat_map(|step| step.record.clone()).collect();
        if let Some(cut) = self.cut {
            recording.truncate(recording.len() - RECORD + cut);
        }
        let messages = self.messages.iter().map(|message| &message.bytes);
        let mut buffer: Vec<u8> = messages.chain(&self.more).flatten().copied().collect();
        if random.once_in(3) {
            let length = random.between(1, 300);
            buffer.extend(random.bytes(b"<>/A0 \n\xff", length));
        }
        let numbers = match random.below(3) {
            0 => Numbers::default(),
            1 => Numbers { open: random.below(70) as u64, total: random.bits() },
            _ => Numbers { open: random.bits(), total: random.bits() },
        };
        let entries = self.book(random);
        let index = [INDEX, INDEX, INDEX, INDEX + 1, 2 * INDEX][random.below(5)];
        Play {
            sort: "",
            known: self.is_known.then(|| self.known(numbers)),
            ends: self.ends(buffer.len()),
            recording,
            buffer,
            entries,
            numbers,
            index: self.index.unwrap_or(index),
        }
    }
}

/// What no field of its kind has, by the bytes of the field.
const OTHERS: [(usize, &[&str]); 7] = [
    (
        0,
        &[
            "2026-10-25T02:30:00Z     ",
            "2026-10-25T02:30:00      ",
            "2026-10-25T02:30:00.000Z ",
            "2026-10-25T02:30:00.0+2:0",
            "2026-10-25T02:30:00+14:01",
            "2026-10-25T02:30:00-15:00",
            "2026-10-25T02:30:00+01:60",
            "2026-10-25T02:60:00+01:00",
            "2026-10-25T24:00:00+01:00",
            "2026-02-29T02:30:00+01:00",
            "0000-10-25T02:30:00+01:00",
            "2026-10-25 02:30:00+01:00",
            "+026-10-25T02:30:00+01:00",
        ],
    ),
    (25, &["e", "w", " ", "X", "\0", "\n"]),
    (26, &["COR1", "core", " B2B", "B2B\0", "B2BX", "COR ", "    "]),
    (
        30,
        &["BANKDEFFXX ", "BANKDEF    ", "BANK1EFF   ", " BANKDEFF  ", "bANKDEFFXXX", "           "],
    ),
    (41, &["2026-02-29", "2100-02-29", "0000-01-01", "25.10.2026", "2026-1-01 ", "          "]),
    (
        51,
        &[
            "            ",
            " A          ",
            "A B         ",
            "/A          ",
            "A//B        ",
            "ABCDEFGHIJK/",
        ],
    ),
    (63, &["\r", " ", "\0", "X"]),
];

/// A field of a record is not of its kind: 26.
fn field(mut draft: Draft, random: &mut Random) -> Draft {
    let at = draft.any(random);
    other_field(&mut draft, at, OTHERS.len(), random);
    draft
}

/// One of the last so many fields of this record is not of its kind.
fn other_field(draft: &mut Draft, at: usize, fields: usize, random: &mut Random) {
    let (from, others) = OTHERS[OTHERS.len() - 1 - random.below(fields)];
    let other = random.pick(others).as_bytes();
    draft.steps[at].record[from..from + other.len()].copy_from_slice(other);
    draft.faults.push((at, 0, 26));
}

/// One byte of a record is another one, each in its turn.
fn byte(mut draft: Draft, random: &mut Random) -> Draft {
    let (at, turn) = (draft.any(random), draft.turn);
    let byte = match random.below(4) {
        0 => random.bits() as u8,
        1 => random.of(b" /-+:TZEW09AZaz\n\r\0"),
        2 => random.of(LETTERS_DIGITS),
        _ => draft.steps[at].record[turn] ^ 1 << random.below(8),
    };
    draft.steps[at].record[turn] = byte;
    draft.is_known = false;
    draft
}

/// The last record is short: 26 when it is reached.
fn short_record(mut draft: Draft, random: &mut Random) -> Draft {
    draft.cut = Some(random.length(1, RECORD - 1));
    draft.faults.push((draft.steps.len() - 1, 0, 26));
    draft
}

/// A time that is before that of the record before: 27.
fn falls(mut draft: Draft, random: &mut Random) -> Draft {
    if draft.steps.len() > 1 {
        let at = random.length(1, draft.steps.len() - 1);
        fall(&mut draft, at, random);
    }
    draft
}

/// The time of this record falls: by a second, by the hour of October, or by more. At the first instant
/// there is none before it.
fn fall(draft: &mut Draft, at: usize, random: &mut Random) {
    let by = [1, 1, 60, 3600, 3600, 86_400, random.worth(1, 1 << 36) as i64][random.below(7)];
    let instant = (draft.steps[at - 1].instant - by).max(range().0);
    if instant < draft.steps[at - 1].instant {
        let time = written(instant, random);
        draft.steps[at].record[..time.len()].copy_from_slice(&time);
        draft.faults.push((at, 1, 27));
    }
}

/// The record that enters a message.
fn record_of(draft: &Draft, message: usize) -> usize {
    let is = |step: &Step| step.is_entry && step.message == message;
    draft.steps.iter().position(is).expect("each message is entered")
}

/// Some of the last ends are missing: 28 at the first record that needs one.
fn no_message(mut draft: Draft, random: &mut Random) -> Draft {
    draft.missing = random.length(1, draft.messages.len());
    let first = record_of(&draft, draft.messages.len() - draft.missing);
    draft.faults.push((first, 2, 28));
    draft
}

/// An end that falls, or lies outside the buffer: 28.
fn wrong_end(mut draft: Draft, random: &mut Random) -> Draft {
    let at = draft.entry(random);
    end_wrongly(&mut draft, at, random);
    draft
}

/// The message of this record ends wrongly.
fn end_wrongly(draft: &mut Draft, at: usize, random: &mut Random) {
    let message = draft.steps[at].message;
    let by = [1, 1, random.worth(1, 5000), 1 << 32, u64::MAX][random.below(5)];
    let end = match message > 0 && random.once_in(2) {
        true => End::Falls(by),
        false => End::Past(by),
    };
    draft.ends.push((message, end));
    draft.faults.push((at, 2, 28));
}

/// An end somewhere else.
fn end_elsewhere(mut draft: Draft, random: &mut Random) -> Draft {
    let message = draft.steps[draft.entry(random)].message;
    let length = |messages: &[Dealt]| messages.iter().map(|dealt| dealt.bytes.len()).sum::<usize>();
    let (before, end) = (length(&draft.messages[..message]), length(&draft.messages[..=message]));
    let end = match random.below(4) {
        0 => before,
        1 => end - 1,
        2 => end + 1,
        _ => random.below(length(&draft.messages) + 2),
    };
    draft.ends.push((message, End::At(end as u64)));
    draft.is_known = false;
    draft
}

/// A message that the judge refuses: its number.
fn refused_message(mut draft: Draft, random: &mut Random) -> Draft {
    let at = draft.entry(random);
    refuse(&mut draft, at, random);
    draft
}

/// The message of this record is one that the judge refuses.
fn refuse(draft: &mut Draft, at: usize, random: &mut Random) {
    let bulk: Bulk = refused(message(random), random);
    let (number, _) = bulk.known.expect_err("it is refused");
    draft.messages[draft.steps[at].message].bytes = bulk.bytes;
    draft.faults.push((at, 3, u64::from(number)));
}

/// A record that names another key than its message, which is 28, or than any that is open, which is 22.
fn other_key(mut draft: Draft, random: &mut Random) -> Draft {
    let at = draft.any(random);
    disagree(&mut draft, at, random);
    draft
}

/// The key of this record is another one, in one part; or its message has a MsgId that fits no record.
fn disagree(draft: &mut Draft, at: usize, random: &mut Random) {
    let is_entry = draft.steps[at].is_entry;
    let record = &mut draft.steps[at].record;
    match random.below(4) {
        0 if record[26..].starts_with(b"CORE") => record[26..30].copy_from_slice(b"B2B "),
        0 => record[26..30].copy_from_slice(b"CORE"),
        1 if record[38] == b' ' => record[38..41].copy_from_slice(b"XXX"),
        1 => record[38..41].fill(b' '),
        // Any month has a 22nd and a 23rd.
        2 => {
            record[49] = record[49].min(b'2');
            record[50] = if record[50] == b'2' { b'3' } else { b'2' };
        }
        _ => {
            let digit = if record[51] == b'7' { b'8' } else { b'7' };
            record[51] = digit;
            record[52..63].fill(b' ');
        }
    }
    match is_entry {
        true => draft.faults.push((at, 4, 28)),
        // Another one may be open.
        false => draft.is_known = false,
    }
}

/// The instant of the last record.
fn last(draft: &Draft) -> i64 {
    draft.steps[draft.steps.len() - 1].instant
}

/// A key that is open is entered once more: 20. What it is entered with may be another message.
fn twice(mut draft: Draft, random: &mut Random) -> Draft {
    let open = draft.opened(draft.steps.len());
    if !open.is_empty() {
        let again = draft.messages[open[random.below(open.len())]].clone();
        let instant = last(&draft);
        draft.enter(&again, instant, random);
        draft.faults.push((draft.steps.len() - 1, 5, 20));
        maybe_worse(&mut draft, random);
    }
    draft
}

/// A key is withdrawn that is not open, or no longer: 22.
fn not_open(mut draft: Draft, random: &mut Random) -> Draft {
    let instant = last(&draft);
    let open = draft.opened(draft.steps.len());
    let is_open = |key: &[Vec<u8>; 4]| open.iter().any(|&at| draft.messages[at].key == *key);
    let gone = (0..draft.messages.len()).find(|&at| !is_open(&draft.messages[at].key));
    let of = match gone {
        Some(at) if random.once_in(2) => draft.messages[at].clone(),
        _ => dealt(&fitting(random)),
    };
    if !is_open(&of.key) {
        let record = record(&written(instant, random), b'W', &of.key);
        draft.steps.push(Step { instant, record, message: usize::MAX, is_entry: false });
        draft.faults.push((draft.steps.len() - 1, 5, 22));
    }
    draft
}

/// Messages behind those that are entered, or ends alone: 28 at the number of records.
fn left_over(mut draft: Draft, random: &mut Random) -> Draft {
    for _ in 0..random.length(1, 4) {
        let bytes = match random.below(3) {
            0 => Vec::new(),
            1 => random.bytes(b"<>A", 20),
            _ => message(random).bytes(),
        };
        draft.more.push(bytes);
    }
    draft.faults.push((draft.steps.len(), 6, 28));
    draft
}

/// Two faults: the earlier one counts, and in one record the one whose turn comes first.
fn two_faults(mut draft: Draft, random: &mut Random) -> Draft {
    let entry = draft.entry(random);
    let at = [entry, entry.saturating_sub(1), random.below(entry + 1)][random.below(3)];
    match random.below(4) {
        0 if random.once_in(2) => draft = left_over(draft, random),
        0 => draft = short_record(draft, random),
        1 if at > 0 => fall(&mut draft, at, random),
        2 if draft.steps[at].is_entry => disagree(&mut draft, at, random),
        // Not the time, which the other fault may need.
        _ => other_field(&mut draft, at, OTHERS.len() - 1, random),
    }
    match random.below(3) {
        0 => end_wrongly(&mut draft, entry, random),
        1 => refuse(&mut draft, entry, random),
        _ if entry > 0 => fall(&mut draft, entry, random),
        _ => refuse(&mut draft, entry, random),
    }
    draft
}

/// Under 64 places: 29, whatever is to be played.
fn few_places(draft: Draft, random: &mut Random) -> Draft {
    let mut draft = maybe_faulty(draft, random);
    draft.places = Some(random.length(0, BOOK - 1));
    draft.is_known = true;
    draft.faults = vec![(0, 0, 29)];
    draft
}

/// Under 16,384 numbers in the index: 25, also where the book has too few places.
fn short_index(draft: Draft, random: &mut Random) -> Draft {
    let mut draft = maybe_faulty(draft, random);
    draft.index = Some(random.length(0, INDEX - 1));
    draft.places = random.once_in(3).then(|| random.length(0, BOOK - 1));
    draft.is_known = true;
    draft.faults = vec![(0, 0, 25)];
    draft
}

/// By chance with a fault, by chance without.
fn maybe_faulty(draft: Draft, random: &mut Random) -> Draft {
    match random.below(4) {
        0 => field(draft, random),
        1 => left_over(draft, random),
        _ => draft,
    }
}

/// No record, with messages or without, which are then left over.
fn nothing(mut draft: Draft, random: &mut Random) -> Draft {
    draft.steps.clear();
    if random.once_in(2) {
        draft.more = draft.messages.drain(..).map(|message| message.bytes).collect();
    }
    draft.messages.clear();
    if !draft.more.is_empty() {
        draft.faults.push((0, 6, 28));
    }
    draft
}

/// A recording of any bytes, often of those that a record has.
fn any_bytes(mut draft: Draft, random: &mut Random) -> Draft {
    let length = [RECORD, RECORD, random.between(1, 3 * RECORD)][random.below(3)];
    let record = match random.below(2) {
        0 => (0..length).map(|_| random.bits() as u8).collect(),
        _ => random.bytes(b"0123456789T:+-EWCORB2 \n", length),
    };
    let step = Step { instant: 0, record, message: usize::MAX, is_entry: false };
    let at = random.below(draft.steps.len() + 1);
    draft.steps.insert(at, step);
    draft.is_known = false;
    draft
}

/// Every byte of a record of either sort set to every other, in a day of that record alone, with its
/// message where it enters.
pub fn sweep(seed: u64, mut each: impl FnMut(u64, Play)) {
    let random = &mut Random::new(seed ^ 0x5EE9, 0);
    let entries = vec![any_entry(random); BOOK];
    let mut number = 0;
    for (at, byte) in (0..RECORD).flat_map(|at| (0..=255).map(move |byte| (at, byte))) {
        let message = dealt(&fitting(random));
        for call in [b'E', b'W'] {
            let mut recording = record(&written(beginning(random), random), call, &message.key);
            recording[at] = byte;
            let ends = vec![message.bytes.len() as u64];
            let ends = if call == b'E' { ends } else { Vec::new() };
            let play = Play {
                sort: "one byte of one record",
                recording,
                buffer: message.bytes.clone(),
                ends,
                entries: entries.clone(),
                numbers: Numbers { open: random.bits(), total: random.bits() },
                index: INDEX,
                known: None,
            };
            each(number, play);
            number += 1;
        }
    }
}

impl Play {
    /// The day as text, for whoever looks at a difference.
    pub fn text(&self) -> String {
        let (places, Numbers { open, total }) = (self.entries.len(), self.numbers);
        let mut text = format!(
            "{}: {places} places, {open} open, {total} stored, index of {}, known {:?}\n",
            self.sort, self.index, self.known
        );
        for (at, record) in self.recording.chunks(RECORD).enumerate() {
            text.push_str(&format!("{at} {}\n", record.escape_ascii()));
        }
        text.push_str(&format!("ends {:?} of {} bytes\n", self.ends, self.buffer.len()));
        text.push_str(&String::from_utf8_lossy(&self.buffer));
        text
    }
}
