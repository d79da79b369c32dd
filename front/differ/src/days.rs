//! Days: a lent book, and the calls made on it one after the other, with what is known of each.

use crate::message::{accepted, Message, Plan, What, INSTRUMENTS};
use crate::random::Random;
use crate::typed;
use crate::value::{self, known_bic, HEADER_MOST};
use crate::versions;
use ::face::book::{self, Entry, Key, BOOK};
use ::face::INDEX;

/// A message to enter, and what is known of it: its entry, or the judge's own refusal.
pub struct Bulk {
    pub bytes: Vec<u8>,
    pub known: Result<Entry, (u8, usize)>,
}

/// One call.
pub enum Call {
    /// The bulk of this number is entered.
    Enter(usize),
    /// The same with an index of so many numbers, which are too few.
    EnterShort(usize, usize),
    Withdraw(Key),
    Find(Key),
    Total,
    Check,
}

/// A book as it is lent first, the bulks that come up, and the calls.
pub struct Day {
    pub sort: &'static str,
    pub entries: Vec<Entry>,
    pub open: usize,
    /// The open total, as it is stored.
    pub total: u64,
    /// Whether that is a book, which is known from its making.
    pub is_book: bool,
    /// Of a book: whether the stored total is what summing gives, which is known too.
    pub is_summed: bool,
    pub bulks: Vec<Bulk>,
    pub calls: Vec<Call>,
}

type Make = fn(&mut Random) -> Day;

const DAYS: &[(&str, Make)] = &[
    ("from the empty book", ordinary),
    ("from the empty book, keys nearly the same", related),
    ("from the empty book, 64 open", full),
    ("a book made by hand", handmade),
    ("a book made by hand, the highest sum", highest),
    ("under 64 places", few_places),
    ("over 64 open", many_open),
    ("two open keys equal", two_equal),
    ("a sum above the range", sum_above),
    ("a sum that would wrap", sum_wraps),
    ("another total than summing gives", other_total),
];

/// The names of all sorts.
pub fn sorts() -> impl Iterator<Item = &'static str> {
    DAYS.iter().map(|(sort, _)| *sort)
}

/// One day of the run with this seed.
pub fn day(seed: u64, number: u64) -> Day {
    let random = &mut Random::new(seed ^ 0xDA7, number);
    let (sort, make) = DAYS[number as usize % DAYS.len()];
    Day { sort, ..make(random) }
}

impl Day {
    /// A day on these places, which are a book, with the sum of its open ones stored, and with calls
    /// that name these bulks or what the places hold.
    fn on(entries: Vec<Entry>, open: usize, bulks: Vec<Bulk>, random: &mut Random) -> Day {
        let many = random.between(1, 60);
        let calls = (0..many).map(|_| call(&bulks, &entries, random)).collect();
        let total = entries[..open].iter().map(|entry| entry.cents).sum();
        Day { sort: "", entries, open, total, is_book: true, is_summed: true, bulks, calls }
    }

    /// The day as text, for whoever looks at a difference.
    pub fn text(&self) -> String {
        let (places, book) = (self.entries.len(), if self.is_book { "a book" } else { "no book" });
        let Day { sort, open, total, .. } = self;
        let mut text = format!("{sort}: {places} places, {open} open, {total} stored, {book}\n");
        for (at, entry) in self.entries.iter().enumerate() {
            text.push_str(&format!("{at} {}\n", entry_text(entry)));
        }
        for call in &self.calls {
            text.push_str(&format!("{}\n", self.call_text(call)));
        }
        text
    }

    /// One call as text.
    pub fn call_text(&self, call: &Call) -> String {
        match call {
            Call::Enter(bulk) => match &self.bulks[*bulk].known {
                Ok(entry) => format!("enter bulk {bulk}, {}", entry_text(entry)),
                Err(refusal) => format!("enter bulk {bulk}, refused {refusal:?}"),
            },
            Call::EnterShort(bulk, index) => format!("enter bulk {bulk}, index of {index}"),
            Call::Withdraw(key) => format!("withdraw {}", key.escape_ascii()),
            Call::Find(key) => format!("find {}", key.escape_ascii()),
            Call::Total => "total".to_string(),
            Call::Check => "check".to_string(),
        }
    }
}

/// An entry as text.
fn entry_text(entry: &Entry) -> String {
    format!("{} {}", entry.key.escape_ascii(), entry.cents)
}

/// A call by chance. The keys are those of the bulks, those that the places hold, and any.
fn call(bulks: &[Bulk], entries: &[Entry], random: &mut Random) -> Call {
    match random.below(16) {
        0 if !bulks.is_empty() => short(random.below(bulks.len()), random),
        0..=6 if !bulks.is_empty() => Call::Enter(random.below(bulks.len())),
        0..=10 => Call::Withdraw(some_key(bulks, entries, random)),
        11..=13 => Call::Find(some_key(bulks, entries, random)),
        14 => Call::Check,
        _ => Call::Total,
    }
}

/// An entry with too short an index, often by one number.
fn short(bulk: usize, random: &mut Random) -> Call {
    Call::EnterShort(bulk, random.length(0, INDEX - 1))
}

/// A key that may well be open: mostly a bulk's own, now and then with one byte otherwise.
fn some_key(bulks: &[Bulk], entries: &[Entry], random: &mut Random) -> Key {
    let known: Vec<Key> = bulks.iter().filter_map(|bulk| bulk.known.ok()).map(|e| e.key).collect();
    let mut key = match random.below(8) {
        0 if !entries.is_empty() => entries[random.below(entries.len())].key,
        1 => any_key(random),
        _ if !known.is_empty() => known[random.below(known.len())],
        _ => any_key(random),
    };
    if random.once_in(6) {
        key[random.below(key.len())] ^= 1 << random.below(8);
    }
    key
}

/// A key of any bytes.
fn any_key(random: &mut Random) -> Key {
    std::array::from_fn(|_| random.bits() as u8)
}

/// An entry of any bytes.
pub(crate) fn any_entry(random: &mut Random) -> Entry {
    let unused = std::array::from_fn(|_| random.bits() as u8);
    Entry { key: any_key(random), unused, cents: random.bits() }
}

/// So many places, which hold anything.
pub(crate) fn places(count: usize, random: &mut Random) -> Vec<Entry> {
    (0..count).map(|_| any_entry(random)).collect()
}

/// How many places a book has: mostly just as many as it must.
pub(crate) fn enough(random: &mut Random) -> usize {
    match random.below(4) {
        0 => random.between(BOOK + 1, BOOK + 9),
        1 => random.between(BOOK + 10, 3 * BOOK),
        _ => BOOK,
    }
}

/// A small message, by chance indented or spaced out.
pub(crate) fn message(random: &mut Random) -> Message {
    let (items, small) = (random.between(1, 3), !random.once_in(8));
    accepted(&Plan { items, small, ..Plan::by_chance(random, 1) }, random)
}

/// A message that is known to be accepted, and its entry: the key is made from its parts.
fn whole(message: &Message) -> Bulk {
    let value = |name| &message.parts[message.header_value(name)].bytes[..];
    let service = &message.parts[services(message)[0]].bytes;
    let bic = &message.parts[message.header_bic()].bytes;
    let key = book::key([service, value("MsgId"), bic, value("IntrBkSttlmDt")]);
    let key = key.expect("each value has its place in the key");
    let entry = Entry { key, unused: [0; 4], cents: message.cents };
    Bulk { bytes: message.bytes(), known: Ok(entry) }
}

/// The parts that are LclInstrm, of the header or of the items.
pub(crate) fn services(message: &Message) -> Vec<usize> {
    message.parts_that(|part| part.what == What::Value(INSTRUMENTS))
}

/// A message that the judge is known to refuse.
pub(crate) fn refused(mut message: Message, random: &mut Random) -> Bulk {
    match random.below(5) {
        0 => Bulk { bytes: Vec::new(), known: Err((3, 0)) },
        1 => Bulk { bytes: b"<?xml>".to_vec(), known: Err((2, 0)) },
        2 if message.items.len() > 1 => {
            let last = message.items.len() - 1;
            let id = message.parts[message.transactions()[0]].bytes.clone();
            message.set_transaction(last, &id);
            let place = message.place(message.transactions()[last]);
            Bulk { known: Err((24, place)), bytes: message.bytes() }
        }
        3 => {
            let count = message.header_value("NbOfTxs");
            message.parts[count].bytes = b"77".to_vec();
            Bulk { known: Err((14, message.place(count))), bytes: message.bytes() }
        }
        _ => {
            // Before the white space at the end something is always due.
            let due = message.bytes().trim_ascii_end().len();
            let bytes = message.bytes()[..random.below(due)].to_vec();
            Bulk { known: Err((3, bytes.len())), bytes }
        }
    }
}

/// A message with one part of its key otherwise, however little; or with its key, and PmtTpInf at the
/// other place, or in the other version, or all else otherwise.
pub(crate) fn relative(mut message: Message, random: &mut Random) -> Message {
    let ways = ["MsgId", "BIC", "IntrBkSttlmDt", "LclInstrm", "PmtTpInf", "version", "key"];
    match random.pick(&ways) {
        "LclInstrm" => {
            let is_core = message.parts[services(&message)[0]].bytes == b"CORE";
            serve(&mut message, if is_core { b"B2B" } else { b"CORE" });
        }
        "PmtTpInf" => message = typed::moved(&message),
        "version" => message = versions::moved(&message).unwrap_or(message),
        "key" => message = other_of_key(&message, random),
        name => {
            let part = of_key(&message, name);
            message.parts[part].bytes = near(name, &message.parts[part].bytes, random);
        }
    }
    message
}

/// Gives a message this LclInstrm, wherever it stands.
fn serve(message: &mut Message, service: &[u8]) {
    for part in services(message) {
        message.parts[part].bytes = service.to_vec();
    }
}

/// The part of the header that a key takes for this name.
fn of_key(message: &Message, name: &str) -> usize {
    match name {
        "BIC" => message.header_bic(),
        _ => message.header_value(name),
    }
}

/// Another message, with other items, that has the key of this one. It is of a version whose BICs may
/// be that one.
fn other_of_key(message: &Message, random: &mut Random) -> Message {
    let bic = &message.parts[message.header_bic()].bytes;
    let mut other = self::message(random);
    while known_bic(other.version.bic().1, bic).is_err() {
        other = self::message(random);
    }
    for name in ["MsgId", "BIC", "IntrBkSttlmDt"] {
        let (from, to) = (of_key(message, name), of_key(&other, name));
        other.parts[to].bytes = message.parts[from].bytes.clone();
    }
    serve(&mut other, &message.parts[services(message)[0]].bytes);
    other
}

/// Another legal value of an element, nearly the same.
fn near(name: &str, value: &[u8], random: &mut Random) -> Vec<u8> {
    let mut bytes = value.to_vec();
    match (name, bytes.len()) {
        // Any month has a 22nd and a 23rd.
        ("IntrBkSttlmDt", _) => {
            bytes[8] = bytes[8].min(b'2');
            bytes[9] = if bytes[9] == b'2' { b'3' } else { b'2' };
        }
        ("BIC", 8) => bytes.extend(b"XXX"),
        ("BIC", _) => bytes.truncate(8),
        _ => bytes = value::near_reference(value, random),
    }
    bytes
}

/// A few messages: some related to each other, some that the judge refuses.
fn pool(count: usize, random: &mut Random) -> Vec<Bulk> {
    let mut last = message(random);
    let mut bulks = Vec::new();
    for _ in 0..count {
        last = match random.below(4) {
            0 => relative(last, random),
            _ => message(random),
        };
        bulks.push(if random.once_in(6) { refused(last.clone(), random) } else { whole(&last) });
    }
    bulks
}

/// A day from the empty book, whatever its places hold.
fn ordinary(random: &mut Random) -> Day {
    let count = random.between(1, 8);
    let (entries, bulks) = (places(enough(random), random), pool(count, random));
    Day::on(entries, 0, bulks, random)
}

/// The same, and all bulks come from one, each from any before it.
fn related(random: &mut Random) -> Day {
    let mut messages = vec![message(random)];
    for _ in 0..random.between(2, 12) {
        let from = messages[random.below(messages.len())].clone();
        messages.push(relative(from, random));
    }
    let bulks = messages.iter().map(whole).collect();
    Day::on(places(enough(random), random), 0, bulks, random)
}

/// The same, with more bulks than there is room for: all are entered; then one goes and another comes,
/// ten times; then come calls by chance.
fn full(random: &mut Random) -> Day {
    let bases: Vec<Message> = (0..3).map(|_| message(random)).collect();
    let count = random.between(BOOK, BOOK + 6);
    let numbered = |number: usize| {
        let mut message = bases[number % bases.len()].clone();
        let part = message.header_value("MsgId");
        message.parts[part].bytes = format!("D{number}").into_bytes();
        whole(&message)
    };
    let mut bulks: Vec<Bulk> = (0..count).map(numbered).collect();
    bulks.push(refused(bases[0].clone(), random));
    let mut day = Day::on(places(enough(random), random), 0, bulks, random);
    let mut calls: Vec<Call> = (0..count).map(Call::Enter).collect();
    for _ in 0..10 {
        let goes = day.bulks[random.below(count)].known.expect("it is whole").key;
        calls.extend([Call::Withdraw(goes), Call::Enter(random.below(count))]);
        calls.push(Call::Enter(random.between(BOOK - 1, count - 1)));
    }
    calls.append(&mut day.calls);
    Day { calls, ..day }
}

/// Entries of which so many may be open in a book: their keys are all different, and their sum is
/// exactly this. Some keys are those of the bulks. What stands past them is anything, also what
/// stands among them.
fn book_of(sum: u64, open: usize, bulks: &[Bulk], random: &mut Random) -> Vec<Entry> {
    let mut entries = places(enough(random).max(open), random);
    let known = bulks.iter().filter_map(|bulk| bulk.known.ok());
    for entry in known {
        let place = random.below(entries.len());
        if entries.iter().all(|other| other.key != entry.key) {
            entries[place].key = entry.key;
        }
    }
    let mut rest = sum;
    for place in &mut entries[..open] {
        place.cents = random.worth(0, rest.max(1)).min(rest);
        rest -= place.cents;
    }
    if open > 0 {
        entries[random.below(open)].cents += rest;
        for place in open..entries.len() {
            if random.once_in(3) {
                entries[place] = entries[random.below(open)];
            }
        }
    }
    entries
}

/// So many open as a book has made by hand; the ends often.
fn some_open(random: &mut Random) -> usize {
    random.length(1, BOOK)
}

/// A book made by hand: keys of any bytes, and any sum in the range.
fn handmade(random: &mut Random) -> Day {
    let bulks = pool(6, random);
    let (sum, open) = (random.worth(0, HEADER_MOST / 2), some_open(random));
    let entries = book_of(sum, open, &bulks, random);
    Day::on(entries, open, bulks, random)
}

/// The same with the highest sum, or a little less: an entry lifts it over the range.
fn highest(random: &mut Random) -> Day {
    let bulks = pool(6, random);
    let (less, open) = ([0, 1, 10_000][random.below(3)], some_open(random));
    let entries = book_of(HEADER_MOST - less, open, &bulks, random);
    Day::on(entries, open, bulks, random)
}

/// A day on a book made by hand, in which every call is tried at least once.
fn tried(open: usize, random: &mut Random) -> Day {
    let bulks = pool(3, random);
    let entries = book_of(random.worth(0, HEADER_MOST), open, &bulks, random);
    let mut day = Day::on(entries, open, bulks, random);
    let keys = [some_key(&day.bulks, &day.entries, random), day.entries[0].key];
    let each = [Call::Withdraw(keys[0]), Call::Find(keys[1]), Call::Total, short(0, random)];
    day.calls.push(Call::Enter(0));
    day.calls.truncate(6);
    day.calls.extend(each);
    day.calls.push(Call::Check);
    day
}

/// No book: a book made by hand, of which something is otherwise. What is stored is the sum, as far as
/// it goes, or anything.
fn none(open: usize, random: &mut Random, break_it: impl FnOnce(&mut Day, &mut Random)) -> Day {
    let mut day = tried(open, random);
    day.is_book = false;
    break_it(&mut day, random);
    let opened = &day.entries[..day.open.min(day.entries.len())];
    let sum = opened.iter().fold(0, |sum: u64, entry| sum.wrapping_add(entry.cents));
    day.total = [sum, sum, random.bits()][random.below(3)];
    day
}

/// A book made by hand, by chance without an open one, of which all is in order but what is stored.
fn other_total(random: &mut Random) -> Day {
    let open = if random.once_in(4) { 0 } else { some_open(random) };
    let mut day = tried(open, random);
    let sum = day.total;
    let others =
        [sum + 1, sum.wrapping_sub(1), 0, u64::MAX, random.bits(), random.worth(0, HEADER_MOST)];
    day.total = others[random.below(others.len())];
    if day.total == sum {
        day.total = sum + 1;
    }
    day.is_summed = false;
    day
}

/// No book: under 64 places. So many are open as there are places, or more, or none.
fn few_places(random: &mut Random) -> Day {
    none(some_open(random), random, |day, random| {
        let places = random.length(0, BOOK - 1);
        day.entries.truncate(places);
        day.open = [0, places, day.open][random.below(3)];
    })
}

/// No book: over 64 open, and nothing else is wrong with them. Or more than there are places.
fn many_open(random: &mut Random) -> Day {
    let open = random.length(BOOK + 1, BOOK + 9);
    none(open, random, |day, random| match random.below(4) {
        0 => day.entries.truncate(BOOK),
        1 => day.open = [usize::MAX, 1 << 63, 1 << 32][random.below(3)],
        _ => {}
    })
}

/// No book: two open keys equal, anywhere among them.
fn two_equal(random: &mut Random) -> Day {
    let open = random.length(2, BOOK);
    none(open, random, |day, random| {
        let one = random.length(0, open - 2);
        let other = random.length(one + 1, open - 1);
        day.entries[other].key = day.entries[one].key;
    })
}

/// No book: the open sums together are above the range, by one cent or by more.
fn sum_above(random: &mut Random) -> Day {
    let open = some_open(random);
    none(open, random, |day, random| {
        let sum: u64 = day.entries[..open].iter().map(|entry| entry.cents).sum();
        let more = [1, 2, random.worth(1, HEADER_MOST)][random.below(3)];
        day.entries[random.below(open)].cents += HEADER_MOST - sum + more;
    })
}

/// No book: the open sums would come to little or nothing in 64 bits.
fn sum_wraps(random: &mut Random) -> Day {
    let open = random.length(2, BOOK);
    none(open, random, |day, random| {
        day.entries[..open].iter_mut().for_each(|entry| entry.cents = 0);
        let one = random.length(0, open - 2);
        let other = random.length(one + 1, open - 1);
        let large = u64::MAX - random.worth(0, HEADER_MOST);
        let little = random.worth(0, HEADER_MOST);
        day.entries[one].cents = large;
        day.entries[other].cents = little.wrapping_sub(large);
    })
}
