//! The day book: the library, the plain day book and what is known of a day are held against each
//! other, call by call: the answer, the number open, the stored total, and every place of the lent
//! list.

use crate::ask::Asker;
use crate::days::{Bulk, Call, Day};
use crate::face::Words;
use crate::indexed::filled;
use crate::tally::Name;
use crate::value::HEADER_MOST;
use ::face::book::{self, Entry, Key, Numbers, BOOK};

/// So many entries stand before and behind the lent ones, and must stay.
const BESIDE: usize = 2;

/// The library's book: the lent list between entries that are not lent, and the lent numbers.
struct Library {
    all: Vec<Entry>,
    numbers: Numbers,
}

/// The numbers of a day, as they are lent first.
fn numbers(day: &Day) -> Numbers {
    Numbers { open: day.open as u64, total: day.total }
}

impl Library {
    /// The book of a day, as it is lent first.
    fn of(day: &Day) -> Library {
        let beside = Entry { key: [0xEE; book::KEY], unused: [0xEE; 4], cents: u64::MAX / 3 };
        let beside = vec![beside; BESIDE];
        Library { all: [&beside, &day.entries[..], &beside].concat(), numbers: numbers(day) }
    }

    /// Makes a call.
    fn call(&mut self, day: &Day, call: &Call) -> Words {
        let end = self.all.len() - BESIDE;
        let lent = &mut self.all[BESIDE..end];
        match call {
            Call::Enter(bulk) => {
                let bytes = &day.bulks[*bulk].bytes;
                let mut index = filled(bytes.len().wrapping_add(self.numbers.open as usize));
                book::enter_with(lent, &mut self.numbers, bytes, &mut index)
            }
            Call::EnterShort(bulk, index) => {
                let bytes = &day.bulks[*bulk].bytes;
                let mut index = filled(bytes.len())[..*index].to_vec();
                book::enter_with(lent, &mut self.numbers, bytes, &mut index)
            }
            Call::Withdraw(key) => book::withdraw(lent, &mut self.numbers, key),
            Call::Find(key) => book::find(lent, &self.numbers, key),
            Call::Total => book::total(&self.numbers),
            Call::Check => book::check(lent, &self.numbers),
        }
    }

    /// The lent entries, byte for byte.
    fn lent(&self) -> Vec<u8> {
        bytes(&self.all[BESIDE..self.all.len() - BESIDE])
    }

    /// Those beside them.
    fn beside(&self) -> [&[Entry]; 2] {
        [&self.all[..BESIDE], &self.all[self.all.len() - BESIDE..]]
    }
}

/// The bytes of entries: each key and its cents, and not what is unused.
pub(crate) fn bytes(entries: &[Entry]) -> Vec<u8> {
    entries
        .iter()
        .flat_map(|entry| entry.key.into_iter().chain(entry.cents.to_le_bytes()))
        .collect()
}

/// The plain day book: its own list of entries, and its own numbers.
pub struct Plain {
    entries: Vec<plain::book::Entry>,
    pub numbers: Numbers,
}

/// A key as the plain day book has it.
pub(crate) fn plain_key(key: &Key) -> plain::book::Key {
    let part = |from: usize| key[from..].iter().copied();
    let mut parts = (part(0), part(4), part(39), part(50));
    let next = |part: &mut dyn Iterator<Item = u8>| part.next().expect("a key has 60 bytes");
    plain::book::Key {
        service: std::array::from_fn(|_| next(&mut parts.0)),
        msg_id: std::array::from_fn(|_| next(&mut parts.1)),
        bic: std::array::from_fn(|_| next(&mut parts.2)),
        date: std::array::from_fn(|_| next(&mut parts.3)),
    }
}

impl Plain {
    /// The book of a day, as it is lent first.
    pub fn of(day: &Day) -> Plain {
        let entry =
            |entry: &Entry| plain::book::Entry { key: plain_key(&entry.key), cents: entry.cents };
        Plain { entries: day.entries.iter().map(entry).collect(), numbers: numbers(day) }
    }

    /// Makes a call.
    pub fn call(&mut self, day: &Day, call: &Call) -> Words {
        let Numbers { open, total } = self.numbers;
        let mut book = plain::book::Book { entries: &mut self.entries, open: open as usize, total };
        let answer = match call {
            Call::Enter(bulk) => book.enter(&day.bulks[*bulk].bytes).map(|cents| [1, cents]),
            // "a single entry's 29 still precedes it"
            Call::EnterShort(..) => book.kept().and(Err((25, 0))),
            Call::Withdraw(key) => book.withdraw(&plain_key(key)).map(|cents| [1, cents]),
            Call::Find(key) => {
                let found = book.find(&plain_key(key));
                found.map(|at| at.map_or([0, 0], |at| [1, at as u64]))
            }
            Call::Total => Ok([book.open as u64, book.total]),
            Call::Check => book.kept().map(|_| [0, 0]),
        };
        self.numbers = Numbers { open: book.open as u64, total: book.total };
        match (answer, call) {
            (Ok([_, cents]), Call::Enter(_) | Call::Withdraw(_)) => [0, self.numbers.open, cents],
            (Ok([one, other]), _) => [0, one, other],
            (Err((number, place)), _) => [u64::from(number), place as u64, 0],
        }
    }

    /// The entries, byte for byte.
    fn lent(&self) -> Vec<u8> {
        plain_bytes(&self.entries)
    }
}

/// The bytes of the plain day book's entries, in the order of the library's.
pub(crate) fn plain_bytes(entries: &[plain::book::Entry]) -> Vec<u8> {
    let bytes = |entry: &plain::book::Entry| {
        let plain::book::Key { service, msg_id, bic, date } = entry.key;
        [&service[..], &msg_id, &bic, &date, &entry.cents.to_le_bytes()].concat()
    };
    entries.iter().flat_map(bytes).collect()
}

/// What is known of a day: whether what is lent is a book, and the list after each call. The bulks'
/// keys, cents and refusals are known from their making.
struct Known {
    entries: Vec<Entry>,
    open: usize,
    is_book: bool,
    is_summed: bool,
    /// What was stored first, and all accepted entries, less all accepted withdrawals.
    total: u64,
}

impl Known {
    /// The book of a day, as it is lent first.
    fn of(day: &Day) -> Known {
        let Day { open, total, is_book, is_summed, .. } = *day;
        Known { entries: day.entries.clone(), open, is_book, is_summed, total }
    }

    /// The number open and what is stored.
    fn numbers(&self) -> Numbers {
        Numbers { open: self.open as u64, total: self.total }
    }

    /// Where a key is open.
    fn at(&self, key: &Key) -> Option<usize> {
        self.entries[..self.open].iter().position(|entry| entry.key == *key)
    }

    /// What a call must answer.
    fn call(&mut self, day: &Day, call: &Call) -> Words {
        match call {
            Call::Total => [0, self.open as u64, self.total],
            _ if !self.is_book => [29, 0, 0],
            Call::Find(key) => self.at(key).map_or([0, 0, 0], |at| [0, 1, at as u64]),
            _ if !self.is_summed => [29, 0, 0],
            Call::Enter(bulk) => self.enter(&day.bulks[*bulk]),
            Call::EnterShort(..) => [25, 0, 0],
            Call::Withdraw(key) => self.at(key).map_or([22, 0, 0], |at| self.withdraw(at)),
            Call::Check => [0, 0, 0],
        }
    }

    /// The judge's own refusal, 20, 21, or the bulk stands behind the open ones.
    fn enter(&mut self, bulk: &Bulk) -> Words {
        let entry = match bulk.known {
            Err((number, place)) => return [u64::from(number), place as u64, 0],
            Ok(entry) if self.at(&entry.key).is_some() => return [20, 0, 0],
            Ok(_) if self.open == BOOK => return [21, 0, 0],
            Ok(entry) => entry,
        };
        self.entries[self.open] = entry;
        self.open += 1;
        self.total += entry.cents;
        self.is_book = self.total <= HEADER_MOST;
        [0, self.open as u64, entry.cents]
    }

    /// The entry goes, the open ones behind it move up to it, and all else keeps what it held.
    fn withdraw(&mut self, at: usize) -> Words {
        let last = self.entries[self.open - 1];
        let entry = self.entries.remove(at);
        self.entries.insert(self.open - 1, last);
        self.open -= 1;
        self.total -= entry.cents;
        [0, self.open as u64, entry.cents]
    }
}

impl Asker {
    /// A day, call by call.
    pub fn day(&mut self, name: &Name, day: &Day) {
        let text = day.text();
        let (mut library, mut plain) = (Library::of(day), Plain::of(day));
        let mut known = Known::of(day);
        let beside = Library::of(day);
        for (at, call) in day.calls.iter().enumerate() {
            let told = |what: &str| format!("{what}, call {at}: {}", day.call_text(call));
            let answers = [library.call(day, call), plain.call(day, call), known.call(day, call)];
            self.tally.met(answers[0][0]);
            let numbers = [library.numbers, plain.numbers, known.numbers()];
            let lists = [library.lent(), plain.lent(), bytes(&known.entries)];
            for (who, of) in [("plain", 1), ("known", 2)] {
                let (one, other) = (("library", &answers[0]), (who, &answers[of]));
                self.tally.hold(name, &|| told("answer"), text.as_bytes(), one, other);
                let (one, other) = (("library", &numbers[0]), (who, &numbers[of]));
                self.tally.hold(name, &|| told("numbers"), text.as_bytes(), one, other);
                let (one, other) = (("library", &lists[0][..]), (who, &lists[of][..]));
                let question = || told("places of 68 bytes");
                self.tally.hold_areas(name, &question, text.as_bytes(), one, other);
            }
            let stay = (("after", &library.beside()), ("before", &beside.beside()));
            self.tally.hold(name, &|| told("entries beside"), text.as_bytes(), stay.0, stay.1);
        }
    }
}
