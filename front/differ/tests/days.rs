//! The days are what they promise: without these a run without differences would say little.

use differ::daybook::Plain;
use differ::days::{self, Call, Day};
use differ::kind::Kind;
use differ::value::{known_bic, HEADER_MOST};
use face::book::{parts, Entry, Key, BOOK};
use std::collections::BTreeSet;

/// The first days of the gate's run of seed 1.
fn all_days() -> impl Iterator<Item = Day> {
    (0..600).map(|number| days::day(1, number))
}

/// Those of a sort.
fn of_sort(sort: &'static str) -> impl Iterator<Item = Day> {
    all_days().filter(move |day| day.sort == sort)
}

/// Each call of a day, what the plain day book answers, and the number open before it.
fn called(day: &Day) -> Vec<(&Call, [u64; 3], usize)> {
    let mut book = Plain::of(day);
    let one = |call| {
        let open = book.numbers.open as usize;
        (call, book.call(day, call), open)
    };
    day.calls.iter().map(one).collect()
}

/// The key that an entry of a bulk names.
fn key_of(day: &Day, call: &Call) -> Option<Key> {
    match call {
        Call::Enter(bulk) => day.bulks[*bulk].known.ok().map(|entry| entry.key),
        _ => None,
    }
}

/// The open sums together.
fn sum(entries: &[Entry]) -> u128 {
    entries.iter().map(|entry| u128::from(entry.cents)).sum()
}

#[test]
fn every_sort_every_call_and_every_number() {
    let mut sorts = BTreeSet::new();
    let mut given = BTreeSet::new();
    for day in all_days() {
        sorts.insert(day.sort);
        for (call, answer, _) in called(&day) {
            let call = day.call_text(call);
            let name = call.split(' ').next().expect("a call has a name").to_string();
            given.insert((name.clone(), answer[0]));
            let is_none = !day.is_book || !day.is_summed && name != "find";
            assert!(!is_none || name == "total" || answer == [29, 0, 0], "{}: {call}", day.sort);
        }
    }
    assert_eq!(sorts, days::sorts().collect());
    let due = [
        ("check", &[0, 29][..]),
        ("enter", &[0, 2, 3, 14, 20, 21, 24, 25, 29]),
        ("find", &[0, 29]),
        ("total", &[0]),
        ("withdraw", &[0, 22, 29]),
    ];
    let each = |(name, numbers): (&str, &'static [u64])| {
        let name = name.to_string();
        numbers.iter().map(move |number| (name.clone(), *number))
    };
    assert_eq!(given, due.into_iter().flat_map(each).collect());
}

/// A full book turns one away, a withdrawal makes room, and the room is used.
#[test]
fn sixty_four_open_and_room_again() {
    let (mut turned_away, mut used_again, mut larger) = (0, 0, 0);
    for day in of_sort("from the empty book, 64 open") {
        let calls = called(&day);
        turned_away += calls.iter().filter(|call| call.1[0] == 21).count();
        let is_room = |pair: &&[(&Call, [u64; 3], usize)]| {
            matches!(pair[0], (Call::Withdraw(_), [0, 63, _], _))
                && matches!(pair[1], (Call::Enter(_), [0, 64, _], _))
        };
        used_again += calls.windows(2).filter(is_room).count();
        larger += usize::from(day.entries.len() > BOOK);
    }
    assert!(turned_away > 20 && used_again > 5 && larger > 5);
}

/// A key that was withdrawn is entered again; a key that is open is entered with other cents.
#[test]
fn a_key_comes_again() {
    let (mut again, mut otherwise) = (0, 0);
    for day in all_days() {
        let mut withdrawn = BTreeSet::new();
        let mut cents = std::collections::BTreeMap::new();
        for (call, answer, _) in called(&day) {
            match (call, key_of(&day, call), answer) {
                (Call::Withdraw(key), _, [0, ..]) => drop(withdrawn.insert(*key)),
                (_, Some(key), [0, _, worth]) => {
                    again += usize::from(withdrawn.contains(&key));
                    cents.insert(key, worth);
                }
                (Call::Enter(bulk), Some(key), [20, ..]) => {
                    let worth = day.bulks[*bulk].known.expect("it has a key").cents;
                    otherwise += usize::from(cents.get(&key).is_some_and(|open| *open != worth));
                }
                _ => {}
            }
        }
    }
    assert!(again > 50 && otherwise > 50, "{again} {otherwise}");
}

/// Two bulks of a day whose keys differ in one part alone, each of the four; a BIC of 8 and the same
/// with XXX.
#[test]
fn keys_that_are_nearly_the_same() {
    let mut apart = BTreeSet::new();
    let mut branches = 0;
    for day in of_sort("from the empty book, keys nearly the same") {
        let keys: Vec<Key> = day.bulks.iter().map(|bulk| bulk.known.expect("whole").key).collect();
        for (one, other) in keys.iter().flat_map(|one| keys.iter().map(move |other| (one, other))) {
            let (one, other) = (parts(one), parts(other));
            let differ: Vec<usize> = (0..4).filter(|&part| one[part] != other[part]).collect();
            if let [part] = differ[..] {
                apart.insert(part);
                branches += usize::from(part == 2 && [one[2], b"XXX"].concat() == other[2]);
            }
        }
    }
    assert_eq!(apart, (0..4).collect());
    assert!(branches > 10, "{branches}");
}

/// Two bulks of a day with one key, of which one has its payment type in the header and the other in
/// its items; CORE and B2B.
#[test]
fn one_key_wherever_the_payment_type_stands() {
    let mut services = BTreeSet::new();
    for day in of_sort("from the empty book, keys nearly the same") {
        let bulk = |bulk: &days::Bulk| (bulk.known.expect("whole").key, is_in_header(&bulk.bytes));
        let bulks: BTreeSet<(Key, bool)> = day.bulks.iter().map(bulk).collect();
        for (key, _) in bulks.iter().filter(|(key, is_in)| *is_in && bulks.contains(&(*key, false)))
        {
            services.insert(parts(key)[0].to_vec());
        }
    }
    assert_eq!(services, [b"B2B".to_vec(), b"CORE".to_vec()].into_iter().collect());
}

/// Two bulks of a day with one key, of which one is of version .02 and the other of version .08; and
/// keys with a BIC that .08 has alone.
#[test]
fn one_key_in_both_versions() {
    let (mut in_both, mut wider) = (0, 0);
    for day in of_sort("from the empty book, keys nearly the same") {
        let is_08 = |bytes: &[u8]| bytes.windows(7).any(|part| part == b"<BICFI>");
        let bulk = |bulk: &days::Bulk| (bulk.known.expect("whole").key, is_08(&bulk.bytes));
        let bulks: BTreeSet<(Key, bool)> = day.bulks.iter().map(bulk).collect();
        in_both += bulks.iter().filter(|(key, is)| *is && bulks.contains(&(*key, false))).count();
        let is_wider = |key: &Key| known_bic(Kind::Bic, parts(key)[2]).is_err();
        wider += bulks.iter().filter(|(key, _)| is_wider(key)).count();
    }
    assert!(in_both > 10 && wider > 10, "{in_both} {wider}");
}

/// Whether PmtTpInf stands in the header of a message.
fn is_in_header(message: &[u8]) -> bool {
    let text = String::from_utf8_lossy(message);
    text.find("<PmtTpInf>") < text.find("<DrctDbtTxInf>")
}

/// Books made by hand that are just books: 1 and 64 open, more than 64 places, the highest sum, and an
/// open key or huge cents past the open ones. An entry lifts one over the range.
#[test]
fn books_that_are_just_books() {
    let mut seen = BTreeSet::new();
    for day in all_days().filter(|day| day.is_book && day.is_summed && day.open > 0) {
        let (open, past) = day.entries.split_at(day.open);
        let doubled = past.iter().any(|entry| open.iter().any(|other| other.key == entry.key));
        let huge = past.iter().any(|entry| entry.cents > HEADER_MOST);
        let calls = called(&day);
        let lifted = calls.windows(2).any(|pair| pair[0].1[0] == 0 && pair[1].1[0] == 29);
        let known = day.bulks.iter().filter_map(|bulk| bulk.known.ok());
        let has_bulk = known.into_iter().any(|bulk| open.iter().any(|e| e.key == bulk.key));
        for (what, is) in [
            ("one open", day.open == 1),
            ("64 open", day.open == BOOK),
            ("64 open and more places", day.open == BOOK && past.len() > 1),
            ("an open key past the open ones", doubled),
            ("huge cents past the open ones", huge),
            ("the highest sum", sum(open) == u128::from(HEADER_MOST)),
            ("lifted over the range", lifted),
            ("a bulk of the day is open", has_bulk),
        ] {
            if is {
                seen.insert(what);
            }
        }
    }
    assert_eq!(seen.len(), 8, "{seen:?}");
}

/// Books that are just none, and for one reason alone.
#[test]
fn books_that_are_just_none() {
    let mut seen = BTreeSet::new();
    for day in all_days().filter(|day| !day.is_book) {
        let (places, open) = (day.entries.len(), day.open);
        let entries = &day.entries[..open.min(places)];
        let keys: BTreeSet<Key> = entries.iter().map(|entry| entry.key).collect();
        let is_doubled = keys.len() < entries.len();
        let is_above = sum(entries) > u128::from(HEADER_MOST);
        let wrapped = entries.iter().fold(0, |sum: u64, entry| sum.wrapping_add(entry.cents));
        let few = places < BOOK;
        let equal = |at: usize| entries.len() > at + 1 && entries[at].key == entries[at + 1].key;
        let ends = entries.len() > 2 && entries[0].key == entries[entries.len() - 1].key;
        for (what, is) in [
            ("no place", places == 0),
            ("63 places", places == BOOK - 1 && open <= places && !is_doubled && !is_above),
            ("65 open", open == BOOK + 1 && places > BOOK && !is_doubled && !is_above),
            ("more open than places", places == BOOK && open > BOOK && !is_doubled && !is_above),
            ("the most open", open == usize::MAX),
            ("two neighbours equal", !few && open <= BOOK && (0..BOOK).any(equal) && !is_above),
            ("first and last equal", !few && open <= BOOK && ends && !is_above),
            ("a cent above", sum(entries) == u128::from(HEADER_MOST) + 1 && !is_doubled),
            ("a sum that wraps", is_above && wrapped <= HEADER_MOST && !is_doubled),
        ] {
            if is {
                seen.insert(what);
            }
        }
        assert!(few || open > BOOK || is_doubled != is_above, "{}", day.sort);
    }
    assert_eq!(seen.len(), 9, "{seen:?}");
}

/// Books of which all is in order but the stored total: 29 for an entry and a withdrawal, whatever they
/// would come to, while a key is found and asking answers what is stored.
#[test]
fn books_with_another_total() {
    let mut seen = BTreeSet::new();
    for day in of_sort("another total than summing gives") {
        let open = &day.entries[..day.open];
        let due = sum(open) as u64;
        assert!(day.is_book && due != day.total);
        let calls = called(&day);
        let given = |call: fn(&Call) -> bool, answer: [u64; 3]| {
            calls.iter().any(|made| call(made.0) && made.1 == answer)
        };
        let stored = [0, day.open as u64, day.total];
        for (what, is) in [
            ("a cent more", day.total == due + 1),
            ("a cent less", day.total.checked_add(1) == Some(due)),
            ("nothing stored", day.total == 0),
            ("nothing open", day.open == 0),
            ("the most stored", day.total == u64::MAX),
            ("above the range", day.total > HEADER_MOST && day.total < u64::MAX),
            ("64 open", day.open == BOOK),
            ("an entry", given(|call| matches!(call, Call::Enter(_)), [29, 0, 0])),
            ("a withdrawal", given(|call| matches!(call, Call::Withdraw(_)), [29, 0, 0])),
            ("a key found", given(|call| matches!(call, Call::Find(_)), [0, 1, 0])),
            ("a key not found", given(|call| matches!(call, Call::Find(_)), [0, 0, 0])),
            ("asked", given(|call| matches!(call, Call::Total), stored)),
        ] {
            if is {
                seen.insert(what);
            }
        }
    }
    assert_eq!(seen.len(), 12, "{seen:?}");
}

#[test]
fn days_can_be_made_again() {
    for number in 0..60 {
        let (one, other) = (days::day(3, number), days::day(3, number));
        assert_eq!(one.text(), other.text());
        let bytes = |day: &Day| day.bulks.iter().map(|bulk| bulk.bytes.clone()).collect::<Vec<_>>();
        assert_eq!(bytes(&one), bytes(&other));
    }
}
