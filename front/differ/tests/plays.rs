//! The days to be played back are what they promise: without these a run without differences would say
//! little.

use differ::kind::Kind;
use differ::playback::plain_words;
use differ::plays::{self, Play};
use differ::value::known_bic;
use face::book::{key, Numbers, BOOK};
use face::play::RECORD;
use face::INDEX;
use std::collections::BTreeSet;
use std::sync::LazyLock;

/// The days of the gate's run of seed 1, and what the plain playback answers to each.
static ALL: LazyLock<Vec<(Play, [u64; 10])>> = LazyLock::new(|| {
    let one = |play: Play| (plain_words(&play), play);
    (0..3_000)
        .map(|number| one(plays::play(1, number)))
        .map(|(words, play)| (play, words))
        .collect()
});

/// Each of them.
fn all_plays() -> impl Iterator<Item = (&'static Play, [u64; 10])> {
    ALL.iter().map(|(play, words)| (play, *words))
}

/// Those that are played to their end.
fn whole() -> impl Iterator<Item = (&'static Play, [u64; 10])> {
    all_plays().filter(|(_, words)| words[0] == 0)
}

/// The whole records of a day.
fn records(play: &Play) -> impl Iterator<Item = &[u8]> {
    play.recording.chunks_exact(RECORD)
}

/// The time of a record as text of 25 bytes.
fn time(record: &[u8]) -> String {
    record[..25].iter().map(|byte| char::from(byte & 0x7f)).collect()
}

/// Whether bytes have this part.
fn has(bytes: &[u8], part: &str) -> bool {
    bytes.windows(part.len()).any(|window| window == part.as_bytes())
}

/// The name of each thing that was seen.
struct Seen(BTreeSet<&'static str>);

impl Seen {
    /// Notes what is so.
    fn note<const N: usize>(&mut self, what: [(&'static str, bool); N]) {
        self.0.extend(what.into_iter().filter(|(_, is)| *is).map(|(name, _)| name));
    }
}

/// What is known from the making agrees with the plain playback, and nearly everything is known.
#[test]
fn every_sort_and_every_number() {
    let (mut sorts, mut given, mut known) = (BTreeSet::new(), BTreeSet::new(), 0);
    for (play, words) in all_plays() {
        sorts.insert(play.sort);
        given.insert(words[0]);
        if let Some((due, _)) = play.known {
            assert_eq!(words, due, "{}", play.text());
            known += 1;
        }
    }
    assert_eq!(sorts, plays::sorts().collect());
    for number in [0, 2, 3, 14, 20, 21, 22, 24, 25, 26, 27, 28, 29] {
        assert!(given.contains(&number), "{number}");
    }
    assert!(known > 2_000, "{known}");
}

/// Each sort gives the number that it is made for, and where faults meet, several.
#[test]
fn what_the_sorts_give() {
    let mut given = BTreeSet::new();
    for (play, words) in all_plays() {
        given.insert((play.sort, words[0]));
    }
    let of = |sort: &str| -> Vec<u64> {
        given.iter().filter(|(of, _)| *of == sort).map(|(_, number)| *number).collect()
    };
    assert_eq!(of("played to its end"), [0]);
    assert_eq!(of("a field of another kind"), [26]);
    assert_eq!(of("a short last record"), [26]);
    assert_eq!(of("a time that falls"), [0, 27]);
    assert_eq!(of("no message left"), [28]);
    assert_eq!(of("an end that falls or lies outside"), [28]);
    let has = |sort, due: &[u64]| due.iter().all(|number| of(sort).contains(number));
    assert!(has("an open key entered again", &[0, 3, 20, 28]));
    assert_eq!(of("a key withdrawn that is not open"), [22]);
    assert_eq!(of("messages left over"), [28]);
    assert!(has("64 open", &[0, 3, 20, 21, 28]), "{:?}", of("64 open"));
    assert_eq!(of("a book of few places"), [29]);
    assert_eq!(of("a short index"), [25]);
    assert_eq!(of("nothing to play"), [0, 28]);
    assert!(of("a key that does not agree").ends_with(&[22, 28]));
    assert!(of("two faults").len() >= 5, "{:?}", of("two faults"));
    assert!(of("a message that the judge refuses").len() >= 4);
    assert!(of("an end elsewhere").len() >= 4 && of("one byte of a record").len() >= 4);
}

/// The hour of October: the clock goes back and the instant does not; and the other way round, 27.
#[test]
fn the_hour_of_october() {
    let mut seen = Seen(BTreeSet::new());
    for (play, words) in all_plays() {
        let all: Vec<String> = records(play).map(time).collect();
        for (at, pair) in all.windows(2).enumerate() {
            let clocks = [&pair[0][..19], &pair[1][..19]];
            let is_passed = words[0] == 0 || words[1] as usize > at + 1;
            let falls = words[0] == 27 && words[1] as usize == at + 1;
            let in_october = pair.iter().all(|time| time.starts_with("2026-10-25T02"));
            seen.note([
                ("clock back, instant not", is_passed && clocks[1] < clocks[0]),
                ("clock on, instant back", falls && clocks[1] > clocks[0]),
                ("clock the same, instant on", is_passed && clocks[0] == clocks[1]),
                ("October's own hour", is_passed && in_october && clocks[1] < clocks[0]),
                ("an hour that comes again, backwards", falls && in_october),
                ("year 0001", is_passed && pair[0].starts_with("0001-01-01")),
                ("year 9999", is_passed && pair[1].starts_with("9999-12-31")),
                ("+14:00", is_passed && pair[0].ends_with("+14:00")),
                ("-14:00", is_passed && pair[0].ends_with("-14:00")),
                ("+00:00", is_passed && pair[0].ends_with("+00:00")),
                ("-00:00", is_passed && pair[0].ends_with("-00:00")),
                ("a leap day", is_passed && pair[1][5..].starts_with("02-29")),
            ]);
        }
    }
    assert_eq!(seen.0.len(), 12, "{:?}", seen.0);
}

/// What the keys of days that are played have, and their messages.
#[test]
fn keys_and_messages() {
    let mut seen = Seen(BTreeSet::new());
    for (play, words) in whole() {
        for record in records(play) {
            let bic = record[30..41].trim_ascii_end();
            seen.note([
                ("a MsgId of 12", record[62] != b' '),
                ("a MsgId of 1", record[51..63].trim_ascii_end().len() == 1),
                ("a BIC of 8", bic.len() == 8),
                ("a BIC of 11", bic.len() == 11),
                ("a wider BIC", known_bic(Kind::Bic, bic).is_err()),
                ("CORE", record[26..].starts_with(b"CORE")),
                ("B2B", record[26..].starts_with(b"B2B ")),
            ]);
        }
        let text = &play.buffer[..play.ends.last().map_or(0, |end| *end as usize)];
        let header = "</SttlmInf><PmtTpInf>";
        seen.note([
            ("version .02", has(text, "<BIC>")),
            ("version .08", has(text, "<BICFI>")),
            ("both versions", has(text, "<BIC>") && has(text, "<BICFI>")),
            ("payment type in the header", has(text, header)),
            ("payment type in the items", has(text, "</PmtId><PmtTpInf>")),
            ("bytes past the last end", play.buffer.len() > text.len()),
            ("nothing open", words[1] > 0 && words[2..] == [0; 8]),
        ]);
    }
    assert_eq!(seen.0.len(), 14, "{:?}", seen.0);
}

/// A key that was withdrawn is entered again, in one day, and withdrawn again; each place of the table has
/// cents, and one bulk has several.
#[test]
fn re_entered_and_every_sum() {
    let (mut again, mut gone_again, mut cells, mut several) = (0, 0, BTreeSet::new(), 0);
    for (play, words) in whole() {
        let calls: Vec<(u8, &[u8])> = records(play).map(|all| (all[25], &all[26..])).collect();
        let is_again = |(at, call): (usize, &(u8, &[u8]))| {
            call.0 == b'E' && calls[..at].contains(&(b'W', call.1))
        };
        again += calls.iter().enumerate().filter(|call| is_again(*call)).count();
        let gone = |call: &(u8, &[u8])| call.0 == b'W';
        let is_gone_again =
            |(at, call): (usize, &(u8, &[u8]))| gone(call) && calls[..at].contains(call);
        gone_again += calls.iter().enumerate().filter(|call| is_gone_again(*call)).count();
        let filled: Vec<usize> = (2..10).filter(|&cell| words[cell] > 0).collect();
        several += usize::from(play.ends.len() == 1 && filled.len() > 1);
        cells.extend(filled);
    }
    assert_eq!(cells.len(), 8);
    assert!(again > 30 && gone_again > 10 && several > 5, "{again} {gone_again} {several}");
}

/// Whether a lent place holds a key that a record of the day names.
fn has_own_key(play: &Play) -> bool {
    records(play).any(|record| {
        let parts = [&record[26..30], &record[51..63], &record[30..41], &record[41..51]];
        let key = key(parts).expect("each part has its place");
        play.entries.iter().any(|entry| entry.key == key)
    })
}

/// Books, indexes and ends at their limits.
#[test]
fn what_is_lent() {
    let mut seen = Seen(BTreeSet::new());
    for (play, words) in all_plays() {
        let places = play.entries.len();
        let end = |is: &dyn Fn(u64, u64) -> bool| {
            (0..play.ends.len())
                .any(|at| is(if at == 0 { 0 } else { play.ends[at - 1] }, play.ends[at]))
        };
        let buffer = play.buffer.len() as u64;
        let is_28 = words[0] == 28;
        let few = words[0] == 29 && words[1] == 0;
        seen.note([
            ("no place", few && places == 0),
            ("63 places", few && places == BOOK - 1),
            ("64 places", words[0] == 0 && places == BOOK),
            ("more places", words[0] == 0 && places > BOOK),
            ("no index", words[0] == 25 && play.index == 0),
            ("an index one short", words[0] == 25 && play.index == INDEX - 1),
            ("an index one short, and few places", words[0] == 25 && places < BOOK),
            ("an index just right", words[0] == 0 && play.index == INDEX),
            ("a longer index", words[0] == 0 && play.index > INDEX),
            ("an empty book lent", words[0] == 0 && play.numbers == Numbers::default()),
            ("rubbish lent", words[0] == 0 && play.numbers.open > 1 << 32),
            ("a key of the day lent", words[0] == 0 && has_own_key(play)),
            ("an end at u64::MAX", is_28 && end(&|_, end| end == u64::MAX)),
            ("an end one past", is_28 && end(&|_, end| end == buffer + 1)),
            ("an end one below", is_28 && end(&|before, end| before.checked_sub(1) == Some(end))),
            ("an end that stands still", words[0] == 3 && end(&|before, end| end == before)),
            ("an end at 0", is_28 && end(&|before, end| before > 0 && end == 0)),
        ]);
    }
    assert_eq!(seen.0.len(), 17, "{:?}", seen.0);
}

/// Recordings at their limits: none at all, short last records, left-over messages.
#[test]
fn recordings_at_their_limits() {
    let mut seen = Seen(BTreeSet::new());
    for (play, words) in all_plays() {
        let (length, rest) = (play.recording.len(), play.recording.len() % RECORD);
        let count = length.div_ceil(RECORD) as u64;
        let is_last = words[1] + 1 == count;
        seen.note([
            ("nothing, and no message", words[0] == 0 && length == 0),
            ("nothing, and messages", words[0] == 28 && length == 0),
            ("one byte behind the last", words[0] == 26 && rest == 1 && is_last && count > 1),
            ("one byte short", words[0] == 26 && rest == RECORD - 1 && is_last),
            ("one byte alone", words[0] == 26 && length == 1),
            ("short, and refused before", rest > 0 && words[0] != 26),
            ("left over", words[0] == 28 && words[1] == count && count > 0),
            ("refused at the first", words[0] == 28 && words[1] == 0 && count > 1),
            ("refused at a later one", words[0] == 28 && words[1] > 0 && !is_last),
            ("67 records", words[0] == 21 && count > 66),
        ]);
    }
    assert_eq!(seen.0.len(), 10, "{:?}", seen.0);
}

/// The sweep sets each of 64 positions to each of 256 bytes, of an entry and of a withdrawal; some of them
/// are still of their kind.
#[test]
fn the_sweep_is_whole() {
    let mut positions = vec![BTreeSet::new(); RECORD];
    let (mut cases, mut is_accepted) = (0_u64, 0);
    plays::sweep(1, |number, play| {
        assert_eq!((number, play.recording.len()), (cases, RECORD));
        let at = number as usize / 2 / 256;
        positions[at].insert((play.recording[at], play.ends.len()));
        cases += 1;
        is_accepted += u64::from(number % 16 == 0 && plain_words(&play)[0] == 0);
    });
    assert_eq!(cases, 64 * 256 * 2);
    assert!(positions.iter().all(|bytes| bytes.len() == 512));
    assert!(is_accepted > 5, "{is_accepted}");
}

#[test]
fn plays_can_be_made_again() {
    for number in 0..100 {
        assert_eq!(plays::play(3, number).text(), plays::play(3, number).text());
    }
}
