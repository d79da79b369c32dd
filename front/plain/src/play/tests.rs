//! Playback's own words, one after the other.

use super::*;
use crate::book::Entry;

const EXAMPLE: &str = include_str!("../../../../samples/example.xml");

/// What a place holds before anything is entered there.
const HELD: Entry =
    Entry { key: Key { service: [7; 4], msg_id: [7; 35], bic: [7; 11], date: [7; 10] }, cents: 7 };

/// A record of these fields.
fn fields(time: &str, call: &str, [service, bic, date, msg_id]: [&str; 4]) -> String {
    format!("{time}{call}{service:4}{bic:11}{date}{msg_id:12}\n")
}

/// A record of the example's key, under another MsgId.
fn record(time: &str, call: &str, msg_id: &str) -> String {
    fields(time, call, ["CORE", "BANKDEFF", "2010-12-03", msg_id])
}

/// The same at one time.
fn at_noon(call: &str, msg_id: &str) -> String {
    record("2010-12-01T12:00:00+01:00", call, msg_id)
}

/// The example under another MsgId.
fn message(msg_id: &str) -> String {
    EXAMPLE.replacen("MSG/1", msg_id, 1)
}

/// The key of the example, under another MsgId.
fn named(msg_id: &str) -> Key {
    key(message(msg_id).as_bytes())
}

/// A day: its records, and its messages with where they end.
struct Made {
    recording: String,
    buffer: String,
    ends: Vec<u64>,
}

impl Made {
    /// Of these records and these messages.
    fn of<R: AsRef<str>, M: AsRef<str>>(records: &[R], messages: &[M]) -> Made {
        let (mut buffer, mut ends) = (String::new(), Vec::new());
        for message in messages {
            buffer.push_str(message.as_ref());
            ends.push(buffer.len() as u64);
        }
        let recording = records.iter().map(AsRef::as_ref).collect();
        Made { recording, buffer, ends }
    }

    /// Of these records, whose entries name these messages.
    fn named<R: AsRef<str>>(records: &[R], ids: &[&str]) -> Made {
        Made::of(records, &ids.iter().map(|id| message(id)).collect::<Vec<_>>())
    }

    /// Played on a book of 64 places that is lent with something in it: the answer, and which MsgIds are
    /// open.
    fn played(&self) -> (Result<Played, Refusal>, Vec<String>) {
        let mut entries = vec![HELD; MOST];
        let mut book = Book { entries: &mut entries, open: 5, total: 99 };
        let day = Day {
            recording: self.recording.as_bytes(),
            buffer: self.buffer.as_bytes(),
            ends: &self.ends,
        };
        let answer = play(&day, &mut book);
        assert_eq!(book.kept(), Ok(()));
        let (open, total) = (book.open, book.total);
        if let Ok(played) = answer {
            assert_eq!(played.table.as_flattened().iter().sum::<u64>(), total);
        }
        let id = |entry: &Entry| String::from_utf8_lossy(unpadded(&entry.key.msg_id)).into_owned();
        (answer, entries[..open].iter().map(id).collect())
    }

    /// The refusal, and which MsgIds are open.
    fn refused(&self) -> (Refusal, Vec<String>) {
        let (answer, open) = self.played();
        (answer.expect_err("the day is refused"), open)
    }

    /// The number of records and the table of a day that is played to its end.
    fn table(&self) -> (usize, Table) {
        let played = self.played().0.expect("the day is played to its end");
        (played.records, played.table)
    }
}

/// A day of one withdrawal with this record: 22 where every field is of its kind, since nothing is open.
fn of_record(record: &str) -> Refusal {
    Made::named(&[record], &[]).refused().0
}

/// A table with these cents of CORE RCUR.
fn recurrent(cents: u64) -> Table {
    [[0, cents, 0, 0], [0; 4]]
}

/// Entered, withdrawn, entered again.
#[test]
fn a_day_is_played() {
    let calls = [("E", "A"), ("E", "B"), ("W", "A"), ("E", "C"), ("E", "A"), ("W", "C")];
    let records = calls.map(|(call, id)| at_noon(call, id));
    let day = Made::named(&records, &["A", "B", "C", "A"]);
    let table = recurrent(2468);
    assert_eq!(
        day.played(),
        (Ok(Played { records: 6, table }), ["B", "A"].map(String::from).to_vec())
    );
}

/// "The run first empties the book", and nothing more where there is nothing to play.
#[test]
fn nothing_to_play() {
    let day = Made::named::<&str>(&[], &[]);
    assert_eq!(day.played(), (Ok(Played { records: 0, table: Table::default() }), vec![]));
}

/// "02:30 at +02:00 comes before 02:30 at +01:00 in October".
#[test]
fn the_hour_of_october() {
    let summer = record("2026-10-25T02:30:00+02:00", "E", "A");
    let winter = record("2026-10-25T02:30:00+01:00", "E", "B");
    let day = Made::named(&[&summer, &winter], &["A", "B"]);
    assert_eq!(day.table(), (2, recurrent(2468)));
    let day = Made::named(&[&winter, &summer], &["B", "A"]);
    assert_eq!(day.refused(), ((27, 1), vec!["B".to_string()]));
    // A minute of the clock back, an hour on.
    let later = record("2026-10-25T02:29:59+01:00", "E", "B");
    assert_eq!(Made::named(&[&summer, &later], &["A", "B"]).table().0, 2);
}

/// "Times must not fall as instants": equal ones do not, however they are written.
#[test]
fn instants() {
    for (one, other, order) in [
        ("2026-10-25T01:00:00+00:00", "2026-10-25T01:00:00-00:00", 0),
        ("2026-10-25T15:00:00+14:00", "2026-10-24T11:00:00-14:00", 0),
        ("2026-12-31T23:59:59+00:00", "2027-01-01T00:00:00+00:00", 1),
        ("2026-12-31T23:30:00-00:30", "2027-01-01T00:00:00+00:00", 0),
        ("2024-02-28T23:59:59+00:00", "2024-02-29T00:00:00+00:00", 1),
        ("2024-02-29T23:59:59+00:00", "2024-03-01T00:00:00+00:00", 1),
        ("2023-02-28T23:59:59+00:00", "2023-03-01T00:00:00+00:00", 1),
        ("1900-02-28T23:59:59+00:00", "1900-03-01T00:00:00+00:00", 1),
        ("2000-02-29T23:59:59+00:00", "2000-03-01T00:00:00+00:00", 1),
        ("2026-10-25T02:30:00+01:59", "2026-10-25T02:30:00+01:58", 60),
        // The first instant that can be written, and the last.
        ("0001-01-01T00:00:00+14:00", "0001-01-01T00:00:00+13:59", 60),
        ("9999-12-31T23:59:59-13:59", "9999-12-31T23:59:59-14:00", 60),
    ] {
        let (first, second) = (instant(one.as_bytes()), instant(other.as_bytes()));
        assert_eq!(second.unwrap() - first.unwrap(), order, "{one} {other}");
    }
    let year = |year: &str| instant(format!("{year}-01-01T00:00:00+00:00").as_bytes()).unwrap();
    let days = |from: &str, to: &str| (year(to) - year(from)) / 86_400;
    assert_eq!((days("2023", "2024"), days("2024", "2025")), (365, 366));
    assert_eq!((days("1900", "1901"), days("2000", "2001"), days("0001", "0002")), (365, 366, 365));
    // The days from 1970 to 2000, and the whole range.
    assert_eq!((days("1970", "2000"), days("0001", "9999")), (10_957, 3_651_694));
}

/// The years at the ends of the range, with the offsets that lead out of it.
#[test]
fn the_first_and_the_last_time() {
    let first = record("0001-01-01T00:00:00+14:00", "E", "A");
    let second = record("0001-01-01T00:00:00-14:00", "E", "B");
    let last = record("9999-12-31T23:59:59-14:00", "W", "A");
    let day = Made::named(&[&first, &second, &last], &["A", "B"]);
    assert_eq!(day.table(), (3, recurrent(1234)));
    let day = Made::named(&[&last, &first], &["A"]);
    assert_eq!(day.refused().0, (22, 0));
    let day = Made::named(&[&second, &first], &["B", "A"]);
    assert_eq!(day.refused().0, (27, 1));
}

/// What is no time of a record.
const NO_TIMES: [&str; 16] = [
    "2010-12-01T12:00:00Z     ",
    "2010-12-01T12:00:00      ",
    "2010-12-01T12:00:00.000Z ",
    "2010-12-01T12:00:00.00001",
    "2010-12-01T12:00:00.1+1:0",
    "2010-12-01T12:00:00+14:01",
    "2010-12-01T12:00:00-14:01",
    "2010-12-01T12:00:00+13:60",
    "2010-12-01T12:00:60+01:00",
    "2010-12-01T24:00:00+01:00",
    "2010-11-31T12:00:00+01:00",
    "1900-02-29T12:00:00+01:00",
    "0000-12-01T12:00:00+01:00",
    "2010-12-01t12:00:00+01:00",
    "2010-12-01T12:00:00 01:00",
    "                         ",
];

/// Keys, and the number that a withdrawal of each gives.
const KEYS: [([&str; 4], u8); 31] = [
    (["CORE", "BANKDEFF", "2010-12-03", "A"], 22),
    (["B2B", "BANKDEFF", "2010-12-03", "A"], 22),
    (["COR1", "BANKDEFF", "2010-12-03", "A"], 26),
    (["core", "BANKDEFF", "2010-12-03", "A"], 26),
    ([" B2B", "BANKDEFF", "2010-12-03", "A"], 26),
    (["B2B\0", "BANKDEFF", "2010-12-03", "A"], 26),
    (["COR", "BANKDEFF", "2010-12-03", "A"], 26),
    (["", "BANKDEFF", "2010-12-03", "A"], 26),
    (["CORE", "BANKDEFFXXX", "2010-12-03", "A"], 22),
    (["CORE", "1BNKDE0O", "2010-12-03", "A"], 22),
    (["CORE", "9999ZZ99999", "2010-12-03", "A"], 22),
    (["CORE", "BANKDEFFXX", "2010-12-03", "A"], 26),
    (["CORE", "BANKDEFFX", "2010-12-03", "A"], 26),
    (["CORE", "BANK1EFF", "2010-12-03", "A"], 26),
    (["CORE", " BANKDEFF", "2010-12-03", "A"], 26),
    (["CORE", "BANKDEFF\0\0\0", "2010-12-03", "A"], 26),
    (["CORE", "bankdeff", "2010-12-03", "A"], 26),
    (["CORE", "", "2010-12-03", "A"], 26),
    (["CORE", "BANKDEFF", "2010-11-31", "A"], 26),
    (["CORE", "BANKDEFF", "03.12.2010", "A"], 26),
    (["CORE", "BANKDEFF", "2010-12-3 ", "A"], 26),
    (["CORE", "BANKDEFF", "2010-12-03", "ABCDEFGH/JKL"], 22),
    (["CORE", "BANKDEFF", "2010-12-03", "A/B"], 22),
    (["CORE", "BANKDEFF", "2010-12-03", ""], 26),
    (["CORE", "BANKDEFF", "2010-12-03", " A"], 26),
    (["CORE", "BANKDEFF", "2010-12-03", "A B"], 26),
    (["CORE", "BANKDEFF", "2010-12-03", "/A"], 26),
    (["CORE", "BANKDEFF", "2010-12-03", "A/"], 26),
    (["CORE", "BANKDEFF", "2010-12-03", "A//B"], 26),
    (["CORE", "BANKDEFF", "2010-12-03", "A_B"], 26),
    (["CORE", "BANKDEFF", "2010-12-03", "A\0"], 26),
];

/// "26 a field not of its kind": every other time, call, service, BIC, date, MsgId and end.
#[test]
fn fields_of_other_kinds() {
    assert_eq!(of_record(&at_noon("W", "A")), (22, 0));
    for time in NO_TIMES {
        assert_eq!(of_record(&record(time, "W", "A")), (26, 0), "{time}");
    }
    for call in ["e", "w", "F", " ", "\n", "\0"] {
        assert_eq!(of_record(&at_noon(call, "A")), (26, 0), "{call}");
    }
    for (four, due) in KEYS {
        let record = fields("2010-12-01T12:00:00+01:00", "W", four);
        assert_eq!(of_record(&record), (due, 0), "{four:?}");
    }
    for end in ["\r", " ", "\0"] {
        assert_eq!(of_record(&at_noon("W", "A").replace('\n', end)), (26, 0), "{end:?}");
    }
}

/// "or a wrong last length": when it is reached, and not before.
#[test]
fn a_short_last_record() {
    let records = [at_noon("E", "A"), at_noon("E", "B")].concat();
    for length in 65..128 {
        let day = Made::named(&[&records[..length]], &["A"]);
        assert_eq!(day.refused(), ((26, 1), vec!["A".to_string()]), "{length}");
    }
    for length in 1..64 {
        assert_eq!(of_record(&records[..length]), (26, 0), "{length}");
    }
    let early = [at_noon("W", "A"), "short".to_string()];
    assert_eq!(Made::named(&early, &[]).refused().0, (22, 0));
    // A byte more.
    let longer = [&records, "\n"].concat();
    let day = Made::named(&[longer], &["A", "B"]);
    assert_eq!(day.refused(), ((26, 2), vec!["A".to_string(), "B".to_string()]));
}

/// "28 no message left": the first of its four kinds.
#[test]
fn no_message_left() {
    let day = Made::named(&[at_noon("E", "A"), at_noon("E", "B")], &["A"]);
    assert_eq!(day.refused(), ((28, 1), vec!["A".to_string()]));
    let day = Made::named(&[at_noon("E", "A")], &[]);
    assert_eq!(day.refused(), ((28, 0), vec![]));
}

/// "or its end falls or lies outside the buffer". An end that stands still is an empty message: 3.
#[test]
fn ends_that_fall_or_lie_outside() {
    let both = [at_noon("E", "A"), at_noon("E", "B")];
    let day = Made::named(&both, &["A", "B"]);
    let [one, two] = [day.ends[0], day.ends[1]];
    let with = |ends: &[u64]| {
        let day = Made::named(&both, &["A", "B"]);
        Made { ends: ends.to_vec(), ..day }.played()
    };
    assert_eq!(with(&[one, two]).0, Ok(Played { records: 2, table: recurrent(2468) }));
    let open = vec!["A".to_string()];
    for (end, due) in [
        (one - 1, 28),
        (0, 28),
        (one, 3),
        (one + 1, 3),
        (two - 1, 3),
        (two + 1, 28),
        (1 << 32, 28),
        (u64::MAX, 28),
    ] {
        assert_eq!(with(&[one, end]), (Err((due, 1)), open.clone()), "{end}");
    }
    for (end, due) in [(0, 3), (one - 1, 3), (one + 1, 16), (two + 1, 28), (u64::MAX, 28)] {
        assert_eq!(with(&[end, two]), (Err((due, 0)), vec![]), "{end}");
    }
}

/// "28 key does not agree": each part, also one that does not fit into a record.
#[test]
fn another_key() {
    for four in [
        ["B2B", "BANKDEFF", "2010-12-03", "MSG/1"],
        ["CORE", "BANKDEFFXXX", "2010-12-03", "MSG/1"],
        ["CORE", "BANKDEFF", "2010-12-04", "MSG/1"],
        ["CORE", "BANKDEFF", "2010-12-03", "MSG/2"],
        ["CORE", "BANKDEFF", "2010-12-03", "MSG/1X"],
        ["CORE", "BANKDEFF", "2010-12-03", "msg/1"],
    ] {
        let record = fields("2010-12-01T12:00:00+01:00", "E", four);
        assert_eq!(Made::named(&[record], &["MSG/1"]).refused(), ((28, 0), vec![]), "{four:?}");
    }
    let twelve = "ABCDEFGHIJKL";
    assert_eq!(Made::named(&[at_noon("E", twelve)], &[twelve]).table().0, 1);
    let thirteen = "ABCDEFGHIJKLM";
    assert_eq!(Made::named(&[at_noon("E", twelve)], &[thirteen]).refused().0, (28, 0));
}

/// "After the last record, 28 with the number of records if messages are left over", however many they
/// are and wherever they end; the book is as after the last record.
#[test]
fn messages_left_over() {
    let entry = at_noon("E", "A");
    assert_eq!(Made::named(&[&entry], &["A", "B"]).refused(), ((28, 1), vec!["A".to_string()]));
    assert_eq!(Made::named::<&str>(&[], &["A"]).refused(), ((28, 0), vec![]));
    let mut day = Made::named(&[&entry], &["A"]);
    for end in [0, day.ends[0], u64::MAX] {
        day.ends.truncate(1);
        day.ends.extend([end; 3]);
        assert_eq!(day.refused(), ((28, 1), vec!["A".to_string()]), "{end}");
    }
}

/// "Bytes past the last end are not read."
#[test]
fn bytes_past_the_last_end() {
    let mut day = Made::named(&[at_noon("E", "A")], &["A"]);
    day.buffer.push_str("</Document> whatever");
    assert_eq!(day.table(), (1, recurrent(1234)));
}

/// Of several faults of one record: 26, 27, 28 of the ends, the judge's, 28 of the key, the book's.
#[test]
fn in_their_order() {
    let (early, late) = ("2010-12-01T12:00:00+01:00", "2010-12-01T12:00:01+01:00");
    let wrong = message("A").replacen("<NbOfTxs>1<", "<NbOfTxs>2<", 1);
    let entered = record(late, "E", "A");
    let day = |second: &str, message: &str, end: Option<u64>| {
        let mut day = Made::of(&[&entered[..], second], &[&self::message("A"), message]);
        day.ends.pop();
        let whole = day.buffer.len() as u64;
        day.ends.push(end.unwrap_or(whole));
        let (refusal, open) = day.refused();
        assert_eq!((refusal.1, open), (1, vec!["A".to_string()]));
        refusal.0
    };
    let falls = record(early, "E", "B");
    assert_eq!(day(&falls.replace('\n', " "), &wrong, Some(0)), 26);
    assert_eq!(day(&falls, &wrong, Some(0)), 27);
    assert_eq!(day(&record(late, "E", "B"), &wrong, Some(0)), 28);
    assert_eq!(day(&record(late, "E", "B"), &wrong, None), 14);
    assert_eq!(day(&record(late, "E", "B"), &message("A"), None), 28);
    assert_eq!(day(&record(late, "E", "A"), &message("A"), None), 20);
    // A withdrawal: 26, 27, then the book's own, and messages that are left over come last.
    let falls = record(early, "W", "B");
    assert_eq!(day(&falls.replace("CORE", "CORD"), &wrong, Some(0)), 26);
    assert_eq!(day(&falls, &wrong, Some(0)), 27);
    assert_eq!(day(&record(late, "W", "B"), &wrong, Some(0)), 22);
}

/// A record that is refused leaves its time behind no other: the run ends, "book as before that record".
#[test]
fn the_run_ends_at_the_first_refusal() {
    let records = [at_noon("E", "A"), at_noon("W", "X"), at_noon("W", "A")];
    assert_eq!(Made::named(&records, &["A"]).refused(), ((22, 1), vec!["A".to_string()]));
    let records = [at_noon("E", "A"), at_noon("E", "A"), at_noon("W", "A")];
    assert_eq!(Made::named(&records, &["A", "A"]).refused(), ((20, 1), vec!["A".to_string()]));
}

/// "21, 64 open", and room again.
#[test]
fn sixty_four_are_open_and_no_more() {
    let ids: Vec<String> = (0..65).map(|id| id.to_string()).collect();
    let ids: Vec<&str> = ids.iter().map(String::as_str).collect();
    let mut records: Vec<String> = ids.iter().map(|id| at_noon("E", id)).collect();
    let (refusal, open) = Made::named(&records, &ids).refused();
    assert_eq!((refusal, open.len()), ((21, 64), 64));
    records.insert(64, at_noon("W", "7"));
    assert_eq!(Made::named(&records, &ids).table(), (66, recurrent(64 * 1234)));
}

/// "first .. 29 for a book under 64 places (.. place 0, book as lent)", before all of the recording.
#[test]
fn under_64_places() {
    for places in [0, 1, 63] {
        let mut entries = vec![HELD; places];
        let mut book = Book { entries: &mut entries, open: 5, total: 99 };
        let day = Day { recording: b"short", buffer: b"", ends: &[7] };
        assert_eq!(play(&day, &mut book), Err((29, 0)));
        assert_eq!((book.open, book.total), (5, 99));
        assert!(entries.iter().all(|place| *place == HELD));
    }
}

/// "The run first empties the book": whatever is lent beside 64 places or more. They keep what they held.
#[test]
fn the_book_is_emptied_first() {
    for (open, total) in [(0, 0), (64, 7), (65, 0), (usize::MAX, u64::MAX)] {
        for places in [64, 65, 100] {
            let mut entries = vec![HELD; places];
            let mut book = Book { entries: &mut entries, open, total };
            let refused = Day { recording: b"short", buffer: b"", ends: &[] };
            assert_eq!(play(&refused, &mut book), Err((26, 0)));
            assert_eq!((book.open, book.total), (0, 0));
            (book.open, book.total) = (open, total);
            let (records, message) =
                ([at_noon("E", "A"), at_noon("W", "A")].concat(), message("A"));
            let ends = [message.len() as u64];
            let day =
                Day { recording: records.as_bytes(), buffer: message.as_bytes(), ends: &ends };
            assert!(play(&day, &mut book).is_ok());
            assert_eq!((book.open, book.total), (0, 0));
            assert_eq!(entries[0], Entry { key: named("A"), cents: 1234 });
            assert!(entries[1..].iter().all(|place| *place == HELD));
        }
    }
}

/// The example with these items, each its SeqTp and its cents, of this service.
fn with_items(msg_id: &str, service: &str, items: &[(&str, u64)]) -> String {
    let start = EXAMPLE.find("<DrctDbtTxInf>").unwrap();
    let end = EXAMPLE.find("</FIToFICstmrDrctDbt>").unwrap();
    let euros = |cents: u64| format!("{}.{:02}", cents / 100, cents % 100);
    let item = |(at, (sequence, cents)): (usize, &(&str, u64))| {
        EXAMPLE[start..end]
            .replacen("RCUR", sequence, 1)
            .replacen("12.34", &euros(*cents), 1)
            .replacen("<TxId>T1<", &format!("<TxId>T{at}<"), 1)
    };
    let total: u64 = items.iter().map(|(_, cents)| cents).sum();
    let header = EXAMPLE[..start]
        .replacen("MSG/1", msg_id, 1)
        .replacen("<NbOfTxs>1<", &format!("<NbOfTxs>{}<", items.len()), 1)
        .replacen("12.34", &euros(total), 1);
    let items: String = items.iter().enumerate().map(item).collect();
    format!("{header}{items}{}", &EXAMPLE[end..]).replace("CORE", service)
}

/// "a two by four table of the open cents, by service and sequence type": of each item's own, and without
/// what was withdrawn.
#[test]
fn the_table() {
    let messages = [
        with_items("A", "CORE", &[("FRST", 1), ("RCUR", 20), ("FNAL", 300), ("OOFF", 4000)]),
        with_items("B", "B2B", &[("OOFF", 5), ("FNAL", 60), ("RCUR", 700), ("FRST", 8000)]),
        with_items("C", "CORE", &[("RCUR", 100_000), ("RCUR", 900_000)]),
    ];
    let of = |call, service, id| {
        let time = "2010-12-01T12:00:00+01:00";
        fields(time, call, [service, "BANKDEFF", "2010-12-03", id])
    };
    let mut records = vec![of("E", "CORE", "A"), of("E", "B2B", "B"), of("E", "CORE", "C")];
    let day = Made::of(&records, &messages);
    assert_eq!(day.table(), (3, [[1, 1_000_020, 300, 4000], [8000, 700, 60, 5]]));
    records.push(of("W", "CORE", "A"));
    let day = Made::of(&records, &messages);
    assert_eq!(day.table(), (4, [[0, 1_000_000, 0, 0], [8000, 700, 60, 5]]));
    records.push(of("W", "B2B", "B"));
    assert_eq!(Made::of(&records, &messages).table(), (5, recurrent(1_000_000)));
    records.push(of("W", "CORE", "C"));
    assert_eq!(Made::of(&records, &messages).table(), (6, Table::default()));
}

/// The payment type in the header: its SeqTp is that of all items, and its service the key's.
#[test]
fn the_payment_type_in_the_header() {
    let start = EXAMPLE.find("<PmtTpInf>").unwrap();
    let end = EXAMPLE.find("<IntrBkSttlmAmt").unwrap();
    let payment_type = &EXAMPLE[start..end];
    let in_header = EXAMPLE
        .replacen(payment_type, "", 1)
        .replacen("<InstgAgt>", &format!("{payment_type}<InstgAgt>"), 1)
        .replacen("CORE", "B2B", 1)
        .replacen("RCUR", "FNAL", 1);
    let record = |service| {
        fields("2010-12-01T12:00:00+01:00", "E", [service, "BANKDEFF", "2010-12-03", "MSG/1"])
    };
    let day = Made::of(&[record("B2B")], &[&in_header]);
    assert_eq!(day.table(), (1, [[0; 4], [0, 0, 1234, 0]]));
    assert_eq!(Made::of(&[record("CORE")], &[&in_header]).refused().0, (28, 0));
}

/// Both versions, and a BIC that .08 has alone, of 8 and of 11; the key does not tell the version.
#[test]
fn both_versions() {
    let as_08 = EXAMPLE.replacen("001.02\">", "001.08\">", 1).replace("BIC>", "BICFI>");
    let record =
        |call, bic| fields("2010-12-01T12:00:00+01:00", call, ["CORE", bic, "2010-12-03", "MSG/1"]);
    for bic in ["BANKDEFF", "1BNKDE0O", "9999ZZ99999"] {
        let message = as_08.replacen(">BANKDEFF<", &format!(">{bic}<"), 1);
        let day = Made::of(&[record("E", bic)], &[&message]);
        assert_eq!(day.table(), (1, recurrent(1234)), "{bic}");
    }
    let calls = [record("E", "BANKDEFF"), record("W", "BANKDEFF"), record("E", "BANKDEFF")];
    let day = Made::of(&calls, &[EXAMPLE, &as_08]);
    assert_eq!(day.table(), (3, recurrent(1234)));
    let day = Made::of(&[&calls[0], &calls[0]], &[EXAMPLE, &as_08]);
    assert_eq!(day.refused().0, (20, 1));
    // In .02 a wider BIC is the judge's own 7.
    let wider = EXAMPLE.replacen(">BANKDEFF<", ">1BNKDE0O<", 1);
    assert_eq!(Made::of(&[record("E", "1BNKDE0O")], &[&wider]).refused().0, (7, 0));
}
