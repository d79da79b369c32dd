//! The day book's own words, one after the other.

use super::*;

const EXAMPLE: &str = include_str!("../../../../samples/example.xml");
const TOTAL: u64 = HEADER_MOST;

/// What a place holds before anything is entered there.
const HELD: Entry =
    Entry { key: Key { service: [7; 4], msg_id: [7; 35], bic: [7; 11], date: [7; 10] }, cents: 7 };

/// The key of these four values.
fn key_of(service: &str, msg_id: &str, bic: &str, date: &str) -> Key {
    Key {
        service: padded(service.as_bytes()),
        msg_id: padded(msg_id.as_bytes()),
        bic: padded(bic.as_bytes()),
        date: padded(date.as_bytes()),
    }
}

/// The example's key, under another MsgId.
fn named(msg_id: &str) -> Key {
    key_of("CORE", msg_id, "BANKDEFF", "2010-12-03")
}

/// The example under another MsgId.
fn message(msg_id: &str) -> String {
    EXAMPLE.replacen("MSG/1", msg_id, 1)
}

/// A list of places that nothing was entered into.
fn places(count: usize) -> Vec<Entry> {
    vec![HELD; count]
}

/// Whether so many of these entries, the first ones, are open in a book.
fn is_book(mut entries: Vec<Entry>, open: usize) -> bool {
    Book { entries: &mut entries, open, total: 0 }.held().is_ok()
}

/// A book of these keys, each with its cents.
fn handmade(bulks: &[(&str, u64)]) -> Vec<Entry> {
    let mut entries = places(MOST);
    for (place, (msg_id, cents)) in entries.iter_mut().zip(bulks) {
        *place = Entry { key: named(msg_id), cents: *cents };
    }
    entries
}

#[test]
fn a_bulk_is_entered_behind_the_open_ones() {
    let mut entries = places(MOST);
    let mut book = Book { entries: &mut entries, open: 0, total: 0 };
    assert_eq!(book.total, 0);
    assert_eq!(book.enter(message("A").as_bytes()), Ok(1234));
    assert_eq!(book.enter(message("B").as_bytes()), Ok(1234));
    assert_eq!((book.open, book.total), (2, 2468));
    let entry = |msg_id| Entry { key: named(msg_id), cents: 1234 };
    assert_eq!(entries[..3], [entry("A"), entry("B"), HELD]);
    assert!(entries[2..].iter().all(|place| *place == HELD));
}

/// "service (its items' LclInstrm), MsgId, instructing BIC and settlement date", whatever white space
/// stands between the tags.
#[test]
fn the_key_is_that_of_the_message() {
    assert_eq!(key(EXAMPLE.as_bytes()), named("MSG/1"));
    let other = EXAMPLE
        .replacen("<BIC>BANKDEFF<", "<BIC>SPUEDE2UXXX<", 1)
        .replacen("Dt>2010-12-03<", "Dt>2011-01-04<", 1)
        .replacen("CORE", "B2B", 1)
        .replace("><", ">\r\n\t <");
    let accepted = Verdict::Accepted { count: 1, cents: 1234 };
    assert_eq!(judge(other.as_bytes()), accepted);
    assert_eq!(key(other.as_bytes()), key_of("B2B", "MSG/1", "SPUEDE2UXXX", "2011-01-04"));
}

/// "and the day book's service is the header's": where PmtTpInf stands is no part of the key.
#[test]
fn the_service_is_the_header_s() {
    let start = EXAMPLE.find("<PmtTpInf>").unwrap();
    let end = EXAMPLE.find("<IntrBkSttlmAmt").unwrap();
    let payment_type = &EXAMPLE[start..end];
    let in_header = EXAMPLE.replacen(payment_type, "", 1).replacen(
        "<InstgAgt>",
        &format!("{payment_type}<InstgAgt>"),
        1,
    );
    assert_eq!(key(in_header.as_bytes()), key(EXAMPLE.as_bytes()));
    let business = in_header.replacen("CORE", "B2B", 1);
    assert_eq!(key(business.as_bytes()), key_of("B2B", "MSG/1", "BANKDEFF", "2010-12-03"));
    let mut entries = places(MOST);
    let mut book = Book { entries: &mut entries, open: 0, total: 0 };
    assert_eq!(book.enter(EXAMPLE.as_bytes()), Ok(1234));
    assert_eq!(book.enter(in_header.as_bytes()), Err(OPEN_ALREADY));
    assert_eq!(book.enter(business.as_bytes()), Ok(1234));
    assert_eq!(book.withdraw(&key(in_header.as_bytes())), Ok(1234));
    assert_eq!(book.enter(in_header.as_bytes()), Ok(1234));
}

/// A bulk of version .08 has the same key as in .02, and a wider BIC its own: the key does not tell the
/// version.
#[test]
fn the_key_has_no_version() {
    let as_08 =
        |message: &str| message.replacen("001.02\">", "001.08\">", 1).replace("BIC>", "BICFI>");
    for (old, new) in [("", ""), ("><", "> \n\t<"), ("InstrId>I1<", "InstrId>I2<")] {
        let spelled = EXAMPLE.replace(old, new);
        assert_eq!(key(as_08(&spelled).as_bytes()), named("MSG/1"));
        assert_eq!(key(spelled.as_bytes()), named("MSG/1"));
    }
    let mut entries = places(MOST);
    let mut book = Book { entries: &mut entries, open: 0, total: 0 };
    assert_eq!(book.enter(EXAMPLE.as_bytes()), Ok(1234));
    assert_eq!(book.enter(as_08(EXAMPLE).as_bytes()), Err(OPEN_ALREADY));
    let wider = as_08(EXAMPLE).replacen(">BANKDEFF<", ">1BNKDEFF999<", 1);
    assert_eq!(book.enter(wider.as_bytes()), Ok(1234));
    let due = key_of("CORE", "MSG/1", "1BNKDEFF999", "2010-12-03");
    assert_eq!((book.find(&due), book.find(&named("MSG/1"))), (Ok(Some(1)), Ok(Some(0))));
    // In .02 it is no BIC, so no bulk.
    let wider = EXAMPLE.replacen(">BANKDEFF<", ">1BNKDEFF999<", 1);
    assert!(matches!(book.enter(wider.as_bytes()), Err((7, _))));
}

/// Keys differ by bytes: another service, MsgId, BIC or date is another bulk, also BIC8 and BIC11.
#[test]
fn each_part_tells_bulks_apart() {
    let mut entries = places(MOST);
    let mut book = Book { entries: &mut entries, open: 0, total: 0 };
    let bulks = [
        EXAMPLE.to_string(),
        EXAMPLE.replacen("CORE", "B2B", 1),
        EXAMPLE.replacen("MSG/1", "MSG/2", 1),
        EXAMPLE.replacen("MSG/1", "msg/1", 1),
        EXAMPLE.replacen("<BIC>BANKDEFF<", "<BIC>BANKDEFFXXX<", 1),
        EXAMPLE.replacen("Dt>2010-12-03<", "Dt>2010-12-04<", 1),
    ];
    for (open, bulk) in bulks.iter().enumerate() {
        assert_eq!(book.open, open);
        assert_eq!(book.enter(bulk.as_bytes()), Ok(1234));
    }
    for bulk in &bulks {
        assert_eq!(book.enter(bulk.as_bytes()), Err((20, 0)));
    }
    // What is no part of the key tells nothing apart.
    let dearer = EXAMPLE.replace("12.34", "12.35").replacen("T1", "T2", 1);
    assert_eq!(judge(dearer.as_bytes()), Verdict::Accepted { count: 1, cents: 1235 });
    assert_eq!(book.enter(dearer.as_bytes()), Err((20, 0)));
}

#[test]
fn a_withdrawal_keeps_the_order_and_what_stands_past_the_open_ones() {
    let mut entries = handmade(&[("A", 1), ("B", 2), ("C", 3), ("D", 4)]);
    let before = entries.clone();
    let mut book = Book { entries: &mut entries, open: 4, total: 10 };
    assert_eq!(book.withdraw(&named("B")), Ok(2));
    assert_eq!((book.open, book.total), (3, 8));
    assert_eq!(book.withdraw(&named("B")), Err((22, 0)));
    let mut due = before.clone();
    due[1] = before[2];
    due[2] = before[3];
    assert_eq!(entries, due);
    // The last one, and one that stands past the open ones.
    let mut book = Book { entries: &mut entries, open: 3, total: 8 };
    assert_eq!(book.withdraw(&named("D")), Ok(4));
    assert_eq!(book.withdraw(&named("D")), Err((22, 0)));
    assert_eq!((book.open, entries), (2, due));
}

#[test]
fn a_search_answers_the_first_or_none() {
    let mut entries = handmade(&[("A", 1), ("B", 2), ("C", 3)]);
    let book = Book { entries: &mut entries, open: 2, total: 3 };
    assert_eq!(book.find(&named("A")), Ok(Some(0)));
    assert_eq!(book.find(&named("B")), Ok(Some(1)));
    assert_eq!(book.find(&named("C")), Ok(None));
    assert_eq!(book.find(&named("")), Ok(None));
}

/// "at most 64 open bulks"; "A withdrawn key may be entered again, and its room serves again."
#[test]
fn sixty_four_are_open_and_no_more() {
    let mut entries = places(MOST + 1);
    let mut book = Book { entries: &mut entries, open: 0, total: 0 };
    for number in 0..64 {
        assert_eq!(book.enter(message(&number.to_string()).as_bytes()), Ok(1234));
    }
    assert_eq!((book.open, book.total), (64, 64 * 1234));
    assert_eq!(book.enter(message("X").as_bytes()), Err((21, 0)));
    // 20 before 21, and the judge's own before both.
    assert_eq!(book.enter(message("7").as_bytes()), Err((20, 0)));
    assert_eq!(book.enter(b"<"), Err((3, 1)));
    assert_eq!(book.withdraw(&named("0")), Ok(1234));
    assert_eq!(book.enter(message("X").as_bytes()), Ok(1234));
    assert_eq!(book.enter(message("0").as_bytes()), Err((21, 0)));
    assert_eq!(book.withdraw(&named("X")), Ok(1234));
    assert_eq!(book.enter(message("0").as_bytes()), Ok(1234));
    assert_eq!((book.open, book.find(&named("0"))), (64, Ok(Some(63))));
    assert_eq!(entries[64], HELD);
}

#[test]
fn what_is_a_book() {
    assert!(is_book(places(64), 0));
    assert!(is_book(places(100), 1));
    assert!(!is_book(places(63), 0));
    assert!(!is_book(places(0), 0));
    // All places are alike, so two of them cannot be open.
    assert!(!is_book(places(64), 2));
    let bulks: Vec<String> = (0..64).map(|number| number.to_string()).collect();
    let bulks: Vec<(&str, u64)> = bulks.iter().map(|id| (id.as_str(), 1)).collect();
    let mut entries = handmade(&bulks);
    assert!(is_book(entries.clone(), 64));
    assert!(!is_book(entries.clone(), 65));
    entries.push(Entry { key: named("X"), cents: 1 });
    assert!(is_book(entries.clone(), 64));
    assert!(!is_book(entries.clone(), 65));
    assert!(!is_book(entries.clone(), usize::MAX));
    entries[63] = entries[0];
    assert!(is_book(entries.clone(), 63));
    assert!(!is_book(entries, 64));
}

/// "the open sums together above the header's upper range": above is strict, and no sum wraps.
#[test]
fn sums_at_the_upper_range() {
    assert_eq!(TOTAL, 99_999_999_999_999_999);
    assert!(is_book(handmade(&[("A", TOTAL)]), 1));
    assert!(!is_book(handmade(&[("A", TOTAL + 1)]), 1));
    assert!(is_book(handmade(&[("A", TOTAL - 5), ("B", 0), ("C", 5)]), 3));
    assert!(!is_book(handmade(&[("A", TOTAL - 5), ("B", 1), ("C", 5)]), 3));
    assert!(is_book(handmade(&[("A", TOTAL - 5), ("B", 1), ("C", 5)]), 2));
    assert!(!is_book(handmade(&[("A", u64::MAX), ("B", 1)]), 2));
    assert!(!is_book(handmade(&[("A", u64::MAX), ("B", u64::MAX), ("C", 2)]), 3));
    // An entry may lift a book over the range; then it is none.
    let mut entries = handmade(&[("A", TOTAL)]);
    let mut book = Book { entries: &mut entries, open: 1, total: TOTAL };
    assert_eq!(book.enter(EXAMPLE.as_bytes()), Ok(1234));
    assert_eq!((book.open, book.total), (2, TOTAL + 1234));
    assert_eq!(book.find(&named("A")), Err((29, 0)));
    assert_eq!(book.withdraw(&named("A")), Err((29, 0)));
}

/// "29 first, from any call", and nothing changes.
#[test]
fn no_call_goes_on_without_a_book() {
    let mut entries = places(63);
    let mut book = Book { entries: &mut entries, open: 1, total: 7 };
    assert_eq!(book.enter(EXAMPLE.as_bytes()), Err((29, 0)));
    assert_eq!(book.enter(b"<"), Err((29, 0)));
    assert_eq!(book.withdraw(&HELD.key), Err((29, 0)));
    assert_eq!(book.find(&HELD.key), Err((29, 0)));
    assert_eq!((book.open, book.total, entries), (1, 7, places(63)));
}

/// "29 is also given to an entry or withdrawal where the stored total is not what summing gives", and
/// nothing changes; a search does not look at it. A sum that would wrap to what is stored is no sum.
#[test]
fn another_total_than_summing_gives() {
    for wrong in [0, 2, 4, u64::MAX] {
        let mut entries = handmade(&[("A", 1), ("B", 2)]);
        let before = entries.clone();
        let mut book = Book { entries: &mut entries, open: 2, total: wrong };
        assert_eq!(book.enter(EXAMPLE.as_bytes()), Err((29, 0)), "{wrong}");
        assert_eq!(book.enter(b"<"), Err((29, 0)), "{wrong}");
        assert_eq!(book.withdraw(&named("A")), Err((29, 0)), "{wrong}");
        assert_eq!(book.withdraw(&named("X")), Err((29, 0)), "{wrong}");
        assert_eq!((book.find(&named("B")), book.find(&named("X"))), (Ok(Some(1)), Ok(None)));
        assert_eq!((book.open, book.total, entries), (2, wrong, before));
    }
    let mut entries = handmade(&[("A", u64::MAX), ("B", 8)]);
    assert_eq!(Book { entries: &mut entries, open: 2, total: 7 }.kept(), Err((29, 0)));
}

/// What the judge refuses is refused with its own number and place, and the book stays.
#[test]
fn the_judge_s_own_refusal() {
    let mut entries = handmade(&[("A", 1)]);
    let before = entries.clone();
    let mut book = Book { entries: &mut entries, open: 1, total: 1 };
    let wrong = EXAMPLE.replacen("<NbOfTxs>1<", "<NbOfTxs>2<", 1);
    let place = wrong.find("2</NbOfTxs>").expect("the count stands there");
    assert_eq!(book.enter(wrong.as_bytes()), Err((14, place)));
    assert_eq!((book.open, book.total, entries), (1, 1, before));
}

/// "After any calls from an empty book the open total is the sum of all accepted entries less the sum
/// of all accepted withdrawals."
#[test]
fn the_open_total_after_any_calls() {
    let mut entries = places(MOST);
    let mut book = Book { entries: &mut entries, open: 0, total: 0 };
    let mut due = 0;
    for step in 0..1000_u32 {
        let msg_id = format!("M{}", step.wrapping_mul(2_654_435_761) >> 25);
        if step % 3 == 1 {
            due -= book.withdraw(&named(&msg_id)).unwrap_or(0);
        } else {
            due += book.enter(message(&msg_id).as_bytes()).unwrap_or(0);
        }
        assert_eq!(book.total, due, "step {step}");
    }
    assert!(due > 0);
}
