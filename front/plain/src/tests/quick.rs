//! The quick reader against the exact one: one answer, and the same items, on every message. The first
//! item is always read exactly, the second by its tags, the others by the runs that are known.

use super::*;
use crate::message::{read, Item, PaymentType, Version};
use crate::quick::Quick;
use crate::usual::{Figures, Text};

/// Bytes that mean something at one place or another, and such as never do.
const BYTES: &[u8] = b"<>/? \t\r\n.-:+09AOZaz\"_\0\xFF";

/// The answer, and the items that were read before it.
type Read<'m> = (Result<(u64, u64), (u8, usize)>, Vec<Item<'m>>);

/// What one way of reading answers.
fn all<const ACCEPTED: bool, const QUICK: bool>(message: &[u8]) -> Read<'_> {
    let mut items = Vec::new();
    let answer = read::<ACCEPTED, QUICK>(message, |at, item| {
        assert_eq!(at, items.len());
        items.push(Item { ..*item });
    });
    (answer, items)
}

/// Both readers must read a message alike; an accepted one also when it is not judged again.
fn alike(message: &[u8]) {
    let exact = all::<false, false>(message);
    let text = || String::from_utf8_lossy(message).into_owned();
    assert_eq!(all::<false, true>(message), exact, "{}", text());
    if exact.0.is_ok() {
        assert_eq!(all::<true, true>(message), exact, "{}", text());
        assert_eq!(all::<true, false>(message), exact, "{}", text());
    }
}

/// The example's item without one of its parts.
fn without(from: &str, to: &str) -> String {
    one_item("12.00", "CORE").replacen(part(from, to), "", 1)
}

/// A message of three items: as they come, in version .08, with B2B, with the type in the header, with
/// white space, and with optional elements missing.
fn messages() -> Vec<String> {
    let three = |item: &str| whole("3", "36", &[item.into(), item.into(), item.into()]);
    let usual = three(&one_item("12.00", "CORE"));
    let payment_type = part("<PmtTpInf>", "<IntrBkSttlmAmt");
    let untyped = three(&without("<PmtTpInf>", "<IntrBkSttlmAmt"));
    let (no_instruction, no_remittance) =
        (without("<InstrId>", "<EndToEndId>"), without("<RmtInf>", "</DrctDbtTxInf>"));
    vec![
        versions::as_08(&usual),
        three(&one_item("12.00", "B2B")),
        untyped.replacen("<InstgAgt>", &format!("{payment_type}<InstgAgt>"), 1),
        usual.replace("><", ">\n  <"),
        whole("3", "36", &[one_item("12", "CORE"), no_instruction, no_remittance]),
        usual,
    ]
}

/// Where the second item begins: what stands before it is read exactly.
fn second_item(message: &str) -> usize {
    message.match_indices("<DrctDbtTxInf>").nth(1).expect("there are three items").0
}

/// All of them are accepted.
#[test]
fn they_are_accepted() {
    for message in messages() {
        let accepted = Verdict::Accepted { count: 3, cents: 3600 };
        assert_eq!(judge(message.as_bytes()), accepted, "{message}");
        assert_eq!(judge_exactly(message.as_bytes()), accepted, "{message}");
        alike(message.as_bytes());
    }
}

/// The quick reader takes them: it would be no quicker if it left them to the exact one.
#[test]
fn they_are_taken() {
    for message in messages().iter().map(|message| message.as_bytes()) {
        let (_, items) = all::<false, false>(message);
        let of_08 = message.windows(7).any(|tag| tag == b"<BICFI>");
        let instrument = items[0].instrument;
        let header_end = place_of(&String::from_utf8_lossy(message), "</GrpHdr>");
        let in_header = message[..header_end].windows(10).any(|tag| tag == b"<PmtTpInf>");
        let payment_type =
            in_header.then_some(PaymentType { instrument, sequence: items[0].sequence_type });
        let version = if of_08 { Version::V08 } else { Version::V02 };
        let mut quick = Quick::<false>::new(version, payment_type, instrument);
        for item in &items {
            let tag = "<DrctDbtTxInf>".len();
            let (taken, rest) =
                quick.item(item.start, &message[item.start + tag..]).expect("it is taken");
            assert_eq!(Item { end: message.len() - rest.len(), ..taken }, *item);
        }
    }
}

/// Every byte set to others, left out, and with others before it; and the message cut there.
#[test]
fn every_byte() {
    for message in messages() {
        for at in second_item(&message)..message.len() {
            let (before, from) = message.as_bytes().split_at(at);
            alike(before);
            alike(&[before, &from[1..]].concat());
            for byte in BYTES {
                alike(&[before, &[*byte], &from[1..]].concat());
                alike(&[before, &[*byte], from].concat());
            }
        }
    }
}

/// The places in a message where a value begins or ends, from the second item on.
fn edges(message: &str) -> Vec<usize> {
    let bytes = message.as_bytes();
    let is_edge = |at: &usize| {
        let (before, here) = (bytes[at - 1], bytes[*at]);
        (before == b'>') != (here == b'<') && (before == b'>' || here == b'<')
    };
    (second_item(message)..message.len()).filter(is_edge).collect()
}

/// Every stretch between two neighbouring edges (a value or a run) left out, and others in its place: a
/// byte, another stretch of the same message.
#[test]
fn every_stretch() {
    for message in messages() {
        let edges = edges(&message);
        let stretches: Vec<&str> =
            edges.windows(2).map(|ends| &message[ends[0]..ends[1]]).collect();
        for (ends, own) in edges.windows(2).zip(&stretches) {
            let (before, after) = (&message[..ends[0]], &message[ends[1]..]);
            for other in stretches.iter().chain(&["", "?", " ", "<", "A", "//", "\n\t "]) {
                alike(format!("{before}{other}{after}").as_bytes());
                alike(format!("{before}{other}{own}{after}").as_bytes());
            }
        }
    }
}

/// A run that is not known yet is no byte: nothing may stand for it.
#[test]
fn nothing_stands_for_a_run() {
    let tags = "<PmtId><InstrId>";
    let message = whole("2", "24", &[one_item("12", "CORE"), one_item("12", "CORE")]);
    let at = message.rfind(tags).expect("the second item has these tags");
    for byte in 0..128_u8 {
        let changed =
            format!("{}{}{}", &message[..at], char::from(byte), &message[at + tags.len()..]);
        alike(changed.as_bytes());
        assert!(matches!(judge(changed.as_bytes()), Verdict::Refused { .. }), "{changed}");
    }
}

/// Another layout in each item: white space of every kind before any tag that may have it.
#[test]
fn another_layout_in_each_item() {
    let mut seed = 14_u32;
    let mut below = |most: u32| {
        seed = seed.wrapping_mul(1_664_525).wrapping_add(1_013_904_223);
        (seed >> 16) % most
    };
    for message in messages().iter().cycle().take(600) {
        let mut other = String::new();
        for piece in message.split_inclusive("><") {
            other.push_str(piece.strip_suffix('<').unwrap_or(piece));
            if piece.ends_with("><") {
                (0..below(3)).for_each(|_| other.push([' ', '\t', '\r', '\n'][below(4) as usize]));
                other.push('<');
            }
        }
        alike(other.as_bytes());
        assert!(matches!(judge(other.as_bytes()), Verdict::Accepted { .. }), "{other}");
    }
}

/// A value as it lies in a message, with the beginning of its end tag.
fn in_place(value: &[u8]) -> Vec<u8> {
    [value, b"</End><Next>"].concat()
}

/// Every kind of text or of figures that is judged quickly must be judged as the checker does.
fn judged_alike(value: &[u8]) {
    let bytes = in_place(value);
    let (text, after) = Text::first_of(&bytes).expect("an end tag follows");
    let (figures, _) = Figures::first_of(&bytes).expect("an end tag follows");
    assert_eq!((text.bytes, figures.bytes, after), (value, value, &b"</End><Next>"[..]));
    let kinds = [
        (text.is_reference(), reference(value)),
        (text.is_end_to_end(), end_to_end(value)),
        (text.is_text70(), text70(value)),
        (text.is_text140(), text140(value)),
        (figures.is_iban(), iban(value)),
        (figures.is_creditor_id(), creditor_id(value)),
        (figures.is_date(), date(value)),
        (figures.is_bic(), bic(value)),
        (figures.is_bicfi(), bicfi(value)),
    ];
    for (at, (is, due)) in kinds.into_iter().enumerate() {
        assert_eq!(is, due.is_ok(), "kind {at}: {}", String::from_utf8_lossy(value));
    }
    assert_eq!(figures.cents(), item_amount(value).ok(), "{}", String::from_utf8_lossy(value));
}

/// Values of every kind, with every byte at every place, and of every length.
#[test]
fn values_of_every_kind() {
    let values = [
        "REF-2010/12.1",
        "RENT 2023 04",
        "Stadtwerke (Nord) 'GmbH' + Co: a, b?",
        "DE87200500001234567890",
        "NL91ABNA0417164300",
        "DE98ZZZ09999999999",
        "2000-02-29",
        "2010-12-03",
        "99999.99",
        "999999999.99",
        "BANKDEFFXXX",
        "",
    ];
    for value in values {
        judged_alike(value.as_bytes());
        for at in 0..value.len() {
            judged_alike(&value.as_bytes()[..at]);
            judged_alike(&value.as_bytes()[at..]);
            for byte in (0..=255).filter(|byte| *byte != b'<') {
                let mut other = value.as_bytes().to_vec();
                other[at] = byte;
                judged_alike(&other);
            }
        }
    }
    for length in 0..150 {
        judged_alike("A".repeat(length).as_bytes());
        judged_alike(format!("DE98ZZZ{}", "0".repeat(length)).as_bytes());
    }
}

/// Every day that four digits and twice two can write, of some years.
#[test]
fn every_day() {
    for year in ["0000", "0001", "0004", "1900", "2000", "2023", "2024", "9999"] {
        for (month, day) in (0..100).flat_map(|month| (0..100).map(move |day| (month, day))) {
            judged_alike(format!("{year}-{month:02}-{day:02}").as_bytes());
        }
    }
}

/// Every word of up to six of these bytes.
#[test]
fn every_short_amount() {
    let bytes = b"019./:";
    for length in 1..=6 {
        for way in 0..6_usize.pow(length) {
            let value: Vec<u8> = (0..length).map(|at| bytes[way / 6_usize.pow(at) % 6]).collect();
            judged_alike(&value);
        }
    }
}

/// Accounts and identifiers of digits in each country, of every length, with all check digits.
#[test]
fn all_check_digits() {
    let digits = "12345678901234567890123456789012345";
    for country in ["NO", "BE", "NL", "AT", "DE", "ES", "FR", "PL", "MT", "XX"] {
        for (length, check) in (0..=35).flat_map(|at| (0..100).map(move |check| (at, check))) {
            let digits = &digits[..length];
            judged_alike(format!("{country}{check:02}{digits}").as_bytes());
            judged_alike(format!("{country}{check:02}ZZZ{digits}").as_bytes());
        }
    }
}

/// No item is shorter than the room for the TxIds takes it to be.
#[test]
fn the_shortest_item() {
    let mut item = one_item("1", "B2B");
    for (from, to) in [
        ("<InstrId>", "<EndToEndId>"),
        ("<PmtTpInf>", "<IntrBkSttlmAmt"),
        ("<RmtInf>", "</DrctDbtTxInf>"),
    ] {
        item.replace_range(place_of(&item, from)..place_of(&item, to), "");
    }
    for (value, short) in [
        ("DE98ZZZ09999999999", "DE98ZZZ0"),
        ("Creditor", "C"),
        ("Debtor", "D"),
        ("DE87200500001234567890", "NO8720050000123"),
        ("DE21500500009876543210", "NO2150050000987"),
        ("BANKDEFFXXX", "BANKDEFF"),
        ("SPUEDE2UXXX", "SPUEDE2U"),
        (">E1<", ">E<"),
        (">T1<", ">T<"),
        (">M1<", ">M<"),
    ] {
        item = item.replacen(value, short, 1);
    }
    assert!(item.len() >= crate::seen::SHORTEST_ITEM, "{}: {item}", item.len());
}
