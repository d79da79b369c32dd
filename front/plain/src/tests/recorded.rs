//! Request 9: "From now on a record has 320 bytes: bytes 0 to 254 as before, InstrId 35 (spaces if
//! absent), LclInstrm 4 (from wherever it stands), DtOfSgntr 10, 15 spaces, LF."

use super::*;

/// The example's InstrId, with its tags.
const INSTRUCTION: &str = "<InstrId>I1</InstrId>";

/// The example's record with another value in the field of this offset and width.
fn with_field(at: usize, width: usize, value: &str) -> String {
    [&RECORD[..at], &format!("{value:width$}"), &RECORD[at + width..]].concat()
}

/// Each record of a message.
fn records_of(message: &str, count: usize) -> Vec<String> {
    let mut area = vec![0xAA; 320 * count];
    let verdict = records(message.as_bytes(), &mut area);
    assert!(matches!(verdict, Verdict::Accepted { .. }), "{verdict:?}: {message}");
    area.chunks(320).map(|record| String::from_utf8_lossy(record).into_owned()).collect()
}

/// What stands behind byte 254 of the example's record.
#[test]
fn the_last_fields() {
    let due = format!("{:35}{:4}{:10}{:15}\n", "I1", "CORE", "2010-11-20", "");
    assert_eq!((&RECORD[255..], RECORD.len()), (due.as_str(), 320));
    let longest = "A".repeat(35);
    for value in ["A", "I/1", "+", &longest] {
        let message = EXAMPLE.replacen(INSTRUCTION, &format!("<InstrId>{value}</InstrId>"), 1);
        assert_eq!(record_of(&message), with_field(255, 35, value));
    }
    let message = EXAMPLE.replacen("2010-11-20", "2000-02-29", 1);
    assert_eq!(record_of(&message), with_field(294, 10, "2000-02-29"));
}

/// "spaces if absent", whatever the message begins with.
#[test]
fn an_absent_instruction_is_35_spaces() {
    let without = EXAMPLE.replacen(INSTRUCTION, "", 1);
    for before in ["", " ", "\n", DECLARATION, &format!("{DECLARATION}\n")] {
        assert_eq!(record_of(&format!("{before}{without}")), with_field(255, 35, ""));
    }
}

/// "an absent InstrId only with an absent one": no reference is empty, and none ends in a space.
#[test]
fn no_instruction_looks_absent() {
    let with =
        |value: &str| EXAMPLE.replacen(INSTRUCTION, &format!("<InstrId>{value}</InstrId>"), 1);
    let place = place_of(EXAMPLE, "I1</InstrId>");
    let spaces = " ".repeat(35);
    for value in ["", " ", &spaces, " I1", "I1 "] {
        assert_eq!(refused(&with(value)), (7, place), "{value:?}");
    }
    // Every value of one byte: refused, or not spaces.
    for byte in (0..128_u8).filter(|byte| *byte != b'<') {
        let message = with(&char::from(byte).to_string());
        if reference(&[byte]).is_ok() {
            assert_ne!(record_of(&message), with_field(255, 35, ""), "{byte}");
        } else {
            assert_eq!(refused(&message), (7, place), "{byte}");
        }
    }
}

/// An item has its own InstrId or none: not that of the item before it, nor of the one behind.
#[test]
fn each_item_has_its_own_instruction() {
    let item = |value: Option<&str>| {
        let element = value.map_or(String::new(), |value| format!("<InstrId>{value}</InstrId>"));
        one_item("12.34", "CORE").replacen(INSTRUCTION, &element, 1)
    };
    for values in [
        [Some("I1"), None, None],
        [None, Some("I1"), None],
        [Some("I1"), None, Some("LONGER/I2")],
        [Some("LONGER/I2"), Some("I1"), None],
        [None, None, None],
    ] {
        let message = whole("3", "37.02", &values.map(item));
        let due = values.map(|value| with_field(255, 35, value.unwrap_or("")));
        assert_eq!(records_of(&message, 3), numbered_records(&due), "{values:?}");
    }
}

/// "LclInstrm 4 (from wherever it stands)".
#[test]
fn the_local_instrument_of_the_header_or_of_the_items() {
    let payment_type = part("<PmtTpInf>", "<IntrBkSttlmAmt");
    for code in ["CORE", "B2B"] {
        let in_items = whole("2", "24.68", &[one_item("12.34", code), one_item("12.34", code)]);
        let own = payment_type.replacen("CORE", code, 1);
        let in_header =
            in_items.replace(&own, "").replacen("<InstgAgt>", &format!("{own}<InstgAgt>"), 1);
        assert_ne!(in_header, in_items);
        let due = numbered_records(&[with_field(290, 4, code), with_field(290, 4, code)]);
        assert_eq!(records_of(&in_items, 2), due);
        assert_eq!(records_of(&in_header, 2), due);
    }
}

/// The recorded elements of the example, each with another value that is nearly the same. (The amount
/// with the total, which the record does not hold.)
const RECORDED: [(&str, &str); 15] = [
    ("<TxId>T1<", "<TxId>T10<"),
    ("<EndToEndId>E1<", "<EndToEndId>E 1<"),
    ("<MndtId>M1<", "<MndtId>M.1<"),
    ("DE21500500009876543210", "DE87200500001234567890"),
    ("DE87200500001234567890", "DE21500500009876543210"),
    ("SPUEDE2UXXX", "SPUEDE2U"),
    ("12.34", "12.35"),
    ("<ReqdColltnDt>2010-12-03<", "<ReqdColltnDt>2010-12-04<"),
    ("RCUR", "FRST"),
    ("DE98ZZZ09999999999", "DE98ZZz09999999999"),
    ("BANKDEFFXXX", "BANKDEFF"),
    ("<InstrId>I1<", "<InstrId>I10<"),
    (INSTRUCTION, ""),
    ("CORE", "B2B"),
    ("2010-11-20", "2010-11-21"),
];

/// "Two accepted items with equal records agree in every field recorded": each changed alone gives
/// another record, and no two of them give the same.
#[test]
fn equal_records_agree_in_every_field() {
    let mut seen = vec![RECORD.to_string()];
    for (old, new) in RECORDED {
        let record = record_of(&EXAMPLE.replace(old, new));
        assert!(!seen.contains(&record), "{old} -> {new}");
        seen.push(record);
    }
}

/// "amounts as cents and EndToEndId as collapsed": spelled otherwise they give the same record; so does
/// whatever is not recorded.
#[test]
fn what_a_record_does_not_tell_apart() {
    for (old, new) in [
        (">12.34<", ">0012.34<"),
        ("<EndToEndId>E1<", "<EndToEndId>\tE1\r\n<"),
        ("MSG/1", "MSG/2"),
        ("2010-12-01T09:30:00", "2010-12-01T09:30:01"),
        ("<IntrBkSttlmDt>2010-12-03<", "<IntrBkSttlmDt>2010-12-04<"),
        ("<BIC>BANKDEFF<", "<BIC>BANKDEFFXXX<"),
        ("<Nm>Creditor<", "<Nm>Another<"),
        ("<Nm>Debtor<", "<Nm>Another<"),
        ("Invoice 1", "Invoice 2"),
        ("<RmtInf><Ustrd>Invoice 1</Ustrd></RmtInf>", ""),
    ] {
        let message = EXAMPLE.replace(old, new);
        assert_ne!(message, EXAMPLE, "{old}");
        assert_eq!(record_of(&message), RECORD, "{old} -> {new}");
    }
}
