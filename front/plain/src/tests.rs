//! The paper's cases: "Either side of each line", the whole example, and the readings of the open
//! points of documents 01 and 02.

mod quick;
mod recorded;
mod twice;
mod typed;
mod versions;

use super::*;
use crate::value::collapsed;

const DECLARATION: &str = r#"<?xml version="1.0" encoding="UTF-8"?>"#;
const ROOT: &str = r#"<Document xmlns="urn:iso:std:iso:20022:tech:xsd:pacs.003.001.02">"#;

/// The message of the paper's whole example, in one line.
const EXAMPLE: &str = include_str!("../../../samples/example.xml");
/// Its record: "`T1` and 33 spaces, `E1` and 33, `M1` and 33, `DE21500500009876543210` and 12, ..", and
/// behind these 255 bytes the fields of request 9.
const RECORD: &str = include_str!("../../../samples/example.record");

/// What stands in the example from this tag to before that one.
fn part(from: &str, to: &str) -> &'static str {
    &EXAMPLE[place_of(EXAMPLE, from)..place_of(EXAMPLE, to)]
}

/// The example's header, with this count and this total.
fn header(count: &str, total: &str) -> String {
    part("<FIToFICstmrDrctDbt>", "<DrctDbtTxInf>")
        .replacen("<NbOfTxs>1<", &format!("<NbOfTxs>{count}<"), 1)
        .replacen("12.34", total, 1)
}

/// The example's item, with this amount and this local instrument.
fn one_item(amount: &str, instrument: &str) -> String {
    part("<DrctDbtTxInf>", CLOSE).replacen("12.34", amount, 1).replacen("CORE", instrument, 1)
}

const CLOSE: &str = "</FIToFICstmrDrctDbt></Document>";

/// These items, each with a TxId of its own: `T1`, `T2` and so on.
fn numbered(items: &[String]) -> String {
    let number = |(at, item): (usize, &String)| {
        item.replacen("<TxId>T1<", &format!("<TxId>T{}<", at + 1), 1)
    };
    items.iter().enumerate().map(number).collect()
}

/// These records, of items so numbered.
fn numbered_records<R: AsRef<str>>(records: &[R]) -> Vec<String> {
    let number = |(at, record): (usize, &R)| {
        format!("{:35}{}", format!("T{}", at + 1), &record.as_ref()[35..])
    };
    records.iter().enumerate().map(number).collect()
}

/// A message of these items, so numbered.
fn whole(count: &str, total: &str, items: &[String]) -> String {
    format!("{ROOT}{}{}{CLOSE}", header(count, total), numbered(items))
}

/// The number and the place of a message that must be refused.
fn refused(message: &str) -> (u8, usize) {
    match judge(message.as_bytes()) {
        Verdict::Refused { number, place } => (number, place),
        accepted => panic!("{accepted:?}: {message}"),
    }
}

/// Where this part first stands.
fn place_of(message: &str, part: &str) -> usize {
    message.find(part).expect("the part stands in the message")
}

/// The example with its first `old` replaced: refused with this number, where the replacement lies
/// and `further` bytes on.
fn refuses(old: &str, new: &str, number: u8, further: usize) {
    let place = place_of(EXAMPLE, old) + further;
    assert_eq!(refused(&EXAMPLE.replacen(old, new, 1)), (number, place), "{old} -> {new}");
}

/// The example with its first `old` replaced: still accepted.
fn accepts(old: &str, new: &str) {
    let changed = EXAMPLE.replacen(old, new, 1);
    let accepted = Verdict::Accepted { count: 1, cents: 1234 };
    assert_eq!(judge(changed.as_bytes()), accepted, "{old} -> {new}");
}

#[test]
fn item_amounts_either_side() {
    assert_eq!(item_amount(b"0.01"), Ok(1));
    assert_eq!(item_amount(b"0.00"), Err(9));
    assert_eq!(item_amount(b"5.3"), Ok(530));
    assert_eq!(item_amount(b"5."), Err(7));
    assert_eq!(item_amount(b"0005.00"), Ok(500));
    assert_eq!(item_amount(b"999999999.99"), Ok(99_999_999_999));
    assert_eq!(item_amount(b"1000000000"), Err(9));
}

#[test]
fn amounts_of_other_forms() {
    for no in
        ["", ".", ".5", "1.234", "1,00", "+1", "-1", " 1", "1 ", "1e3", "1.", "1..0", "1.0.", "1.a"]
    {
        assert_eq!(item_amount(no.as_bytes()), Err(7), "{no}");
        assert_eq!(header_amount(no.as_bytes()), Err(7), "{no}");
    }
    assert_eq!(item_amount(b"0"), Err(9));
    assert_eq!(header_amount(b"000000000000000.00"), Err(9));
    assert_eq!(header_amount(b"999999999999999.99"), Ok(99_999_999_999_999_999));
    assert_eq!(item_amount(b"000000000000001"), Ok(100));
    assert_eq!(item_amount(b"0000000000000001"), Err(7));
    assert_eq!(header_amount(b"9999999999999999"), Err(7));
}

#[test]
fn counts() {
    assert_eq!(count(b"0"), Ok(0));
    assert_eq!(count(b"007"), Ok(7));
    assert_eq!(count(b"999999999999999"), Ok(999_999_999_999_999));
    assert_eq!(count(b"0000000000000001"), Err(7));
    for no in ["", "1.", "1.0", " 1", "-1", "a", "1a"] {
        assert_eq!(count(no.as_bytes()), Err(7), "{no}");
    }
}

#[test]
fn ibans_either_side() {
    assert_eq!(iban(b"DE87200500001234567890"), Ok(0));
    assert_eq!(iban(b"DE87200500001234567891"), Err(8));
    assert_eq!(iban(b"DE21500500009876543210"), Ok(0));
    for published in [
        "GB82WEST12345698765432",
        "FR1420041010050500013M02606",
        "NO9386011117947",
        "MT84MALT011000012345MTLCAST001S",
    ] {
        assert_eq!(iban(published.as_bytes()), Ok(0), "{published}");
    }
    for no in [
        "",
        "DE",
        "DE87",
        "de87200500001234567890",
        "DE8720050000123456789a",
        "DE87 2005 0000 1234 5678 90",
        "NO938601111794",
        "D087200500001234567890",
        "DEA7200500001234567890",
    ] {
        assert_eq!(iban(no.as_bytes()), Err(7), "{no}");
    }
}

/// An IBAN of this country, with these characters behind its check digits, which are right.
fn with_digits(country: &str, body: &str) -> String {
    let mut all = (2..=98).map(|check| format!("{country}{check:02}{body}"));
    all.find(|value| check_digits_hold(value.as_bytes())).expect("one of them is right")
}

/// Whether the check digits are right, whatever the length: an identifier has the same, and no
/// country's length.
fn check_digits_hold(value: &[u8]) -> bool {
    creditor_id(&[&value[..4], b"ZZZ", &value[4..]].concat()) == Ok(0)
}

/// "19, wrong length or no such country, after 7 and before 8".
#[test]
fn lengths_by_country_either_side() {
    assert_eq!(with_digits("DE", "200500001234567890"), "DE87200500001234567890");
    for (body, answer) in [
        ("20050000123456789", Err(19)),
        ("200500001234567890", Ok(0)),
        ("2005000012345678901", Err(19)),
    ] {
        assert_eq!(iban(with_digits("DE", body).as_bytes()), answer, "{body}");
    }
    // The desk's: a digit too many, and check digits that match.
    assert_eq!(iban(b"DE342005000012345678901"), Err(19));
    // No such country, with right check digits: unlisted ones, and two letters that are none.
    for none in [
        "TR330006100519786457841326",
        "RS35260005601001611379",
        "US86200500001234567890",
        "XX44200500001234567890",
    ] {
        assert!(check_digits_hold(none.as_bytes()), "{none}");
        assert_eq!(iban(none.as_bytes()), Err(19), "{none}");
    }
}

/// Some countries of the list with each length: their own alone passes.
#[test]
fn a_country_has_one_length() {
    for (country, due) in [("NO", 15), ("SI", 19), ("GI", 23), ("PT", 25), ("IS", 26), ("MT", 31)] {
        for length in 15..=31 {
            let value = with_digits(country, &"1".repeat(length - 4));
            let answer = if length == due { Ok(0) } else { Err(19) };
            assert_eq!(iban(value.as_bytes()), answer, "{value}");
        }
    }
}

/// 7 comes before 19 and 19 before 8; an identifier has no country's length.
#[test]
fn lengths_by_country_in_their_order() {
    // A length outside 15 to 34, or not of the form: 7, whatever the country.
    for (length, answer) in [(14, 7), (15, 19), (34, 19), (35, 7)] {
        for country in ["DE", "US"] {
            let value = format!("{country}87{}", "1".repeat(length - 4));
            assert_eq!(iban(value.as_bytes()), Err(answer), "{value}");
        }
    }
    assert_eq!(iban(b"DE8720050000123456789a1"), Err(7));
    assert_eq!(iban(b"us87200500001234567890"), Err(7));
    // A wrong length and wrong check digits, also such as are none: 19.
    for both in ["DE872005000012345678901", "DE002005000012345678901", "US00200500001234567890"] {
        assert_eq!(iban(both.as_bytes()), Err(19), "{both}");
    }
    for body in ["0", "09", "09999999999", "099999999990", "0999999999999999999999999999"] {
        for country in ["DE", "US"] {
            let value = with_digits(country, body);
            let value = format!("{}ZZZ{body}", &value[..4]);
            assert_eq!(creditor_id(value.as_bytes()), Ok(0), "{value}");
            let wrong = value.replacen(body, &body.replacen('0', "1", 1), 1);
            assert_eq!(creditor_id(wrong.as_bytes()), Err(8), "{wrong}");
        }
    }
}

/// In a message: at the value's first byte, in either account.
#[test]
fn lengths_by_country_in_place() {
    for account in ["DE87200500001234567890", "DE21500500009876543210"] {
        refuses(account, "DE342005000012345678901", 19, 0);
        refuses(account, "US86200500001234567890", 19, 0);
        refuses(account, "US00200500001234567890", 19, 0);
        refuses(account, "DE3420050000123456789012345678901234", 7, 0);
        accepts(account, "NL91ABNA0417164300");
        accepts(account, "MT84MALT011000012345MTLCAST001S");
    }
}

/// "accepting check digits 00, 01 or 99 because the remainder fits" is an error that looks
/// reasonable.
#[test]
fn check_digits_are_02_to_98() {
    for (true_digits, false_digits) in [(97, 0), (98, 1), (2, 99)] {
        let account = (0..1000)
            .map(|n| format!("DE{true_digits:02}{n:018}"))
            .find(|account| iban(account.as_bytes()) == Ok(0))
            .expect("one in 97 has these digits");
        let alias = format!("DE{false_digits:02}{}", &account[4..]);
        assert_eq!(iban(alias.as_bytes()), Err(8), "{alias}");
        let identifier = format!("DE{true_digits:02}ZZZ{}", &account[4..]);
        assert_eq!(creditor_id(identifier.as_bytes()), Ok(0), "{identifier}");
        let alias = format!("DE{false_digits:02}ZZZ{}", &account[4..]);
        assert_eq!(creditor_id(alias.as_bytes()), Err(8), "{alias}");
    }
}

#[test]
fn identifiers_either_side() {
    assert_eq!(creditor_id(b"DE98ZZZ09999999999"), Ok(0));
    assert_eq!(creditor_id(b"DE98ABC09999999999"), Ok(0));
    assert_eq!(creditor_id(b"DE98a1c09999999999"), Ok(0));
    assert_eq!(creditor_id(b"DE00ZZZ09999999999"), Err(8));
    assert_eq!(creditor_id(b"DE98ZZZ/0-99?9:9(9)9.9,9'9+"), Err(8));
    assert_eq!(creditor_id(b"DE98ZZZ//0-99?9:9(9)9.9,9'9+9"), Ok(0));
    for no in [
        "",
        "DE98ZZZ",
        "DE98ZZZ/",
        "DE98ZZZ-?:",
        "DE98Z-Z09999999999",
        "DE98ZZZ0999999 9999",
        "dE98ZZZ09999999999",
        "DE9 ZZZ09999999999",
    ] {
        assert_eq!(creditor_id(no.as_bytes()), Err(7), "{no}");
    }
    let filled =
        |length: usize| [b"DE98ZZZ09999999999".as_slice(), &vec![b'+'; length - 18]].concat();
    assert_eq!(creditor_id(&filled(35)), Ok(0));
    assert_eq!(creditor_id(&filled(36)), Err(7));
    // Letters of either case have one worth.
    let letters =
        (2..=98).map(|c| format!("AT{c:02}zzzaBc")).find(|i| creditor_id(i.as_bytes()) == Ok(0));
    let same = letters.expect("one of them fits").replace("aBc", "AbC");
    assert_eq!(creditor_id(same.as_bytes()), Ok(0));
}

#[test]
fn dates_either_side() {
    assert_eq!(date(b"2000-02-29"), Ok(0));
    assert_eq!(date(b"1900-02-29"), Err(7));
    for yes in ["0001-01-01", "9999-12-31", "2004-02-29", "2010-04-30"] {
        assert_eq!(date(yes.as_bytes()), Ok(0), "{yes}");
    }
    for no in [
        "",
        "0000-01-01",
        "2010-00-01",
        "2010-13-01",
        "2010-01-00",
        "2010-01-32",
        "2010-04-31",
        "2011-02-29",
        "10000-01-01",
        "2010-1-01",
        "2010/01/01",
        "2010-01-01 ",
        "2010-01-0a",
    ] {
        assert_eq!(date(no.as_bytes()), Err(7), "{no}");
    }
}

#[test]
fn times() {
    for yes in ["", ".000", ".999Z", "Z", "+00:00", "-00:00", "+14:00", "-14:00", ".123-13:59"] {
        assert_eq!(time(format!("2010-12-01T23:59:59{yes}").as_bytes()), Ok(0), "{yes}");
    }
    for no in [
        ".", ".1", ".12", ".1234", "z", "ZZ", "+", "+14:01", "+15:00", "-00:60", "+13:60", "+1400",
        "+14", " ", ".123.123", "+14:00Z", "Z+14:00", ".12Z",
    ] {
        assert_eq!(time(format!("2010-12-01T23:59:59{no}").as_bytes()), Err(7), "{no}");
    }
    for no in [
        "",
        "2010-12-01",
        "2010-12-01T",
        "2010-12-01T24:00:00",
        "2010-12-01T23:60:00",
        "2010-12-01T23:59:60",
        "2010-12-01 23:59:59",
        "2010-12-01t23:59:59",
        "2010-12-01T23:59",
        "2010-11-31T23:59:59",
    ] {
        assert_eq!(time(no.as_bytes()), Err(7), "{no}");
    }
}

#[test]
fn bics() {
    for yes in ["BANKDEFF", "BANKDEFFXXX", "SPUEDE2UXXX", "ABCDEF2A", "ABCDEF90", "ABCDEFZ0123"] {
        assert_eq!(bic(yes.as_bytes()), Ok(0), "{yes}");
    }
    for no in [
        "",
        "BANKDEF",
        "BANKDEFFX",
        "BANKDEFFXX",
        "BANKDEFFXXXX",
        "BANKDE0F",
        "BANKDE1F",
        "BANKDEFO",
        "BANK1EFF",
        "bANKDEFF",
        "BANKDEFFXxX",
    ] {
        assert_eq!(bic(no.as_bytes()), Err(7), "{no}");
    }
}

#[test]
fn references_and_texts() {
    for yes in ["A", "a/b", "A/B/C", "-?:().,'+", "12345678901234567890123456789012345"] {
        assert_eq!(reference(yes.as_bytes()), Ok(0), "{yes}");
    }
    for no in [
        "",
        "/",
        "//",
        "/A",
        "A/",
        "A//B",
        "A B",
        " A",
        "A_",
        "\u{e9}",
        "A\0",
        "123456789012345678901234567890123456",
    ] {
        assert_eq!(reference(no.as_bytes()), Err(7), "{no}");
    }
    for (longest, text) in [(70, text70 as Checker), (140, text140)] {
        assert_eq!(text(&vec![b'A'; longest]), Ok(0));
        assert_eq!(text(&vec![b'A'; longest + 1]), Err(7));
        for yes in ["A", "/", "//A//", "A B"] {
            assert_eq!(text(yes.as_bytes()), Ok(0), "{yes}");
        }
        for no in ["", "A_", "A&", "\u{e9}", "A\u{b}B", "A\u{c}B", "\u{c}A", "A\u{a0}B", "\0"] {
            assert_eq!(text(no.as_bytes()), Err(7), "{no}");
        }
    }
}

/// A single checker.
type Checker = fn(&[u8]) -> Result<u64, u8>;

/// The three kinds that collapse, and how long the collapsed value may be.
const COLLAPSING: [(Checker, usize); 3] = [(end_to_end, 35), (text70, 70), (text140, 140)];

/// The four bytes of white space, and runs of them.
const WHITE: [&str; 10] =
    [" ", "\t", "\r", "\n", "  ", "\r\n", "\n\t", " \t\r\n", "\r\r", "\n    \t\t  \r\n \n"];

/// "Tab, CR and LF count as space; runs become one; ends are stripped".
#[test]
fn white_space_collapses() {
    let text = |value: &str| String::from_utf8(collapsed(value.as_bytes()).collect()).unwrap();
    for white in WHITE {
        assert_eq!(text(white), "");
        for value in ["A", "A B", "RENT 2023 04", "/ /", "A-B C/D E"] {
            let spelled = value.replace(' ', white);
            assert_eq!(text(&spelled), value, "{spelled:?}");
            assert_eq!(text(&format!("{white}{spelled}")), value, "{spelled:?}");
            assert_eq!(text(&format!("{spelled}{white}")), value, "{spelled:?}");
            assert_eq!(text(&format!("{white}{spelled}{white}")), value, "{spelled:?}");
        }
    }
    assert_eq!(text(""), "");
    assert_eq!(text("\tRENT \r\n 2023\n\n04  "), "RENT 2023 04");
    // No other byte is white space, and no other byte is touched.
    assert_eq!(text("\u{b}A\u{c}B\u{a0}\0"), "\u{b}A\u{c}B\u{a0}\0");
}

/// "then the reference set with space, length 1 to 35 and the slash rule apply".
#[test]
fn end_to_ends_either_side() {
    for yes in [
        "RENT 2023 04",
        "A",
        " A",
        "A ",
        "\tA\r\n",
        "A\t\rB",
        "A / B",
        "A/ B",
        "A /B",
        "A/ /B",
        "A B/C D",
        "-?: ().,'+",
    ] {
        assert_eq!(end_to_end(yes.as_bytes()), Ok(0), "{yes:?}");
    }
    for no in [
        "", "/", "/ /", "/ A", " /A", "A /", "A/ ", "A/\n", "\t/\t", "A //B", "A// B", "A_B",
        "A\u{e9}", "A\0", "A\u{b}B", "\u{c}A", "A&B",
    ] {
        assert_eq!(end_to_end(no.as_bytes()), Err(7), "{no:?}");
    }
}

/// The length is that of the collapsed value; that of the raw one is free.
#[test]
fn collapsed_lengths_either_side() {
    for (checker, longest) in COLLAPSING {
        // A word, white space, a word: so long when it is collapsed.
        let words = |length: usize, white: &str| {
            [&vec![b'A'; length - 3], white.as_bytes(), b"BC"].concat()
        };
        assert_eq!(words(longest, "  ").len(), longest + 1);
        for white in WHITE {
            assert_eq!(checker(white.as_bytes()), Err(7), "{white:?}");
            assert_eq!(checker(&words(longest - 1, white)), Ok(0), "{white:?}");
            assert_eq!(checker(&words(longest, white)), Ok(0), "{white:?}");
            assert_eq!(checker(&words(longest + 1, white)), Err(7), "{white:?}");
            // Words of one letter: as many as there is room for, and one more.
            let most = longest.div_ceil(2);
            assert_eq!(checker(vec!["A"; most].join(white).as_bytes()), Ok(0), "{white:?}");
            assert_eq!(checker(vec!["A"; most + 1].join(white).as_bytes()), Err(7), "{white:?}");
            for length in [1, longest, longest + 1] {
                let beside = [white.as_bytes(), &vec![b'A'; length], white.as_bytes()].concat();
                let answer = if length <= longest { Ok(0) } else { Err(7) };
                assert_eq!(checker(&beside), answer, "{white:?}");
            }
        }
        let run = "\r\n\t ".repeat(1000);
        assert_eq!(checker(run.as_bytes()), Err(7));
        assert_eq!(checker(format!("{run}A{run}B{run}").as_bytes()), Ok(0));
        assert_eq!(checker(format!("{run}A{run}_{run}").as_bytes()), Err(7));
    }
}

/// Neither a reference (MsgId, InstrId, TxId, MndtId) nor any other kind collapses.
#[test]
fn no_other_kind_collapses() {
    let others: [(Checker, &str); 10] = [
        (reference, "A-B"),
        (iban, "DE87200500001234567890"),
        (creditor_id, "DE98ZZZ09999999999"),
        (bic, "BANKDEFF"),
        (bicfi, "BANKDEFF"),
        (count, "12"),
        (item_amount, "12.34"),
        (header_amount, "12.34"),
        (date, "2000-02-29"),
        (time, "2010-12-01T09:30:00"),
    ];
    for (checker, value) in others {
        assert!(checker(value.as_bytes()).is_ok(), "{value}");
        for white in WHITE {
            for at in 0..=value.len() {
                let spaced = format!("{}{white}{}", &value[..at], &value[at..]);
                assert_eq!(checker(spaced.as_bytes()), Err(7), "{spaced:?}");
            }
        }
    }
}

#[test]
fn beginnings() {
    assert_eq!(refused(""), (3, 0));
    assert_eq!(refused("<"), (3, 1));
    assert_eq!(refused("<?xml>"), (2, 0));
    assert_eq!(refused("<?"), (3, 2));
    assert_eq!(refused(" "), (3, 1));
    assert_eq!(refused(" <"), (3, 2));
    assert_eq!(refused(" <?"), (2, 1));
    assert_eq!(refused(&format!(" {DECLARATION}{ROOT}")), (2, 1));
    assert_eq!(refused(DECLARATION), (3, 38));
    assert_eq!(refused(&format!("{DECLARATION} \n")), (3, 40));
    assert_eq!(refused(&format!("{DECLARATION}{DECLARATION}")), (2, 38));
    assert_eq!(refused(&format!("{DECLARATION}\n{DECLARATION}")), (2, 39));
    assert_eq!(refused(&format!("{DECLARATION}x")), (2, 38));
    assert_eq!(refused("\u{feff}<Document"), (2, 0));
    assert_eq!(refused("\0"), (2, 0));
    assert_eq!(refused("<!--"), (2, 0));
    assert_eq!(refused("<Document>"), (2, 0));
    assert_eq!(refused("  <document"), (2, 2));
    assert_eq!(refused(ROOT), (3, ROOT.len()));
    assert_eq!(refused(&format!("{ROOT} <FIToFICstmrDrctDbt/>")), (4, ROOT.len() + 1));
    assert_eq!(refused(&format!("{ROOT}</Document>")), (4, ROOT.len()));
}

#[test]
fn accepted_with_and_without_declaration_and_white_space() {
    let accepted = Verdict::Accepted { count: 1, cents: 1234 };
    assert_eq!(judge(EXAMPLE.as_bytes()), accepted);
    for spaced in [
        format!("{DECLARATION}{EXAMPLE}"),
        format!("{DECLARATION} \t\r\n{EXAMPLE} \t\r\n"),
        format!("\n{EXAMPLE}"),
    ] {
        assert_eq!(judge(spaced.as_bytes()), accepted, "{spaced}");
    }
    accepts("<FIToFICstmrDrctDbt>", "\n<FIToFICstmrDrctDbt>");
    accepts("</Document>", "\t</Document>");
    accepts("<EndToEndId>", "\r\n  <EndToEndId>");
    accepts("</PmtId>", " </PmtId>");
    accepts("<BIC>", " <BIC>");
    accepts("<NbOfTxs>1<", "<NbOfTxs>000000000000001<");
    accepts(">12.34</Ttl", ">0000012.34</Ttl");
    accepts("<InstrId>I1</InstrId>", "");
    accepts("<RmtInf><Ustrd>Invoice 1</Ustrd></RmtInf>", "");
}

#[test]
fn white_space_of_every_length() {
    for spaces in (0..40).map(|length| " ".repeat(length)) {
        for line_end in ["", "\n", "\r\n", "\n\t", "\t", "\n\n"] {
            accepts("<TxId>", &format!("{line_end}{spaces}<TxId>"));
            accepts("<TxId>", &format!("{spaces}{line_end}<TxId>"));
            refuses(
                "<TxId>",
                &format!("{line_end}{spaces}<TxID>"),
                4,
                line_end.len() + spaces.len(),
            );
        }
    }
}

#[test]
fn cut_anywhere_is_3() {
    let message = format!("{DECLARATION}\n{EXAMPLE}");
    for length in 0..message.len() {
        assert_eq!(refused(&message[..length]), (3, length), "{length}");
    }
}

#[test]
fn tags() {
    refuses("<MsgId>", "<MsgID>", 4, 0);
    refuses("<MsgId>", "x<MsgId>", 4, 0);
    refuses("<MsgId>", " \nx<MsgId>", 4, 2);
    refuses("<MsgId>", "<MsgId >", 4, 0);
    refuses("<MsgId>", "< MsgId>", 4, 0);
    refuses("</MsgId>", "</MsgID>", 4, 0);
    refuses("</InstrId>", "</InstrId><InstrId>A</InstrId>", 4, 10);
    refuses("<RmtInf><Ustrd>Invoice 1</Ustrd>", "<RmtInf>", 4, 8);
    refuses("</Ustrd>", "</Ustrd><Ustrd>A</Ustrd>", 4, 8);
    refuses("</RmtInf>", "</RmtInf><RmtInf>", 4, 9);
    refuses("</Document>", "</Document>\n x", 16, 13);
    refuses("</Document>", "</Document>\0", 16, 11);
    let none = format!("{ROOT}{}{CLOSE}", header("1", "1"));
    assert_eq!(refused(&none), (4, place_of(&none, CLOSE)));
}

#[test]
fn values_in_place() {
    refuses("MSG/1", "", 7, 0);
    refuses("MSG/1", "_", 7, 0);
    refuses("MSG/1", " MSG/1", 7, 0);
    refuses("MSG/1", "MSG/1 ", 7, 0);
    refuses("CLRG", "", 10, 0);
    refuses("CLRG", "CLRG ", 10, 0);
    refuses("SLEV", "SLEv", 10, 0);
    refuses("RCUR", "RCURR", 10, 0);
    refuses("CORE", "COR1", 10, 0);
    refuses("DE21500500009876543210", "DE21500500009876543201", 8, 0);
    refuses("DE98ZZZ09999999999", "DE98ZZZ09999999998", 8, 0);
    refuses("12.34</Intr", "0.00</Intr", 9, 0);
    refuses(">1</NbOfTxs>", ">0</NbOfTxs>", 14, 1);
    refuses(">12.34</Ttl", ">12.33</Ttl", 15, 1);
    let opened = &EXAMPLE[..place_of(EXAMPLE, "MSG/1")];
    assert_eq!(refused(&format!("{opened}_")), (3, opened.len() + 1));
    assert_eq!(refused(&format!("{opened}_<")), (7, opened.len()));
    assert_eq!(refused(&format!("{opened}A<")), (3, opened.len() + 2));
    assert_eq!(refused(&format!("{opened}<")), (7, opened.len()));
    assert_eq!(refused(&format!("{opened}A<x")), (4, opened.len() + 1));
}

/// In a message: the place of a refusal is the raw value's first byte.
#[test]
fn collapsing_values_in_place() {
    for white in WHITE {
        for element in ["EndToEndId", "Nm", "Ustrd"] {
            let old = format!("<{element}>{}<", value_in(EXAMPLE, element));
            let with = |value: &str| format!("<{element}>{value}<");
            accepts(&old, &with(&format!("{white}A{white}B{white}")));
            refuses(&old, &with(white), 7, element.len() + 2);
            refuses(&old, &with(&format!("{white}A{white}_")), 7, element.len() + 2);
        }
        refuses("<EndToEndId>E1<", &format!("<EndToEndId>{white}/A<"), 7, 12);
        refuses("<EndToEndId>E1<", &format!("<EndToEndId>A/{white}<"), 7, 12);
        for (element, value) in [("MsgId", "MSG/1"), ("InstrId", "I1"), ("TxId", "T1")] {
            let old = format!("<{element}>{value}<");
            refuses(&old, &format!("<{element}>{white}{value}<"), 7, element.len() + 2);
            refuses(&old, &format!("<{element}>{value}{white}<"), 7, element.len() + 2);
        }
        refuses("<MndtId>M1<", &format!("<MndtId>M{white}1<"), 7, 8);
        refuses("<SeqTp>RCUR<", &format!("<SeqTp>RCUR{white}<"), 10, 7);
    }
    // A value is everything up to the next `<`, however long: its end is read before it is judged.
    let opened = &EXAMPLE[..place_of(EXAMPLE, "E1</EndToEndId>")];
    assert_eq!(refused(&format!("{opened} ")), (3, opened.len() + 1));
    assert_eq!(refused(&format!("{opened} <")), (7, opened.len()));
    assert_eq!(refused(&format!("{opened} A <")), (3, opened.len() + 4));
}

/// The value of the first element of this name.
fn value_in(message: &str, name: &str) -> String {
    let start = format!("<{name}>");
    let behind = &message[place_of(message, &start) + start.len()..];
    behind[..place_of(behind, "<")].to_string()
}

#[test]
fn currencies() {
    let tag = "<TtlIntrBkSttlmAmt Ccy=\"";
    let opened = &EXAMPLE[..place_of(EXAMPLE, tag)];
    let capital = opened.len() + tag.len();
    for (after, number, place) in [
        ("EU", 3, capital + 2),
        ("XYZ", 3, capital + 3),
        ("XYZ\"", 3, capital + 4),
        ("XYZ\">", 6, capital),
        ("USD\">_", 6, capital),
        ("EUR\">", 3, capital + 5),
        ("U1", 4, opened.len()),
        ("eur\">1<", 4, opened.len()),
        ("E1R\">1<", 4, opened.len()),
        ("EURO\">1<", 4, opened.len()),
        ("EUR\" >1<", 4, opened.len()),
        ("USD\"/", 4, opened.len()),
    ] {
        assert_eq!(refused(&format!("{opened}{tag}{after}")), (number, place), "{after}");
    }
    refuses("<IntrBkSttlmAmt Ccy=\"EUR\">", "<IntrBkSttlmAmt>", 4, 0);
    refuses("<IntrBkSttlmAmt Ccy=\"EUR\">", "<IntrBkSttlmAmt Ccy='EUR'>", 4, 0);
    refuses("<IntrBkSttlmAmt Ccy=\"EUR\">", "<IntrBkSttlmAmt Ccy=\"CHF\">", 6, 21);
}

#[test]
fn count_and_total() {
    let two = [one_item("1.23", "B2B"), one_item("1.23", "B2B")];
    assert_eq!(
        judge(whole("2", "2.46", &two).as_bytes()),
        Verdict::Accepted { count: 2, cents: 246 }
    );
    let wrong = whole("3", "2.47", &two);
    assert_eq!(refused(&wrong), (14, place_of(&wrong, "3</NbOfTxs>")));
    let wrong = whole("2", "2.47", &two);
    assert_eq!(refused(&wrong), (15, place_of(&wrong, "2.47<")));
    let mixed = whole("2", "2.46", &[one_item("1.23", "B2B"), one_item("1.23", "CORE")]);
    assert_eq!(refused(&mixed), (11, place_of(&mixed, "CORE")));
    // 10 comes before 11, and 11 before the end tag.
    let mixed = whole("2", "2.46", &[one_item("1.23", "B2B"), one_item("1.23", "CORE<")]);
    assert_eq!(refused(&mixed), (11, place_of(&mixed, "CORE")));
}

#[test]
fn item_places() {
    let message = whole("2", "2.46", &[one_item("1.23", "CORE"), one_item("1.23", "CORE")]);
    let length = one_item("1.23", "CORE").len();
    let first = place_of(&message, "<DrctDbtTxInf>");
    assert_eq!(item(message.as_bytes(), 0), Ok((first, first + length)));
    assert_eq!(item(message.as_bytes(), 1), Ok((first + length, first + 2 * length)));
    assert_eq!(item(message.as_bytes(), 2), Err((18, 0)));
    assert_eq!(item(message.as_bytes(), u64::MAX), Err((18, 0)));
    assert_eq!(item(b"", 0), Err((3, 0)));
    assert_eq!(item(&message.as_bytes()[..message.len() - 1], 7), Err((3, message.len() - 1)));
}

#[test]
fn record_of_the_whole_example() {
    let mut area = [0xAA; 364];
    let verdict = records(EXAMPLE.as_bytes(), &mut area);
    assert_eq!(verdict, Verdict::Accepted { count: 1, cents: 1234 });
    assert_eq!(&area[..320], RECORD.as_bytes());
    assert_eq!(area[320..], [0xAA; 44]);
}

/// "The record and the plain form hold the collapsed value."
#[test]
fn records_and_plain_forms_hold_the_collapsed_value() {
    let longest = format!("{} {}", "A".repeat(17), "B".repeat(17));
    assert_eq!(longest.len(), 35);
    for meant in ["E1", "RENT 2023 04", "A", &longest] {
        for white in WHITE {
            let spelled = format!("{white}{}{white}", meant.replace(' ', white));
            let message = EXAMPLE.replacen(">E1<", &format!(">{spelled}<"), 1);
            let due = [&RECORD[..35], &format!("{meant:35}"), &RECORD[70..]].concat();
            assert_eq!(record_of(&message), due, "{message:?}");
            let due = plain_example().replacen(">E1<", &format!(">{meant}<"), 1);
            assert_eq!(plain(&message), Ok(due), "{message:?}");
        }
    }
    // Names and remittance text: in the plain form alone.
    for element in ["Nm", "Ustrd"] {
        for white in WHITE {
            let spelled = format!("{white}A{white}B{white}");
            let message = with_value(EXAMPLE, element, &spelled);
            assert_eq!(record_of(&message), RECORD, "{message:?}");
            let due = with_value(&plain_example(), element, "A B");
            assert_eq!(plain(&message), Ok(due), "{message:?}");
        }
    }
}

/// The record of a message of one item.
fn record_of(message: &str) -> String {
    let mut area = vec![0xAA; 320];
    let verdict = records(message.as_bytes(), &mut area);
    assert!(matches!(verdict, Verdict::Accepted { count: 1, .. }), "{verdict:?}: {message:?}");
    String::from_utf8(area).expect("a record is ASCII")
}

/// 512 bytes were enough for two records before request 9.
#[test]
fn record_areas() {
    let two = whole("2", "24.68", &[one_item("12.34", "CORE"), one_item("12.34", "CORE")]);
    for length in [0, 1, 320, 512, 639] {
        let mut area = vec![7; length];
        let verdict = records(two.as_bytes(), &mut area);
        assert_eq!(verdict, Verdict::Refused { number: 17, place: 0 });
        assert_eq!(area, vec![7; length]);
    }
    let mut area = [7; 640];
    assert_eq!(records(two.as_bytes(), &mut area), Verdict::Accepted { count: 2, cents: 2468 });
    assert_eq!(area.as_slice(), numbered_records(&[RECORD; 2]).concat().as_bytes());
    // Refused at the end only: no record is written.
    let mut area = [7; 640];
    assert_eq!(
        records(&two.as_bytes()[..two.len() - 1], &mut area),
        Verdict::Refused { number: 3, place: two.len() - 1 }
    );
    assert_eq!(area, [7; 640]);
}

#[test]
fn limits() {
    // The longest message: white space up to 16,777,216 bytes.
    let mut longest = EXAMPLE.as_bytes().to_vec();
    longest.resize(16_777_216, b' ');
    assert_eq!(judge(&longest), Verdict::Accepted { count: 1, cents: 1234 });
    longest.push(b' ');
    assert_eq!(judge(&longest), Verdict::Refused { number: 1, place: 0 });
    longest.fill(0);
    assert_eq!(judge(&longest), Verdict::Refused { number: 1, place: 0 });

    // 10,000 items, and one more.
    let items = numbered(&vec![one_item("999999999.99", "CORE"); 10_000]);
    let most = format!("{ROOT}{}{items}", header("10000", "9999999999900.00"));
    let accepted = Verdict::Accepted { count: 10_000, cents: 999_999_999_990_000 };
    assert_eq!(judge(format!("{most}{CLOSE}").as_bytes()), accepted);
    assert_eq!(refused(&format!("{most} <DrctDbtTxInf")), (3, most.len() + 14));
    assert_eq!(refused(&format!("{most} <DrctDbtTxInf>")), (12, most.len() + 1));
    assert_eq!(refused(&format!("{most} <DrctDbtTxInf/>")), (4, most.len() + 1));
    assert_eq!(refused(&format!("{most} <DrctDbtTxInf>x")), (12, most.len() + 1));
}

/// The plain form of a message, by an area with bytes behind it, which stay.
fn plain(message: &str) -> Result<String, (u8, usize)> {
    let mut area = vec![0xAA; message.len() + 200];
    let length = plain_form(message.as_bytes(), &mut area)?;
    assert!(area[length..].iter().all(|&byte| byte == 0xAA), "{message}");
    Ok(String::from_utf8(area[..length].to_vec()).expect("a plain form is ASCII"))
}

/// The example's: only the declaration is missing in it.
fn plain_example() -> String {
    format!("{DECLARATION}{EXAMPLE}")
}

#[test]
fn plain_form_of_the_example() {
    assert_eq!(plain(EXAMPLE), Ok(plain_example()));
    assert_eq!(plain(&plain_example()), Ok(plain_example()));
    let spaced = EXAMPLE.replace("><", "> \t\r\n<");
    for message in [
        format!("{DECLARATION}\n{spaced}"),
        format!("{DECLARATION}{EXAMPLE}\r\n"),
        format!(" \n{spaced}\t"),
        spaced,
    ] {
        assert_eq!(plain(&message), Ok(plain_example()), "{message}");
    }
}

#[test]
fn plain_counts_and_amounts() {
    for (spelled, due) in [
        ("0.01", "0.01"),
        ("000000000000000.01", "0.01"),
        ("0.1", "0.10"),
        ("00.10", "0.10"),
        ("5", "5.00"),
        ("5.3", "5.30"),
        ("0005.00", "5.00"),
        ("100", "100.00"),
        ("1000.0", "1000.00"),
        ("000000999999999.99", "999999999.99"),
        ("999999999", "999999999.00"),
    ] {
        for count in ["1", "01", "000000000000001"] {
            let message = whole(count, spelled, &[one_item(spelled, "CORE")]);
            let due = format!("{DECLARATION}{}", whole("1", due, &[one_item(due, "CORE")]));
            assert_eq!(plain(&message), Ok(due), "{spelled}");
        }
    }
    let ten = vec![one_item("10", "B2B"); 10];
    let due = vec![one_item("10.00", "B2B"); 10];
    let due = format!("{DECLARATION}{}", whole("10", "100.00", &due));
    assert_eq!(plain(&whole("0010", "0100", &ten)), Ok(due));
}

/// "all other values as read": zeros and points in them, single spaces, the case of letters.
#[test]
fn other_values_stay_as_read() {
    for (old, new) in [
        ("MSG/1", "0001.0"),
        ("<TxId>T1<", "<TxId>007<"),
        ("<EndToEndId>E1<", "<EndToEndId>00.10<"),
        ("<EndToEndId>E1<", "<EndToEndId>E 1<"),
        ("<MndtId>M1<", "<MndtId>5.3<"),
        ("<InstrId>I1<", "<InstrId>05<"),
        ("Invoice 1", "000 1.0 /"),
        ("DE98ZZZ09999999999", "DE98zzz/09999999999"),
    ] {
        let message = EXAMPLE.replacen(old, new, 1);
        let form = plain_example().replacen(old, new, 1);
        assert_ne!(form, plain_example(), "{old}");
        assert_eq!(plain(&message.replace("><", ">\n<")), Ok(form), "{new}");
    }
}

#[test]
fn plain_form_areas() {
    let form = plain_example();
    for length in [0, 1, 38, form.len() - 1] {
        let mut area = vec![7; length];
        assert_eq!(plain_form(EXAMPLE.as_bytes(), &mut area), Err((17, 0)), "{length}");
        assert_eq!(area, vec![7; length]);
    }
    for more in [0, 1, 300] {
        let mut area = vec![7; form.len() + more];
        assert_eq!(plain_form(EXAMPLE.as_bytes(), &mut area), Ok(form.len()));
        assert_eq!(area, [form.as_bytes(), &vec![7; more]].concat());
    }
}

/// The judge's own refusal comes first, and the area stays.
#[test]
fn no_plain_form_of_a_refused_message() {
    for message in [
        String::new(),
        EXAMPLE.replacen("</Document>", "</Document", 1),
        EXAMPLE.replacen("<NbOfTxs>1<", "<NbOfTxs>2<", 1),
        EXAMPLE.replacen(">12.34</Ttl", ">12.33</Ttl", 1),
        EXAMPLE.replacen("DE21500500009876543210", "DE21500500009876543211", 1),
    ] {
        for length in [0, 2000] {
            let mut area = vec![7; length];
            let refusal = plain_form(message.as_bytes(), &mut area);
            assert_eq!(refusal, Err(refused(&message)), "{message}");
            assert_eq!(area, vec![7; length]);
        }
    }
    let too_long = vec![b' '; LONGEST + 1];
    assert_eq!(plain_form(&too_long, &mut []), Err((1, 0)));
}

/// The longest plain form: version .08, 10,000 items, each value as long as it can be. It is under the
/// limit of 1.
#[test]
fn the_longest_plain_form() {
    let mut header = versions::as_08(&header("10000", "9999999999900.00"));
    let mut item = versions::as_08(&one_item("999999999.99", "CORE"));
    for (name, value) in [
        ("MsgId", "A".repeat(35)),
        ("CreDtTm", "2010-12-01T09:30:00.000+01:00".into()),
        ("BICFI", "BANKDEFFXXX".into()),
    ] {
        header = with_value(&header, name, &value);
    }
    for (name, value) in [
        ("InstrId", "A".repeat(35)),
        ("EndToEndId", "A".repeat(35)),
        ("TxId", "A".repeat(35)),
        ("MndtId", "A".repeat(35)),
        ("Othr><Id", format!("DE98ZZZ09999999999{}", "+".repeat(17))),
        ("Nm", "A".repeat(70)),
        ("IBAN", "MT84MALT011000012345MTLCAST001S".into()),
        ("BICFI", "BANKDEFFXXX".into()),
        ("Ustrd", "A".repeat(140)),
    ] {
        item = with_value(&item, name, &value);
    }
    assert_eq!((header.len() - "<FIToFICstmrDrctDbt>".len(), item.len()), (363, 1_354));
    let root = versions::as_08(ROOT);
    let number = |number| item.replacen("<TxId>AAAAA", &format!("<TxId>{number:05}"), 1);
    let items: String = (1..=10_000).map(number).collect();
    let longest = format!("{root}{header}{items}{CLOSE}");
    let form = plain(&longest).expect("it is accepted");
    assert_eq!(form, format!("{DECLARATION}{longest}"));
    assert_eq!(form.len(), 13_540_518);
    assert!(form.len() <= LONGEST);
}

/// A part of a message with this value for each element of the name.
fn with_value(part: &str, name: &str, value: &str) -> String {
    let start = format!("<{name}>");
    let mut pieces = part.split(&start);
    let mut text = pieces.next().expect("there is a first piece").to_string();
    for piece in pieces {
        text += &format!("{start}{value}{}", &piece[place_of(piece, "<")..]);
    }
    assert!(text.contains(value), "{name}");
    text
}
