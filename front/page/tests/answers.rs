//! The answers to the page, natively. That they are the command's own, byte for byte, is held by page/test.

use page::{asked, judged, kept, listed};
use std::ffi::OsStr;

const EVENING: &[u8] = include_bytes!("../../../samples/evening.xml");
const OCTOBER: &[u8] = include_bytes!("../../../samples/october.xml");
const ALIKE: &[u8] = include_bytes!("../../../samples/alike.xml");

/// The verdict on a message.
fn verdict(message: &[u8]) -> String {
    judged::json(OsStr::new("a.xml"), message, None)
}

#[test]
fn a_verdict_has_its_texts_in_both_languages() {
    let told = verdict(EVENING);
    assert!(told.contains(r#""plain":"accepted 5 202490""#), "{told}");
    assert!(told.contains(r#""euros":["2,024.90 EUR","2.024,90 EUR"]"#), "{told}");
    let told = verdict(OCTOBER);
    assert!(told.contains(r#""number":24,"place":3988,"line":154,"column":15"#), "{told}");
    assert!(told.contains(r#""excerpt":["<TxId>","TX-20261028-0002</TxId>"]"#), "{told}");
    assert!(verdict(b"").contains(r#""excerpt":null"#));
}

#[test]
fn an_earlier_file_with_the_same_msg_id_is_named() {
    let told = judged::json(OsStr::new("b.xml"), EVENING, Some("a.xml".into()));
    assert!(told.contains(r#""same_msg_id":["Warning: a.xml has the same MsgId"#), "{told}");
}

/// What is not printable, and what could turn the line, is visible: an escape, not itself.
#[test]
fn nothing_of_a_message_is_shown_as_it_lies() {
    let text = String::from_utf8(EVENING.to_vec()).unwrap();
    let odd = text.replacen("Anna Gluehbirne", "A\u{1b}[31m\u{202e}", 1);
    let told = verdict(odd.as_bytes());
    assert!(told.contains(r"A\\x1b[31m\\u{202e}"), "{told}");
    assert!(!told.contains(r"\u001b") && !told.contains(r"\u202e"), "{told}");
}

#[test]
fn items_of_a_bulk_that_is_accepted_or_refused_with_24() {
    let table = |message| listed::json(message).unwrap();
    let evening = table(EVENING).unwrap();
    assert!(evening.starts_with(r#"{"judged":5,"marked":0,"rows":[[1,"#), "{evening}");
    assert!(evening.ends_with(r#""total":["2,024.90 EUR","2.024,90 EUR"]}"#), "{evening}");
    // Two items were judged whole; four share their TxIds in pairs.
    let october = table(OCTOBER).unwrap();
    assert!(october.starts_with(r#"{"judged":2,"marked":4,"#), "{october}");
    let alike = table(ALIKE).unwrap();
    assert!(!alike.contains(r#""marked":0"#), "{alike}");
    assert_eq!(table(b"<"), None);
    assert_eq!((listed::csv(OCTOBER, 0), judged::records(OCTOBER)), (Ok(None), Ok(None)));
}

#[test]
fn a_book_goes_through_its_bytes() {
    let file = OsStr::new("a.xml");
    let first = kept::enter(b"", file, EVENING).unwrap();
    assert!(first.told.contains(r#""verdict":"entered""#), "{}", first.told);
    let again = kept::enter(&first.book, file, EVENING).unwrap();
    assert!(again.told.contains("refused 20"), "{}", again.told);
    assert_eq!(again.book, first.book);
    let none = kept::withdraw(&first.book, 0).unwrap();
    assert!(none.told.contains(r#""open":[]"#), "{}", none.told);
    assert!(kept::withdraw(&none.book, 0).is_err());
}

/// Bytes that are no book, or one that does not add up, are never answered.
#[test]
fn what_is_no_book_is_an_error() {
    let book = kept::enter(b"", OsStr::new("a.xml"), EVENING).unwrap().book;
    assert!(kept::enter(&book[1..], OsStr::new("a.xml"), EVENING).is_err());
    let mut many = book.clone();
    let open = many.len() - 16;
    many[open] = 65;
    assert!(kept::enter(&many, OsStr::new("a.xml"), EVENING).is_err());
    let mut wrong = book.clone();
    *wrong.last_mut().unwrap() = 1;
    assert!(kept::withdraw(&wrong, 0).is_err());
}

#[test]
fn a_kind_that_is_none_is_not_answered() {
    assert!(asked::check("iban", b"DE87200500001234567890").is_some());
    assert!(asked::check("IBAN", b"DE87200500001234567890").is_none());
    assert_eq!(
        asked::closing(b"unread"),
        r#"["1 file: 0 accepted, 0 refused, 1 not read\u000a","1 Datei: 0 angenommen, 0 abgelehnt, 1 nicht gelesen\u000a"]"#
    );
}
