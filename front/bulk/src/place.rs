//! What stands at a place of a message: line and column, the element it lies in, the bytes found, an
//! excerpt. It judges nothing.

use crate::show::{characters, ending, shown};
use crate::tags::{find, until, Open, ITEM};

/// The most columns of an excerpt on either side of the place.
const BEFORE: usize = 30;
const BEHIND: usize = 44;

/// Line and column of a place, both from 1. Lines end with LF; the column counts bytes.
pub fn line_and_column(message: &[u8], place: usize) -> (usize, usize) {
    let before = &message[..place.min(message.len())];
    let line = before.iter().filter(|&&byte| byte == b'\n').count() + 1;
    (line, place.min(message.len()) - line_start(before) + 1)
}

/// Where the last line begins.
fn line_start(before: &[u8]) -> usize {
    before.iter().rposition(|&byte| byte == b'\n').map_or(0, |at| at + 1)
}

/// The elements that are open at the place of a refusal. At 12 that is the item's own first byte.
pub fn open(message: &[u8], number: u64, place: usize) -> Open<'_> {
    let mut open = Open::behind(&message[..place.min(message.len())]);
    if number == 12 {
        open.enter(ITEM);
    }
    open
}

/// The element at a place as a path, items counted from 1: for a value its element, between elements
/// the group around them. None where no element is open, or the beginning itself is wrong.
pub fn path(open: &Open, number: u64) -> Option<String> {
    let told = |name: &[u8]| match name == ITEM {
        true => format!("{}[{}]", shown(name), open.items),
        false => shown(name),
    };
    let names: Vec<String> = open.names().map(told).collect();
    // Document stands around everything, so it is told only where it stands alone.
    let from = usize::from(names.len() > 1);
    (!matches!(number, 1 | 2) && !names.is_empty()).then(|| names[from..].join("/"))
}

/// What is found at the place of a refusal.
#[derive(Debug, PartialEq, Eq)]
pub enum Found<'a> {
    /// Nothing to show: the refusal is not about bytes at the place.
    Nothing,
    /// The message has no byte at all.
    NoByte,
    /// The message ends there: what stands before the end.
    End(&'a [u8]),
    /// A value that is empty.
    Empty,
    /// The value, tag or text that stands there.
    Bytes(&'a [u8]),
}

/// The bytes that a refusal is about.
pub fn found(message: &[u8], number: u64, place: usize) -> Found<'_> {
    let rest = &message[place.min(message.len())..];
    match number {
        1 | 17 | 18 | 25 => Found::Nothing,
        3 if message.is_empty() => Found::NoByte,
        3 => Found::End(message),
        6 => Found::Bytes(&rest[..rest.len().min(3)]),
        2 | 4 | 12 | 16 | 23 => Found::Bytes(tag_or_text(rest)),
        _ => match until(rest, b'<') {
            [] => Found::Empty,
            value => Found::Bytes(value),
        },
    }
}

/// A tag to its `>`, or text to the next tag.
fn tag_or_text(rest: &[u8]) -> &[u8] {
    match rest.first() {
        Some(b'<') => &rest[..find(rest, 0, b'>').map_or(rest.len(), |end| end + 1)],
        _ => until(rest, b'<'),
    }
}

/// The line of a place, cut on both sides where it is long, and below it a caret at the place. Both
/// lines are indented. It helps in a message that is one long line.
pub fn excerpt(message: &[u8], place: usize) -> String {
    let (left, right) = around(message, place);
    let caret = " ".repeat(left.chars().count());
    format!("    {left}{right}\n    {caret}^\n")
}

/// What an excerpt shows before the place, and from the place on.
pub fn around(message: &[u8], place: usize) -> (String, String) {
    let (before, behind) = message.split_at(place.min(message.len()));
    let before = &before[line_start(before)..];
    // The line's own indentation would only push the text to the right.
    let indented = before.iter().take_while(|byte| b" \t".contains(byte)).count();
    let left = last_columns(&before[indented..]);
    let behind = until(behind, b'\n');
    (left, first_columns(behind.strip_suffix(b"\r").unwrap_or(behind)))
}

/// The end of a text, as much as fits: an escape is wider than its byte.
fn last_columns(text: &[u8]) -> String {
    let mut from = text.len() - ending(text, BEFORE).len();
    while shown(&text[from..]).chars().count() > BEFORE {
        from += characters(&text[from..]).next().map_or(1, <[u8]>::len);
    }
    format!("{}{}", if from > 0 { "…" } else { "" }, shown(&text[from..]))
}

/// The beginning of a text, as much as fits.
fn first_columns(text: &[u8]) -> String {
    let mut end = 0;
    for character in characters(text) {
        if shown(&text[..end + character.len()]).chars().count() > BEHIND {
            break;
        }
        end += character.len();
    }
    format!("{}{}", shown(&text[..end]), if end < text.len() { "…" } else { "" })
}

#[cfg(test)]
mod tests {
    use super::*;

    const CUT: &[u8] = b"<?xml version=\"1.0\" encoding=\"UTF-8\"?>\r\n<Document xmlns=\"u\">\n\
        <FIToFICstmrDrctDbt><GrpHdr><MsgId>A</MsgId></GrpHdr>\n  <DrctDbtTxInf></DrctDbtTxInf>\
        <DrctDbtTxInf><DbtrAcct><Id><IBAN>DE</IBAN></Id></DbtrAcct><IntrBkSttlmAmt Ccy=\"USD\">";

    /// Where this text stands in the message.
    fn at(text: &str) -> usize {
        let text = text.as_bytes();
        (0..CUT.len()).find(|&at| CUT[at..].starts_with(text)).expect("the text is there")
    }

    /// The path of a place, as it is printed.
    fn path_of(message: &[u8], number: u64, place: usize) -> String {
        path(&open(message, number, place), number).unwrap_or_default()
    }

    #[test]
    fn lines_and_columns_count_from_one() {
        assert_eq!(line_and_column(b"", 0), (1, 1));
        assert_eq!(line_and_column(b"ab\ncd", 0), (1, 1));
        assert_eq!(line_and_column(b"ab\ncd", 2), (1, 3));
        assert_eq!(line_and_column(b"ab\ncd", 3), (2, 1));
        assert_eq!(line_and_column(b"ab\ncd", 5), (2, 3));
        assert_eq!(line_and_column(b"ab\r\n\n", 5), (3, 1));
        // The column counts bytes: a letter of two bytes moves it by two.
        assert_eq!(line_and_column("\nä<".as_bytes(), 3), (2, 3));
        assert_eq!(line_and_column(b"ab", 9), (1, 3));
    }

    #[test]
    fn a_path_names_the_elements_around_a_place() {
        let path = |number, place| path_of(CUT, number, place);
        assert_eq!(path(4, 0), "");
        assert_eq!(path(4, 5), "");
        assert_eq!(path(2, at("<Document")), "");
        assert_eq!(path(4, at("<FIToFI")), "Document");
        assert_eq!(path(7, at("A</MsgId>")), "FIToFICstmrDrctDbt/GrpHdr/MsgId");
        assert_eq!(path(4, at("</MsgId>")), "FIToFICstmrDrctDbt/GrpHdr/MsgId");
        assert_eq!(path(4, at("</GrpHdr>")), "FIToFICstmrDrctDbt/GrpHdr");
        assert_eq!(path(4, at("<DrctDbtTxInf>")), "FIToFICstmrDrctDbt");
        let second = "FIToFICstmrDrctDbt/DrctDbtTxInf[2]";
        assert_eq!(path(8, at("DE<")), format!("{second}/DbtrAcct/Id/IBAN"));
        assert_eq!(path(4, at("<IntrBk")), second);
        assert_eq!(path(6, at("USD")), format!("{second}/IntrBkSttlmAmt"));
        assert_eq!(path(12, at("<DrctDbtTxInf><D")), second);
    }

    #[test]
    fn a_cut_tag_counts_when_its_name_is_whole() {
        let path = |cut: &[u8]| path_of(cut, 3, cut.len());
        assert_eq!(path(&CUT[..at("<GrpHdr>") + 4]), "FIToFICstmrDrctDbt");
        assert_eq!(path(&CUT[..at("</GrpHdr>") + 5]), "FIToFICstmrDrctDbt/GrpHdr");
        let cut = &CUT[..at("Ccy=") + 2];
        assert_eq!(path(cut), "FIToFICstmrDrctDbt/DrctDbtTxInf[2]/IntrBkSttlmAmt");
        assert_eq!(path(b"<Doc"), "");
        assert_eq!(path(b""), "");
        assert_eq!(path(b"<Document></Document> "), "");
    }

    #[test]
    fn the_bytes_found() {
        assert_eq!(found(b"", 3, 0), Found::NoByte);
        assert_eq!(found(b"<D", 3, 2), Found::End(b"<D"));
        assert_eq!(found(b"big", 1, 0), Found::Nothing);
        assert_eq!(found(b"<TxId>T1</TxId>", 24, 6), Found::Bytes(b"T1"));
        assert_eq!(found(b"big", 25, 0), Found::Nothing);
        assert_eq!(found(CUT, 6, at("USD")), Found::Bytes(b"USD"));
        assert_eq!(found(CUT, 8, at("DE<")), Found::Bytes(b"DE"));
        assert_eq!(found(CUT, 4, at("<GrpHdr>")), Found::Bytes(b"<GrpHdr>"));
        assert_eq!(found(b"</PmtId><PmtTpInf><", 23, 8), Found::Bytes(b"<PmtTpInf>"));
        assert_eq!(found(b"<a>x y<b>", 4, 3), Found::Bytes(b"x y"));
        assert_eq!(found(b"<a></a>", 7, 3), Found::Empty);
        assert_eq!(found(b"<a", 4, 0), Found::Bytes(b"<a"));
    }

    #[test]
    fn an_excerpt_points_at_the_place() {
        assert_eq!(excerpt(b"ab\n  <a>x</a>\ncd", 8), "    <a>x</a>\n       ^\n");
        assert_eq!(excerpt(b"\t<a>x\r\n", 4), "    <a>x\n       ^\n");
        assert_eq!(excerpt(b"<a", 2), "    <a\n      ^\n");
        let long = format!("{}ü<b>{}", "a".repeat(100), "c".repeat(100));
        let told = excerpt(long.as_bytes(), 102);
        let lines: Vec<&str> = told.lines().collect();
        let caret = lines[1].chars().position(|letter| letter == '^').unwrap();
        assert_eq!(lines[0].chars().nth(caret), Some('<'), "{told}");
        assert!(lines[0].starts_with("    …aaa") && lines[0].ends_with("ccc…"), "{told}");
        assert!(lines[0].chars().count() <= 80, "{told}");
        let nulls = excerpt(&[0; 200], 100);
        let mut lines = nulls.lines();
        assert!(lines.all(|line| line.chars().count() <= 80), "{nulls}");
        // An escape is as wide as it is shown.
        assert_eq!(excerpt(b"\x1b\xff<", 2), "    \\x1b\\xff<\n            ^\n");
    }
}
