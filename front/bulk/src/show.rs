//! How bytes and names are shown: on one line, letters as letters, and nothing that could move the
//! cursor, turn the direction of writing or hide.

use std::ffi::OsStr;
use std::str;

/// Bytes as text on one line: letters of UTF-8 as they are, all else as an escape.
pub fn shown(bytes: &[u8]) -> String {
    let mut text = String::with_capacity(bytes.len());
    for character in characters(bytes) {
        match (character, str::from_utf8(character)) {
            ([byte], Ok(_)) => push_letter(&mut text, char::from(*byte)),
            (_, Ok(letter)) => letter.chars().for_each(|letter| push_letter(&mut text, letter)),
            (_, Err(_)) => character.iter().for_each(|byte| push_byte(&mut text, *byte)),
        }
    }
    text
}

/// The characters of UTF-8 one after the other; a byte that belongs to none stands for itself.
pub fn characters(bytes: &[u8]) -> impl Iterator<Item = &[u8]> {
    let mut rest = bytes;
    std::iter::from_fn(move || {
        let whole = |length: &usize| str::from_utf8(&rest[..*length]).is_ok();
        let most = rest.len().min(4);
        let length = match rest.first() {
            Some(byte) if byte.is_ascii() => 1,
            _ => (1..=most).find(whole).unwrap_or(most.min(1)),
        };
        let (character, behind) = rest.split_at(length);
        rest = behind;
        (!character.is_empty()).then_some(character)
    })
}

/// Pushes one letter, or its escape. A mark that combines with the letter before it is a letter too.
fn push_letter(text: &mut String, letter: char) {
    match letter {
        '\\' => text.push_str("\\\\"),
        '\t' => text.push_str("\\t"),
        '\n' => text.push_str("\\n"),
        '\r' => text.push_str("\\r"),
        '\0'..='\x1f' | '\x7f' => push_byte(text, letter as u8),
        ' '..='~' => text.push(letter),
        _ if is_printable(letter, text.is_empty()) => text.push(letter),
        _ => text.extend(letter.escape_unicode()),
    }
}

/// Pushes a byte as an escape.
fn push_byte(text: &mut String, byte: u8) {
    text.push_str(&format!("\\x{byte:02x}"));
}

/// Whether a letter shows as itself. The standard library's table tells, which knows controls of the
/// direction, separators of lines and what has no width.
fn is_printable(letter: char, is_first: bool) -> bool {
    let before = if is_first { "" } else { "a" };
    let text = format!("{before}{letter}");
    text.escape_debug().eq(text.chars())
}

/// The first characters of the bytes, as many as fit into so many bytes.
pub fn beginning(bytes: &[u8], most: usize) -> &[u8] {
    let mut length = 0;
    for character in characters(bytes) {
        if length + character.len() > most {
            break;
        }
        length += character.len();
    }
    &bytes[..length]
}

/// The last characters of the bytes, as many as fit into so many bytes.
pub fn ending(bytes: &[u8], most: usize) -> &[u8] {
    let from = bytes.len().saturating_sub(most);
    // A letter that is cut leaves at most three bytes that begin none.
    let is_inside = |at: &usize| *at < bytes.len() && *at < from + 3 && bytes[*at] & 0xc0 == 0x80;
    let cut = if from == 0 { 0 } else { (from..).take_while(is_inside).count() };
    &bytes[from + cut..]
}

/// The bytes of a file name. In a browser there are names of UTF-8 alone.
pub fn bytes_of(name: &OsStr) -> &[u8] {
    #[cfg(unix)]
    let bytes = std::os::unix::ffi::OsStrExt::as_bytes(name);
    #[cfg(not(unix))]
    let bytes = name.to_str().map_or(&b""[..], str::as_bytes);
    bytes
}

/// A file name on one line: it may hold any byte, and a line break would make two lines of one.
pub fn name(name: &OsStr) -> String {
    match bytes_of(name) {
        [] => "\"\"".to_string(),
        bytes => shown(bytes),
    }
}

#[cfg(test)]
mod tests {
    use super::*;

    #[test]
    fn letters_are_letters_and_all_else_is_an_escape() {
        assert_eq!(
            shown(b"A \"b\"\t\r\n\0\x1b\x7f\\M\xc3\xbcller"),
            "A \"b\"\\t\\r\\n\\x00\\x1b\\x7f\\\\Müller"
        );
        assert_eq!(shown(b"a\xff\xc3\xa4\xc3"), "a\\xffä\\xc3");
        assert_eq!(shown("Łódź Ελλάς Київ €".as_bytes()), "Łódź Ελλάς Київ €");
        assert_eq!(shown("u\u{308}".as_bytes()), "u\u{308}");
        assert_eq!(shown("\u{308}".as_bytes()), "\\u{308}");
        assert_eq!(shown(b"\xed\xa0\x80\xf4\x90\x80\x80"), "\\xed\\xa0\\x80\\xf4\\x90\\x80\\x80");
    }

    #[test]
    fn nothing_turns_hides_or_breaks_the_line() {
        for letter in
            "\u{202e}\u{2028}\u{2029}\u{2066}\u{200b}\u{200f}\u{feff}\u{ad}\u{85}\u{9b}\u{a0}"
                .chars()
        {
            let text = format!("a{letter}b");
            let escape = format!("a\\u{{{:x}}}b", letter as u32);
            assert_eq!(shown(text.as_bytes()), escape);
            assert_eq!(name(OsStr::new(&text)), escape);
        }
        assert_eq!(name(OsStr::new("März\n\u{1b}[31m.xml")), "März\\n\\x1b[31m.xml");
        assert_eq!(name(OsStr::new("")), "\"\"");
    }

    #[test]
    fn no_letter_is_cut() {
        let text = "aüb€c😀d".as_bytes();
        for most in 0..=text.len() + 1 {
            for part in [beginning(text, most), ending(text, most)] {
                assert!(str::from_utf8(part).is_ok() && part.len() <= most, "{most}");
                assert!(part.len() + 4 > most.min(text.len()), "{most}");
            }
        }
        assert_eq!(beginning(b"\xff\xff\xff", 2), b"\xff\xff");
        assert_eq!(ending(b"\x80\x80\x80\x80\x80\x80", 4), b"\x80");
    }
}
