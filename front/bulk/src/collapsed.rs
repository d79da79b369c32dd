//! The collapsed value of an EndToEndId, a name or a remittance text, by which the library judges it and
//! which record and plain form hold. Here it is only shown and compared; the tests hold it against the
//! library.

use std::borrow::Cow;

/// White space: space, tab, CR and LF.
pub const WHITE: &[u8] = b" \t\r\n";

/// The value with one space for each run of white space, and none at its ends.
pub fn collapsed(value: &[u8]) -> Cow<'_, [u8]> {
    let words = value.split(|byte| WHITE.contains(byte)).filter(|word| !word.is_empty());
    let joined = words.collect::<Vec<&[u8]>>().join(&b' ');
    match joined == value {
        true => Cow::Borrowed(value),
        false => Cow::Owned(joined),
    }
}

#[cfg(test)]
mod tests {
    use super::*;

    const EXAMPLE: &str = include_str!("../../../samples/example.xml");

    /// The EndToEndId of the record that the library makes of the example with this one.
    fn in_record(value: &str) -> Option<String> {
        let message = EXAMPLE.replacen(">E1<", &format!(">{value}<"), 1);
        let mut area = [0; face::RECORD];
        let is_accepted = face::records(message.as_bytes(), &mut area)[0] == 0;
        is_accepted.then(|| String::from_utf8_lossy(&area[35..70]).trim_end_matches(' ').into())
    }

    #[test]
    fn a_value_collapses_as_the_library_collapses_it() {
        let runs = ["", " ", "\t", "\r", "\n", "  ", "\r\n", " \t\r\n ", "\n\n\n\n"];
        for before in runs {
            for between in runs {
                for behind in runs {
                    let value = format!("{before}RENT{between}04{behind}");
                    let shown = String::from_utf8(collapsed(value.as_bytes()).into_owned());
                    assert_eq!(in_record(&value), shown.ok(), "{value:?}");
                }
            }
        }
        assert_eq!(in_record("RENT 2023 04").as_deref(), Some("RENT 2023 04"));
    }

    #[test]
    fn nothing_else_is_touched() {
        assert!(matches!(collapsed(b"RENT 2023 04"), Cow::Borrowed(_)));
        assert_eq!(collapsed(b"\x0ba\x0cb\xa0"), &b"\x0ba\x0cb\xa0"[..]);
        for white in [&b""[..], b" ", b"\t\r\n"] {
            assert_eq!(collapsed(white), &b""[..]);
        }
    }
}
