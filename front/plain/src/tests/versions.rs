//! Request 10: "Judge pacs.003.001.08 as well: the namespace ends in `.001.08`, each `BIC` element is
//! `BICFI`".

use super::*;

const ACCEPTED: Verdict = Verdict::Accepted { count: 1, cents: 1234 };

/// A message, or a part of one, of version .02 in version .08.
pub(super) fn as_08(part: &str) -> String {
    part.replacen("001.02\">", "001.08\">", 1).replace("BIC>", "BICFI>")
}

/// The example in both versions, each with the name of its BIC elements and with the other's.
fn examples() -> [(String, &'static str, &'static str); 2] {
    [(EXAMPLE.into(), "BIC", "BICFI"), (as_08(EXAMPLE), "BICFI", "BIC")]
}

/// "four of `A-Z 0-9`, two capitals, two of `A-Z 0-9`, then nothing or three of `A-Z 0-9`".
#[test]
fn bicfis() {
    for yes in
        ["BANKDEFF", "BANKDEFFXXX", "1BNKDEFF", "0000AA00", "BANKDE1F", "BANKDEFO", "A1B2CD34999"]
    {
        assert_eq!(bicfi(yes.as_bytes()), Ok(0), "{yes}");
    }
    for no in
        ["BANK1EFF", "BANKD1FF", "bANKDEFF", "BANKDEFFXxX", "BANK-EFF", "BANKDEF ", " BANKDEF"]
    {
        assert_eq!(bicfi(no.as_bytes()), Err(7), "{no}");
    }
    for length in 0..=13 {
        let due = if matches!(length, 8 | 11) { Ok(0) } else { Err(7) };
        assert_eq!(bicfi(&b"BANKDEFFXXXXX"[..length]), due, "{length}");
    }
}

/// Every byte at every place of both forms, by the paper's words; the narrow form is within the wide.
#[test]
fn every_byte_of_both_forms() {
    let capital_or_digit = |byte: u8| byte.is_ascii_uppercase() || byte.is_ascii_digit();
    for value in ["BANKDEFF", "BANKDEFFXXX"] {
        for (at, byte) in (0..value.len()).flat_map(|at| (0..=255).map(move |byte| (at, byte))) {
            let mut other = value.as_bytes().to_vec();
            other[at] = byte;
            let narrow = match at {
                0..=5 => byte.is_ascii_uppercase(),
                6 => capital_or_digit(byte) && !b"01".contains(&byte),
                7 => capital_or_digit(byte) && byte != b'O',
                _ => capital_or_digit(byte),
            };
            let wide =
                if at == 4 || at == 5 { byte.is_ascii_uppercase() } else { capital_or_digit(byte) };
            assert_eq!(bic(&other).is_ok(), narrow, "{at} {byte}");
            assert_eq!(bicfi(&other).is_ok(), wide, "{at} {byte}");
            assert!(wide || !narrow);
        }
    }
}

/// "A message is read as the version its root names and its plain form stays in it"; the rest stays.
#[test]
fn the_example_in_both_versions() {
    for (message, name, _) in examples() {
        assert_eq!(judge(message.as_bytes()), ACCEPTED);
        assert_eq!(message.matches(&format!("<{name}>")).count(), 3);
        assert_eq!(record_of(&message), RECORD);
        let due = format!("{DECLARATION}{message}");
        let spaced = message.replace("><", "> \t\r\n<").replace(">12.34<", ">0012.34<");
        assert_eq!(plain(&spaced), Ok(due.clone()));
        assert_eq!(plain(&due), Ok(due));
        for length in 0..message.len() {
            assert_eq!(refused(&message[..length]), (3, length), "{length}");
        }
    }
    // "equal plain forms now also mean one version"
    assert_ne!(plain(EXAMPLE), plain(&as_08(EXAMPLE)));
}

/// "a root of neither is 2", at the root, behind white space and a declaration too.
#[test]
fn a_root_of_neither() {
    for root in [
        "001.01\">",
        "001.03\">",
        "001.09\">",
        "001.018\">",
        "001.028\">",
        "001.08\" >",
        "001.08'>",
        "001.8\">",
        "001.08\"/>",
        "001.0 8\">",
        "001.82\">",
        "002.08\">",
        "001.O8\">",
    ] {
        for (message, _, _) in examples() {
            let ends = if message.contains("001.02") { "001.02\">" } else { "001.08\">" };
            let other = message.replacen(ends, root, 1);
            assert_eq!(refused(&other), (2, 0), "{root}");
            assert_eq!(refused(&format!("\n {other}")), (2, 2), "{root}");
            assert_eq!(refused(&format!("{DECLARATION}\n{other}")), (2, 39), "{root}");
        }
    }
    for old_and_new in [("Document", "document"), ("pacs", "PACS"), ("xmlns=\"", "xmlns='")] {
        let other = as_08(EXAMPLE).replacen(old_and_new.0, old_and_new.1, 1);
        assert_eq!(refused(&other), (2, 0), "{old_and_new:?}");
    }
}

/// Cut before or behind where the versions part, it is 3; any other byte there is 2.
#[test]
fn roots_cut() {
    let part = ROOT.len() - "2\">".len();
    for root in [ROOT.to_string(), as_08(ROOT)] {
        for length in 0..=root.len() {
            assert_eq!(refused(&root[..length]), (3, length), "{length}");
            let more = format!("{}\0", &root[..length]);
            let due = if length == root.len() { (4, length) } else { (2, 0) };
            assert_eq!(refused(&more), due, "{length}");
        }
    }
    assert_eq!(&ROOT[..part], &as_08(ROOT)[..part]);
    for byte in (b'0'..=b'9').filter(|byte| !b"28".contains(byte)) {
        assert_eq!(refused(&format!("{}{}", &ROOT[..part], char::from(byte))), (2, 0));
    }
}

/// "`BIC` under `.08` is 4", and `BICFI` under `.02`, at each of the three, and at the end tag alone.
#[test]
fn elements_of_the_other_version() {
    for (message, name, other) in examples() {
        for slash in ["", "/"] {
            let (own, other) = (format!("<{slash}{name}>"), format!("<{slash}{other}>"));
            for (place, _) in message.match_indices(&own) {
                let (before, after) = message.split_at(place);
                let mixed = format!("{before}{}", after.replacen(&own, &other, 1));
                assert_eq!(refused(&mixed), (4, place), "{mixed}");
            }
        }
        let place = place_of(&message, &format!("<{name}>"));
        let all = message.replace(&format!("{name}>"), &format!("{other}>"));
        assert_eq!(refused(&all), (4, place), "{all}");
    }
}

/// Cut within the tag of the other version: 3 as long as its own can still follow.
#[test]
fn other_elements_cut() {
    for (message, name, other) in examples() {
        for slash in ["", "/"] {
            let (own, other) = (format!("<{slash}{name}>"), format!("<{slash}{other}>"));
            let place = place_of(&message, &own);
            let before = &message[..place];
            for length in 0..=other.len() {
                let cut = format!("{before}{}", &other[..length]);
                let is_beginning = own.starts_with(&other[..length]);
                let due = if is_beginning { (3, cut.len()) } else { (4, place) };
                assert_eq!(refused(&cut), due, "{cut}");
            }
            // `<BIC` and the end is 3 in both versions, `<BICF` in .08 alone.
            let cut = |end: &str| refused(&format!("{before}<{slash}{end}"));
            assert_eq!(cut("BIC"), (3, place + 4 + slash.len()));
            let due = if name == "BIC" { (4, place) } else { (3, place + 5 + slash.len()) };
            assert_eq!(cut("BICF"), due);
        }
    }
}

/// "a digit among the first four" and the narrow form's other limits: 7 in .02, and accepted in .08.
#[test]
fn wider_values_in_place() {
    for wider in ["1BNKDEFF", "BA2KDEFFXXX", "BANKDE1F", "BANKDEFO", "0000AA00000"] {
        for old in ["BANKDEFF", "BANKDEFFXXX", "SPUEDE2UXXX"] {
            let with =
                |message: &str| message.replacen(&format!(">{old}<"), &format!(">{wider}<"), 1);
            assert_eq!(refused(&with(EXAMPLE)), (7, place_of(EXAMPLE, &format!(">{old}<")) + 1));
            let message = with(&as_08(EXAMPLE));
            assert_eq!(judge(message.as_bytes()), ACCEPTED, "{message}");
            assert_eq!(plain(&message), Ok(format!("{DECLARATION}{message}")));
        }
        let message = as_08(EXAMPLE).replacen("SPUEDE2UXXX", wider, 1);
        let due = [&RECORD[..173], &format!("{wider:11}"), &RECORD[184..]].concat();
        assert_eq!(record_of(&message), due);
    }
    let message = as_08(EXAMPLE);
    for no in ["", "BANK1EFF", "BANKD2FF", "BANKDEFFX", "BANKDEFF ", "bankdeff"] {
        let other = message.replacen(">BANKDEFF<", &format!(">{no}<"), 1);
        assert_eq!(refused(&other), (7, place_of(&message, ">BANKDEFF<") + 1), "{no}");
    }
}
