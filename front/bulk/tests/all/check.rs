//! `check`: one value.

use crate::common::*;

#[test]
fn single_values() {
    for (kind, value, status, answer) in [
        ("iban", "DE87200500001234567890", 0, "accepted"),
        ("iban", "DE87200500001234567891", 1, "refused 8 0"),
        ("iban", "DE87 2005 0000 1234 5678 90", 1, "refused 7 0"),
        ("iban", "DE1220050000123456789", 1, "refused 19 0"),
        ("iban", "DE342005000012345678901", 1, "refused 19 0"),
        ("iban", "DE872005000012345678901", 1, "refused 19 0"),
        ("iban", "US86200500001234567890", 1, "refused 19 0"),
        ("iban", "US862005000012", 1, "refused 7 0"),
        ("creditor-id", "DE98ZZZ09999999999", 0, "accepted"),
        ("creditor-id", "DE00ZZZ09999999999", 1, "refused 8 0"),
        ("creditor-id", "US86ZZZ200500001234567890", 0, "accepted"),
        ("count", "007", 0, "accepted 7"),
        ("count", "-7", 1, "refused 7 0"),
        ("item-amount", "5.3", 0, "accepted 530"),
        ("item-amount", "1000000000", 1, "refused 9 0"),
        ("header-amount", "1000000000", 0, "accepted 100000000000"),
        ("header-amount", "0.00", 1, "refused 9 0"),
        ("date", "2000-02-29", 0, "accepted"),
        ("date", "1900-02-29", 1, "refused 7 0"),
        ("time", "2026-10-28T18:42:07+01:00", 0, "accepted"),
        ("time", "2026-10-28", 1, "refused 7 0"),
        ("reference", "-A", 0, "accepted"),
        ("reference", "A//B", 1, "refused 7 0"),
        ("text70", "Müller", 1, "refused 7 0"),
        ("text140", "Rent November", 0, "accepted"),
        ("text140", "", 1, "refused 7 0"),
    ] {
        let said = bulk(&["--plain", "check", kind, value]).done(status);
        assert_eq!(said, format!("{answer}\n"), "{kind} {value}");
        // A kind in any case is the same kind.
        let said = bulk(&["--plain", "check", &kind.to_uppercase(), value]).done(status);
        assert_eq!(said, format!("{answer}\n"), "{kind} {value}");
    }
    assert_eq!(bulk(&["--plain", "check", "reference", "--", "--de"]).done(0), "accepted\n");
    let text = "A".repeat(71);
    assert_eq!(bulk(&["--plain", "check", "text70", &text]).done(1), "refused 7 0\n");
    assert_eq!(bulk(&["--plain", "check", "text140", &text]).done(0), "accepted\n");
}

/// The BIC of pacs.003.001.02, and the wider one of pacs.003.001.08.
#[test]
fn bics_of_both_versions() {
    for (value, narrow, wide) in [
        ("BANKDEFF", 0, 0),
        ("BANKDEFFXXX", 0, 0),
        ("1BNKDEFF", 1, 0),
        ("BANKDE1O", 1, 0),
        ("BANK1EFF", 1, 1),
        ("BANKDEFFXX", 1, 1),
    ] {
        for (kind, status) in [("bic", narrow), ("bicfi", wide)] {
            let answer = ["accepted\n", "refused 7 0\n"][status];
            let said = bulk(&["--plain", "check", kind, value]).done(status as i32);
            assert_eq!(said, answer, "{kind} {value}");
        }
    }
    let said = bulk(&["--de", "check", "bicfi", "BANK1EFF"]).done(1);
    assert!(said.starts_with("bicfi „BANK1EFF“ (das 5. Zeichen, „1“, ist nicht zulässig): "));
}

/// White space at the ends and in runs does not count where it may stand.
#[test]
fn values_that_collapse() {
    for (kind, value, status) in [
        ("reference", "RENT 2023 04", 1),
        ("end-to-end", "RENT 2023 04", 0),
        ("end-to-end", " RENT \t2023\r\n04\n", 0),
        ("end-to-end", "RENT/ /04", 0),
        ("end-to-end", "RENT 2023/ ", 1),
        ("end-to-end", "/ /", 1),
        ("end-to-end", " \n", 1),
        ("text70", " Erika\t", 0),
        ("text70", "\t", 1),
    ] {
        let answer = ["accepted\n", "refused 7 0\n"][status];
        let said = bulk(&["--plain", "check", kind, value]).done(status as i32);
        assert_eq!(said, answer, "{kind} {value:?}");
    }
    let said = bulk(&["check", "end-to-end", "RENT\t2023 04 "]).done(0);
    assert_eq!(said, "end-to-end “RENT\\t2023 04 ”: accepted\n");
    let said = bulk(&["check", "end-to-end", "RENT 2023/\n"]).done(1);
    assert_eq!(
        said,
        "end-to-end “RENT 2023/\\n” (it ends with a slash): refused 7: The value is not in the \
         required format.\n"
    );
    let wide = format!("{}  {}", "A".repeat(18), "B".repeat(17));
    let said = bulk(&["--de", "check", "end-to-end", &wide]).done(1);
    assert!(
        said.contains(" (36 Zeichen ohne überflüssigen Leerraum, höchstens 35): abgelehnt (Nr. 7)"),
        "{said}"
    );
    let said = bulk(&["--de", "check", "text140", " "]).done(1);
    assert!(said.starts_with("text140 „ “ (nur Leerraum): abgelehnt (Nr. 7): "), "{said}");
}

#[test]
fn single_values_in_words() {
    let said = bulk(&["check", "item-amount", "4049.8"]).done(0);
    assert_eq!(said, "item-amount “4049.8”: accepted, 4,049.80 EUR (404980 cents)\n");
    assert_eq!(bulk(&["check", "Count", "10000"]).done(0), "count “10000”: accepted, 10,000\n");
    let said = bulk(&["--de", "check", "IBAN", "DE87200500001234567891"]).done(1);
    assert_eq!(
        said,
        "iban „DE87200500001234567891“: abgelehnt (Nr. 8): Die Prüfziffern stimmen nicht.\n"
    );
    let said = bulk(&["check", "iban", "DE342005000012345678901"]).done(1);
    assert_eq!(
        said,
        "iban “DE342005000012345678901” (an IBAN from DE has 22 characters, this one has 23): \
         refused 19: The IBAN has the wrong length for its country, or the country is not on the \
         list.\n"
    );
    let said = bulk(&["--de", "check", "iban", "US86200500001234567890"]).done(1);
    assert_eq!(
        said,
        "iban „US86200500001234567890“ (US steht nicht auf der Länderliste): abgelehnt (Nr. 19): \
         Die Länge der IBAN passt nicht zum Land, oder das Land steht nicht auf der Liste.\n"
    );
    let said = bulk(&["check", "text70", "Anna Glühbirne"]).done(1);
    assert_eq!(
        said,
        "text70 “Anna Glühbirne” (character 8, “ü”, is not allowed): refused 7: The value is not in \
         the required format.\n"
    );
    let said = bulk(&["--de", "check", "header-amount", "0"]).done(1);
    assert_eq!(
        said,
        "header-amount „0“ (mindestens 0,01 EUR): abgelehnt (Nr. 9): Der Betrag liegt außerhalb des \
         zulässigen Bereichs.\n"
    );
    assert!(bulk(&["check", "date", ""])
        .done(1)
        .contains("date “” (the value is empty): refused 7"));
    let said = bulk(&["check", "ibam", "x"]).trouble();
    assert!(said.contains("Unknown kind “ibam”. Kinds: iban, creditor-id, bic, bicfi,"), "{said}");
    assert!(said.contains(" reference, end-to-end, text70, text140"), "{said}");
}

#[test]
fn a_line_from_standard_input() {
    // Without its last line end, of either kind, and no other.
    assert_eq!(piped(&["check", "count", "-"], "5\n").done(0), "count “5”: accepted, 5\n");
    let iban = "DE87200500001234567890";
    for (input, status, answer) in [
        (iban.to_string(), 0, "accepted\n"),
        (format!("{iban}\n"), 0, "accepted\n"),
        (format!("{iban}\r\n"), 0, "accepted\n"),
        (format!("{iban}\n\n"), 1, "refused 7 0\n"),
        (format!("{iban}\r"), 1, "refused 7 0\n"),
        (format!("{iban}\r\r\n"), 1, "refused 7 0\n"),
        (format!("{iban}\n\r\n"), 1, "refused 7 0\n"),
    ] {
        assert_eq!(
            piped(&["--plain", "check", "iban", "-"], &input).done(status),
            answer,
            "{input:?}"
        );
    }
}
