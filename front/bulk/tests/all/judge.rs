//! `judge` on one file: the line for signing, the refusal, what cannot be read.

use crate::common::*;
use std::fs::{self, File, Permissions};
use std::os::unix::fs::PermissionsExt;

#[test]
fn the_samples() {
    for name in ["evening.xml", "evening-indented.xml"] {
        let file = sample(name);
        let said = bulk(&["judge", text(&file)]).done(0);
        let line = format!(
            "{}: accepted, 5 items, 2,024.90 EUR (202490 cents), MsgId BULK-2026-10-28-EVENING, \
             settlement date 2026-10-30, CORE, pacs.003.001.02\n",
            text(&file)
        );
        assert_eq!(said, line);
        assert_eq!(bulk(&["judge", "--plain", text(&file)]).done(0), "accepted 5 202490\n");
    }
    for name in ["rents.xml", "rents-wrapped.xml"] {
        let said = bulk(&["judge", "--plain", text(&sample(name))]).done(0);
        assert_eq!(said, "accepted 3 200330\n");
    }
    let october = sample("october.xml");
    assert_eq!(bulk(&["--plain", "judge", text(&october)]).done(1), "refused 24 3988\n");
    let said = bulk(&["judge", text(&october)]).done(1);
    let rest = said.strip_prefix(text(&october)).unwrap();
    assert_eq!(
        rest,
        ": refused 24 at place 3988 (line 154, column 15) in \
         FIToFICstmrDrctDbt/DrctDbtTxInf[3]/PmtId/TxId (EndToEndId BUSY-2026-10-LP017), found \
         “TX-20261028-0002” (item 3 has the TxId of item 2): An earlier item has the same TxId.\n\
        \x20   <TxId>TX-20261028-0002</TxId>\n\
        \x20         ^\n\
        \x20 TxId more than once (2):\n\
        \x20   TX-20261028-0002: items 2, 3\n\
        \x20   TX-20261028-0004: items 5, 6\n"
    );
    for (name, line) in [("doubled.xml", "refused 24 8574\n"), ("alike.xml", "accepted 6 286990\n")]
    {
        assert_eq!(bulk(&["--plain", "judge", text(&sample(name))]).out, line);
    }
}

/// A count that is wrong, and no TxId twice: the October day with other TxIds in the items that stand
/// twice.
#[test]
fn a_wrong_count() {
    let message = without_doubles(&fs::read_to_string(sample("october.xml")).unwrap());
    let said = piped(&["judge", "-"], &message).done(1);
    assert!(
        said.starts_with(
            "-: refused 14 at place 252 (line 7, column 16) in FIToFICstmrDrctDbt/GrpHdr/NbOfTxs, \
             found “9”: NbOfTxs is not the number of items. The header says 9, the bulk has 7 \
             items.\n    <NbOfTxs>9</NbOfTxs>\n             ^\n  Warning: looks doubled: "
        ),
        "{said}"
    );
    let said = piped(&["--de", "judge", "-"], &message).done(1);
    assert!(
        said.starts_with(
            "-: abgelehnt (Nr. 14) an Stelle 252 (Zeile 7, Spalte 16) in \
             FIToFICstmrDrctDbt/GrpHdr/NbOfTxs, gefunden „9“: NbOfTxs ist nicht die Anzahl der \
             Posten. Im Kopf steht 9, der Bulk hat 7 Posten.\n"
        ),
        "{said}"
    );
}

#[test]
fn the_sample_with_a_digit_too_many() {
    let file = sample("digit-too-many.xml");
    assert_eq!(bulk(&["--plain", "judge", text(&file)]).done(1), "refused 19 1134\n");
    let said = bulk(&["judge", text(&file)]).done(1);
    assert!(
        said.contains(
            ": refused 19 at place 1134 (line 1, column 1135) in \
             FIToFICstmrDrctDbt/DrctDbtTxInf[1]/DbtrAcct/Id/IBAN (TxId T1, debtor "
        ) && said.contains(
            "found “DE535005000098765432101” (an IBAN from DE has 22 characters, this one has 23): \
             The IBAN has the wrong length for its country, or the country is not on the list.\n"
        ),
        "{said}"
    );
    let said = bulk(&["--de", "judge", text(&file)]).done(1);
    assert!(
        said.contains("abgelehnt (Nr. 19) an Stelle 1134")
            && said
                .contains("(eine IBAN aus DE hat 22 Stellen, diese hat 23): Die Länge der IBAN "),
        "{said}"
    );
}

#[test]
fn the_samples_in_german() {
    let file = sample("evening.xml");
    let said = bulk(&["judge", "--de", text(&file)]).done(0);
    assert!(
        said.ends_with(
            ": angenommen, 5 Posten, 2.024,90 EUR (202490 Cent), MsgId BULK-2026-10-28-EVENING, \
             Abrechnungsdatum 2026-10-30, CORE, pacs.003.001.02\n"
        ),
        "{said}"
    );
    let said = bulk(&["--de", "judge", text(&sample("october.xml"))]).done(1);
    assert!(
        said.contains(
            ": abgelehnt (Nr. 24) an Stelle 3988 (Zeile 154, Spalte 15) in \
             FIToFICstmrDrctDbt/DrctDbtTxInf[3]/PmtId/TxId (EndToEndId BUSY-2026-10-LP017), \
             gefunden „TX-20261028-0002“ (Posten 3 hat die TxId von Posten 2): Ein früherer Posten \
             hat dieselbe TxId.\n"
        ),
        "{said}"
    );
    assert!(said.ends_with(
        "  TxId mehrfach (2):\n    TX-20261028-0002: Posten 2, 3\n    \
         TX-20261028-0004: Posten 5, 6\n"
    ));
}

#[test]
fn a_file_alone_is_judged() {
    let file = sample("evening.xml");
    assert_eq!(bulk(&[text(&file)]).out, bulk(&["judge", text(&file)]).out);
    assert_eq!(bulk(&["--plain", text(&sample("october.xml"))]).done(1), "refused 24 3988\n");
    assert_eq!(piped(&["--plain", "-"], evening()).done(0), "accepted 5 202490\n");
    // A name that looks like a file's, or has none of the commands' names.
    let folder = Folder::new();
    folder.put("evening", evening());
    let mut command = command(&["--plain", "evening"]);
    let said = Said::from(command.current_dir(&folder.0).output().unwrap()).done(0);
    assert_eq!(said, "accepted 5 202490\n");
    assert!(bulk(&["none.xml"]).trouble().contains("none.xml: There is no such file."));
    assert!(bulk(&["./none"]).trouble().contains("./none: There is no such file."));
}

#[test]
fn money_is_grouped_for_the_eye_alone() {
    let items = vec![evening_items()[0].replacen("845.00", "4049800", 1)];
    let message = bulk_of(&items, 404_980_000);
    let said = piped(&["judge", "-"], &message).done(0);
    assert!(said.contains(", 1 item, 4,049,800.00 EUR (404980000 cents), "), "{said}");
    let said = piped(&["--de", "judge", "-"], &message).done(0);
    assert!(said.contains(", 1 Posten, 4.049.800,00 EUR (404980000 Cent), "), "{said}");
    assert_eq!(piped(&["--plain", "judge", "-"], &message).done(0), "accepted 1 404980000\n");
    assert!(piped(&["--json", "judge", "-"], &message).done(0).contains("\"cents\":404980000,"));
}

/// One damage: what is replaced by what, and then the number, the element and payment, what is found.
type Damage = (&'static str, &'static str, u64, &'static str, &'static str);

/// Each first one of its text in the indented evening is damaged.
const DAMAGES: [Damage; 30] = [
    ("<?xml", "\u{feff}<?xml", 2, "", "found “\\u{feff}” (a byte order mark (BOM)): The beginning"),
    ("001.02", "001.09", 2, "", "pacs.003.001.09\">”: The beginning is wrong"),
    (
        "001.02",
        "001.08",
        4,
        "/GrpHdr/InstgAgt/FinInstnId",
        "found “<BIC>” (expected: <BICFI>, since the root names pacs.003.001.08): Not allowed here",
    ),
    (
        "<BIC>RHEI",
        "<BICFI>RHEI",
        4,
        "/DrctDbtTxInf[1]/DbtrAgt/FinInstnId (TxId TX-20261028-0001, debtor Anna Gluehbirne, 845.00 EUR)",
        "found “<BICFI>” (expected: <BIC>, since the root names pacs.003.001.02): Not allowed here",
    ),
    (
        "RHEIDEDKXXX",
        "RHE1DEDKXXX",
        7,
        "/DrctDbtTxInf[1]/DbtrAgt/FinInstnId/BIC (TxId TX-20261028-0001, debtor Anna Gluehbirne, ",
        "found “RHE1DEDKXXX” (character 4, “1”, is not allowed): ",
    ),
    (
        "<TtlIntr",
        "<CtrlSum>1</CtrlSum><TtlIntr",
        4,
        "/GrpHdr",
        "found “<CtrlSum>” (expected: <TtlIntrBkSttlmAmt Ccy=\"EUR\">): Not allowed here",
    ),
    (
        "<RmtInf>",
        "<RmtInf/>",
        4,
        "/DrctDbtTxInf[1] (TxId TX-20261028-0001, debtor Anna Gluehbirne, 845.00 EUR)",
        "found “<RmtInf/>” (expected: <RmtInf> or </DrctDbtTxInf>): ",
    ),
    ("</MsgId>", "</MsgID>", 4, "/GrpHdr/MsgId", "(expected: </MsgId>): "),
    (
        "EUR\">845.00",
        "eur\">845.00",
        4,
        "/DrctDbtTxInf[1] (TxId TX-20261028-0001)",
        "found “<IntrBkSttlmAmt Ccy=\"eur\">” (expected: <IntrBkSttlmAmt Ccy=\"EUR\">): ",
    ),
    ("<GrpHdr>", "<GrpHdr>\u{1b}[31m", 4, "/GrpHdr", "found “\\x1b[31m\\n      ” (expected: <MsgId>)"),
    (
        "EUR\">1120",
        "USD\">1120",
        6,
        "/DrctDbtTxInf[3]/IntrBkSttlmAmt (TxId TX-20261028-0003)",
        "found “USD”: ",
    ),
    (
        "1120.50",
        "1120,50",
        7,
        "/DrctDbtTxInf[3]/IntrBkSttlmAmt (TxId TX-20261028-0003)",
        "found “1120,50” (character 5, “,”, is not allowed): The value is not in the required format.",
    ),
    (
        "Gluehbirne",
        "Glühbirne",
        7,
        "/DrctDbtTxInf[1]/Dbtr/Nm (TxId TX-20261028-0001, 845.00 EUR)",
        "found “Anna Glühbirne” (character 8, “ü”, is not allowed): ",
    ),
    (
        "TX-20261028-0003",
        "",
        7,
        "/DrctDbtTxInf[3]/PmtId/TxId (EndToEndId RENT-2026-11-FLAT-2A), ",
        "the value is empty: The value is not in the required format.",
    ),
    (
        "RENT-2026-11-FLAT-2A",
        "RENT 2026 11/\n",
        7,
        "/DrctDbtTxInf[3]/PmtId/EndToEndId, ",
        "found “RENT 2026 11/\\n” (it ends with a slash): The value is not in the required format.",
    ),
    (
        "TX-20261028-0003",
        "TX 20261028 0003",
        7,
        "/DrctDbtTxInf[3]/PmtId/TxId (EndToEndId RENT-2026-11-FLAT-2A), ",
        "found “TX 20261028 0003” (character 3, “ ”, is not allowed): ",
    ),
    (
        "Anna Gluehbirne",
        "\n\t",
        7,
        "/DrctDbtTxInf[1]/Dbtr/Nm (TxId TX-20261028-0001, 845.00 EUR)",
        "found “\\n\\t” (nothing but white space): ",
    ),
    (
        "2026-10-30",
        "2026-02-30",
        7,
        "/GrpHdr/IntrBkSttlmDt",
        "found “2026-02-30” (there is no such day): ",
    ),
    (
        "0123456789<",
        "0123456798<",
        8,
        "/DrctDbtTxInf[4]/DbtrAcct/Id/IBAN (TxId TX-20261028-0004, debtor ",
        "NL65MOLN0123456798”: The check digits are wrong.",
    ),
    (
        "DE48200999000041726300",
        "DE592009990000417263000",
        19,
        "/DrctDbtTxInf[1]/CdtrAcct/Id/IBAN (TxId TX-20261028-0001, 845.00 EUR)",
        "found “DE592009990000417263000” (an IBAN from DE has 22 characters, this one has 23): The IBAN ",
    ),
    (
        "NL65MOLN0123456789",
        "US86200500001234567890",
        19,
        "/DrctDbtTxInf[4]/DbtrAcct/Id/IBAN (TxId TX-20261028-0004, debtor ",
        "found “US86200500001234567890” (US is not on the list of countries): The IBAN ",
    ),
    (
        "DE97LAD",
        "DE79LAD",
        8,
        "/DrctDbtTxInf[1]/DrctDbtTx/CdtrSchmeId/Id/PrvtId/Othr/Id (TxId TX-20261028-0001, 845.00 EUR)",
        "DE79LAD",
    ),
    (
        ">12.65<",
        ">0.00<",
        9,
        "/DrctDbtTxInf[4]/IntrBkSttlmAmt",
        "found “0.00” (at least 0.01 EUR): The amount is outside the allowed range.",
    ),
    (
        ">12.65<",
        ">1000000000<",
        9,
        "/DrctDbtTxInf[4]/IntrBkSttlmAmt",
        "(at most 999,999,999.99 EUR): ",
    ),
    (
        "CORE",
        "COR1",
        10,
        "/DrctDbtTxInf[1]/PmtTpInf/LclInstrm/Cd (TxId TX-20261028-0001)",
        "found “COR1” (allowed: CORE or B2B): This code is not allowed here.",
    ),
    ("RCUR", "", 10, "/DrctDbtTxInf[1]/PmtTpInf/SeqTp", "the value is empty (allowed: FRST, RCUR, FNAL or OOFF)"),
    (
        "CORE",
        "B2B",
        11,
        "/DrctDbtTxInf[2]/PmtTpInf/LclInstrm/Cd (TxId TX-20261028-0002)",
        "found “CORE” (the first item has B2B): ",
    ),
    (
        ">5<",
        ">06<",
        14,
        "/GrpHdr/NbOfTxs",
        "found “06”: NbOfTxs is not the number of items. The header says 6, the bulk has 5 items.",
    ),
    (
        "2024.90",
        "2024.91",
        15,
        "/GrpHdr/TtlIntrBkSttlmAmt",
        "The header says 2,024.91 EUR, the items come to 2,024.90 EUR (0.01 EUR less).",
    ),
    ("</Document>", "</Document>\0", 16, "", "found “\\x00\\n”: More data follows </Document>."),
];

#[test]
fn a_refusal_tells_number_place_element_payment_value_and_why() {
    let folder = Folder::new();
    for (old, new, number, path, found) in DAMAGES {
        let message = damaged(old, new);
        let file = folder.put("damaged.xml", &message);
        let plain = bulk(&["judge", "--plain", text(&file)]).done(1);
        let words: Vec<usize> = plain.split_whitespace().skip(1).flat_map(str::parse).collect();
        assert_eq!(words[0] as u64, number, "{old}: {plain}");

        let before = &message.as_bytes()[..words[1]];
        let lines: Vec<&[u8]> = before.split(|&byte| byte == b'\n').collect();
        let (line, column) = (lines.len(), lines[lines.len() - 1].len() + 1);
        let place =
            format!(": refused {number} at place {} (line {line}, column {column})", words[1]);
        let element = if path.is_empty() { ", ".into() } else { format!(" in {BULK}{path}") };
        let said = bulk(&["judge", text(&file)]).done(1);
        assert!(said.contains(&format!("{place}{element}")), "{place}{element}\n{said}");
        assert!(said.lines().next().unwrap().contains(found), "{found}\n{said}");
        assert!(said.contains(&overview(number)[0]), "{said}");
        let german = bulk(&["--de", "judge", text(&file)]).done(1);
        assert!(german.contains(&format!("abgelehnt (Nr. {number}) an Stelle ")), "{german}");
        assert!(german.contains(&overview(number)[1]), "{german}");
        // The verdict is one line; what stands below it is indented.
        for said in [said, german] {
            assert!(said.lines().skip(1).all(|line| line.starts_with("  ")), "{said}");
        }
    }
}

#[test]
fn reasons_in_german() {
    for (old, new, found) in [
        (
            "Gluehbirne",
            "Glühbirne",
            "gefunden „Anna Glühbirne“ (das 8. Zeichen, „ü“, ist nicht zulässig)",
        ),
        (
            "<TtlIntr",
            "<X/><TtlIntr",
            "(erwartet: <TtlIntrBkSttlmAmt Ccy=\"EUR\">): An dieser Stelle nicht zulässig",
        ),
        ("CORE", "COR1", "(zulässig: CORE oder B2B): Dieser Code ist hier nicht zulässig."),
        (
            "2024.90",
            "2024.91",
            "Im Kopf stehen 2.024,91 EUR, die Posten ergeben 2.024,90 EUR (0,01 EUR weniger).",
        ),
        ("0123456789<", "0123456798<", "(TxId TX-20261028-0004, Zahlungspflichtiger "),
    ] {
        let said = piped(&["--de", "judge", "-"], damaged(old, new)).done(1);
        assert!(said.contains(found), "{found}\n{said}");
    }
}

#[test]
fn a_cut_message_tells_where_it_ends() {
    let (folder, evening) = (Folder::new(), evening());
    let cut = evening.find("</NbOfTxs>").unwrap();
    let file = folder.put("cut.xml", &evening.as_bytes()[..cut]);
    let said = bulk(&["judge", text(&file)]).done(1);
    let found = format!(
        ": refused 3 at place {cut} (line 7, column 17) in {BULK}/GrpHdr/NbOfTxs, the end after \
         “…8:42:07+01:00</CreDtTm>\\n      <NbOfTxs>5”: The message is incomplete.\n"
    );
    assert!(said.contains(&found), "{found}\n{said}");
    let file = folder.put("empty.xml", "");
    let said = bulk(&["judge", text(&file)]).done(1);
    let found = ": refused 3 at place 0 (line 1, column 1), the message is empty: The message is \
                 incomplete.\n";
    assert!(said.ends_with(found), "{said}");
}

#[test]
fn a_long_value_is_shortened() {
    let long = piped(&["judge", "-"], damaged("Anna Gluehbirne", &"A".repeat(71))).done(1);
    let found = format!("found “{}…” (71 characters, at most 70): ", "A".repeat(40));
    assert!(long.contains(&found), "{long}");
    let text = "Rent November 2026, flat 4B, Kabelweg 12";
    let long = piped(&["judge", "-"], damaged(text, &"A".repeat(141))).done(1);
    assert!(long.contains("…” (141 characters, at most 140): "), "{long}");
    let late = damaged("Anna Gluehbirne", &format!("{}ü", "A".repeat(50)));
    let late = piped(&["judge", "-"], late).done(1);
    assert!(late.contains("…” (52 bytes; character 51, “ü”, is not allowed): "), "{late}");
    // A letter is never cut in two.
    let letters = piped(&["judge", "-"], damaged("Anna Gluehbirne", &"aü".repeat(30))).done(1);
    assert!(letters.contains("found “aüaüaüaüaüaüaüaüaüaüaüaüaüa…” (90 bytes; "), "{letters}");
}

#[test]
fn an_excerpt_points_at_the_place() {
    let one_line = fs::read_to_string(sample("evening.xml")).unwrap();
    let said = piped(&["judge", "-"], one_line.replacen("Gluehbirne", "Glühbirne", 1)).done(1);
    let lines: Vec<&str> = said.lines().collect();
    assert_eq!(lines.len(), 3, "{said}");
    let excerpt =
        "    …inInstnId></CdtrAgt><Dbtr><Nm>Anna Glühbirne</Nm></Dbtr><DbtrAcct><Id><IBA…";
    assert_eq!(lines[1], excerpt);
    let caret = lines[2].chars().position(|letter| letter == '^').unwrap();
    let under: String = lines[1].chars().skip(caret).take(4).collect();
    assert_eq!(under, "Anna");
    // The content of a file that is too large was not judged.
    let said = bulk(&["judge", "/dev/zero"]).done(1);
    assert_eq!(said.lines().count(), 1, "{said}");
}

#[test]
fn item_10_001_is_told() {
    let message = bulk_of(&many_items(10_001), 1_000_100);
    let said = piped(&["judge", "-"], &message).done(1);
    let place = message.match_indices(START).nth(10_000).unwrap().0;
    assert!(said.starts_with(&format!("-: refused 12 at place {place} ")), "{said}");
    assert!(said.contains(&format!(" in {BULK}/DrctDbtTxInf[10001], ")), "{said}");
    assert!(said.contains(": More than 10,000 items. The bulk has 10,001 items.\n"), "{said}");
    let said = piped(&["--de", "judge", "-"], &message).done(1);
    assert!(said.contains(": Mehr als 10.000 Posten. Der Bulk hat 10.001 Posten.\n"), "{said}");
}

#[test]
fn a_message_from_a_pipe() {
    let said = piped(&["judge", "-"], evening()).done(0);
    assert!(said.starts_with("-: accepted, 5 items, 2,024.90 EUR (202490 cents), "), "{said}");
    assert_eq!(piped(&["judge", "--plain", "-"], "<?xml>").done(1), "refused 2 0\n");
    assert!(piped(&["judge", "-", "-"], "").trouble().contains("- at most once."));
    assert!(piped(&["items", "-"], evening()).done(0).contains("TX-20261028-0005"));
}

#[test]
fn a_closed_input_is_no_empty_message() {
    for words in
        [&["judge", "-"][..], &["items", "-"], &["records", "-", "x"], &["check", "iban", "-"]]
    {
        let said = shell("exec \"$@\" <&-", words).trouble();
        assert!(said.contains("Standard input is closed."), "{said}");
    }
    let said = shell("exec \"$@\" <&-", &["--de", "judge", "-"]).trouble();
    assert!(said.contains("Die Standardeingabe ist geschlossen."), "{said}");
    // An empty one is judged, also the null device.
    assert_eq!(bulk(&["--plain", "judge", "-"]).done(1), "refused 3 0\n");
    assert_eq!(piped(&["--plain", "judge", "-"], "").done(1), "refused 3 0\n");
    assert_eq!(
        shell("exec \"$@\" </dev/null", &["--plain", "judge", "-"]).done(1),
        "refused 3 0\n"
    );
}

#[test]
fn a_file_of_any_size() {
    let (folder, mut message) = (Folder::new(), evening().into_bytes());
    message.resize(LIMIT, b' ');
    let file = folder.put("most.xml", &message);
    assert_eq!(bulk(&["judge", "--plain", text(&file)]).done(0), "accepted 5 202490\n");
    message.push(b' ');
    let file = folder.put("more.xml", &message);
    assert_eq!(bulk(&["judge", "--plain", text(&file)]).done(1), "refused 1 0\n");
    assert_eq!(piped(&["judge", "--plain", "-"], &message).done(1), "refused 1 0\n");
    // A file with a hole, far larger than the memory that it would take.
    let huge = File::create(folder.path("huge.xml")).unwrap();
    huge.set_len(1 << 36).unwrap();
    let said = bulk(&["judge", text(&folder.path("huge.xml"))]).done(1);
    assert!(said.contains("refused 1 at place 0 (line 1, column 1): The message has"), "{said}");
    assert_eq!(bulk(&["judge", "--plain", "/dev/zero"]).done(1), "refused 1 0\n");
}

#[test]
fn one_line_whatever_the_name() {
    let folder = Folder::new();
    let name = "two\nlines\u{1b}ü\u{202e}lmx.\u{2028}.xml";
    let file = folder.put(name, evening());
    let said = bulk(&["judge", text(&file)]).done(0);
    let shown = "two\\nlines\\x1bü\\u{202e}lmx.\\u{2028}.xml: accepted";
    assert!(said.contains(shown), "{said}");
    assert_eq!(said.lines().count(), 1);
    let said = bulk(&["judge", text(&folder.path("no\u{202e}\u{2028}.xml"))]).trouble();
    assert!(said.contains("no\\u{202e}\\u{2028}.xml: There is no such file."), "{said}");
}

#[test]
fn what_cannot_be_read() {
    let folder = Folder::new();
    let none = folder.path("none.xml");
    for command in ["judge", "items"] {
        let said = bulk(&[command, text(&none)]).trouble();
        assert!(said.ends_with("none.xml: There is no such file. Check the name and the folder.\n"));
        let said = bulk(&["--de", command, text(&none)]).trouble();
        assert!(said.ends_with("Diese Datei gibt es nicht. Bitte Name und Ordner prüfen.\n"));
    }
    let said = bulk(&["items", text(&folder.0)]).trouble();
    assert!(said.ends_with(": It is a folder. Name a file in it.\n"), "{said}");
    let out = folder.path("out");
    assert!(bulk(&["records", text(&none), text(&out)]).trouble().contains("no such file"));
    assert!(bulk(&["records", text(&folder.0), text(&out)]).trouble().contains("It is a folder."));
    assert!(folder.names().is_empty());
}

#[test]
fn a_file_without_the_right_to_read_it() {
    if no_rights_to_give_up() {
        return;
    }
    let folder = Folder::new();
    let file = folder.put("secret.xml", evening());
    fs::set_permissions(&file, Permissions::from_mode(0o000)).unwrap();
    let said = unprivileged(&folder, &["judge", text(&file)]).trouble();
    assert!(said.ends_with("secret.xml: No permission to read it. Ask its owner for permission.\n"));
    let said = unprivileged(&folder, &["--de", "judge", text(&file)]).trouble();
    assert!(said.contains("secret.xml: Das Leserecht fehlt."), "{said}");
    fs::set_permissions(&file, Permissions::from_mode(0o644)).unwrap();
    unprivileged(&folder, &["judge", text(&file)]).done(0);
}

#[test]
fn output_that_cannot_be_written() {
    let file = sample("evening.xml");
    let full = || match File::options().write(true).open("/dev/full") {
        Ok(full) => Some(full),
        Err(error) => {
            left_out(&format!("/dev/full: {error}"));
            None
        }
    };
    if let (Some(out), Some(german), Some(err)) = (full(), full(), full()) {
        let said = command(&["judge", text(&file)]).stdout(out).output().unwrap();
        let said = Said::from(said).trouble();
        assert!(said.contains("Standard output cannot be written: No space left on device."));
        let said = command(&["--de", "judge", text(&file)]).stdout(german).output().unwrap();
        let said = Said::from(said).trouble();
        assert!(said.contains("Kein Platz mehr auf dem Datenträger. Bitte die Ausgabe umleiten."));
        let said = command(&["judge"]).stderr(err).output().unwrap();
        assert_eq!(said.status.code(), Some(2));
    }
}

#[test]
fn a_reader_that_goes_away_changes_no_status() {
    // Like `bulk judge a b | head -1`: the status is that of the verdicts, whoever reads.
    let (good, bad) = (sample("evening.xml"), sample("october.xml"));
    let (good, bad) = (text(&good), text(&bad));
    let (evening, october) = (evening(), fs::read_to_string(bad).unwrap());
    for (words, message, status) in [
        (&["judge", "-", good][..], &evening, 0),
        (&["judge", "-", bad, good], &evening, 1),
        (&["judge", "--json", "-", bad], &evening, 1),
        (&["items", "-"], &evening, 0),
        (&["items", "-"], &october, 1),
    ] {
        assert_eq!(unheard(words, message).status, status, "{words:?}");
    }
    let none = unheard(&["judge", "-", "none.xml"], &evening);
    assert!(none.status == 2 && none.err.contains("There is no such file."), "{}", none.err);
}
