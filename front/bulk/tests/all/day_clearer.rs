//! `day play REPORT`: the day held against the clearer's report.

use crate::common::day::*;
use crate::common::*;

/// A day with two open bulks, A and B, and one that was withdrawn, C.
fn two() -> Day {
    let day = Day::new();
    day.ask(["enter", "CORE", "A"]).done(0);
    day.ask(["enter", "CORE", "C"]).done(0);
    day.ask(["enter", "B2B", "B"]).done(0);
    day.ask(["withdraw", "CORE", "C"]).done(0);
    day
}

/// Plays against a report.
fn against(day: &Day, options: &[&str], report: &str) -> Said {
    let file = day.folder.put("report.csv", report);
    day.call(&[options, &["play", text(&file)]].concat())
}

const A: &str = "CORE;A;HAFNDEHHXXX;2026-10-30;2024.90";
const B: &str = "B2B;B;HAFNDEHHXXX;2026-10-30;2024.90";

/// However the report is written.
#[test]
fn a_report_that_agrees() {
    let day = two();
    let german = format!("{A}\r\n{B}\r\n")
        .replace("2024.90", "2.024,90")
        .replace("2026-10-30", "30.10.2026");
    for report in [
        format!("{A}\n{B}\n"),
        format!("{B}\n{A}"),
        format!("Service;MsgId;BIC;Date;Amount\n\n{A}\n{B}\n"),
        format!("{A}\n{B}\n").replace(';', ","),
        format!("\u{feff}Verfahren;MsgId;BIC;Abrechnungsdatum;Betrag\r\n{german}"),
    ] {
        assert_eq!(against(&day, &["--plain"], &report).done(0), "same 2 404980\n", "{report}");
    }
    let said = against(&day, &[], &format!("{A}\n{B}\n")).done(0);
    let due = "4 records played back, 3 entered, 1 withdrawn; open: 2 bulks, 4,049.80 EUR (404980 \
               cents)\nThe report agrees: 2 of 2 bulks.\n";
    assert_eq!(said, due);
    let empty = Day::new();
    assert_eq!(against(&empty, &["--plain"], "").done(0), "same 0 0\n");
}

#[test]
fn a_report_that_does_not() {
    let day = two();
    let report =
        format!("{}\nCORE;C;HAFNDEHHXXX;2026-10-30;2024.90\n{B}\n{B}\n", A.replace(".90", ".91"));
    let due = "differs CORE A HAFNDEHHXXX 2026-10-30 202490 202491\n\
               there CORE C HAFNDEHHXXX 2026-10-30 202490\n\
               there B2B B HAFNDEHHXXX 2026-10-30 202490\n";
    assert_eq!(against(&day, &["--plain"], &report).done(1), due);
    let due = "here CORE A HAFNDEHHXXX 2026-10-30 202490\n";
    assert_eq!(against(&day, &["--plain"], B).done(1), due);
    let said = against(&day, &[], &report.replacen(&format!("{B}\n{B}\n"), "", 1)).done(1);
    let due =
        "  differs (line 1): CORE A HAFNDEHHXXX 2026-10-30, here 2,024.90 EUR (202490 cents), \
               there 2,024.91 EUR (202491 cents), 0.01 EUR more there\n  \
               only here: B2B B HAFNDEHHXXX 2026-10-30, 2,024.90 EUR (202490 cents)\n  \
               only there (line 2): CORE C HAFNDEHHXXX 2026-10-30, 2,024.90 EUR (202490 cents)\n\
               The report does not agree: 0 the same, 1 only here, 1 only there, 1 with another \
               amount.\n";
    assert!(said.ends_with(due), "{said}");
    let said = against(&day, &["--de"], &A.replace(".90", ".09")).done(1);
    let due =
        "  anderer Betrag (Zeile 1): CORE A HAFNDEHHXXX 2026-10-30, hier 2.024,90 EUR (202490 \
               Cent), dort 2.024,09 EUR (202409 Cent), 0,81 EUR dort weniger\n  \
               nur hier: B2B B HAFNDEHHXXX 2026-10-30, 2.024,90 EUR (202490 Cent)\n\
               Der Bericht weicht ab: 0 gleich, 1 nur hier, 0 nur dort, 1 mit anderem Betrag.\n";
    assert!(said.ends_with(due), "{said}");
}

/// A BIC with XXX is not the one without: the key is compared letter for letter.
#[test]
fn keys_letter_for_letter() {
    let day = two();
    let said = against(&day, &["--plain"], &format!("{}\n{B}", A.replace("HHXXX", "HH"))).done(1);
    let due =
        "here CORE A HAFNDEHHXXX 2026-10-30 202490\nthere CORE A HAFNDEHH 2026-10-30 202490\n";
    assert_eq!(said, due);
}

#[test]
fn for_programs() {
    let day = two();
    let said = against(&day, &["--json"], &format!("{A}\n{B}\n")).done(0);
    for part in [
        r#"{"call":"play","verdict":"same","records":4,"entered":3,"withdrawn":1,"#,
        r#""open":2,"open_euros":"4049.80","report":"#,
        r#","only_here":[],"only_there":[],"differs":[],"day":"#,
    ] {
        assert!(said.contains(part), "{part} {said}");
    }
    let said = day.call(&["--json", "play"]).done(0);
    assert!(said.contains(r#""verdict":"played","#) && said.contains(r#""report":null"#), "{said}");
    let large = "B2B;B;HAFNDEHHXXX;2026-10-30;999999999999999.99";
    let said = against(&day, &["--json"], large).done(1);
    for part in [
        r#""verdict":"different""#,
        r#""only_here":[{"service":"CORE","msg_id":"A","bic":"HAFNDEHHXXX","#,
        r#""settlement_date":"2026-10-30","euros":"2024.90"}],"#,
        r#""differs":[{"service":"B2B","msg_id":"B","bic":"HAFNDEHHXXX","#,
        r#""euros":"2024.90","line":1,"there_euros":"999999999999999.99"}]"#,
    ] {
        assert!(said.contains(part), "{part} {said}");
    }
}

/// A line that is not read, and what is said of it in English and German.
type Unread = (&'static str, &'static str, &'static str);

const UNREAD: [Unread; 8] = [
    (
        "CORE;A;HAFNDEHHXXX;2026-10-30;2024",
        "Line 2: “2024” may be euros or cents",
        "Zeile 2: „2024“ kann Euro oder Cent meinen",
    ),
    (
        "CORE;A;HAFNDEHHXXX;2026-10-30;2.024",
        "may have thousands or decimals",
        "kann hinter dem letzten Zeichen Tausender",
    ),
    (
        "CORE;A;HAFNDEHHXXX;2026-10-30;-1.00",
        "“-1.00” is no amount such as 1234.56.",
        "„-1.00“ ist kein Betrag wie 1234,56.",
    ),
    (
        "CORE;A;HAFNDEHHXXX;2026-10-30;1.00;EUR",
        "Line 2: It has 6 columns. Expected: service;MsgId;",
        "Zeile 2: Sie hat 6 Spalten.",
    ),
    (
        "Sum;;;;2024.90",
        "“Sum” is not a service, CORE or B2B.",
        "„Sum“ ist kein Verfahren, CORE oder B2B.",
    ),
    ("CORE;A;HAFN;2026-10-30;2024.90", "“HAFN” is not a BIC.", "„HAFN“ ist kein BIC."),
    (
        "CORE;A;HAFNDEHHXXX;31.11.2026;1.00",
        "“31.11.2026” is not a date such as",
        "„31.11.2026“ ist kein Datum wie",
    ),
    (
        "CORE;\"A;HAFNDEHHXXX;2026-10-30;2024.90",
        "Its quotation marks do not match.",
        "Die Anführungszeichen passen nicht.",
    ),
];

/// A report that is not read exactly is not compared, and the line is told.
#[test]
fn reports_that_are_not_read() {
    let day = two();
    for (line, english, german) in UNREAD {
        let said = against(&day, &[], &format!("{B}\n{line}\n")).trouble();
        assert!(said.contains(english) && said.ends_with("Nothing was compared.\n"), "{said}");
        let said = against(&day, &["--de"], &format!("{B}\n{line}\n")).trouble();
        assert!(said.contains(german) && said.ends_with("Nichts wurde verglichen.\n"), "{said}");
    }
    let said = day.call(&["play", "none.csv"]).trouble();
    assert!(said.contains("none.csv: There is no such file."), "{said}");
    let said = against(&day, &[], &" ".repeat(LIMIT + 1)).trouble();
    assert!(said.contains("The report has more than 16,777,216 bytes."), "{said}");
}
