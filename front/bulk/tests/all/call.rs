//! The command line: help, version, bad calls.

use crate::common::*;

/// What the help tells.
const HELP: [&str; 19] = [
    "judge",
    "items",
    "records",
    "bulk plain",
    "bulk same",
    "bulk book",
    "bulk play",
    "check",
    "explain",
    "bulk help",
    "--plain",
    "--json",
    "--csv",
    "--de",
    "--version",
    "--help",
    "0",
    "1",
    "2",
];

#[test]
fn help_is_one_screen() {
    let pages = [
        &["--help"][..],
        &["-h"],
        &["help"],
        &["help", "judge"],
        &["judge", "--help"],
        &["--de", "--help"],
    ];
    for words in pages {
        let said = bulk(words).done(0);
        assert!(said.lines().count() <= 24, "{said}");
        for word in HELP {
            assert!(said.contains(word), "{word}");
        }
    }
    assert!(bulk(&["help"]).done(0).contains("one line per file"));
    let german = bulk(&["--de", "help"]).done(0);
    assert_eq!(german.matches("Bulk (Sammler)").count(), 1, "{german}");
    assert!(german.contains("2 Fehler bei der Ausführung"), "{german}");
}

#[test]
fn the_version() {
    let version = format!("bulk {}\n", env!("CARGO_PKG_VERSION"));
    assert_eq!(bulk(&["--version"]).done(0), version);
    assert_eq!(bulk(&["-V"]).done(0), version);
}

/// A bad call, in which FILE stands for a message, and what is said of it in English and German.
type BadCall = (&'static [&'static str], &'static str, &'static str);

const BAD_CALLS: [BadCall; 26] = [
    (&[], "bulk judge FILE", "bulk judge DATEI"),
    (
        &["jugde", "FILE"],
        "Unknown command “jugde”. Commands: judge, ",
        "Unbekannter Befehl „jugde“. ",
    ),
    (&["judge"], "bulk judge FILE..", "bulk judge DATEI.."),
    (
        &["judge", "--fast", "FILE"],
        "Unknown option “--fast”. If you mean a file: ./--fast",
        "Unbekannte Option „--fast“. Falls eine Datei gemeint ist: ./--fast",
    ),
    (&["judge", "-f"], "./-f", "./-f"),
    (&["items"], "bulk items FILE", "bulk items DATEI"),
    (&["items", "FILE", "FILE"], "bulk items FILE", "bulk items DATEI"),
    (&["records", "FILE"], "bulk records FILE OUT", "bulk records DATEI ZIEL"),
    (&["records", "FILE", "a", "b"], "bulk records FILE OUT", "bulk records DATEI ZIEL"),
    (&["plain"], "bulk plain FILE [OUT]", "bulk plain DATEI [ZIEL]"),
    (&["plain", "FILE", "a", "b"], "bulk plain FILE [OUT]", "bulk plain DATEI [ZIEL]"),
    (&["same", "FILE"], "bulk same FILE FILE", "bulk same DATEI DATEI"),
    (&["same", "FILE", "FILE", "FILE"], "bulk same FILE FILE", "bulk same DATEI DATEI"),
    (
        &["same", "--csv", "FILE", "FILE"],
        "There is no --csv for same.",
        "Für same gibt es --csv nicht.",
    ),
    (&["book"], "withdraw SERVICE MSGID BIC DATE", "withdraw VERFAHREN MSGID BIC DATUM"),
    (&["book", "FILE", "FILE"], "bulk book SCRIPT.", "bulk book SKRIPT."),
    (&["book", "--csv", "FILE"], "There is no --csv for book.", "Für book gibt es --csv nicht."),
    (&["play"], "bulk play RECORDING MESSAGE..", "bulk play AUFZEICHNUNG NACHRICHT.."),
    (&["play", "--csv", "FILE"], "There is no --csv for play.", "Für play gibt es --csv nicht."),
    (&["check", "iban"], "bulk check KIND VALUE", "bulk check ART WERT"),
    (&["check", "iban", "a", "b"], "bulk check KIND VALUE", "bulk check ART WERT"),
    (&["explain", "1", "2"], "bulk explain 14", "bulk explain 14"),
    (&["judge", "--csv", "FILE"], "There is no --csv for judge.", "Für judge gibt es --csv nicht."),
    (
        &["explain", "--json"],
        "There is no --json for explain.",
        "Für explain gibt es --json nicht.",
    ),
    (
        &["items", "--csv", "--json", "FILE"],
        "Choose one of --plain, --json and --csv.",
        "nur eines",
    ),
    (&["items", "--plain", "--json", "FILE"], "Choose one of", "nur eines"),
];

#[test]
fn bad_usage_says_what_to_do() {
    let file = sample("evening.xml");
    for (words, english, german) in BAD_CALLS {
        let word = |word: &&'static str| if *word == "FILE" { text(&file) } else { word };
        let words: Vec<&str> = words.iter().map(word).collect();
        let said = bulk(&words).trouble();
        assert!(said.contains(english) && said.contains("bulk --help"), "{said}");
        let said = bulk(&[&words[..], &["--de"]].concat()).trouble();
        assert!(said.contains(german) && said.contains("bulk --help"), "{said}");
    }
}

#[test]
fn no_word_that_the_office_does_not_use() {
    for words in [&["--help"][..], &["jugde"], &["judge"], &["records"]] {
        let said = bulk(words);
        assert!(!format!("{}{}", said.out, said.err).contains("verb"), "{}", said.out);
    }
}
