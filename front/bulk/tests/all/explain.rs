//! `explain`: the pages of docs/REFUSALS.md.

use crate::common::*;

/// Every number that has a page.
fn numbers() -> impl Iterator<Item = u64> {
    1..=29
}

/// The texts of a number in English and in German: its sentence, its labels and its rows.
fn texts(number: u64) -> [Vec<String>; 2] {
    let body = PAGES.split(&format!("\n## {number}\n")).nth(1).unwrap();
    let body = body.split("\n## ").next().unwrap();
    let rows: Vec<Vec<String>> =
        body.lines().filter(|line| line.contains(" · ")).map(cells).collect();
    assert_eq!(rows.len(), 4, "page {number}");
    [0, 1].map(|of| {
        let label = |row: &Vec<String>| row[0].split(" · ").nth(of).unwrap().to_string();
        let rows = rows.iter().flat_map(|row| [label(row), row[of + 1].clone()]);
        [overview(number)[of].clone()].into_iter().chain(rows).collect()
    })
}

#[test]
fn every_page_is_told_whole_in_both_languages() {
    for number in numbers() {
        let both = flat(&bulk(&["explain", &number.to_string()]).done(0));
        let [english, german] = texts(number);
        for text in english.iter().chain(&german) {
            assert!(text.len() > 2, "page {number} has an empty text");
            assert!(both.contains(text), "page {number}: {text}\n{both}");
        }
        assert!(both.starts_with(&format!("{number} {}", english[0])), "{both}");
    }
}

#[test]
fn a_chosen_language_is_the_only_one() {
    for number in numbers() {
        let number_text = number.to_string();
        let [english, german] = texts(number);
        let said = flat(&bulk(&["--en", "explain", &number_text]).done(0));
        assert!(english.iter().all(|text| said.contains(text)), "{said}");
        assert!(!said.contains("Bedeutung") && !said.contains(&german[0]), "{said}");
        let said = flat(&bulk(&["explain", &number_text, "--de"]).done(0));
        assert!(german.iter().all(|text| said.contains(text)), "{said}");
        assert!(!said.contains("What it means") && !said.contains(&english[0]), "{said}");
    }
    // The locale is no choice: both, the locale's first.
    let said = command(&["explain", "14"]).env("LANG", "de_DE.UTF-8").output().unwrap();
    let said = Said::from(said).done(0);
    let places = (said.find("Bedeutung").unwrap(), said.find("What it means").unwrap());
    assert!(places.0 < places.1, "{said}");
}

#[test]
fn the_list_of_numbers() {
    let both = flat(&bulk(&["explain"]).done(0));
    let german = flat(&bulk(&["--de", "explain"]).done(0));
    for number in numbers() {
        let sentences = overview(number);
        assert!(both.contains(&format!("{number} {} {}", sentences[0], sentences[1])), "{both}");
        assert!(german.contains(&format!("{number} {}", sentences[1])), "{german}");
        assert!(!german.contains(&sentences[0]), "{german}");
    }
    for wrong in ["0", "30", "99", "fourteen", "1.4"] {
        let said = bulk(&["explain", wrong]).trouble();
        assert!(said.contains(&format!("There is no refusal “{wrong}”")), "{said}");
    }
    bulk(&["explain", ""]).trouble();
}

/// The words that the office asked for.
#[test]
fn the_texts_as_an_office_writes_them() {
    for (number, english, german) in [
        (3, "The message is incomplete.", "Die Nachricht ist unvollständig."),
        (4, "", "An dieser Stelle nicht zulässig, oder davor fehlt ein Element."),
        (
            7,
            "The value is not in the required format.",
            "Der Wert entspricht nicht dem vorgeschriebenen Format.",
        ),
        (9, "", "Der Betrag liegt außerhalb des zulässigen Bereichs."),
        (10, "This code is not allowed here.", "Dieser Code ist hier nicht zulässig."),
        (12, "More than 10,000 items.", "Mehr als 10.000 Posten."),
        (16, "More data follows </Document>.", "Nach </Document> folgen weitere Daten."),
        (17, "", "Der Speicherbereich für die Buchungssätze oder die Normalform ist zu klein."),
    ] {
        let [told, told_german] = overview(number);
        assert!(english.is_empty() || told == english, "{told}");
        assert_eq!(told_german, german);
    }
    for (number, words) in [
        (2, &["Byte Order Mark (BOM)"][..]),
        (7, &["Mandatsreferenz (MndtId)", "counts as one space", "gelten als ein Leerzeichen"]),
        (8, &["Tippfehler", "Zahlendreher", "typing error"]),
        (11, &["Basis- (CORE) und Firmenlastschriften (B2B)"]),
        (1, &["A plain form over that limit", "Auch eine Normalform über dieser Grenze"]),
        (17, &["or asked for the plain form and lent fewer bytes", "für die Normalform die Länge"]),
        (17, &["lend 320 times the count", "320-mal die Anzahl", "as before request 9"]),
        (19, &["AT EE LT LU 20", "Germany (DE) has 22", "aus Deutschland (DE) hat 22 Stellen"]),
        (14, &["Each item by itself", "Bedeutung", "Häufige Ursachen", "Was tun?"]),
    ] {
        let said = flat(&bulk(&["explain", &number.to_string()]).done(0));
        words.iter().for_each(|words| assert!(said.contains(words), "{words}\n{said}"));
    }
    for gone in
        ["anew", "slip of the pen", "verb", "Bytereihenfolge", "Satzbereich", "Schreibfehler"]
    {
        assert!(!PAGES.contains(gone), "{gone}");
    }
}

/// The numbers that are not used: 13 tells since when, and why it could never come.
#[test]
fn the_texts_of_the_unused_numbers() {
    assert_eq!(overview(5), ["Not used.", "Nicht verwendet."]);
    assert_eq!(overview(13), ["Not used since request 8.", "Seit Anforderung 8 nicht verwendet."]);
    let said = flat(&bulk(&["--en", "explain", "13"]).done(0));
    let said_in_german = flat(&bulk(&["--de", "explain", "13"]).done(0));
    for words in ["it could never come", "10,000 items", "9999999999900.00", "999999999999999.99"] {
        assert!(said.contains(words), "{words}\n{said}");
    }
    for words in ["konnte nie vorkommen", "10.000 Posten", "9999999999900.00", "999999999999999.99"]
    {
        assert!(said_in_german.contains(words), "{words}\n{said_in_german}");
    }
}

/// Where the payment type stands, and what the header's means for 11.
#[test]
fn the_texts_of_the_payment_type() {
    for (number, words) in [
        (
            4,
            [
                "or PmtTpInf in the header and in an item",
                "oder in jedem Posten (direkt nach PmtId)",
            ],
        ),
        (11, ["its LclInstrm holds for all items", "gilt dessen LclInstrm für alle Posten"]),
        (23, ["or in every item", "R10 (Schema; beim Clearer selbst steht PmtTpInf nur in den"]),
    ] {
        let said = flat(&bulk(&["explain", &number.to_string()]).done(0));
        words.iter().for_each(|words| assert!(said.contains(words), "{words}\n{said}"));
    }
    let german = "Der Posten hat ein eigenes PmtTpInf, obwohl schon der Kopf eines hat.";
    assert_eq!(overview(23)[1], german);
}

/// Both versions, wherever the root or a BIC is spoken of.
#[test]
fn the_texts_of_the_versions() {
    for sentence in overview(2) {
        assert!(sentence.contains("pacs.003.001.02") && sentence.contains("pacs.003.001.08"));
    }
    for (number, words) in [
        (2, ["Do not just change the number in the root", "oder dasselbe mit `.08` am Ende"]),
        (4, ["and in `BICFI` in pacs.003.001.08", "in pacs.003.001.02 in `BIC` und in"]),
        (
            7,
            [
                "a digit among the first four, 0 or 1 as",
                "eine Ziffer unter den ersten vier Zeichen",
            ],
        ),
        (20, ["the version does not count", "die Version zählt nicht"]),
    ] {
        let said = flat(&bulk(&["explain", &number.to_string()]).done(0));
        words.iter().for_each(|words| assert!(said.contains(words), "{words}\n{said}"));
    }
}

/// The pages of the day book.
#[test]
fn the_texts_of_the_day_book() {
    for (number, german, words) in [
        (
            20,
            "Ein Bulk mit diesem Schlüssel ist bereits offen.",
            ["BIC of the instructing bank (InstgAgt)", "eine Doppeleinreichung", "B14"],
        ),
        (
            21,
            "Das Tagebuch ist voll: 64 Bulks sind offen.",
            ["keeps at most 64 open bulks", "zwei Tagebücher führen", "S01"],
        ),
        (
            22,
            "Kein Bulk mit diesem Schlüssel ist offen.",
            ["a BIC of 8 characters is not the same", "Fälligkeitstag der Posten", "XT75"],
        ),
        (
            29,
            "Was das Programm bereitgestellt hat, ist kein Tagebuch.",
            ["under 64 places, over 64 open", "über 999999999999999.99 Euro", "0 offen"],
        ),
    ] {
        assert_eq!(overview(number)[1], german);
        let said = flat(&bulk(&["explain", &number.to_string()]).done(0));
        words.iter().for_each(|words| assert!(said.contains(words), "{words}\n{said}"));
    }
}

/// The pages of playback: the layout of a record, the hour of October, the four causes of 28.
#[test]
fn the_texts_of_playback() {
    for (number, german, words) in [
        (
            26,
            "Ein Feld des Satzes entspricht nicht dem vorgeschriebenen Format, oder der Satz hat \
             nicht 64 Bytes.",
            [
                "Bytes 51 to 62: the MsgId, 1 to 12 characters.",
                "Byte 63: ein Zeilenvorschub (LF).",
                "a multiple of 64",
            ],
        ),
        (
            27,
            "Die Zeit des Satzes liegt vor der des vorigen Satzes.",
            [
                "02:30 at +02:00 comes an hour before 02:30 at +01:00",
                "02:30 mit +02:00 eine Stunde vor 02:30 mit +01:00",
                "Two records of one instant are in order",
            ],
        ),
        (
            28,
            "Sätze und Nachrichten passen nicht zusammen: Eine Nachricht fehlt oder ist übrig, ihr \
             Ende ist falsch, oder ihr Schlüssel ist nicht der des Satzes.",
            ["It is one of four:", "Es ist eines von vieren:", "`bulk play` takes each file"],
        ),
        (20, "", ["it is the number of the record", "ist sie die Nummer des Satzes", "B14"]),
        (25, "", ["or to play back a day", "oder einen Tag nachzuspielen", "16,384 numbers"]),
        (29, "", ["Playing back a day empties", "leert das Tagebuch zuerst", "64 Plätzen"]),
    ] {
        assert!(german.is_empty() || overview(number)[1] == german, "{number}");
        let said = flat(&bulk(&["explain", &number.to_string()]).done(0));
        words.iter().for_each(|words| assert!(said.contains(words), "{words}\n{said}"));
    }
}
