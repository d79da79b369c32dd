//! `play`: a day rerun from its recording.

use crate::common::*;
use std::path::Path;

/// Summer time and winter time of the hour that October has twice.
const SUMMER: &str = "2026-10-25T02:30:00+02:00";
const WINTER: &str = "2026-10-25T02:30:00+01:00";

/// A record of the evening's key, under another MsgId.
fn record(time: &str, call: &str, msg_id: &str) -> String {
    format!("{time}{call}COREHAFNDEHHXXX2026-10-30{msg_id:12}\n")
}

/// A folder with the evening under three MsgIds, the last one of which is refused.
fn folder() -> Folder {
    let folder = Folder::new();
    for name in ["A", "B"] {
        folder.put(&format!("{name}.xml"), damaged("BULK-2026-10-28-EVENING", name));
    }
    let wrong = damaged("BULK-2026-10-28-EVENING", "C").replacen(">5<", ">9<", 1);
    folder.put("C.xml", wrong);
    folder
}

/// Plays records with messages, from the folder in which they lie.
fn play(folder: &Folder, options: &[&str], records: &[String], messages: &[&str]) -> Said {
    folder.put("day.rec", records.concat());
    let mut command = command(&[options, &["play", "day.rec"], messages].concat());
    command.current_dir(&folder.0).output().unwrap().into()
}

/// The line of --plain, and the status.
fn plain(records: &[String], messages: &[&str], status: i32) -> String {
    let said = play(&folder(), &["--plain"], records, messages).done(status);
    said.strip_suffix('\n').expect("a line").to_string()
}

/// The sample recordings, from the root of the repository.
fn sampled(options: &[&str], recording: &str, status: i32) -> String {
    let root = Path::new(env!("CARGO_MANIFEST_DIR")).join("../..");
    let [night, firms] = ["samples/october-night.xml", "samples/october-firms.xml"];
    let files = ["play", recording, night, firms, night, "samples/example.xml"];
    let mut command = command(&[options, &files].concat());
    Said::from(command.current_dir(root).output().unwrap()).done(status)
}

#[test]
fn the_sample_day() {
    let said = sampled(&["--plain"], "samples/october-day.rec", 0);
    assert_eq!(said, "accepted open 3 400274 table 3780 197784 895 1265 0 196550 0 0\n");
    let said = sampled(&[], "samples/october-day.rec", 0);
    let due =
        "samples/october-day.rec: played, 5 records; open: 3 bulks, 4,002.74 EUR (400274 cents)\n\
               EUR     FRST      RCUR  FNAL   OOFF     Total\n\
               CORE   37.80  1,977.84  8.95  12.65  2,037.24\n\
               B2B     0.00  1,965.50  0.00   0.00  1,965.50\n\
               Total  37.80  3,943.34  8.95  12.65  4,002.74\n";
    assert_eq!(said, due);
    let said = sampled(&["--de"], "samples/october-day.rec", 0);
    let due =
        "samples/october-day.rec: nachgespielt, 5 Sätze; offen: 3 Bulks, 4.002,74 EUR (400274 \
               Cent)\nEUR     FRST      RCUR  FNAL   OOFF     Summe\n\
               CORE   37,80  1.977,84  8,95  12,65  2.037,24\n";
    assert!(said.starts_with(due), "{said}");
}

/// The same with the hour backwards.
#[test]
fn the_sample_day_backwards() {
    let said = sampled(&["--plain"], "samples/october-day-back.rec", 1);
    assert_eq!(said, "refused 27 2 open 2 399040 table 0 0 0 0 0 0 0 0\n");
    let said = sampled(&[], "samples/october-day-back.rec", 1);
    let due = format!(
        "samples/october-day-back.rec: refused 27 at record 2 (line 3), its time, {SUMMER}, is \
         1:00:00 hours before {WINTER} of the record before it: {}\n    \
         {SUMMER}WCOREHAFNDEHHXXX2026-10-27NIGHT-2510\n    {}\n  \
         open before it: 2 bulks, 3,990.40 EUR (399040 cents)\n",
        overview(27)[0],
        "^".repeat(25)
    );
    assert_eq!(said, due);
    let said = sampled(&["--de"], "samples/october-day-back.rec", 1);
    let due = format!(
        "samples/october-day-back.rec: abgelehnt (Nr. 27) bei Satz 2 (Zeile 3), seine Zeit, {SUMMER}, \
         liegt 1:00:00 Stunden vor {WINTER} des vorigen Satzes: {}\n",
        overview(27)[1]
    );
    assert!(said.starts_with(&due), "{said}");
    assert!(said.ends_with("\n  davor offen: 2 Bulks, 3.990,40 EUR (399040 Cent)\n"), "{said}");
}

/// Every number that playback gives to the command, in the line of a script.
#[test]
fn one_line_for_scripts() {
    let [a, b] = ["A", "B"].map(|id| record(SUMMER, "E", id));
    let gone = record(WINTER, "W", "A");
    let zeros = "table 0 0 0 0 0 0 0 0";
    let one = format!("open 1 202490 {zeros}");
    let none = format!("open 0 0 {zeros}");
    let days: [(&[&String], &[&str], i32, &str); 10] = [
        (&[], &[], 0, &format!("accepted {none}")),
        (&[&a, &gone], &["A.xml"], 0, &format!("accepted {none}")),
        (&[&a], &["A.xml"], 0, "accepted open 1 202490 table 3780 196550 895 1265 0 0 0 0"),
        (&[&gone, &a], &["A.xml"], 1, &format!("refused 22 0 {none}")),
        (&[&a, &a], &["A.xml", "A.xml"], 1, &format!("refused 20 1 {one}")),
        (&[&a, &b], &["A.xml"], 1, &format!("refused 28 1 {one}")),
        (&[&a, &b], &["B.xml", "A.xml"], 1, &format!("refused 28 0 {none}")),
        (&[&a], &["A.xml", "B.xml"], 1, &format!("refused 28 1 {one}")),
        (&[&a, &b], &["A.xml", "C.xml"], 1, &format!("refused 14 1 {one}")),
        (&[&gone, &b], &[], 1, &format!("refused 22 0 {none}")),
    ];
    for (records, messages, status, due) in days {
        let records: Vec<String> = records.iter().map(|record| record.to_string()).collect();
        assert_eq!(plain(&records, messages, status), due, "{records:?} {messages:?}");
    }
    let short = vec![a.clone(), b[..40].to_string()];
    assert_eq!(plain(&short, &["A.xml"], 1), format!("refused 26 1 {one}"));
}

/// 64 are open and no more.
#[test]
fn sixty_four_open() {
    let folder = Folder::new();
    let ids: Vec<String> = (0..65).map(|number| format!("DAY-{number}")).collect();
    for id in &ids {
        folder.put(id, damaged("BULK-2026-10-28-EVENING", id));
    }
    let records: Vec<String> = ids.iter().map(|id| record(SUMMER, "E", id)).collect();
    let names: Vec<&str> = ids.iter().map(String::as_str).collect();
    let said = play(&folder, &["--plain"], &records, &names).done(1);
    assert!(
        said.starts_with(&format!("refused 21 64 open 64 {} table 0 ", 64 * 202_490)),
        "{said}"
    );
    let said = play(&folder, &[], &records, &names).done(1);
    let key = "key CORE DAY-64 HAFNDEHHXXX 2026-10-30: The day book is full";
    assert!(said.contains(&format!("refused 21 at record 64 (line 65), {key}")), "{said}");
}

/// A refusal in words: the messages, what is otherwise in a record that enters `B`, what is said of it in
/// English and in German, and where the carets stand below it.
type Told = (&'static [&'static str], [&'static str; 2], &'static str, &'static str, [usize; 2]);

/// Fields that are not of their kind.
const FAULTS: [Told; 6] = [
    (
        &["A.xml"],
        ["+02:00", "Z     "],
        "time “2026-10-25T02:30:00Z     ” (expected: YYYY-MM-DDThh:mm:ss+hh:mm, with the offset, \
         without a fraction)",
        "Zeit „2026-10-25T02:30:00Z     “ (erwartet: JJJJ-MM-TTThh:mm:ss+hh:mm, mit \
         Zeitverschiebung, ohne Sekundenbruchteile)",
        [0, 25],
    ),
    (
        &["A.xml"],
        ["ECORE", "XCORE"],
        "E or W “X” (allowed: E or W)",
        "E oder W „X“ (zulässig: E oder W)",
        [25, 1],
    ),
    (
        &["A.xml"],
        ["CORE", "COR1"],
        "service “COR1” (allowed: CORE or B2B)",
        "Verfahren „COR1“ (zulässig: CORE oder B2B)",
        [26, 4],
    ),
    (
        &["A.xml"],
        ["2026-10-30", "2026-02-30"],
        "settlement date “2026-02-30” (there is no such day)",
        "Abrechnungsdatum „2026-02-30“ (diesen Tag gibt es nicht)",
        [41, 10],
    ),
    (
        &["A.xml"],
        ["\n", "\r"],
        "line end “\\r” (expected: a line feed (LF) as the 64th byte)",
        "Zeilenende „\\r“ (erwartet: ein Zeilenvorschub (LF) als 64. Byte)",
        [63, 2],
    ),
    (
        &["A.xml"],
        ["B           \n", "B\n"],
        "the record has 53 bytes, and not 64",
        "der Satz hat 53 statt 64 Bytes",
        [52, 2],
    ),
];

/// Keys that a message or the book does not agree with.
const KEYS: [Told; 4] = [
    (
        &["A.xml", "A.xml"],
        ["", ""],
        "A.xml has MsgId “A” and not “B”",
        "A.xml hat MsgId „A“ statt „B“",
        [51, 12],
    ),
    (
        &["A.xml"],
        ["", ""],
        "no message is left for it, 1 given",
        "für ihn ist keine Nachricht mehr übrig, angegeben: 1",
        [25, 1],
    ),
    (
        &["A.xml", "A.xml"],
        ["30B", "30A"],
        "key CORE A HAFNDEHHXXX 2026-10-30, entered at record 0 (line 1)",
        "Schlüssel CORE A HAFNDEHHXXX 2026-10-30, eingetragen bei Satz 0 (Zeile 1)",
        [26, 37],
    ),
    (
        &["A.xml"],
        ["ECORE", "WCORE"],
        "key CORE B HAFNDEHHXXX 2026-10-30",
        "Schlüssel CORE B HAFNDEHHXXX 2026-10-30",
        [26, 37],
    ),
];

/// Each of them stands behind a record that enters.
#[test]
fn refused_in_words() {
    let [first, second] = ["A", "B"].map(|id| record(SUMMER, "E", id));
    for (messages, [old, new], english, german, [from, carets]) in FAULTS.into_iter().chain(KEYS) {
        let records = [first.clone(), second.replacen(old, new, 1)];
        let line = plain(&records, messages, 1);
        let number: u64 = line.split(' ').nth(1).unwrap().parse().unwrap();
        let [sentence, satz] = overview(number);
        let said = play(&folder(), &[], &records, messages).done(1);
        let due =
            format!("day.rec: refused {number} at record 1 (line 2), {english}: {sentence}\n");
        assert!(said.starts_with(&due), "{said}{due}");
        let lines: Vec<&str> = said.lines().collect();
        let marks = format!("    {}{}", " ".repeat(from), "^".repeat(carets));
        assert_eq!((lines.len(), lines[2]), (4, &marks[..]), "{said}");
        assert_eq!(lines[3], "  open before it: 1 bulk, 2,024.90 EUR (202490 cents)");
        let said = play(&folder(), &["--de"], &records, messages).done(1);
        let due = format!("abgelehnt (Nr. {number}) bei Satz 1 (Zeile 2), {german}: {satz}\n");
        assert!(said.contains(&due), "{said}");
        assert!(said.ends_with("  davor offen: 1 Bulk, 2.024,90 EUR (202490 Cent)\n"), "{said}");
    }
}

/// The judge's own refusal is told as `judge` tells it, with file, line and column.
#[test]
fn the_judge_s_own() {
    let folder = folder();
    let records = [record(SUMMER, "E", "A"), record(SUMMER, "E", "C")];
    let judged = command(&["judge", "C.xml"]).current_dir(&folder.0).output().unwrap();
    let judged = Said::from(judged).done(1);
    assert!(judged.contains("(line 7, column 16)"), "{judged}");
    let said = play(&folder, &[], &records, &["A.xml", "C.xml"]).done(1);
    let before = "day.rec: refused 14 at record 1 (line 2), its message is refused:\n    ";
    assert!(said.starts_with(before) && said.contains(&judged), "{said}");
    let said = play(&folder, &["--de"], &records, &["A.xml", "C.xml"]).done(1);
    let before =
        "day.rec: abgelehnt (Nr. 14) bei Satz 1 (Zeile 2), seine Nachricht wird abgelehnt:\n";
    assert!(said.starts_with(before), "{said}");
    // A file of more bytes than are judged: 1.
    folder.put("large.xml", " ".repeat(LIMIT + 1));
    let said = play(&folder, &["--plain"], &records, &["large.xml"]).done(1);
    assert!(said.starts_with("refused 1 0 open 0 0 "), "{said}");
}

/// Messages that are left over are named, three of them at most; one that fits into no record is told so.
#[test]
fn left_over_and_too_long() {
    let (folder, records) = (folder(), [record(SUMMER, "E", "A"), record(SUMMER, "W", "A")]);
    let said = play(&folder, &[], &records, &["A.xml", "B.xml"]).done(1);
    let due = format!(
        "day.rec: refused 28 behind the last record (2), 1 message is left over (B.xml): {}\n  \
         open: 0 bulks, 0.00 EUR (0 cents)\n",
        overview(28)[0]
    );
    assert_eq!(said, due);
    let said = play(&folder, &["--de"], &records, &["A.xml"; 5]).done(1);
    let due =
        "abgelehnt (Nr. 28) nach dem letzten Satz (2), 4 Nachrichten sind übrig (A.xml, A.xml, \
               A.xml, …): ";
    assert!(said.contains(due), "{said}");
    folder.put("D.xml", evening());
    let said = play(&folder, &[], &records, &["D.xml"]).done(1);
    let due =
        "D.xml has MsgId “BULK-2026-10-28-EVENING” (23 characters, a record has room for 12) and \
               not “A”: ";
    assert!(said.contains(due), "{said}");
    let said = play(&folder, &["--de"], &records, &["D.xml"]).done(1);
    let due = "(23 Zeichen, ein Satz fasst 12) statt „A“: ";
    assert!(said.contains(due), "{said}");
}

/// A withdrawn key that is withdrawn again: where it was before.
#[test]
fn withdrawn_before() {
    let gone = record(WINTER, "W", "A");
    let records = [record(SUMMER, "E", "A"), gone.clone(), gone];
    let said = play(&folder(), &[], &records, &["A.xml"]).done(1);
    let due = "refused 22 at record 2 (line 3), key CORE A HAFNDEHHXXX 2026-10-30, withdrawn at record 1 \
               (line 2): ";
    assert!(said.contains(due), "{said}");
}

/// The keys of a refusal, which are null where there is none.
const REFUSAL: [&str; 13] = [
    "number",
    "record",
    "line",
    "field",
    "found",
    "why",
    "meaning",
    "file",
    "service",
    "msg_id",
    "bic",
    "settlement_date",
    "judged",
];

/// The object of a day that is played.
#[test]
fn json_of_a_day() {
    let records = [record(SUMMER, "E", "A"), record(SUMMER, "E", "B"), record(WINTER, "W", "A")];
    let said = play(&folder(), &["--json"], &records, &["A.xml", "B.xml"]).done(0);
    let nulls = REFUSAL.map(|key| format!("\"{key}\":null")).join(",");
    let euros = ["37.80", "1965.50", "8.95", "12.65", "0.00", "0.00", "0.00", "0.00"];
    let sum = |at: usize| {
        let (service, sequence) =
            (["CORE", "B2B"][at / 4], ["FRST", "RCUR", "FNAL", "OOFF"][at % 4]);
        let euros = euros[at];
        format!("{{\"service\":\"{service}\",\"sequence\":\"{sequence}\",\"euros\":\"{euros}\"}}")
    };
    let sums = (0..8).map(sum).collect::<Vec<_>>().join(",");
    let bulk = "{\"at\":0,\"service\":\"CORE\",\"msg_id\":\"B\",\"bic\":\"HAFNDEHHXXX\",\
                \"settlement_date\":\"2026-10-30\",\"cents\":202490}";
    let due = format!(
        "{{\"recording\":\"day.rec\",\"verdict\":\"accepted\",\"records\":3,{nulls},\"open\":1,\
         \"open_euros\":\"2024.90\",\"sums\":[{sums}],\"bulks\":[{bulk}]}}\n"
    );
    assert_eq!(said, due);
}

/// A refused day: its records, its messages, and what its object has.
type Refused = (Vec<String>, &'static [&'static str], &'static [&'static str]);

/// Days that are refused for a record itself.
fn wrong_records() -> [Refused; 3] {
    let good = || record(SUMMER, "E", "A");
    [
        (
            vec![good(), good().replacen("CORE", "CORF", 1)],
            &["A.xml"],
            &[
                "\"number\":26,\"record\":1,\"line\":2,\"field\":\"service\",\"found\":\"CORF\",",
                "\"file\":null,\"service\":null,\"msg_id\":null,\"bic\":null,\"settlement_date\":null,",
                "\"open\":1,\"open_euros\":\"2024.90\"",
            ],
        ),
        (
            vec![good()[..9].to_string()],
            &[],
            &["\"records\":1,\"number\":26,\"record\":0,\"line\":1,\"field\":\"length\",\"found\":null,"],
        ),
        (
            vec![record(WINTER, "E", "A"), record(SUMMER, "E", "B")],
            &["A.xml", "B.xml"],
            &["\"number\":27,\"record\":1,\"line\":2,\"field\":\"time\",", "\"file\":\"B.xml\","],
        ),
    ]
}

/// Days that are refused for what a record asks for.
fn wrong_calls() -> [Refused; 4] {
    let good = || record(SUMMER, "E", "A");
    [
        (
            vec![good()],
            &["B.xml"],
            &["\"number\":28,\"record\":0,\"line\":1,\"field\":\"msg_id\",\"found\":\"B\","],
        ),
        (
            vec![good()],
            &["A.xml", "B.xml"],
            &["\"number\":28,\"record\":1,\"line\":null,\"field\":null,", "\"service\":null,"],
        ),
        (
            vec![record(SUMMER, "W", "B")],
            &[],
            &[
                "\"number\":22,\"record\":0,",
                "\"file\":null,\"service\":\"CORE\",\"msg_id\":\"B\",",
            ],
        ),
        (
            vec![record(SUMMER, "E", "C")],
            &["C.xml"],
            &[
                "\"number\":14,\"record\":0,",
                "\"judged\":{\"file\":\"C.xml\",\"verdict\":\"refused\",",
            ],
        ),
    ]
}

/// The objects of refusals: every key is there, and what it is about.
#[test]
fn json_of_refusals() {
    for (records, messages, parts) in wrong_records().into_iter().chain(wrong_calls()) {
        let said = play(&folder(), &["--json"], &records, messages).done(1);
        assert!(
            said.contains("\"verdict\":\"refused\",") && said.contains("\"sums\":[],"),
            "{said}"
        );
        for key in REFUSAL {
            assert!(said.contains(&format!("\"{key}\":")), "{key}\n{said}");
        }
        parts.iter().for_each(|part| assert!(said.contains(part), "{part}\n{said}"));
    }
}

/// Standard input is the recording or one of the messages, but once.
#[test]
fn standard_input() {
    let (folder, entry) = (folder(), record(SUMMER, "E", "A"));
    let (recording, message) = (folder.put("day.rec", &entry), folder.path("A.xml"));
    let due = "accepted open 1 202490 table 3780 196550 895 1265 0 0 0 0\n";
    let said = piped(&["--plain", "play", "-", text(&message)], &entry).done(0);
    assert_eq!(said, due);
    let evening = std::fs::read(&message).unwrap();
    let said = piped(&["--plain", "play", text(&recording), "-"], &evening).done(0);
    assert_eq!(said, due);
    for words in [&["-", "-"][..], &[text(&recording), "-", "-"]] {
        let said = piped(&[&["play"], words].concat(), &entry).trouble();
        assert!(said.contains("Usage: bulk play RECORDING MESSAGE.."), "{said}");
    }
}

/// What cannot be read is told, and nothing is played.
#[test]
fn files_that_cannot_be_read() {
    let folder = folder();
    let recording = folder.put("day.rec", record(SUMMER, "E", "A"));
    let message = folder.path("A.xml");
    let none = folder.path("none");
    for options in [&[][..], &["--plain"], &["--json"]] {
        for words in [[text(&none), text(&message)], [text(&recording), text(&none)]] {
            let said = bulk(&[options, &["play"], &words[..]].concat()).trouble();
            assert!(said.contains("none: There is no such file."), "{said}");
        }
    }
    let said = bulk(&["play", text(&recording), text(&folder.0)]).trouble();
    assert!(said.contains("It is a folder."), "{said}");
    let said = bulk(&["--de", "play", text(&folder.0)]).trouble();
    assert!(said.contains("Das ist ein Ordner."), "{said}");
    let long = folder.put("long.rec", " ".repeat(LIMIT + 1));
    let said = bulk(&["play", text(&long)]).trouble();
    assert!(said.contains("long.rec: The recording has more than 16,777,216 bytes."), "{said}");
    let said = bulk(&["--de", "play", text(&long)]).trouble();
    assert!(said.contains("Die Aufzeichnung hat mehr als 16.777.216 Bytes."), "{said}");
    let long = folder.put("long.rec", " ".repeat(LIMIT));
    let said = bulk(&["--plain", "play", text(&long)]).done(1);
    assert!(said.starts_with("refused 26 0 "), "{said}");
}

/// Nothing of a recording moves the cursor, and a file's name stays on its line.
#[test]
fn what_is_shown_is_harmless() {
    let folder = Folder::new();
    let wild = format!("\x1b[31m\u{202e}{}", "x".repeat(100));
    let said = play(&folder, &[], &[wild], &[]).done(1);
    assert!(said.lines().count() == 4 && !said.contains('\x1b'), "{said}");
    assert!(said.contains("time “\\x1b[31m\\u{202e}"), "{said}");
    let strange = folder.put("a\nb.rec", "");
    let said = bulk(&["play", text(&strange)]).done(0);
    assert!(said.contains("a\\nb.rec: played, 0 records; open: 0 bulks"), "{said}");
}
