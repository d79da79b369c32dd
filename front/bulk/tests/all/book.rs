//! `book`: the calls of a script on a day book.

use crate::common::*;
use std::fs;
use std::path::Path;

/// The evening's key, as a line names it.
const KEY: &str = "CORE BULK-2026-10-28-EVENING HAFNDEHHXXX 2026-10-30";

/// The evening under another MsgId.
fn named(msg_id: &str) -> String {
    damaged("BULK-2026-10-28-EVENING", msg_id)
}

/// The calls of a script that lies in the folder, made from that folder.
fn book(folder: &Folder, options: &[&str], lines: &str) -> Said {
    folder.put("day.book", lines);
    let mut command = command(&[options, &["book", "day.book"]].concat());
    command.current_dir(&folder.0).output().unwrap().into()
}

/// The same with --plain: the status, and the lines.
fn plain(folder: &Folder, lines: &str, status: i32) -> String {
    book(folder, &["--plain"], lines).done(status)
}

/// The sample script, from the root of the repository.
fn sampled(options: &[&str]) -> String {
    let root = Path::new(env!("CARGO_MANIFEST_DIR")).join("../..");
    let mut command = command(&[options, &["book", "samples/evening.book"]].concat());
    Said::from(command.current_dir(root).output().unwrap()).done(1)
}

#[test]
fn the_sample_evening() {
    let said = sampled(&["--plain"]);
    let lines = [
        "entered 1 202490",
        "refused 20 0",
        "refused 24 3988",
        "entered 2 203724",
        "at 1",
        "total 203724",
        "0 CORE BULK-2026-10-28-EVENING HAFNDEHHXXX 2026-10-30 202490",
        "1 CORE MSG/1 BANKDEFF 2010-12-03 1234",
        "withdrawn 1 1234",
        "none",
        "entered 2 288224",
        "refused 22 0",
        "0 CORE MSG/1 BANKDEFF 2010-12-03 1234",
        "1 CORE BULK-2026-10-28-EVENING HAFNDEHHXXX 2026-10-30 286990",
    ];
    assert_eq!(said, format!("{}\n", lines.join("\n")));
    // In words the judge's own refusal is told as `judge` tells it, and so is what looks doubled.
    let said = sampled(&[]);
    let root = Path::new(env!("CARGO_MANIFEST_DIR")).join("../..");
    let judged = command(&["judge", "samples/october.xml"]).current_dir(root).output().unwrap();
    assert!(said.contains(&Said::from(judged).done(1)), "{said}");
    let warning = "  Warning: looks doubled: ";
    assert!(said.contains(&format!("; open: 2 bulks, 2,882.24 EUR\n{warning}")), "{said}");
}

/// Each call, and each refusal of the book's own.
fn each_call() -> (Folder, String) {
    let folder = Folder::new();
    folder.put("a.xml", evening());
    let lines = [
        "list",
        "enter a.xml",
        "enter a.xml",
        "find KEY",
        "total",
        "list",
        "withdraw KEY",
        "withdraw KEY",
        "find KEY",
        "total",
    ];
    (folder, lines.join("\n").replace("KEY", KEY))
}

/// Every call in words, and every amount grouped.
#[test]
fn in_words() {
    let (folder, lines) = each_call();
    let said = [
        "open: 0 bulks, 0.00 EUR (0 cents)",
        "a.xml: entered, 5 items, 2,024.90 EUR (202490 cents), MsgId BULK-2026-10-28-EVENING, \
         settlement date 2026-10-30, CORE, pacs.003.001.02; open: 1 bulk, 2,024.90 EUR",
        "a.xml, KEY: refused 20: A bulk with this key is open already.",
        "KEY: open at place 0, 2,024.90 EUR (202490 cents)",
        "open: 1 bulk, 2,024.90 EUR (202490 cents)",
        "Place  Service  MsgId                    BIC          Settlement   Cents       EUR",
        "    0  CORE     BULK-2026-10-28-EVENING  HAFNDEHHXXX  2026-10-30  202490  2,024.90",
        "open: 1 bulk, 2,024.90 EUR (202490 cents)",
        "KEY: withdrawn, 2,024.90 EUR (202490 cents); open: 0 bulks, 0.00 EUR",
        "KEY: refused 22: No bulk with this key is open.",
        "KEY: not open",
        "open: 0 bulks, 0.00 EUR (0 cents)\n",
    ];
    assert_eq!(book(&folder, &[], &lines).done(1), said.join("\n").replace("KEY", KEY));
}

#[test]
fn in_german() {
    let (folder, lines) = each_call();
    let said = [
        "offen: 0 Bulks, 0,00 EUR (0 Cent)",
        "a.xml: eingetragen, 5 Posten, 2.024,90 EUR (202490 Cent), MsgId \
         BULK-2026-10-28-EVENING, Abrechnungsdatum 2026-10-30, CORE, pacs.003.001.02; offen: 1 \
         Bulk, 2.024,90 EUR",
        "a.xml, KEY: abgelehnt (Nr. 20): Ein Bulk mit diesem Schlüssel ist bereits offen.",
        "KEY: offen auf Platz 0, 2.024,90 EUR (202490 Cent)",
        "offen: 1 Bulk, 2.024,90 EUR (202490 Cent)",
        "Platz  Verfahren  MsgId                    BIC          Abrechnung    Cent       EUR",
        "    0  CORE       BULK-2026-10-28-EVENING  HAFNDEHHXXX  2026-10-30  202490  2.024,90",
        "offen: 1 Bulk, 2.024,90 EUR (202490 Cent)",
        "KEY: zurückgezogen, 2.024,90 EUR (202490 Cent); offen: 0 Bulks, 0,00 EUR",
        "KEY: abgelehnt (Nr. 22): Kein Bulk mit diesem Schlüssel ist offen.",
        "KEY: nicht offen",
        "offen: 0 Bulks, 0,00 EUR (0 Cent)\n",
    ];
    assert_eq!(book(&folder, &["--de"], &lines).done(1), said.join("\n").replace("KEY", KEY));
}

#[test]
fn the_status_is_that_of_the_worst_call() {
    let folder = Folder::new();
    folder.put("a.xml", evening());
    assert_eq!(plain(&folder, "", 0), "");
    assert_eq!(plain(&folder, "# nothing\n\n   \n", 0), "");
    assert_eq!(plain(&folder, "list\n", 0), "");
    // That there is none is an answer, and no refusal.
    assert_eq!(plain(&folder, &format!("find {KEY}\ntotal"), 0), "none\ntotal 0\n");
    let lines = format!("withdraw {KEY}\nenter a.xml\n");
    assert_eq!(plain(&folder, &lines, 1), "refused 22 0\nentered 1 202490\n");
}

/// 64 are open and no more; 20 comes before 21; the room of a withdrawn one serves again, and the
/// order of entry is kept.
#[test]
fn sixty_four_open() {
    let folder = Folder::new();
    let mut lines = String::new();
    for number in 0..65 {
        folder.put(&format!("{number}.xml"), named(&format!("DAY-{number}")));
        lines.push_str(&format!("enter {number}.xml\n"));
    }
    lines.push_str("enter 7.xml\nwithdraw CORE DAY-3 HAFNDEHHXXX 2026-10-30\nenter 64.xml\n");
    lines.push_str("enter 3.xml\ntotal\nlist\n");
    let said = plain(&folder, &lines, 1);
    let said: Vec<&str> = said.lines().collect();
    for (at, line) in said[..64].iter().enumerate() {
        let open = at as u64 + 1;
        assert_eq!(*line, format!("entered {open} {}", open * 202_490));
    }
    let full = 64 * 202_490;
    let less = full - 202_490;
    let due = ["refused 21 0", "refused 20 0", &format!("withdrawn 63 {less}")];
    assert_eq!(said[64..67], due);
    let due = [&format!("entered 64 {full}"), "refused 21 0", &format!("total {full}")];
    assert_eq!(said[67..70], due);
    let numbers = (0..65).filter(|number| *number != 3);
    let due: Vec<String> = numbers
        .enumerate()
        .map(|(at, number)| format!("{at} CORE DAY-{number} HAFNDEHHXXX 2026-10-30 202490"))
        .collect();
    assert_eq!(said[70..], due);
}

/// Each part of the key tells bulks apart, and each of these is open beside the others.
#[test]
fn keys_that_are_nearly_the_same() {
    let folder = Folder::new();
    folder.put("core.xml", evening());
    folder.put("b2b.xml", evening().replace(">CORE<", ">B2B<"));
    folder.put("date.xml", damaged("Dt>2026-10-30<", "Dt>2026-10-31<"));
    folder.put("bic.xml", damaged("HAFNDEHHXXX", "HAFNDEHH"));
    folder.put("id.xml", named("BULK-2026-10-28-EVENING2"));
    let lines =
        "enter core.xml\nenter b2b.xml\nenter date.xml\nenter bic.xml\nenter id.xml\nlist\n\
                 withdraw CORE BULK-2026-10-28-EVENING HAFNDEHH 2026-10-30\n\
                 find CORE BULK-2026-10-28-EVENING2 HAFNDEHHXXX 2026-10-30\n";
    let said = plain(&folder, lines, 0);
    let due = "0 CORE BULK-2026-10-28-EVENING HAFNDEHHXXX 2026-10-30 202490\n\
               1 B2B BULK-2026-10-28-EVENING HAFNDEHHXXX 2026-10-30 202490\n\
               2 CORE BULK-2026-10-28-EVENING HAFNDEHHXXX 2026-10-31 202490\n\
               3 CORE BULK-2026-10-28-EVENING HAFNDEHH 2026-10-30 202490\n\
               4 CORE BULK-2026-10-28-EVENING2 HAFNDEHHXXX 2026-10-30 202490\n\
               withdrawn 4 809960\nat 3\n";
    assert!(said.ends_with(due), "{said}");
}

/// A key that no bulk can have is 22, also where it only begins like an open one.
#[test]
fn a_malformed_key_is_not_open() {
    let folder = Folder::new();
    let longest = "X".repeat(35);
    folder.put("a.xml", named(&longest));
    let keys = [
        format!("CORE {longest}X HAFNDEHHXXX 2026-10-30"),
        format!("COREX {longest} HAFNDEHHXXX 2026-10-30"),
        format!("CORE {longest} HAFNDEHHXXXX 2026-10-30"),
        format!("CORE {longest} HAFNDEHHXXX 2026-10-300"),
        format!("CORE {longest} HAFNDEHHXXX 30.10.2026"),
        format!("core {longest} HAFNDEHHXXX 2026-10-30"),
        format!("COR {longest} HAFNDEHHXXX 2026-10-30"),
        "\x01 \u{fc} \\ \"\"".to_string(),
    ];
    let mut lines = "enter a.xml\n".to_string();
    for key in &keys {
        lines.push_str(&format!("withdraw {key}\nfind {key}\n"));
    }
    lines.push_str(&format!("find CORE {longest} HAFNDEHHXXX 2026-10-30\ntotal\n"));
    let said = plain(&folder, &lines, 1);
    let each = "refused 22 0\nnone\n".repeat(keys.len());
    assert_eq!(said, format!("entered 1 202490\n{each}at 0\ntotal 202490\n"));
}

/// What an editor of another system leaves, and names with spaces.
#[test]
fn lines_as_they_may_be_written() {
    let folder = Folder::new();
    folder.put("the evening.xml", evening());
    folder.put("#1.xml", named("NEXT"));
    let lines = format!(
        "\u{feff}# a day\r\n\r\n  enter   the evening.xml  \r\n\t# more\r\n\
         enter #1.xml\r\nfind\t{}\t\r\n\ttotal",
        KEY.replace(' ', "\t ")
    );
    let due = "entered 1 202490\nentered 2 404980\nat 0\ntotal 404980\n";
    assert_eq!(plain(&folder, &lines, 0), due);
}

#[test]
fn a_line_that_is_no_call_is_told_and_nothing_is_done() {
    let folder = Folder::new();
    folder.put("a.xml", evening());
    for line in [
        "foo",
        "enter",
        "Enter a.xml",
        "withdraw CORE A BANKDEFF",
        "withdraw CORE A BANKDEFF 2026-10-30 x",
        "find",
        "total now",
        "list # all",
        "accepted 1 2",
        "<Document>",
    ] {
        let lines = format!("# a day\nenter a.xml\n\n{line}\ntotal\nbar\n");
        for options in [&[][..], &["--plain"], &["--json"]] {
            let said = book(&folder, options, &lines).trouble();
            let due =
                format!("bulk: Line 4 of day.book: “{line}” is no call. Usage: bulk book SCRIPT.");
            assert!(said.starts_with(&due), "{said}");
            assert!(said.ends_with(" Nothing of the script was done.\n"), "{said}");
        }
        let said = book(&folder, &["--de"], &lines).trouble();
        let due = format!("bulk: Zeile 4 von day.book: „{line}“ ist keine Anweisung. Aufruf: ");
        assert!(said.starts_with(&due), "{said}");
        assert!(said.ends_with(" Vom Skript wurde nichts ausgeführt.\n"), "{said}");
    }
    // A long one is cut, and nothing in it moves the cursor.
    let said = book(&folder, &[], &format!("\x1b[31m{}\n", "ab".repeat(100))).trouble();
    let due = format!("Line 1 of day.book: “\\x1b[31m{}a…” is no call.", "ab".repeat(27));
    assert!(said.contains(&due), "{said}");
}

#[test]
fn a_file_that_cannot_be_read_is_told_and_nothing_is_done() {
    let folder = Folder::new();
    folder.put("a.xml", evening());
    fs::create_dir(folder.path("folder")).unwrap();
    for (name, english, german) in [
        ("none.xml", "There is no such file. ", "Diese Datei gibt es nicht. "),
        ("a.xml b.xml", "There is no such file. ", "Diese Datei gibt es nicht. "),
        ("folder", "It is a folder. ", "Das ist ein Ordner. "),
    ] {
        let lines = format!("enter a.xml\nenter {name}\ntotal\n");
        let said = book(&folder, &["--plain"], &lines).trouble();
        assert!(
            said.starts_with(&format!("bulk: Line 2 of day.book: {name}: {english}")),
            "{said}"
        );
        assert!(said.ends_with(" Nothing of the script was done.\n"), "{said}");
        let said = book(&folder, &["--de"], &lines).trouble();
        assert!(
            said.starts_with(&format!("bulk: Zeile 2 von day.book: {name}: {german}")),
            "{said}"
        );
    }
    if no_rights_to_give_up() {
        return;
    }
    let (secret, script) = (folder.path("a.xml"), folder.path("day.book"));
    fs::write(&script, format!("total\nenter {}\n", text(&secret))).unwrap();
    use std::os::unix::fs::PermissionsExt;
    fs::set_permissions(&secret, fs::Permissions::from_mode(0o000)).unwrap();
    let said = unprivileged(&folder, &["book", text(&script)]).trouble();
    assert!(said.contains("a.xml: No permission to read it."), "{said}");
}

/// The script itself.
#[test]
fn a_script_that_cannot_be_read() {
    let folder = Folder::new();
    let said = bulk(&["book", text(&folder.path("none.book"))]).trouble();
    assert!(said.contains("none.book: There is no such file."), "{said}");
    let said = bulk(&["book", text(&folder.0)]).trouble();
    assert!(said.contains("It is a folder."), "{said}");
    let long = folder.put("long.book", "#".repeat(LIMIT + 1));
    let said = bulk(&["book", text(&long)]).trouble();
    assert!(said.contains("long.book: The script has more than 16,777,216 bytes."), "{said}");
    let long = folder.put("long.book", "#".repeat(LIMIT));
    assert_eq!(bulk(&["book", text(&long)]).done(0), "");
}

/// Standard input is the script, or one of the messages.
#[test]
fn standard_input() {
    let folder = Folder::new();
    let evening_file = folder.put("a.xml", evening());
    let lines = format!("enter {}\ntotal\n", text(&evening_file));
    let said = piped(&["--plain", "book", "-"], &lines).done(0);
    assert_eq!(said, "entered 1 202490\ntotal 202490\n");
    let script = folder.put("day.book", "total\nenter -\n");
    let said = piped(&["--plain", "book", text(&script)], evening()).done(0);
    assert_eq!(said, "total 0\nentered 1 202490\n");
    // But once.
    let twice = folder.put("twice.book", "total\nenter -\nenter -\n");
    let said = piped(&["--plain", "book", text(&twice)], evening()).trouble();
    assert!(said.contains("Line 3 of "), "{said}");
    assert!(said.contains("Standard input can be read only once. "), "{said}");
    let said = piped(&["--de", "book", "-"], "enter -\n").trouble();
    assert!(said.contains("Zeile 1 von -: Die Standardeingabe lässt sich nur einmal"), "{said}");
}

/// A trouble that comes up on the way: what stands before it was done, and told.
#[test]
fn a_trouble_on_the_way() {
    let folder = Folder::new();
    let script = folder.put("day.book", "total\nenter -\ntotal\n");
    let said = shell("exec \"$@\" <&-", &["--plain", "book", text(&script)]);
    assert_eq!((said.status, said.out.as_str()), (2, "total 0\n"));
    assert!(said.err.contains("day.book: Standard input is closed."), "{}", said.err);
    assert!(said.err.ends_with(" The script was done up to here.\n"), "{}", said.err);
}

/// A pipe can be entered, though it is no file.
#[test]
fn a_pipe() {
    let folder = Folder::new();
    let (pipe, message) = (folder.path("pipe"), folder.put("a.xml", evening()));
    let script = folder.put("day.book", format!("enter {}\ntotal\n", text(&pipe)));
    // The writer holds nothing of the test's, and ends also where nobody reads.
    let writer = format!("timeout 9 sh -c 'cat {} > {}'", text(&message), text(&pipe));
    let script_of_shell =
        format!("mkfifo {}; {writer} > /dev/null 2>&1 & exec \"$@\"", text(&pipe));
    let said = shell(&script_of_shell, &["--plain", "book", text(&script)]);
    assert_eq!(said.done(0), "entered 1 202490\ntotal 202490\n");
}

/// A reader that has gone leaves the status as it is.
#[test]
fn a_reader_that_has_gone() {
    let lines = format!("total\nwithdraw {KEY}\n");
    assert_eq!(unheard(&["--plain", "book", "-"], lines).status, 1);
}
