//! `judge` on several files and on folders: one line per file, in order, and what they come to.

use crate::common::*;
use std::fs;
use std::os::unix::fs::symlink;

#[test]
fn the_worst_file_gives_the_status() {
    let folder = Folder::new();
    let (good, bad) = (sample("evening.xml"), sample("october.xml"));
    let (good, bad, none) = (text(&good), text(&bad), folder.path("none.xml"));
    let none = text(&none);
    assert_eq!(bulk(&["judge", good, good]).status, 0);
    assert_eq!(bulk(&["judge", good, bad, good]).status, 1);
    assert_eq!(bulk(&["judge", none, good]).status, 2);
    assert_eq!(bulk(&["judge", none, bad, good]).status, 2);
}

#[test]
fn plain_has_one_line_per_file_in_order() {
    let folder = Folder::new();
    let (good, bad) = (folder.put("good.xml", evening()), folder.put("bad\t\n.xml", "<?xml>"));
    let none = folder.path("none.xml");
    let said = bulk(&["judge", "--plain", text(&bad), text(&none), text(&good)]);
    let folder = text(&folder.0);
    let lines = format!(
        "refused 2 0\t{folder}/bad\\t\\n.xml\nunread\t{folder}/none.xml\n\
         accepted 5 202490\t{folder}/good.xml\n"
    );
    assert_eq!((said.status, said.out), (2, lines));
    assert!(said.err.contains("none.xml: There is no such file."), "{}", said.err);
    // One file alone, read or not, is as it was.
    assert_eq!(bulk(&["judge", "--plain", text(&good)]).done(0), "accepted 5 202490\n");
    bulk(&["judge", "--plain", text(&none)]).trouble();
}

#[test]
fn a_closing_line_says_what_they_come_to() {
    let folder = Folder::new();
    let (good, bad) = (sample("evening.xml"), sample("october.xml"));
    let example = sample("example.xml");
    let said = bulk(&["judge", text(&good), text(&bad), text(&example)]).done(1);
    assert!(said.ends_with("\n3 files: 2 accepted (6 items, 2,037.24 EUR), 1 refused\n"), "{said}");
    let none = folder.path("none.xml");
    let said = bulk(&["--de", "judge", text(&none), text(&good)]);
    let line = "\n2 Dateien: 1 angenommen (5 Posten, 2.024,90 EUR), 0 abgelehnt, 1 nicht gelesen\n";
    assert!(said.out.ends_with(line), "{}", said.out);
    let said = bulk(&["judge", text(&bad), text(&bad)]).done(1);
    assert!(said.ends_with("\n2 files: 0 accepted, 2 refused\n"), "{said}");
    assert!(!bulk(&["judge", text(&good)]).done(0).contains("files"));
    assert!(!bulk(&["--plain", "judge", text(&good), text(&good)]).done(0).contains("files"));
}

#[test]
fn a_total_of_many_files_is_exact() {
    let folder = Folder::new();
    let most = |item: String| item.replacen(">1.00<", ">999999999.99<", 1);
    let many: Vec<String> = many_items(10_000).into_iter().map(most).collect();
    let message = bulk_of(&many, 999_999_999_990_000);
    let file = folder.put("most.xml", message);
    let said = bulk(&["judge", text(&file), text(&file), text(&file)]).done(0);
    let line = "\n3 files: 3 accepted (30,000 items, 29,999,999,999,700.00 EUR), 0 refused\n";
    assert!(said.ends_with(line), "{}", said.lines().last().unwrap());
}

#[test]
fn a_folder_means_its_xml_files() {
    let folder = Folder::new();
    folder.put("b.xml", evening());
    folder.put("a.XML", evening());
    folder.put("c.txt", "no message");
    folder.put(".hidden.xml", "no message");
    fs::create_dir(folder.path("d.xml")).unwrap();
    symlink("nowhere.xml", folder.path("e.xml")).unwrap();
    let name = text(&folder.0);
    let said = bulk(&["--plain", "judge", name]);
    let lines = format!(
        "accepted 5 202490\t{name}/a.XML\naccepted 5 202490\t{name}/b.xml\nunread\t{name}/e.xml\n"
    );
    assert_eq!((said.status, said.out), (2, lines));
    fs::remove_file(folder.path("e.xml")).unwrap();
    // The folder alone is judged too, and stands beside files.
    let said = bulk(&[name]).done(0);
    assert!(
        said.ends_with("\n2 files: 2 accepted (10 items, 4,049.80 EUR), 0 refused\n"),
        "{said}"
    );
    let said = bulk(&["--plain", text(&sample("october.xml")), name]).done(1);
    assert_eq!(said.lines().count(), 3, "{said}");
    fs::remove_file(folder.path("a.XML")).unwrap();
    let said = bulk(&["--plain", "judge", name]).done(0);
    assert_eq!(said, format!("accepted 5 202490\t{name}/b.xml\n"));
    assert!(bulk(&["judge", name])
        .done(0)
        .ends_with("\n1 file: 1 accepted (5 items, 2,024.90 EUR), 0 refused\n"));
}

#[test]
fn a_folder_without_a_message() {
    let folder = Folder::new();
    let said = bulk(&["--plain", "judge", text(&folder.0)]);
    assert_eq!((said.status, said.out), (2, format!("unread\t{}\n", text(&folder.0))));
    assert!(said.err.contains(": The folder has no .xml file."), "{}", said.err);
    let said = bulk(&["--de", "judge", text(&folder.0)]);
    assert!(said.err.contains(": Der Ordner enthält keine .xml-Datei."), "{}", said.err);
}

#[test]
fn two_files_with_one_msg_id_are_warned_of() {
    let (one, two) = (sample("evening.xml"), sample("evening-indented.xml"));
    let (one, two, other) = (text(&one), text(&two), sample("example.xml"));
    let said = bulk(&["judge", one, text(&other), two]).done(0);
    let warning = format!("  Warning: {one} has the same MsgId, BULK-2026-10-28-EVENING\n");
    assert_eq!(said.matches("Warning").count(), 1, "{said}");
    let place = said.find(&warning).unwrap();
    assert!(place > said.find(&format!("{two}: accepted")).unwrap(), "{said}");
    let said = bulk(&["--de", "judge", one, two]).done(0);
    assert!(said.contains(&format!("  Warnung: {one} hat dieselbe MsgId, ")), "{said}");
    assert!(!bulk(&["judge", one, text(&other)]).done(0).contains("Warning"));
    assert_eq!(bulk(&["--plain", "judge", one, two]).done(0).lines().count(), 2);
}
