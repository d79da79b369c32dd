//! Versions 001.02 and 001.08: what each command says of them.

use crate::common::*;
use std::fs;

/// The evening of version 001.08, which has a BIC of its own.
fn later() -> String {
    fs::read_to_string(sample("evening08.xml")).unwrap()
}

/// A message of version 001.02 in version 001.08.
fn as_08(message: &str) -> String {
    message.replacen("001.02\">", "001.08\">", 1).replace("BIC>", "BICFI>")
}

#[test]
fn each_is_accepted_as_its_own_version() {
    for (name, version) in [("evening.xml", "001.02"), ("evening08.xml", "001.08")] {
        let file = sample(name);
        assert_eq!(bulk(&["--plain", text(&file)]).done(0), "accepted 5 202490\n");
        for (option, date) in [("--en", "settlement date"), ("--de", "Abrechnungsdatum")] {
            let said = bulk(&[option, "judge", text(&file)]).done(0);
            let end = format!(", {date} 2026-10-30, CORE, pacs.003.{version}\n");
            assert!(said.ends_with(&end), "{said}");
        }
        let said = bulk(&["--json", "judge", text(&file)]).done(0);
        assert!(said.contains(&format!("\"version\":\"pacs.003.{version}\",")), "{said}");
    }
    // The BIC that is good in one of them alone.
    let earlier = later().replacen("001.08", "001.02", 1).replace("BICFI>", "BIC>");
    let said = piped(&["judge", "-"], earlier).done(1);
    let line = "/DrctDbtTxInf[2]/DbtrAgt/FinInstnId/BIC (TxId TX-20261028-0002, debtor Kurierdienst \
                Blitz und Sohn, 37.80 EUR), found “MUC1DEM2XXX” (character 4, “1”, is not allowed): ";
    assert!(said.contains(line), "{said}");
}

/// Of a refused message the version is told where the root was read: in `--json`, and where a tag is
/// that of the other version.
#[test]
fn a_refused_message_and_its_version() {
    for (old, new, number, version) in [
        ("001.08", "001.09", 2, "null"),
        ("<?xml", "<?XML", 2, "null"),
        ("<FIToFI", "<FItoFI", 4, "\"pacs.003.001.08\""),
        (">MUC1DEM2XXX<", ">MUC1D2M2XXX<", 7, "\"pacs.003.001.08\""),
        ("001.08", "001.02", 4, "\"pacs.003.001.02\""),
    ] {
        let said = piped(&["--json", "judge", "-"], later().replacen(old, new, 1)).done(1);
        assert!(said.contains(&format!("\"number\":{number},")), "{said}");
        assert!(said.contains(&format!("\"version\":{version},")), "{said}");
    }
    // Cut within the root there is none, too long nothing is read.
    let cut = &later()[..later().find("08\">").unwrap() + 3];
    for message in [cut.to_string(), later() + &" ".repeat(LIMIT)] {
        let said = piped(&["--json", "judge", "-"], message).done(1);
        assert!(said.contains("\"version\":null,"), "{said}");
    }
}

#[test]
fn elements_of_the_other_version() {
    let file = sample("evening08-bic.xml");
    assert_eq!(bulk(&["--plain", text(&file)]).done(1), "refused 4 8431\n");
    let said = bulk(&[text(&file)]).done(1);
    let line =
        "found “<BIC>” (expected: <BICFI>, since the root names pacs.003.001.08): Not allowed \
                here, or an element is missing before it.\n    <BIC>HAFNDEHHXXX</BIC>\n    ^\n";
    assert!(said.ends_with(line), "{said}");
    let said = bulk(&["--de", text(&file)]).done(1);
    let line =
        "gefunden „<BIC>“ (erwartet: <BICFI>, denn das Wurzelelement nennt pacs.003.001.08): ";
    assert!(said.contains(line), "{said}");
    // An end tag of the other version, and a tag that no version has.
    let said = piped(&["judge", "-"], later().replacen("</BICFI>", "</BIC>", 1)).done(1);
    assert!(said.contains("(expected: </BICFI>, since the root names pacs.003.001.08)"), "{said}");
    let said = piped(&["judge", "-"], later().replacen("<BICFI>", "<BICFO>", 1)).done(1);
    assert!(said.contains("found “<BICFO>” (expected: <BICFI>): "), "{said}");
}

#[test]
fn two_versions_are_not_the_same() {
    let (earlier, later) = (sample("evening.xml"), sample("evening08.xml"));
    let said = bulk(&["same", text(&earlier), text(&later)]).done(1);
    let below =
        ": different\n  the versions differ: pacs.003.001.02 here, pacs.003.001.08 there\n  \
                 item 2, TxId TX-20261028-0002: DbtrAgt/FinInstnId/BIC “ISARDEM2XXX” here, \
                 “MUC1DEM2XXX” there\n";
    assert!(said.ends_with(below), "{said}");
    let said = bulk(&["--plain", "same", text(&later), text(&earlier)]).done(1);
    let rows = "different\t0\tDocument\tpacs.003.001.08\tpacs.003.001.02\n\
                different\t2\tDbtrAgt/FinInstnId/BICFI\tMUC1DEM2XXX\tISARDEM2XXX\n";
    assert_eq!(said, rows);
    let said = bulk(&["--json", "same", text(&earlier), text(&later)]).done(1);
    let version = "{\"item\":null,\"tx_id\":null,\"other_tx_id\":null,\"element\":\"Document\",\
                   \"here\":\"pacs.003.001.02\",\"there\":\"pacs.003.001.08\"}";
    assert!(said.contains(version) && said.contains("\"different_items\":[2]"), "{said}");
    // The version alone.
    let words = ["same", text(&earlier), "-"];
    let said = piped(&words, as_08(&evening())).done(1);
    assert!(said.ends_with(" there\n  all else is the same\n"), "{said}");
    let said = piped(&[&["--de"], &words[..]].concat(), as_08(&evening())).done(1);
    let below = ": ungleich\n  die Versionen sind verschieden: hier pacs.003.001.02, dort \
                 pacs.003.001.08\n  alles andere ist gleich\n";
    assert!(said.ends_with(below), "{said}");
    // Two of version 001.08 are the same, however they are indented.
    let indented = as_08(&evening());
    let folder = Folder::new();
    let compact = folder.put("compact.xml", as_08(&fs::read_to_string(earlier).unwrap()));
    let said = piped(&["same", text(&compact), "-"], indented).done(0);
    assert!(said.ends_with(", CORE, pacs.003.001.08\n"), "{said}");
}

/// The plain form stays in its version, and so does what is told of its items and records.
#[test]
fn plain_form_items_and_records() {
    let file = sample("evening08.xml");
    let said = bulk(&["plain", text(&file)]);
    assert_eq!(said.status, 0);
    let form = as_08(&fs::read_to_string(sample("evening.xml")).unwrap());
    assert_eq!(said.out, form.trim_end().replacen("ISARDEM2XXX", "MUC1DEM2XXX", 1));
    let earlier = sample("evening-indented.xml");
    for options in [&["items"][..], &["--plain", "items"], &["--csv", "items"]] {
        // The places of the items differ by the longer tags.
        let words = |file| bulk(&[options, &[text(file)]].concat()).done(0);
        assert_eq!(words(&file).lines().count(), words(&earlier).lines().count());
    }
    let records = |file| bulk(&["records", text(file), "-"]).out;
    assert_eq!(records(&file), records(&earlier).replacen("ISARDEM2XXX", "MUC1DEM2XXX", 1));
}

/// The key of the day book does not tell the version.
#[test]
fn one_key_in_the_day_book() {
    let folder = Folder::new();
    folder.put("earlier.xml", evening());
    folder.put("later.xml", later());
    folder.put("wider.xml", later().replacen(">HAFNDEHHXXX<", ">HAF1DEHHXXX<", 1));
    let key = "CORE BULK-2026-10-28-EVENING HAF1DEHHXXX 2026-10-30";
    let lines = format!("enter earlier.xml\nenter later.xml\nenter wider.xml\nfind {key}\nlist\n");
    folder.put("day.book", lines);
    let mut command = command(&["--plain", "book", "day.book"]);
    let said = Said::from(command.current_dir(&folder.0).output().unwrap()).done(1);
    let due = format!(
        "entered 1 202490\nrefused 20 0\nentered 2 404980\nat 1\n\
         0 {} 202490\n1 {key} 202490\n",
        key.replacen("HAF1", "HAFN", 1)
    );
    assert_eq!(said, due);
}
