//! `items`: the table, the spreadsheet, and the items of a bulk whose count or total alone is wrong.

use crate::common::*;
use std::fs;

#[test]
fn a_table_of_the_items() {
    let file = sample("evening-indented.xml");
    let message = evening();
    let said = bulk(&["items", text(&file)]).done(0);
    let lines: Vec<&str> = said.lines().collect();
    assert_eq!(lines.len(), 7, "{said}");
    let heading = ["No", "Place", "TxId", "EndToEndId", "Debtor", "IBAN", "Cents", "EUR"];
    assert_eq!(lines[0].split_whitespace().collect::<Vec<_>>(), heading);
    let place = message.match_indices(START).nth(2).unwrap().0.to_string();
    let row = ["3", &place, "TX-20261028-0003", "RENT-2026-11-FLAT-2A", "NL96TULP0417164300"];
    let cells: Vec<&str> = lines[3].split_whitespace().collect();
    assert_eq!(cells, [&row[..], &["112050", "1,120.50"]].concat());
    assert_eq!(lines[6], "5 items, 2,024.90 EUR (202490 cents)");
    let said = bulk(&["items", "--de", text(&file)]).done(0);
    assert!(said.starts_with("Nr.  Stelle  TxId") && said.contains("IBAN Zahlungspflichtiger"));
    assert!(
        said.contains(" 1.120,50\n") && said.ends_with("\n5 Posten, 2.024,90 EUR (202490 Cent)\n")
    );
}

#[test]
fn plain_items_are_as_they_were() {
    let (file, message) = (sample("evening-indented.xml"), evening());
    let said = bulk(&["--plain", "items", text(&file)]).done(0);
    let lines: Vec<&str> = said.lines().collect();
    let place = message.match_indices(START).nth(2).unwrap().0;
    let row = format!(
        "3\t{place}\tTX-20261028-0003\tRENT-2026-11-FLAT-2A\tNL96TULP0417164300\t112050\t1120.50"
    );
    assert_eq!((lines.len(), lines[2]), (5, row.as_str()));
    // The rows of a refused bulk are not for a script that does not look at the status.
    let said = bulk(&["items", "--plain", text(&sample("october.xml"))]);
    assert_eq!((said.status, said.out.as_str(), said.err.as_str()), (1, "", "refused 24 3988\n"));
}

/// An EndToEndId and a name that collapse are shown collapsed, so that no tab and no line break is in
/// a row.
#[test]
fn collapsed_values_are_shown() {
    let [rents, wrapped] = ["rents.xml", "rents-wrapped.xml"].map(sample);
    // All but the place, which is that of the item in its own file.
    let rows = |form: &str, file: &str, place: usize, between: char| -> Vec<String> {
        let said = bulk(&["items", form, file]).done(0);
        let row = |line: &str| {
            let cells = line.split(between).enumerate().filter(|(at, _)| *at != place);
            cells.map(|(_, cell)| cell.to_string()).collect::<Vec<_>>().join("|")
        };
        said.lines().map(row).collect()
    };
    for (form, place, between) in [("--plain", 1, '\t'), ("--csv", 1, ';'), ("--json", 1, ',')] {
        let due = rows(form, text(&rents), place, between);
        assert!(due.iter().filter(|row| row.contains("RENT 2023 04")).count() == 2, "{due:?}");
        assert_eq!(rows(form, text(&wrapped), place, between), due, "{form}");
    }
    let said = bulk(&["items", text(&wrapped)]).done(0);
    assert!(said.contains("  TX-20230330-0003  BUSY 2023 03 LP017  DE11700997001203344556  "));
}

#[test]
fn a_wrong_count_leaves_the_table_with_look_alikes_marked() {
    let october = without_doubles(&fs::read_to_string(sample("october.xml")).unwrap());
    let said = piped(&["items", "-"], &october);
    assert_eq!(said.status, 1);
    let lines: Vec<&str> = said.out.lines().collect();
    assert_eq!(lines.len(), 9, "{}", said.out);
    assert!(lines[0].ends_with("  Doubled"), "{}", said.out);
    let marks: Vec<bool> = lines.iter().map(|line| line.contains("looks like")).collect();
    assert_eq!(marks, [false, false, true, true, false, true, true, false, false]);
    assert!(lines[2].ends_with("looks like 3") && lines[3].ends_with("looks like 2"));
    assert_eq!(lines[8], "7 items, 2,075.35 EUR (207535 cents)");
    assert!(said.err.contains("refused 14 at place 252"), "{}", said.err);
    assert!(said.err.contains(", 2026-10-30: items 5, 6\n"), "{}", said.err);
    let said = piped(&["--de", "items", "-"], &october);
    assert!(
        said.out.contains("  Doppelt\n") && said.out.contains("  sieht aus wie 3\n"),
        "{}",
        said.out
    );
}

#[test]
fn a_wrong_total_leaves_the_table() {
    let said = piped(&["items", "-"], damaged("2024.90", "2024.91"));
    assert_eq!((said.status, said.out.lines().count()), (1, 7));
    assert!(said.out.ends_with("5 items, 2,024.90 EUR (202490 cents)\n"), "{}", said.out);
    assert!(
        said.err.contains("refused 15 ") && said.err.contains("(0.01 EUR less)"),
        "{}",
        said.err
    );
}

#[test]
fn no_table_of_a_message_that_is_not_in_order() {
    for (old, new) in [
        ("Gluehbirne", "Glühbirne"),
        ("</Document>", "</Document>x"),
        ("DE48200999000041726300", "DE592009990000417263000"),
        // A TxId twice: what stands behind it was not judged.
        ("TX-20261028-0002", "TX-20261028-0001"),
    ] {
        let said = piped(&["items", "-"], damaged(old, new));
        assert_eq!((said.status, said.out.as_str()), (1, ""));
        assert!(said.err.contains("-: refused "), "{}", said.err);
    }
}

#[test]
fn look_alikes_of_an_accepted_bulk_are_marked() {
    let message = fs::read_to_string(sample("alike.xml")).unwrap();
    let said = piped(&["items", "-"], &message);
    assert_eq!(said.status, 0);
    let lines: Vec<&str> = said.out.lines().collect();
    assert!(
        lines[1].ends_with("looks like 6") && lines[6].ends_with("looks like 1"),
        "{}",
        said.out
    );
    assert!(said.err.contains("  Warning: looks doubled: "), "{}", said.err);
    assert_eq!(piped(&["--plain", "items", "-"], &message).done(0).lines().count(), 6);
}

#[test]
fn items_for_a_spreadsheet() {
    let file = sample("evening.xml");
    let said = bulk(&["items", "--csv", text(&file)]).done(0);
    let lines: Vec<&str> = said.lines().collect();
    assert_eq!(lines.len(), 6, "{said}");
    let heading =
        "\"No\";\"Place\";\"TxId\";\"EndToEndId\";\"Debtor\";\"Debtor IBAN\";\"Cents\";\"EUR\";\
                   \"Collection date\";\"Mandate\";\"Mandate date\";\"Sequence type\";\"Doubled\"";
    assert_eq!(lines[0], heading);
    let row = "\"TX-20261028-0003\";\"RENT-2026-11-FLAT-2A\";";
    let rest = "\"NL96TULP0417164300\";112050;1120.50;2026-10-30;\"LEASE-2023-0208\";2023-02-14;\"RCUR\";\"\"";
    assert!(
        lines[3].starts_with("3;") && lines[3].contains(row) && lines[3].ends_with(rest),
        "{said}"
    );
    let said = bulk(&["items", "--csv", "--de", text(&file)]).done(0);
    assert!(said.starts_with("\"Nr.\";\"Stelle\";") && said.is_ascii(), "{said}");
    assert!(said.contains(";112050;1120,50;2026-10-30;"), "{said}");
    // Every line has as many cells as the heading.
    let cells: Vec<usize> = said.lines().map(|line| line.split(';').count()).collect();
    assert_eq!(cells, [13; 6]);
}

#[test]
fn a_spreadsheet_computes_nothing() {
    let message = damaged("Anna Gluehbirne", "+2-3").replacen("TX-20261028-0001", "-1+1", 1);
    let said = piped(&["items", "--csv", "-"], message).done(0);
    assert!(said.contains(";\"'-1+1\";") && said.contains(";\"'+2-3\";"), "{said}");
}

#[test]
fn a_refused_bulk_for_a_spreadsheet() {
    let october = without_doubles(&fs::read_to_string(sample("october.xml")).unwrap());
    let said = piped(&["items", "--csv", "-"], october);
    assert_eq!((said.status, said.out.lines().count()), (1, 8));
    assert!(said.out.contains(";\"looks like 3\"\n"), "{}", said.out);
    assert!(said.err.contains("refused 14 "), "{}", said.err);
    let said = bulk(&["items", "--csv", text(&sample("october.xml"))]);
    assert_eq!((said.status, said.out.as_str()), (1, ""));
    assert!(said.err.contains("refused 24 "), "{}", said.err);
}

/// The seconds that a shell's children took of the processor, from the second line of `times`.
fn seconds(times: &str) -> f64 {
    let second = times.lines().last().unwrap();
    let part = |text: &str| {
        let (minutes, seconds) = text.trim_end_matches('s').split_once('m').unwrap();
        60.0 * minutes.parse::<f64>().unwrap() + seconds.parse::<f64>().unwrap()
    };
    second.split_whitespace().map(part).sum()
}

/// Time of the processor, and the best of several runs: others may be using the machine. The build
/// of the tests checks every overflow, which takes half as long again.
#[test]
fn ten_thousand_items_in_a_fifth_of_a_second() {
    let most = if cfg!(debug_assertions) { 0.3 } else { 0.2 };
    let folder = Folder::new();
    let file = folder.put("many.xml", bulk_of(&many_items(10_000), 1_000_000));
    assert_eq!(bulk(&["items", text(&file)]).done(0).lines().count(), 10_002);
    for form in ["--en", "--csv", "--json"] {
        let run = || shell("\"$@\" > /dev/null; times", &["items", form, text(&file)]).done(0);
        let best = (0..10).map(|_| seconds(&run())).fold(f64::MAX, f64::min);
        assert!(best > 0.0 && best < most, "{form}: {best} s");
    }
}
