//! Doubled items: a TxId that stands twice is refused, items alike under different TxIds are warned of,
//! and all of them are told.

use crate::common::*;
use std::time::{Duration, Instant};

/// The evening and a sixth item, a copy of the first with one text replaced; the header fits.
fn sixth(old: &str, new: &str) -> String {
    let mut items = evening_items();
    items.push(items[0].replacen(old, new, 1));
    bulk_of(&items, 202_490 + 84_500)
}

/// A TxId that stands twice is refused, though count and total fit, and both items are named.
#[test]
fn an_item_that_stands_twice_is_refused() {
    let message = sixth("", "");
    let place = message.rfind("<TxId>").unwrap() + "<TxId>".len();
    let plain = format!("refused 24 {place}\n");
    assert_eq!(piped(&["--plain", "judge", "-"], &message).done(1), plain);
    let said = piped(&["judge", "-"], &message).done(1);
    let lines: Vec<&str> = said.lines().collect();
    let line = format!(
        "-: refused 24 at place {place} (line 1, column {}) in \
         FIToFICstmrDrctDbt/DrctDbtTxInf[6]/PmtId/TxId (EndToEndId RENT-2026-11-FLAT-4B), found \
         “TX-20261028-0001” (item 6 has the TxId of item 1): An earlier item has the same TxId.",
        place + 1
    );
    assert_eq!(lines[0], line);
    // Below the line an excerpt, and all items of that TxId. Nothing is a warning.
    let below = ["  TxId more than once (1):", "    TX-20261028-0001: items 1, 6"];
    assert_eq!((lines.len(), &lines[3..]), (5, &below[..]));
    let said = piped(&["--de", "judge", "-"], &message).done(1);
    assert!(
        said.contains("(Posten 6 hat die TxId von Posten 1): Ein früherer Posten hat "),
        "{said}"
    );
    assert!(said.ends_with("  TxId mehrfach (1):\n    TX-20261028-0001: Posten 1, 6\n"), "{said}");
}

#[test]
fn alike_under_different_tx_ids_looks_doubled() {
    let message = sixth("TX-20261028-0001", "TX-20261028-0006");
    let said = piped(&["judge", "-"], &message).done(0);
    let warning =
        "  Warning: looks doubled: the same EndToEndId, debtor IBAN, amount and date under \
                   different TxIds (1):\n    RENT-2026-11-FLAT-4B, DE36370998000008812345, 845.00 \
                   EUR, 2026-10-30: items 1, 6\n";
    assert!(said.ends_with(warning), "{said}");
    let said = piped(&["--de", "judge", "-"], &message).done(0);
    assert!(said.contains("  Warnung: sieht doppelt aus: "), "{said}");
    assert!(said.ends_with("845,00 EUR, 2026-10-30: Posten 1, 6\n"), "{said}");
    // 845 and 845.00 are the same amount, and two values are equal when their collapsed bytes are.
    let message = message.replacen(">845.00<", ">845<", 1);
    let message = message.replacen(">RENT-2026-11-FLAT-4B<", ">\tRENT-2026-11-FLAT-4B\r\n<", 1);
    let said = piped(&["judge", "-"], message).done(0);
    assert!(
        said.contains("looks doubled") && said.contains("    RENT-2026-11-FLAT-4B, "),
        "{said}"
    );
}

#[test]
fn what_differs_is_not_doubled() {
    let other = |old: &str, new: &str| {
        let item = evening_items()[0].replacen("TX-20261028-0001", "TX-6", 1);
        let items = [evening_items(), vec![item.replacen(old, new, 1)]].concat();
        let cents = if old == "845.00" { 84_501 } else { 84_500 };
        piped(&["judge", "-"], bulk_of(&items, 202_490 + cents)).done(0)
    };
    for (old, new) in [
        ("RENT-2026-11-FLAT-4B", "RENT-2026-12-FLAT-4B"),
        ("DE36370998000008812345", "DE87200500001234567890"),
        ("845.00", "845.01"),
        ("<ReqdColltnDt>2026-10-30", "<ReqdColltnDt>2026-11-30"),
    ] {
        let said = other(old, new);
        assert_eq!(said.lines().count(), 1, "{said}");
    }
    assert!(other("Anna Gluehbirne", "A. Gluehbirne").contains("looks doubled"));
}

/// All of them, the second of three too, also behind the place where reading ended.
#[test]
fn all_doubled_items_are_told() {
    let items = [evening_items(), evening_items()].concat();
    for cents in [404_980, 404_981] {
        for count in [">10<", ">5<"] {
            let message = bulk_of(&items, cents).replacen(">10<", count, 1);
            let said = piped(&["judge", "-"], message).done(1);
            assert!(
                said.contains("refused 24 ") && said.contains("(item 6 has the TxId of item 1)")
            );
            assert!(said.contains("  TxId more than once (5):\n"), "{said}");
            for number in 1..=5 {
                let line = format!("    TX-20261028-000{number}: items {number}, {}\n", number + 5);
                assert!(said.contains(&line), "{said}");
            }
        }
    }
    let many = vec![evening_items()[0].clone(); 7];
    let said = piped(&["judge", "-"], bulk_of(&many, 7 * 84_500)).done(1);
    assert!(said.contains("(item 2 has the TxId of item 1)"), "{said}");
    assert!(said.ends_with("    TX-20261028-0001: items 1 to 7\n"), "{said}");
}

/// Behind item 10,000 they are found by their tags; before it 24 comes first.
#[test]
fn refusal_12_names_doubled_items_too() {
    let items = [many_items(10_000), many_items(2_000)].concat();
    let said = piped(&["judge", "-"], bulk_of(&items, 1_200_000)).done(1);
    assert!(said.contains(": More than 10,000 items. The bulk has 12,000 items.\n"), "{said}");
    assert!(said.contains("  TxId more than once (2000):\n    TX-1: items 1, 10001\n"));
    assert!(said.ends_with("    TX-2000: items 2000, 12000\n"));
    let items = [many_items(6_000), many_items(6_000)].concat();
    let said = piped(&["judge", "-"], bulk_of(&items, 1_200_000)).done(1);
    assert!(said.contains("refused 24 ") && said.contains("(item 6001 has the TxId of item 1)"));
    assert!(said.ends_with("    TX-6000: items 6000, 12000\n"));
}

/// A fault before the second one comes first, and says nothing of it; nor does one behind it say more.
#[test]
fn a_refusal_in_an_item_says_nothing_of_doubles() {
    let message = sixth("", "").replacen("NL65MOLN0123456789", "NL65MOLN0123456798", 1);
    let said = piped(&["judge", "-"], message).done(1);
    assert!(said.contains("refused 8 ") && !said.contains("more than once"), "{said}");
    let cut = sixth("", "").replacen("</Document>", "", 1);
    let said = piped(&["judge", "-"], cut).done(1);
    assert!(said.contains("refused 24 ") && said.ends_with(": items 1, 6\n"), "{said}");
}

/// Each with each would take minutes, and so would a line of ten thousand numbers for each item.
#[test]
fn ten_thousand_doubled_items_take_no_time() {
    let twice = bulk_of(&[many_items(5_000), many_items(5_000)].concat(), 1_000_000);
    let same = bulk_of(&vec![evening_items()[0].clone(); 10_000], 845_000_000);
    for (message, lines) in [(&twice, 5_001), (&same, 2)] {
        let start = Instant::now();
        assert_eq!(piped(&["judge", "-"], message).done(1).lines().count(), 3 + lines);
        // The same items under TxIds of their own look doubled.
        let alike = without_doubles(message);
        assert_eq!(piped(&["judge", "-"], &alike).done(0).lines().count(), 1 + lines);
        for form in ["--en", "--csv", "--json", "--plain"] {
            let said = piped(&["items", form, "-"], &alike);
            assert_eq!(said.status, 0);
            assert!(said.out.lines().count() >= 10_000 && said.out.len() < 10_000_000, "{form}");
        }
        assert!(start.elapsed() < Duration::from_secs(20), "{:?}", start.elapsed());
    }
}
