//! `same`: whether two bulks have the same plain form, and the first place where they differ.

use crate::common::*;

/// Compares the evening, padded, with the evening in which these texts are replaced.
fn compared(options: &[&str], replaced: &[(&str, &str)]) -> Said {
    let mut message = evening();
    for (old, new) in replaced {
        assert!(message.contains(old), "{old}");
        message = message.replacen(old, new, 1);
    }
    let padded = sample("evening-padded.xml");
    piped(&[options, &["same", text(&padded), "-"]].concat(), message)
}

/// What stands below the first line, which says that they differ.
fn below(options: &[&str], replaced: &[(&str, &str)]) -> String {
    let said = compared(options, replaced).done(1);
    let (first, below) = said.split_once('\n').unwrap();
    let verdict = if options.contains(&"--de") { " und -: ungleich" } else { " and -: different" };
    assert!(first.ends_with(verdict), "{said}");
    below.to_string()
}

#[test]
fn the_three_evenings_are_the_same() {
    let names = ["evening.xml", "evening-indented.xml", "evening-padded.xml"].map(sample);
    for one in &names {
        for other in &names {
            let said = bulk(&["same", text(one), text(other)]).done(0);
            let line = format!(
                "{} and {}: the same plain form, 5 items, 2,024.90 EUR (202490 cents), MsgId \
                 BULK-2026-10-28-EVENING, settlement date 2026-10-30, CORE, pacs.003.001.02\n",
                text(one),
                text(other)
            );
            assert_eq!(said, line);
            let said = bulk(&["--plain", "same", text(one), text(other)]).done(0);
            assert_eq!(said, "same 5 202490\n");
        }
    }
    let said = bulk(&["--de", "same", text(&names[0]), text(&names[1])]).done(0);
    assert!(
        said.contains(": gleiche Normalform, 5 Posten, 2.024,90 EUR (202490 Cent), "),
        "{said}"
    );
    assert!(said.starts_with(&format!("{} und ", text(&names[0]))), "{said}");
    // From standard input too, on either side.
    piped(&["same", "-", text(&names[0])], evening()).done(0);
    compared(&[], &[]).done(0);
}

#[test]
fn an_amount_that_differs() {
    let moved = [(">1120.50<", ">1120.05<"), (">8.95<", ">9.40<")];
    assert_eq!(
        below(&[], &moved),
        "  item 3, TxId TX-20261028-0003: IntrBkSttlmAmt “1120.50” here, “1120.05” there\n\
        \x20 Items that differ (2): 3, 5\n"
    );
    assert_eq!(
        below(&["--de"], &moved),
        "  Posten 3, TxId TX-20261028-0003: IntrBkSttlmAmt hier „1120.50“, dort „1120.05“\n\
        \x20 Abweichende Posten (2): 3, 5\n"
    );
    assert_eq!(
        compared(&["--plain"], &moved).done(1),
        "different\t3\tIntrBkSttlmAmt\t1120.50\t1120.05\n"
    );
}

/// All of the header is told, since a time of creation differs in nearly every two exports.
#[test]
fn the_header_and_the_first_item_that_differ() {
    let replaced = [
        ("18:42:07+01:00", "18:45:00+01:00"),
        (">2024.90<", ">2024.91<"),
        ("HAFNDEHHXXX", "HAFNDEHH"),
        (">37.80<", ">37.81<"),
    ];
    assert_eq!(
        below(&[], &replaced),
        "  header: CreDtTm “2026-10-28T18:42:07+01:00” here, “2026-10-28T18:45:00+01:00” there\n\
        \x20 header: TtlIntrBkSttlmAmt “2024.90” here, “2024.91” there\n\
        \x20 header: InstgAgt/FinInstnId/BIC “HAFNDEHHXXX” here, “HAFNDEHH” there\n\
        \x20 item 2, TxId TX-20261028-0002: IntrBkSttlmAmt “37.80” here, “37.81” there\n"
    );
    let said = compared(&["--plain"], &replaced).done(1);
    let rows: Vec<&str> = said.lines().collect();
    assert_eq!(rows.len(), 4, "{said}");
    assert_eq!(rows[1], "different\t0\tTtlIntrBkSttlmAmt\t2024.90\t2024.91");
    assert!(below(&["--de"], &replaced).starts_with("  Kopf: CreDtTm hier „2026-10-28T18:42:07"));
}

/// What looks the same and is not: a zero, a word parted by a space, a letter of another case.
#[test]
fn other_values_are_told_apart_by_bytes() {
    for (old, new, line) in [
        (
            ">TX-20261028-0004<",
            ">0TX-20261028-0004<",
            "item 4: PmtId/TxId “TX-20261028-0004” here, “0TX-20261028-0004” there",
        ),
        (
            ">Anna Gluehbirne<",
            ">Anna\r\n\tGlueh birne <",
            "item 1, TxId TX-20261028-0001: Dbtr/Nm “Anna Gluehbirne” here, “Anna Glueh birne” there",
        ),
        (
            ">RENT-2026-11-FLAT-4B<",
            ">RENT-2026-11-FLAT-4b<",
            "item 1, TxId TX-20261028-0001: PmtId/EndToEndId “RENT-2026-11-FLAT-4B” here, \
             “RENT-2026-11-FLAT-4b” there",
        ),
    ] {
        assert_eq!(below(&[], &[(old, new)]), format!("  {line}\n"));
    }
}

/// White space at the ends and in runs does not count in an EndToEndId, a name or a remittance text.
#[test]
fn values_that_collapse_alike_are_the_same() {
    let [rents, wrapped] = ["rents.xml", "rents-wrapped.xml"].map(sample);
    for (one, other) in [(&rents, &wrapped), (&wrapped, &rents)] {
        let said = bulk(&["--plain", "same", text(one), text(other)]).done(0);
        assert_eq!(said, "same 3 200330\n");
    }
    let said = bulk(&["same", text(&rents), text(&wrapped)]).done(0);
    assert!(
        said.contains(": the same plain form, 3 items, 2,003.30 EUR (200330 cents), "),
        "{said}"
    );
    for (old, new) in [
        (">Anna Gluehbirne<", "> Anna\t Gluehbirne\n<"),
        (">RENT-2026-11-FLAT-4B<", ">\r\n\tRENT-2026-11-FLAT-4B <"),
        (", flat 4B, ", ",\nflat  4B, "),
    ] {
        compared(&[], &[(old, new)]).done(0);
    }
    // Where one counts, the values are shown collapsed.
    let message =
        std::fs::read_to_string(&wrapped).unwrap().replacen("RENT  2023", "RENT20\t23", 1);
    let said = piped(&["same", text(&rents), "-"], message).done(1);
    let line =
        "  item 2, TxId TX-20230330-0002: PmtId/EndToEndId “RENT 2023 04” here, “RENT20 23 04” \
                there\n";
    assert!(said.ends_with(line), "{said}");
}

#[test]
fn an_optional_element_on_one_side() {
    let replaced = [("<InstrId>BATCH-7/LINE-2</InstrId>", "")];
    assert_eq!(
        below(&[], &replaced),
        "  item 2, TxId TX-20261028-0002: PmtId/InstrId “BATCH-7/LINE-2” here, missing there\n"
    );
    assert_eq!(
        below(&["--de"], &replaced),
        "  Posten 2, TxId TX-20261028-0002: PmtId/InstrId hier „BATCH-7/LINE-2“, dort nicht \
         vorhanden\n"
    );
    assert_eq!(
        compared(&["--plain"], &replaced).done(1),
        "different\t2\tPmtId/InstrId\tBATCH-7/LINE-2\t\n"
    );
    let added = [("<PmtId>", "<PmtId><InstrId>I-1</InstrId>")];
    assert_eq!(
        below(&[], &added),
        "  item 1, TxId TX-20261028-0001: PmtId/InstrId missing here, “I-1” there\n"
    );
}

#[test]
fn more_items_on_one_side() {
    let (evening, more) = (sample("evening.xml"), sample("alike.xml"));
    let (evening, more) = (text(&evening), text(&more));
    let said = bulk(&["same", evening, more]).done(1);
    assert_eq!(
        said,
        format!(
            "{evening} and {more}: different\n\
            \x20 header: NbOfTxs “5” here, “6” there\n\
            \x20 header: TtlIntrBkSttlmAmt “2024.90” here, “2869.90” there\n\
            \x20 item 6, TxId TX-20261028-0006: only there\n"
        )
    );
    let said = bulk(&["--de", "same", more, evening]).done(1);
    assert!(said.ends_with("  Posten 6, TxId TX-20261028-0006: nur hier\n"), "{said}");
    let said = bulk(&["--plain", "same", more, evening]).done(1);
    assert!(said.ends_with("different\t6\tDrctDbtTxInf\tTX-20261028-0006\t\n"), "{said}");
}

/// An item left out in the middle: the payments behind it no longer stand beside their own.
#[test]
fn payments_that_stand_beside_others() {
    let folder = Folder::new();
    let items = evening_items();
    let one = folder.put("one.xml", bulk_of(&items, 202_490));
    let fewer = [&items[..1], &items[2..]].concat();
    let other = folder.put("other.xml", bulk_of(&fewer, 202_490 - 3_780));
    let said = bulk(&["same", text(&one), text(&other)]).done(1);
    let line = "  item 2, TxId TX-20261028-0002 here, TX-20261028-0003 there: PmtId/InstrId \
                “BATCH-7/LINE-2” here, missing there\n  Items that differ (4): 2 to 5\n";
    assert!(said.ends_with(line), "{said}");
    let said = bulk(&["--de", "same", text(&one), text(&other)]).done(1);
    let line = "  Posten 2, TxId hier TX-20261028-0002, dort TX-20261028-0003: PmtId/InstrId hier \
                „BATCH-7/LINE-2“, dort nicht vorhanden\n  Abweichende Posten (4): 2 bis 5\n";
    assert!(said.ends_with(line), "{said}");
}

#[test]
fn a_refused_bulk_is_told_as_judge_tells_it() {
    let (good, bad) = (sample("evening.xml"), sample("october.xml"));
    let judged = bulk(&["judge", text(&bad)]).done(1);
    let why = "Not compared: only an accepted bulk has a plain form.\n";
    for words in [[text(&good), text(&bad)], [text(&bad), text(&good)]] {
        let said = bulk(&["same", words[0], words[1]]).done(1);
        assert_eq!(said, format!("{judged}{why}"));
        let said = bulk(&["--plain", "same", words[0], words[1]]).done(1);
        assert_eq!(said, format!("refused 24 3988\t{}\n", text(&bad)));
    }
    // Both, and in the other language. Not even a refused bulk and itself are compared.
    let said = bulk(&["same", text(&bad), text(&bad)]).done(1);
    assert_eq!(said, format!("{judged}{judged}{why}"));
    let said = bulk(&["--de", "same", text(&good), text(&bad)]).done(1);
    assert!(said.contains(": abgelehnt (Nr. 24) an Stelle 3988"), "{said}");
    assert!(said.ends_with("\nNicht verglichen: Nur ein angenommener Bulk hat eine Normalform.\n"));
}

#[test]
fn what_cannot_be_compared() {
    let (folder, good) = (Folder::new(), sample("evening.xml"));
    let none = folder.path("none.xml");
    for words in [["same", text(&good), text(&none)], ["same", text(&none), text(&good)]] {
        assert!(bulk(&words).trouble().contains("none.xml: There is no such file."));
    }
    let said = bulk(&["same", text(&good), text(&folder.0)]).trouble();
    assert!(said.contains("It is a folder. Name a file in it."), "{said}");
    let said = piped(&["same", "-", "-"], evening()).trouble();
    assert!(said.contains("Usage: bulk same FILE FILE."), "{said}");
}

/// The most items, and only the last of them differs.
#[test]
fn ten_thousand_items() {
    let folder = Folder::new();
    let mut items = many_items(10_000);
    let one = folder.put("one.xml", bulk_of(&items, 1_000_000));
    items[9_999] = items[9_999].replacen("RCUR", "OOFF", 1);
    let other = folder.put("other.xml", bulk_of(&items, 1_000_000).replace("><", ">\n<"));
    let said = bulk(&["same", text(&one), text(&other)]).done(1);
    let line = "  item 10000, TxId TX-10000: PmtTpInf/SeqTp “RCUR” here, “OOFF” there\n";
    assert!(said.ends_with(line), "{said}");
}
