//! The payment type (PmtTpInf) in the header: what each command says of it.

use crate::common::*;
use std::fs;

const TYPE: &str = "<PmtTpInf>";
const TYPE_END: &str = "</PmtTpInf>";

/// The partner's bulk, with its payment type in the header.
fn partner() -> String {
    fs::read_to_string(sample("partner.xml")).unwrap()
}

/// Its PmtTpInf.
fn payment_type() -> String {
    let partner = partner();
    let (start, end) = (partner.find(TYPE).unwrap(), partner.find(TYPE_END).unwrap());
    partner[start..end + TYPE_END.len()].to_string()
}

/// The same bulk with it in every item.
fn in_items() -> String {
    let untyped = partner().replacen(&payment_type(), "", 1);
    untyped.replace("</PmtId>", &format!("</PmtId>{}", payment_type()))
}

#[test]
fn the_partner_s_bulk_is_accepted() {
    let file = sample("partner.xml");
    assert_eq!(bulk(&["--plain", text(&file)]).done(0), "accepted 2 196550\n");
    let said = bulk(&["judge", text(&file)]).done(0);
    let line = ": accepted, 2 items, 1,965.50 EUR (196550 cents), MsgId BULK-2026-10-28-PARTNER, \
                settlement date 2026-10-30, CORE, pacs.003.001.02\n";
    assert!(said.ends_with(line), "{said}");
    let said = piped(&["--json", "-"], partner().replacen(">CORE<", ">B2B<", 1)).done(0);
    assert!(said.contains("\"instrument\":\"B2B\","), "{said}");
}

/// In both places: 23, with what the header has.
#[test]
fn in_the_header_and_in_an_item() {
    let file = sample("partner-both.xml");
    assert_eq!(bulk(&["--plain", text(&file)]).done(1), "refused 23 2321\n");
    let said = bulk(&[text(&file)]).done(1);
    let line = ": refused 23 at place 2321 (line 89, column 7) in \
                FIToFICstmrDrctDbt/DrctDbtTxInf[2] (TxId TX-20261028-P002), found “<PmtTpInf>” (the \
                header has CORE, RCUR): The item has a PmtTpInf of its own although the header has \
                one.\n    <PmtTpInf>\n    ^\n";
    assert!(said.ends_with(line), "{said}");
    let said = bulk(&["--de", text(&file)]).done(1);
    let line = "gefunden „<PmtTpInf>“ (im Kopf steht CORE, RCUR): Der Posten hat ein eigenes \
                PmtTpInf, obwohl schon der Kopf eines hat.\n";
    assert!(said.contains(line), "{said}");
    let said = bulk(&["--json", text(&file)]).done(1);
    for part in [
        "\"number\":23,\"place\":2321,",
        "\"item\":2,\"tx_id\":\"TX-20261028-P002\",",
        "\"found\":\"<PmtTpInf>\",\"why\":\"the header has CORE, RCUR\",",
        "\"instrument\":\"CORE\",",
    ] {
        assert!(said.contains(part), "{part}\n{said}");
    }
    // Cut short it is 3.
    let cut = &fs::read_to_string(&file).unwrap()[..2321 + TYPE.len() - 1];
    assert_eq!(piped(&["--plain", "-"], cut).done(1), format!("refused 3 {}\n", cut.len()));
}

/// In neither place, and at a wrong one: 4, with what is expected there.
#[test]
fn in_neither_and_elsewhere() {
    let file = sample("partner-neither.xml");
    assert_eq!(bulk(&["--plain", text(&file)]).done(1), "refused 4 715\n");
    let said = bulk(&[text(&file)]).done(1);
    let line = "in FIToFICstmrDrctDbt/DrctDbtTxInf[1] (TxId TX-20261028-P001), found \
                “<IntrBkSttlmAmt Ccy=\"EUR\">” (expected: <PmtTpInf>): Not allowed here, ";
    assert!(said.contains(line), "{said}");
    for (old, new, expected) in [
        ("<InstgAgt>", "<X>", "<InstgAgt>"),
        ("<PmtTpInf>", "<X>", "<PmtTpInf> or <InstgAgt>"),
        ("<IntrBkSttlmAmt", "<X/><IntrBkSttlmAmt", "<IntrBkSttlmAmt Ccy=\"EUR\">"),
        ("<ChrgBr>", "<PmtTpInf><ChrgBr>", "<ChrgBr>"),
        ("</GrpHdr>", "<PmtTpInf></GrpHdr>", "</GrpHdr>"),
    ] {
        let said = piped(&["-"], partner().replacen(old, new, 1)).done(1);
        assert!(said.starts_with("-: refused 4 "), "{said}");
        assert!(said.contains(&format!("(expected: {expected}): ")), "{expected}\n{said}");
    }
    let said = piped(&["--de", "-"], partner().replacen("<PmtTpInf>", "<X>", 1)).done(1);
    assert!(said.contains("(erwartet: <PmtTpInf> oder <InstgAgt>): "), "{said}");
}

/// A code of the header is judged and told as one of an item.
#[test]
fn a_code_of_the_header() {
    let said = piped(&["-"], partner().replacen("RCUR", "RCUX", 1)).done(1);
    let place = partner().find("RCUR").unwrap();
    let line = format!(
        "-: refused 10 at place {place} (line 20, column 16) in \
         FIToFICstmrDrctDbt/GrpHdr/PmtTpInf/SeqTp, found “RCUX” (allowed: FRST, RCUR, FNAL or OOFF): "
    );
    assert!(said.starts_with(&line), "{said}");
}

/// Every item has the header's sequence type and instrument, in each form that shows them, and in the
/// records.
#[test]
fn items_and_records_have_the_header_s_type() {
    let message = partner().replacen(">RCUR<", ">FNAL<", 1).replacen(">CORE<", ">B2B<", 1);
    let said = piped(&["items", "--csv", "-"], &message).done(0);
    assert_eq!(said.matches(";\"FNAL\";\"\"\n").count(), 2, "{said}");
    let said = piped(&["items", "--json", "-"], &message).done(0);
    let types = "\"sequence\":\"FNAL\",\"instrument\":\"B2B\",";
    assert_eq!(said.matches(types).count(), 2, "{said}");
    let records = piped(&["records", "-", "-"], &message).out;
    let types: Vec<&str> = records.lines().map(|record| &record[205..209]).collect();
    assert_eq!(types, ["FNAL", "FNAL"]);
    // All but the places is as with the type in the items.
    let rows = |message: &str| -> Vec<String> {
        let said = piped(&["items", "--csv", "-"], message).done(0);
        let row = |line: &str| line.splitn(3, ';').nth(2).unwrap().to_string();
        said.lines().map(row).collect()
    };
    assert_eq!(rows(&partner()), rows(&in_items()));
    let records = |message: &str| piped(&["records", "-", "-"], message).out;
    assert_eq!(records(&partner()), records(&in_items()));
}

/// The plain form keeps it where it stands, so the two places are told apart.
#[test]
fn where_it_stands_is_a_difference() {
    let plain = |message: &str| piped(&["plain", "-"], message).out;
    let compact: String = partner().lines().map(str::trim_start).collect();
    assert_eq!(plain(&partner()), compact);
    assert_eq!(plain(&in_items()).matches(TYPE).count(), 2);
    let file = sample("partner.xml");
    let said = piped(&["same", text(&file), "-"], in_items()).done(1);
    let lines: Vec<&str> = said.lines().skip(1).collect();
    assert_eq!(
        lines,
        [
            "  header: PmtTpInf/SvcLvl/Cd “SEPA” here, missing there",
            "  header: PmtTpInf/LclInstrm/Cd “CORE” here, missing there",
            "  header: PmtTpInf/SeqTp “RCUR” here, missing there",
            "  item 1, TxId TX-20261028-P001: PmtTpInf/SvcLvl/Cd missing here, “SEPA” there",
            "  Items that differ (2): 1, 2",
        ]
    );
    let other = partner().replacen("RCUR", "FRST", 1).replace("\n", "\r\n");
    let said = piped(&["--de", "same", text(&file), "-"], other).done(1);
    assert!(said.ends_with("\n  Kopf: PmtTpInf/SeqTp hier „RCUR“, dort „FRST“\n"), "{said}");
    let said = piped(&["--plain", "same", text(&file), "-"], partner().replace('\n', "\t")).done(0);
    assert_eq!(said, "same 2 196550\n");
}

/// The day book's service is the header's, and where it stands is no part of the key.
#[test]
fn the_day_book_s_service_is_the_header_s() {
    let folder = Folder::new();
    let header = folder.put("header.xml", partner());
    let items = folder.put("items.xml", in_items());
    let business = folder.put("business.xml", partner().replacen(">CORE<", ">B2B<", 1));
    let both = sample("partner-both.xml");
    let lines: String = [&header, &items, &business, &both]
        .iter()
        .map(|file| format!("enter {}\n", text(file)))
        .collect();
    let key = "BULK-2026-10-28-PARTNER HAFNDEHHXXX 2026-10-30";
    let lines = format!("{lines}list\nwithdraw CORE {key}\nenter {}\n", text(&items));
    let said = piped(&["--plain", "book", "-"], lines).done(1);
    let due = [
        "entered 1 196550",
        "refused 20 0",
        "entered 2 393100",
        "refused 23 2321",
        &format!("0 CORE {key} 196550"),
        &format!("1 B2B {key} 196550"),
        "withdrawn 1 196550",
        "entered 2 393100",
    ];
    assert_eq!(said.lines().collect::<Vec<_>>(), due);
}
