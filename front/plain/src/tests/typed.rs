//! Request 6: PmtTpInf once in the header, or in every item.

use super::*;

/// The example's PmtTpInf.
fn payment_type() -> &'static str {
    part("<PmtTpInf>", "<IntrBkSttlmAmt")
}

/// Whether it stands in the header, and in which items.
fn typed(in_header: bool, in_items: &[bool]) -> String {
    let (count, total) = (in_items.len().to_string(), 12 * in_items.len());
    let header = match in_header {
        true => header(&count, &total.to_string()).replacen("<InstgAgt>", &with_type(), 1),
        false => header(&count, &total.to_string()),
    };
    let without = one_item("12.00", "CORE").replacen(payment_type(), "", 1);
    let item = |&is_in: &bool| if is_in { one_item("12.00", "CORE") } else { without.clone() };
    let items: Vec<String> = in_items.iter().map(item).collect();
    format!("{ROOT}{header}{}{CLOSE}", numbered(&items))
}

/// What stands in the header in place of `<InstgAgt>`.
fn with_type() -> String {
    format!("{}<InstgAgt>", payment_type())
}

/// Where the tag stands that follows PmtId of an item, from 0.
fn behind_pmt_id(message: &str, item: usize) -> usize {
    let end = "</PmtId>";
    message.match_indices(end).nth(item).expect("there is such an item").0 + end.len()
}

/// "and then no item has it; otherwise every item has it": all ways to have it in three items.
#[test]
fn in_the_header_or_in_every_item() {
    for in_header in [false, true] {
        for ways in 0..8_u32 {
            let in_items = [0, 1, 2].map(|item| ways >> item & 1 == 1);
            let message = typed(in_header, &in_items);
            let wrong = in_items.iter().position(|&is_in| is_in == in_header);
            match wrong {
                None => {
                    let accepted = Verdict::Accepted { count: 3, cents: 3600 };
                    assert_eq!(judge(message.as_bytes()), accepted, "{message}");
                }
                Some(item) => {
                    let number = if in_header { 23 } else { 4 };
                    let place = behind_pmt_id(&message, item);
                    assert_eq!(refused(&message), (number, place), "{message}");
                }
            }
        }
    }
}

/// Cut behind each byte: 3 while a tag that may come, or the one that gives 23, can still follow.
#[test]
fn cut_at_every_byte() {
    let typed_right = typed(true, &[false, false]);
    for length in 0..typed_right.len() {
        assert_eq!(refused(&typed_right[..length]), (3, length), "{length}");
    }
    // The tag behind PmtId of the second item is wrong: PmtTpInf's is 23 when it is whole, the
    // amount's is 4 from its second byte on.
    for (in_header, number, whole) in [(true, 23, "<PmtTpInf>".len()), (false, 4, "<I".len())] {
        let message = typed(in_header, &[!in_header, in_header]);
        let place = behind_pmt_id(&message, 1);
        for length in 0..=message.len() {
            let due = if length < place + whole { (3, length) } else { (number, place) };
            assert_eq!(refused(&message[..length]), due, "{length}");
        }
    }
}

/// Behind these bytes, with white space and without, each tag is met with its number: 3 at the end,
/// any other at the tag.
fn meets(before: &str, tags: &[(&str, u8)]) {
    for (tag, number) in tags {
        for white in ["", " ", "\r\n\t"] {
            let message = format!("{before}{white}{tag}");
            let place = if *number == 3 { message.len() } else { before.len() + white.len() };
            assert_eq!(refused(&message), (*number, place), "{white:?}{tag}");
        }
    }
}

/// In the header behind SttlmInf: the type or InstgAgt.
#[test]
fn tags_behind_sttlm_inf() {
    let message = typed(true, &[false]);
    let before = &message[..place_of(&message, "<PmtTpInf>")];
    meets(before, &[("", 3), ("<", 3), ("<P", 3), ("<PmtTpInf", 3), ("<PmtTpInf>", 3)]);
    meets(before, &[("<I", 3), ("<InstgAgt", 3), ("<InstgAgt>", 3)]);
    meets(before, &[("<PmtTpInf >", 4), ("<PmtTpInf/>", 4), ("<Intr", 4), ("</GrpHdr>", 4)]);
}

/// In an item behind PmtId, with the type in the header: the amount, and the whole tag is 23.
#[test]
fn tags_behind_pmt_id_with_a_header_s_type() {
    let message = typed(true, &[false]);
    let before = &message[..behind_pmt_id(&message, 0)];
    meets(before, &[("", 3), ("<", 3), ("<P", 3), ("<PmtTpInf", 3), ("<Intr", 3)]);
    meets(before, &[("<IntrBkSttlmAmt Ccy=\"", 3), ("<IntrBkSttlmAmt Ccy=\"U", 3)]);
    meets(before, &[("<PmtTpInf>", 23), ("<PmtTpInf>_", 23), ("<PmtTpInf></PmtTpInf>", 23)]);
    meets(before, &[("<PmtTpInf >", 4), ("<PmtTpInf/>", 4), ("<PmtTpInfo", 4), ("PmtTpInf>", 4)]);
    meets(before, &[("<IntrBkSttlmAmt>", 4), ("<ChrgBr>", 4), ("</DrctDbtTxInf>", 4)]);
}

/// The same with none in the header: nothing but the type.
#[test]
fn tags_behind_pmt_id_without_a_header_s_type() {
    let message = typed(false, &[true]);
    let before = &message[..behind_pmt_id(&message, 0)];
    meets(before, &[("", 3), ("<", 3), ("<PmtTpInf", 3), ("<PmtTpInf>", 3)]);
    meets(before, &[("<I", 4), ("<Intr", 4), ("<IntrBkSttlmAmt Ccy=\"EUR\">", 4)]);
}

/// It may stand nowhere else: 4 at its `<`, whether the header has it or not.
#[test]
fn at_any_other_place_it_is_4() {
    for in_header in [false, true] {
        let message = typed(in_header, &[!in_header]);
        let right = match in_header {
            true => [place_of(&message, "<PmtTpInf>"), behind_pmt_id(&message, 0)],
            false => [place_of(&message, "<InstgAgt>"), behind_pmt_id(&message, 0)],
        };
        let start = ROOT.len();
        let between = message.match_indices("><").map(|(at, _)| at + 1);
        for place in between.filter(|place| *place >= start && !right.contains(place)) {
            let (before, after) = message.split_at(place);
            let twice = format!("{before}{}{after}", payment_type());
            assert_eq!(refused(&twice), (4, place), "{twice}");
        }
        // Twice at its own place.
        let place = right[usize::from(!in_header)];
        let (before, after) = message.split_at(place);
        let twice = format!("{before}{}{after}", payment_type());
        assert_eq!(refused(&twice), (4, place + payment_type().len()), "{twice}");
    }
}

/// "with the same children": each value and each tag of it is judged as in an item.
#[test]
fn the_header_s_is_judged_as_an_item_s() {
    let message = typed(true, &[false, false]);
    for (old, new, number, further) in [
        (">SEPA<", ">SEPB<", 10, 1),
        (">CORE<", ">COR1<", 10, 1),
        (">CORE<", "><", 10, 1),
        (">RCUR<", ">RCUR <", 10, 1),
        ("<SeqTp>", "<SeqTP>", 4, 0),
        ("<LclInstrm><Cd>CORE</Cd></LclInstrm>", "", 4, 0),
        ("</PmtTpInf>", "<CtgyPurp></PmtTpInf>", 4, 0),
    ] {
        let place = place_of(&message, old) + further;
        assert_eq!(refused(&message.replacen(old, new, 1)), (number, place), "{old} -> {new}");
    }
    let accepted = Verdict::Accepted { count: 2, cents: 2400 };
    for (old, new) in [(">CORE<", ">B2B<"), (">RCUR<", ">OOFF<"), ("<SeqTp>", "\n<SeqTp>")] {
        assert_eq!(judge(message.replacen(old, new, 1).as_bytes()), accepted, "{old} -> {new}");
    }
}

/// "Records take SeqTp from wherever it stands".
#[test]
fn records_take_the_header_s_sequence_type() {
    for code in ["FRST", "RCUR", "FNAL", "OOFF"] {
        let message = typed(true, &[false, false]).replacen("RCUR", code, 1);
        let mut area = [0xAA; 648];
        let accepted = Verdict::Accepted { count: 2, cents: 2400 };
        assert_eq!(records(message.as_bytes(), &mut area), accepted, "{code}");
        let record = RECORD.replace("00000001234", "00000001200").replace("RCUR", code);
        assert_eq!(area[..640], *numbered_records(&[&record, &record]).concat().as_bytes());
        assert_eq!(area[640..], [0xAA; 8]);
    }
    // A refusal leaves the area.
    let mut area = [7; 640];
    records(typed(true, &[false, true]).as_bytes(), &mut area);
    assert_eq!(area, [7; 640]);
}

/// "and the plain form keeps it there": the two places give two plain forms.
#[test]
fn the_plain_form_keeps_it_where_it_stands() {
    let due = |in_header: bool| {
        let message = typed(in_header, &[!in_header, !in_header]);
        format!("{DECLARATION}{}", message.replace(">24<", ">24.00<"))
    };
    for in_header in [false, true] {
        let spaced = due(in_header).replace("><", ">\n\t<").replace("24.00", "024");
        assert_eq!(plain(&spaced), Ok(due(in_header)));
    }
    assert_ne!(due(false), due(true));
}
