//! Request 11: "No TxId twice in a bulk."

use super::*;

/// A message whose items have these TxIds, and a count and a total that fit.
fn with_ids(ids: &[&str]) -> String {
    let item =
        |id: &&str| one_item("1.00", "CORE").replacen("<TxId>T1<", &format!("<TxId>{id}<"), 1);
    let items: String = ids.iter().map(item).collect();
    let (count, total) = (ids.len().to_string(), format!("{}.00", ids.len()));
    format!("{ROOT}{}{items}{CLOSE}", header(&count, &total))
}

/// Where the TxId of an item, from 0, begins.
fn id_place(message: &str, item: usize) -> usize {
    let start = "<TxId>";
    message.match_indices(start).nth(item).expect("there is such an item").0 + start.len()
}

/// The first item whose TxId an earlier one has, by comparing each with each.
fn second(ids: &[&str]) -> Option<usize> {
    (0..ids.len()).find(|&at| ids[..at].contains(&ids[at]))
}

/// "Refuse exactly if two items have equal TxId bytes .., at the earliest second one": every way to
/// give five items one of five TxIds.
#[test]
fn five_items_with_five_names() {
    let names = ["A", "B", "A1", "a", "AA"];
    for way in 0..5_usize.pow(5) {
        let ids: Vec<&str> = (0..5).map(|at| names[way / 5_usize.pow(at) % 5]).collect();
        let message = with_ids(&ids);
        match second(&ids) {
            None => {
                let accepted = Verdict::Accepted { count: 5, cents: 500 };
                assert_eq!(judge(message.as_bytes()), accepted, "{ids:?}");
            }
            Some(item) => {
                assert_eq!(refused(&message), (24, id_place(&message, item)), "{ids:?}");
            }
        }
    }
}

/// One item twice at every distance.
#[test]
fn at_every_distance() {
    let ids: Vec<String> = (0..40).map(|number| format!("T{number}")).collect();
    for one in 0..40 {
        for other in one + 1..40 {
            let mut ids: Vec<&str> = ids.iter().map(String::as_str).collect();
            ids[other] = ids[one];
            let message = with_ids(&ids);
            assert_eq!(refused(&message), (24, id_place(&message, other)), "{one} {other}");
        }
    }
}

/// "equal TxId bytes": one byte otherwise, more or less is another TxId; no other element counts.
#[test]
fn nearly_equal_is_not_equal() {
    let long = "A".repeat(35);
    for (one, other) in [
        ("T1", "t1"),
        ("T1", "T"),
        ("T1", "T10"),
        ("T1", "0T1"),
        ("T1", "T2"),
        ("7", "07"),
        (&long, &long[1..]),
        (&long, &format!("{}B", &long[1..])),
        (&long, &format!("B{}", &long[1..])),
        // What the other elements of the item have.
        ("I1", "E1"),
        ("M1", "MSG/1"),
    ] {
        for ids in [[one, other], [other, one]] {
            let accepted = Verdict::Accepted { count: 2, cents: 200 };
            assert_eq!(judge(with_ids(&ids).as_bytes()), accepted, "{ids:?}");
        }
        let message = with_ids(&[one, other, one]);
        assert_eq!(refused(&message), (24, id_place(&message, 2)), "{one} {other}");
    }
}

/// "24, after 7 of that TxId, place its first byte": before its end tag, and before all that follows.
#[test]
fn in_its_order() {
    let message = with_ids(&["T1", "T1"]);
    let place = id_place(&message, 1);
    let (before, after) = message.split_at(place);
    for (rest, due) in [
        ("T1", (3, place + 2)),
        ("T1<", (24, place)),
        ("T1</TxID>", (24, place)),
        ("T1</TxId><", (24, place)),
        ("T1 <", (7, place)),
        ("_<", (7, place)),
        ("<", (7, place)),
        ("T2<", (3, place + 3)),
        ("T2</TxID>", (4, place + 2)),
    ] {
        assert_eq!(refused(&format!("{before}{rest}")), due, "{rest}");
    }
    for (old, new) in [
        ("</TxId>", "</TxId><X>"),
        (">CORE<", ">B2B<"),
        (">CORE<", ">COR1<"),
        (">1.00<", ">0.00<"),
        ("</Document>", "</Document>x"),
        ("</Document>", ""),
    ] {
        let changed = format!("{before}{}", after.replacen(old, new, 1));
        assert_ne!(changed, message, "{old}");
        assert_eq!(refused(&changed), (24, place), "{old} -> {new}");
    }
    // A fault before it comes first, a wrong count or total after it.
    for (old, new, number) in [(">E1<", ">_<", 7), (">SEPA<", ">SEPB<", 10), ("EUR", "USD", 6)] {
        let place = place_of(&message, old) + usize::from(old.starts_with('>'));
        assert_eq!(refused(&message.replacen(old, new, 1)), (number, place), "{old}");
    }
    for (old, new) in [(">2<", ">3<"), (">2.00<", ">2.01<")] {
        assert_eq!(refused(&message.replacen(old, new, 1)), (24, place), "{old}");
    }
}

/// Item 10,001 is 12 before its TxId is read; one before it is 24.
#[test]
fn at_the_limit_of_items() {
    let ids: Vec<String> = (0..10_001).map(|number| format!("T{number}")).collect();
    let mut ids: Vec<&str> = ids.iter().map(String::as_str).collect();
    ids[10_000] = ids[0];
    let message = with_ids(&ids);
    let (last, _) = message.match_indices("<DrctDbtTxInf>").nth(10_000).expect("there are so many");
    assert_eq!(refused(&message), (12, last));
    ids[9_999] = ids[0];
    let message = with_ids(&ids);
    assert_eq!(refused(&message), (24, id_place(&message, 9_999)));
}

/// Items, records and plain form answer the judge's own refusal, and areas are as lent.
#[test]
fn whatever_is_asked() {
    let message = with_ids(&["A", "B", "A"]);
    let place = id_place(&message, 2);
    let mut area = [7; 3000];
    assert_eq!(item(message.as_bytes(), 0), Err((24, place)));
    assert_eq!(records(message.as_bytes(), &mut area), Verdict::Refused { number: 24, place });
    assert_eq!(plain_form(message.as_bytes(), &mut area), Err((24, place)));
    assert_eq!(area, [7; 3000]);
}
