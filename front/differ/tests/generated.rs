//! The generator makes what it promises: without these a run without differences would say little.

use differ::ask::{other_names, plain_check};
use differ::damage::{self, Known};
use differ::face::{INDEX, RECORD};
use differ::kind::{Kind, CHECKED};
use differ::message::{Message, Part, Version, What, INSTRUMENTS};
use differ::random::Random;
use differ::slow::Slow;
use differ::value::{self, WHITE};
use differ::{indexed, letters, slips, spellings, sweep, twice, twins, typed, versions};
use std::collections::{BTreeMap, BTreeSet};

/// The first messages that the gate's run of seed 1 is made from.
fn messages() -> impl Iterator<Item = Message> {
    (0..6_000).map(|case| damage::message(1, case).0)
}

/// Every element with a value, and the shortest and longest value that the paper allows there, of the
/// three that collapse by the collapsed value.
const LENGTHS: [(&str, usize, usize); 23] = [
    ("MsgId", 1, 35),
    ("CreDtTm", 19, 29),
    ("NbOfTxs", 1, 15),
    ("TtlIntrBkSttlmAmt", 1, 18),
    ("IntrBkSttlmDt", 10, 10),
    ("SttlmMtd", 4, 4),
    ("BIC", 8, 11),
    ("BICFI", 8, 11),
    ("InstrId", 1, 35),
    ("EndToEndId", 1, 35),
    ("TxId", 1, 35),
    ("Cd", 3, 4),
    ("SeqTp", 4, 4),
    ("IntrBkSttlmAmt", 1, 18),
    ("ChrgBr", 4, 4),
    ("ReqdColltnDt", 10, 10),
    ("MndtId", 1, 35),
    ("DtOfSgntr", 10, 10),
    ("Id", 8, 35),
    ("Prtry", 4, 4),
    ("Nm", 1, 70),
    ("IBAN", 15, 31),
    ("Ustrd", 1, 140),
];

#[test]
fn shortest_and_longest_values_of_every_element() {
    let mut lengths: BTreeMap<&str, (usize, usize)> = BTreeMap::new();
    for message in messages() {
        for part in &message.parts {
            if let What::Value(_) = part.what {
                let seen = lengths.entry(part.name).or_insert((usize::MAX, 0));
                *seen = (seen.0.min(part.meant.len()), seen.1.max(part.meant.len()));
            }
        }
    }
    let promised: BTreeMap<&str, (usize, usize)> =
        LENGTHS.into_iter().map(|(name, least, most)| (name, (least, most))).collect();
    assert_eq!(lengths, promised);
}

/// The three elements that collapse.
const COLLAPSING: [&str; 3] = ["EndToEndId", "Nm", "Ustrd"];

/// A value collapsed, by its words.
fn collapsed(value: &str) -> String {
    value.split_ascii_whitespace().collect::<Vec<&str>>().join(" ")
}

/// How the values that collapse are written: which white byte stands where, whether there are runs,
/// whether the raw value is longer than the longest collapsed one, whether it is written as meant.
#[test]
fn white_space_in_every_value_that_collapses() {
    let mut seen = BTreeSet::new();
    for part in messages().flat_map(|message| message.parts) {
        if !COLLAPSING.contains(&part.name) || !matches!(part.what, What::Value(_)) {
            assert!(part.bytes == part.meant, "{}", part.name);
            continue;
        }
        let (raw, meant) = (text(&part.bytes), text(&part.meant));
        assert_eq!(collapsed(&raw), meant);
        let mut see = |what: String| {
            seen.insert((part.name, what));
        };
        let inside = raw.trim();
        for &white in WHITE {
            let white = char::from(white);
            if raw.starts_with(white) {
                see(format!("{white:?} first"));
            }
            if raw.ends_with(white) {
                see(format!("{white:?} last"));
            }
            if inside.contains(white) {
                see(format!("{white:?} inside"));
            }
        }
        if inside.len() > meant.len() {
            see("a run inside".into());
        }
        if raw.len() > 140 {
            see("long".into());
        }
        if raw == meant {
            see(if raw.contains(' ') { "spaces as meant" } else { "no space" }.into());
        }
    }
    // Four bytes at three places, and four more.
    let due = COLLAPSING.map(|name| (name, 16));
    let count = |name: &str| seen.iter().filter(|(of, _)| *of == name).count();
    assert_eq!(COLLAPSING.map(|name| (name, count(name))), due, "{seen:?}");
}

/// Of each kind there are values with each white byte put in: those of the kinds that collapse pass
/// or are too long then, all others are 7.
#[test]
fn white_space_in_values_of_every_kind() {
    let mut seen = BTreeSet::new();
    value::sweep(1, |_, case| {
        if case.sort == "sweep: white space put in" {
            let kind = CHECKED.iter().position(|kind| *kind == case.kind);
            let white = WHITE.iter().filter(|white| case.bytes.contains(white));
            seen.extend(white.map(|white| (kind, *white, case.known)));
        }
    });
    for (at, kind) in CHECKED.into_iter().enumerate() {
        for &white in WHITE {
            let has = |known| seen.contains(&(Some(at), white, Some(known)));
            assert!(has(Err(7)), "{kind:?} {white}");
            assert_eq!(has(Ok(0)), kind.longest_collapsed().is_some(), "{kind:?} {white}");
        }
    }
}

/// Other names have as many bytes as the old ones, and often another plain form, also a longer one
/// or a shorter.
#[test]
fn other_names_are_of_equal_raw_length() {
    let mut longer = BTreeSet::new();
    for (case, message) in messages().take(300).enumerate() {
        let bytes = message.bytes();
        let other = other_names(&bytes, &mut Random::new(1, case as u64));
        let other = other.expect("each item has names");
        assert_eq!(plain::judge(&other), plain::judge(&bytes));
        for start in ["<Nm>", "<Ustrd>"] {
            let lengths = |message| values(message, start).iter().map(String::len).collect();
            let (one, two): (Vec<usize>, Vec<usize>) = (lengths(&bytes), lengths(&other));
            assert_eq!(one, two);
        }
        let mut area = vec![0; 2 * bytes.len()];
        let mut length = |message| plain::plain_form(message, &mut area).expect("it is accepted");
        longer.insert(length(&other).cmp(&length(&bytes)));
    }
    assert_eq!(longer.len(), 3, "{longer:?}");
}

/// Bytes as text.
fn text(bytes: &[u8]) -> String {
    String::from_utf8(bytes.to_vec()).expect("an accepted message is ASCII")
}

#[test]
fn every_code_and_leading_zeros() {
    let mut codes = BTreeSet::new();
    let mut zeros = BTreeSet::new();
    for message in messages() {
        for part in &message.parts {
            match part.what {
                What::Value(Kind::Code(_)) => drop(codes.insert((part.name, part.bytes.clone()))),
                What::Value(Kind::Count | Kind::ItemAmount | Kind::HeaderAmount)
                    if part.bytes.len() > 1 && part.bytes[0] == b'0' && part.bytes[1] != b'.' =>
                {
                    zeros.insert(part.name);
                }
                _ => {}
            }
        }
    }
    let codes: Vec<String> =
        codes.into_iter().map(|(name, code)| format!("{name} {}", code.escape_ascii())).collect();
    assert_eq!(
        codes,
        [
            "Cd B2B",
            "Cd CORE",
            "Cd SEPA",
            "ChrgBr SLEV",
            "Prtry SEPA",
            "SeqTp FNAL",
            "SeqTp FRST",
            "SeqTp OOFF",
            "SeqTp RCUR",
            "SttlmMtd CLRG",
        ]
    );
    let zeros: Vec<&str> = zeros.into_iter().collect();
    assert_eq!(zeros, ["IntrBkSttlmAmt", "NbOfTxs", "TtlIntrBkSttlmAmt"]);
}

/// InstrId and RmtInf in each combination; each kind of white space before each tag that may have
/// it, behind the declaration and at the end.
#[test]
fn every_option_and_white_space_everywhere() {
    let mut options = BTreeSet::new();
    let mut before = BTreeSet::new();
    let mut tags = BTreeSet::new();
    for message in messages() {
        for &(first, after) in &message.items {
            let has = |name| message.parts[first..after].iter().any(|part| part.name == name);
            options.insert((has("InstrId"), has("RmtInf")));
        }
        let mut last = What::White;
        for (at, part) in message.parts.iter().enumerate() {
            let beside_value = matches!(last, What::Value(_)) && part.what == What::End;
            if matches!(part.what, What::Start | What::End) && !beside_value {
                tags.insert(part.bytes.clone());
            }
            if part.what == What::White {
                let next = message.parts.get(at + 1).map(|next| next.bytes.clone());
                before.extend(part.bytes.iter().map(|&white| (white, next.clone())));
            }
            last = part.what;
        }
    }
    assert_eq!(options.len(), 4);
    for &white in WHITE {
        for tag in &tags {
            let text = tag.escape_ascii();
            assert!(before.contains(&(white, Some(tag.clone()))), "{white} before {text}");
        }
        assert!(before.contains(&(white, None)), "{white} at the end");
    }
}

/// The payment type stands in the header of a good share of the messages, each of its codes among
/// them, and most of these have several items.
#[test]
fn payment_types_in_the_header() {
    let mut codes = BTreeSet::new();
    let (mut in_header, mut of_several) = (0, 0);
    for message in messages().filter(typed::is_in_header) {
        let header = &message.parts[..message.items[0].0];
        let is_code = |part: &&differ::message::Part| matches!(part.name, "Cd" | "SeqTp");
        codes.extend(header.iter().filter(is_code).map(|part| text(&part.meant)));
        in_header += 1;
        of_several += usize::from(message.items.len() > 1);
    }
    for code in ["SEPA", "CORE", "B2B", "FRST", "RCUR", "FNAL", "OOFF"] {
        assert!(codes.contains(code), "{code}");
    }
    assert!((1_500..=2_500).contains(&in_header) && of_several > 700, "{in_header} {of_several}");
}

/// The sweep of the payment type: each answer that it can have, known from its making; 23 in either
/// item, and 4 in either.
#[test]
fn payment_types_here_and_there() {
    let mut seen = BTreeSet::new();
    typed::sweep(1, |_, case| {
        let item = |place: usize| values(&case.bytes[..place], "<EndToEndId>").len();
        seen.insert(match case.known {
            Known::Refused { number: number @ (4 | 23), place } => {
                format!("{}: {number} in item {}", case.damage, item(place))
            }
            Known::Refused { number, .. } => format!("{}: {number}", case.damage),
            known => format!("{}: {}", case.damage, matches!(known, Known::Accepted { .. })),
        });
    });
    let seen: Vec<&str> = seen.iter().map(String::as_str).collect();
    assert_eq!(
        seen,
        [
            "payment type here and there, cut: 23 in item 1",
            "payment type here and there, cut: 23 in item 2",
            "payment type here and there, cut: 3",
            "payment type here and there, cut: 4 in item 1",
            "payment type here and there, cut: 4 in item 2",
            "payment type here and there, cut: true",
            "payment type here and there: 23 in item 1",
            "payment type here and there: 23 in item 2",
            "payment type here and there: 4 in item 1",
            "payment type here and there: 4 in item 2",
            "payment type moved: true",
            "payment type once more: 2",
            "payment type once more: 23 in item 1",
            "payment type once more: 23 in item 2",
            "payment type once more: 4 in item 0",
            "payment type once more: 4 in item 1",
            "payment type once more: 4 in item 2",
        ]
    );
}

/// Both versions, each in a good share of the messages; in .08 BICs that .02 has too, and others: with a
/// digit at each of the first four places, 0 or 1 at the seventh, O at the eighth.
#[test]
fn both_versions_and_their_bics() {
    let mut seen = BTreeSet::new();
    let mut shares = BTreeMap::new();
    for message in messages() {
        *shares.entry(message.version).or_insert(0) += 1;
        for part in versions::bics(&message) {
            let bytes = &message.parts[part].bytes;
            assert_eq!(value::known_bic(message.version.bic().1, bytes), Ok(0));
            if value::known_bic(Kind::Bic, bytes).is_ok() {
                seen.insert((message.version, "narrow".to_string()));
            }
            let digits = (0..4).filter(|&at| bytes[at].is_ascii_digit());
            seen.extend(digits.map(|at| (message.version, format!("digit {at}"))));
            if b"01".contains(&bytes[6]) || bytes[7] == b'O' {
                seen.insert((message.version, "seventh or eighth".to_string()));
            }
        }
    }
    assert!(shares.len() == 2 && shares.values().all(|share| *share > 2_500), "{shares:?}");
    let wider = (0..4).map(|at| format!("digit {at}"));
    let wide = wider.chain(["narrow", "seventh or eighth"].map(String::from));
    let narrow = [(Version::V02, "narrow".to_string())];
    let due = wide.map(|what| (Version::V08, what)).chain(narrow);
    assert_eq!(seen, due.collect());
}

/// The sweep of the versions: each answer that it can have, known from its making, in either version.
#[test]
fn versions_in_every_way() {
    let mut seen: BTreeMap<&str, BTreeSet<(bool, String)>> = BTreeMap::new();
    versions::sweep(1, |_, case| {
        let is_08 = case.bytes.windows(6).any(|part| part == b"001.08");
        let answer = match case.known {
            Known::Refused { number, .. } => number.to_string(),
            Known::Accepted { .. } => "accepted".into(),
            Known::Bad | Known::Nothing => "refused".into(),
        };
        seen.entry(case.damage).or_default().insert((is_08, answer));
    });
    let due = [
        ("none", "accepted"),
        ("the other version", "accepted"),
        ("a version, cut", "3 accepted"),
        ("root, byte set", "2 4"),
        ("root of neither version", "2"),
        ("root of neither version, cut", "2 3"),
        ("root of the other version", "4"),
        ("elements of the other version", "4 accepted"),
        ("one tag of the other version", "4"),
        ("tag of a version, cut", "3 4 refused"),
        ("BIC of a version", "accepted"),
        ("no BIC of a version", "7"),
    ];
    let in_both = |answers: &str| -> BTreeSet<(bool, String)> {
        let answers = answers.split(' ').map(String::from);
        answers.flat_map(|answer| [(false, answer.clone()), (true, answer)]).collect()
    };
    assert_eq!(seen, due.map(|(damage, answers)| (damage, in_both(answers))).into());
}

/// The values of all TxIds of a message.
fn transactions(message: &Message) -> Vec<Vec<u8>> {
    message.transactions().into_iter().map(|part| message.parts[part].bytes.clone()).collect()
}

/// No message that is made has a TxId twice, short as they may be; and each record has its item's.
#[test]
fn all_transactions_of_a_message_differ() {
    for message in messages() {
        let ids = transactions(&message);
        assert_eq!(ids.len(), message.items.len());
        assert_eq!(ids.iter().collect::<BTreeSet<_>>().len(), ids.len());
        assert_eq!(message.second_transaction(), None);
        for (id, record) in ids.iter().zip(&message.records) {
            assert_eq!(record[..35], *format!("{:35}", text(id)).as_bytes());
        }
    }
}

/// What the sweep of TxIds that stand twice must have: each sort, and the answers known of it.
const TWICE: [(&str, &str); 21] = [
    ("no TxId twice", "accepted"),
    ("TxId twice", "24"),
    ("TxIds shared", "24 accepted"),
    ("TxId twice, at a distance", "24"),
    ("TxId twice, of each length", "24"),
    ("TxIds nearly the same", "accepted"),
    ("TxIds in other elements", "accepted"),
    ("TxIds in other elements, one twice", "24"),
    ("TxId twice, cut", "24 3"),
    ("TxId twice, another end", "24 7"),
    ("TxId twice, no reference", "7"),
    ("TxId twice, a fault behind it", "24"),
    ("TxId twice, an empty value", "10 24 7"),
    ("TxId twice, count or total wrong", "24"),
    ("TxId twice, bytes after the end", "24"),
    ("TxId twice, payment type here and there", "23 24 4"),
    ("TxId twice, local instruments mixed", "11 24"),
    ("TxIds of one slot", "accepted"),
    ("TxIds of one slot, one twice", "24"),
    ("TxIds of few slots", "accepted"),
    ("TxIds of few slots, one twice", "24"),
];

/// The sweep of TxIds that stand twice: each answer that it can have, known from its making, in both
/// versions.
#[test]
fn transactions_twice_in_every_way() {
    let mut seen: BTreeMap<&str, BTreeSet<String>> = BTreeMap::new();
    let mut versions = BTreeSet::new();
    twice::sweep(1, |_, case| {
        let answer = match case.known {
            Known::Refused { number, .. } => number.to_string(),
            Known::Accepted { .. } => "accepted".into(),
            Known::Bad | Known::Nothing => panic!("{} is known", case.damage),
        };
        if answer == "24" {
            let is_08 = case.bytes.windows(6).any(|part| part == b"001.08");
            let text = text(&case.bytes);
            let is_typed = text.find("<PmtTpInf>") < text.find("<DrctDbtTxInf>");
            versions.insert((is_08, is_typed));
        }
        seen.entry(case.damage).or_default().insert(answer);
    });
    let answers = |answers: &str| answers.split(' ').map(String::from).collect();
    assert_eq!(seen, TWICE.map(|(damage, given)| (damage, answers(given))).into());
    assert_eq!(versions.len(), 4, "{versions:?}");
}

/// TxIds that meet in the library's index: all different, all of one sum, and those about the last slot
/// go on at the first.
#[test]
fn transactions_of_one_slot() {
    for begin in [0, 1, 16_383] {
        let ids = twice::in_slot(begin, 10_000);
        assert_eq!(ids.iter().collect::<BTreeSet<_>>().len(), 10_000);
        for id in &ids {
            assert_eq!((twice::slot(id), plain::reference(id)), (begin, Ok(0)), "{}", text(id));
        }
    }
    let ids = twice::about_slot(16_380, 200);
    let slots: BTreeSet<usize> = ids.iter().map(|id| twice::slot(id)).collect();
    assert_eq!(slots, (0..4).chain(16_380..16_384).collect());
    assert_eq!(ids.iter().collect::<BTreeSet<_>>().len(), 200);
}

/// Every sort of rubbish in an index, of which each is another; one has the numbers of items.
#[test]
fn rubbish_of_every_sort() {
    let all: BTreeSet<Vec<u32>> = (0..6).map(indexed::filled).collect();
    assert_eq!(all.len(), 6);
    assert!(all.iter().all(|index| index.len() == INDEX));
    assert!(all.iter().any(|index| index.contains(&u32::MAX)) && all.contains(&vec![1; INDEX]));
    assert!(all.contains(&(1..=INDEX as u32).collect::<Vec<u32>>()));
    assert_eq!(indexed::LENGTHS, [0, 1, 16_383, 16_384, 16_385, 65_536]);
}

#[test]
fn every_damage_and_every_number() {
    let mut damages = BTreeSet::new();
    let mut numbers = BTreeSet::new();
    for case in (0..6_000).map(|case| damage::case(1, case)) {
        damages.insert(case.damage);
        if let plain::Verdict::Refused { number, .. } = plain::judge(&case.bytes) {
            numbers.insert(number);
        }
    }
    let missing: Vec<&str> = damage::ways().filter(|way| !damages.contains(way)).collect();
    assert!(missing.is_empty(), "{missing:?}");
    // 1 and 12 are met at the limits.
    let met: Vec<u8> = numbers.into_iter().collect();
    assert_eq!(met, [2, 3, 4, 6, 7, 8, 9, 10, 11, 14, 15, 16, 19, 23, 24]);
    let mut at_limits = BTreeSet::new();
    let mut highest = 0;
    sweep::limits(|_, case| match case.known {
        Known::Refused { number, .. } => drop(at_limits.insert(number)),
        Known::Accepted { cents, .. } => highest = highest.max(cents),
        Known::Bad | Known::Nothing => {}
    });
    assert!([1, 12, 24].iter().all(|number| at_limits.contains(number)), "{at_limits:?}");
    // The highest sum that a message can have: 10,000 times the highest amount.
    assert_eq!(highest, 999_999_999_990_000);
}

/// Each way to make a twin, with what is known of it: whether the plain form is the same.
#[test]
fn every_way_to_make_a_twin() {
    let mut met = BTreeSet::new();
    for case in (0..2_000).map(|case| twins::case(1, case)) {
        let twin = case.twin.expect("it is made from another message");
        met.insert((case.damage, twin.is_same));
        assert!(twin.is_same || twin.bytes != case.bytes, "{}", case.damage);
    }
    assert_eq!(met, twins::ways().collect());
}

/// Values that collapse are among the twins that are the same, each written otherwise.
#[test]
fn twins_whose_values_collapse_alike() {
    let mut seen = BTreeSet::new();
    for case in (0..10_000).map(|case| twins::case(1, case)) {
        let twin = case.twin.expect("it is made from another message");
        if case.damage != "collapsing values otherwise written" {
            continue;
        }
        for element in COLLAPSING {
            let start = format!("<{element}>");
            let (one, other) = (values(&twin.bytes, &start), values(&case.bytes, &start));
            let words = |values: &[String]| values.iter().map(|v| collapsed(v)).collect();
            let (meant, also): (Vec<String>, Vec<String>) = (words(&one), words(&other));
            assert_eq!(meant, also);
            if one != other {
                seen.insert(element);
            }
        }
    }
    assert_eq!(seen, COLLAPSING.into_iter().collect());
}

/// The value of an item's InstrId, if it has one.
fn instruction(item: &[Part]) -> Option<&[u8]> {
    let is_it = |part: &&Part| part.name == "InstrId" && matches!(part.what, What::Value(_));
    item.iter().find(is_it).map(|part| part.bytes.as_slice())
}

/// The last three fields of a record: an InstrId behind one, behind none, and none behind each; CORE
/// and B2B, in the header and in items.
#[test]
fn what_records_hold_since_request_9() {
    let mut seen = BTreeSet::new();
    for message in messages() {
        let place = if typed::is_in_header(&message) { "in the header" } else { "in items" };
        let mut before = None;
        for (record, &(first, after)) in message.records.iter().zip(&message.items) {
            let is_instrument = |part: &&Part| part.what == What::Value(INSTRUMENTS);
            let last = message.parts[..after].iter().rev().find(is_instrument);
            let instrument = text(&last.expect("it stands in one of them").bytes);
            let own = instruction(&message.parts[first..after]);
            let due = format!("{:35}{instrument:4}", text(own.unwrap_or(b"")));
            assert_eq!((text(&record[255..294]), record.len()), (due, RECORD));
            assert_eq!(text(&record[304..]), format!("{:15}\n", ""));
            seen.insert(format!("{instrument} {place}"));
            let is_there = own.is_some();
            seen.extend(before.map(|before| format!("InstrId {is_there} behind {before}")));
            before = Some(is_there);
        }
    }
    let both = ["true", "false"].map(|one| ["true", "false"].map(|other| (one, other)));
    let ways =
        both.concat().into_iter().map(|(one, other)| format!("InstrId {one} behind {other}"));
    let codes = ["B2B in items", "B2B in the header", "CORE in items", "CORE in the header"];
    assert_eq!(seen, ways.chain(codes.map(String::from)).collect());
}

/// Of the items of twins, some differ in one recorded field alone, whichever it is; in InstrId also
/// where one of them has none.
#[test]
fn twins_that_differ_in_one_recorded_field() {
    let slow = Slow::new();
    let mut seen = BTreeSet::new();
    for case in (0..10_000).map(|case| twins::case(1, case)) {
        let twin = case.twin.expect("it is made from another message");
        let (one, other) = (slow.judge(&case.bytes), slow.judge(&twin.bytes));
        let (Ok(one), Ok(other)) = (one, other) else { panic!("{} is refused", case.damage) };
        let (one, other) = (slow.recorded(&one.said), slow.recorded(&other.said));
        for (one, other) in one.iter().zip(&other) {
            let apart: Vec<usize> = (0..one.len()).filter(|&at| one[at] != other[at]).collect();
            if let [at] = apart[..] {
                seen.insert((at, one[at].is_some(), other[at].is_some()));
            }
        }
    }
    let instruction = [(11, false, true), (11, true, false)];
    let due = (0..14).map(|at| (at, true, true)).chain(instruction);
    assert_eq!(seen, due.collect());
}

/// What is told apart by bytes alone is among the twins: a zero, a space, a branch, a sign, a case.
#[test]
fn twins_that_are_nearly_the_same() {
    let mut ends = BTreeSet::new();
    for case in (0..10_000).map(|case| twins::case(1, case)) {
        let twin = case.twin.expect("it is made from another message");
        if case.damage != "a value nearly the same" {
            continue;
        }
        for element in ["MsgId", "CreDtTm", "Id", "EndToEndId", "Nm", "Ustrd", "BIC", "BICFI"] {
            let start = format!("<{element}>");
            let (one, other) = (values(&twin.bytes, &start), values(&case.bytes, &start));
            let words =
                one.iter().zip(&other).map(|(one, other)| (collapsed(one), collapsed(other)));
            for (one, other) in words.filter(|(one, other)| one != other) {
                let more = match other.strip_prefix(&one) {
                    Some(more) => more,
                    None if other.replace(' ', "") == one.replace(' ', "") => "with a space",
                    None => "otherwise",
                };
                ends.insert(format!("{element} {more}"));
            }
        }
    }
    for due in [
        "MsgId otherwise",
        "CreDtTm otherwise",
        "CreDtTm .000",
        "Id /",
        "Id otherwise",
        "EndToEndId with a space",
        "Nm with a space",
        "Ustrd with a space",
        "BIC XXX",
        "BICFI XXX",
    ] {
        assert!(ends.contains(due), "{due}: {ends:?}");
    }
}

/// The values behind each start tag like this one. White space, which stands behind that of a group,
/// is none.
fn values(message: &[u8], start: &str) -> Vec<String> {
    let text = text(message);
    let value = |piece: &str| piece.split('<').next().unwrap_or("").to_string();
    let values = text.split(start).skip(1).map(value);
    values.filter(|value| !value.trim().is_empty()).collect()
}

/// Amounts of none, one and two decimals and of up to 15 digits, counts of up to 15; and each of
/// these has the one plain form of its message.
#[test]
fn every_spelling() {
    let mut amounts = BTreeSet::new();
    let mut counts = BTreeSet::new();
    let mut forms = BTreeSet::new();
    spellings::spellings(1, |_, case| {
        for name in ["TtlIntrBkSttlmAmt", "IntrBkSttlmAmt"] {
            let value = values(&case.bytes, &format!("<{name} Ccy=\"EUR\">")).remove(0);
            let (whole, decimals) = value.split_once('.').unwrap_or((&value, ""));
            amounts.insert((name, whole.len(), decimals.len()));
        }
        counts.extend(values(&case.bytes, "<NbOfTxs>"));
        if case.damage != "white space in a value" {
            forms.insert(case.plain);
        }
    });
    let each = |name| {
        let lengths = (1..=15).flat_map(|whole| [0, 1, 2].map(|decimals| (whole, decimals)));
        lengths.map(move |(whole, decimals)| (name, whole, decimals))
    };
    assert_eq!(amounts, each("TtlIntrBkSttlmAmt").chain(each("IntrBkSttlmAmt")).collect());
    let padded = |count: &str| -> Vec<String> {
        (count.len()..=15).map(|width| format!("{count:0>width$}")).collect()
    };
    assert_eq!(counts, [padded("1"), padded("12")].concat().into_iter().collect());
    // Two messages of one item, with an amount of their own and with ten others; two of twelve items;
    // one with its payment type in the header.
    assert_eq!(forms.len(), 2 * (1 + 10) + 2 + 1);
}

/// Each white byte in each value that collapses, at its ends and inside, with the record; and values
/// of the longest collapsed length that are longer as they lie.
#[test]
fn every_spelling_of_values_that_collapse() {
    let mut seen = BTreeSet::new();
    spellings::spellings(1, |_, case| {
        if case.damage != "white space in a value" {
            return;
        }
        assert_eq!(case.records.len(), RECORD);
        for (element, longest) in [("EndToEndId", 35), ("Nm", 70), ("Ustrd", 140)] {
            for value in values(&case.bytes, &format!("<{element}>")) {
                let meant = collapsed(&value);
                assert!(text(&case.plain).contains(&format!("<{element}>{meant}</{element}>")));
                if meant.len() == longest && value.len() == longest + 39 {
                    seen.insert((element, "longest".to_string()));
                }
                for white in [' ', '\t', '\r', '\n'] {
                    let inside = value.trim().contains(white);
                    let places = [value.starts_with(white), inside, value.ends_with(white)];
                    seen.insert((element, format!("{white:?} {places:?}")));
                }
            }
        }
    });
    for element in COLLAPSING {
        assert!(seen.contains(&(element, "longest".to_string())), "{element}");
        for white in [' ', '\t', '\r', '\n'] {
            for at in 0..3 {
                let mut places = [false; 3];
                places[at] = true;
                let due = (element, format!("{white:?} {places:?}"));
                assert!(seen.contains(&due), "{due:?}");
            }
        }
    }
}

/// The longest plain form that there is, and one that is as much longer than its message as can be.
#[test]
fn plain_forms_at_the_limits() {
    let mut lengths = Vec::new();
    spellings::limits(&mut |case| lengths.push((case.bytes.len(), case.plain.len())));
    let (longest, growing) = (lengths[0], lengths[1]);
    assert_eq!(longest, (13_540_518 - 38, 13_540_518));
    assert_eq!(growing.1 - growing.0, 38 + 3 * 10_001);
}

/// Every sort of slip in letters, with every answer that it can have, and the plain judge answers so.
#[test]
fn every_slip_in_letters() {
    let mut met = BTreeSet::new();
    letters::sweep(&mut Random::new(1, 0), &mut |kind, bytes, sort, known| {
        assert_eq!(plain_check(kind, &bytes), known, "{sort}: {}", bytes.escape_ascii());
        met.insert((sort, known.err().unwrap_or(0)));
    });
    let due = [
        ("slip: letter replaced", vec![8, 19]),
        ("slip: small letter", vec![7]),
        ("slip: letters exchanged", vec![8, 19]),
        ("slip: digit and letter exchanged early", vec![7]),
        ("slip: digit and letter exchanged", vec![8]),
        ("slip: excepted pair exchanged", vec![0]),
        ("slip: identifier's letter replaced", vec![0, 8]),
        ("slip: identifier's neighbours exchanged", vec![0, 8]),
        ("slip: identifier's positions 7 and 8", vec![0, 7, 8]),
        ("slip: identifier's positions 5 to 7", vec![0]),
        ("slip: identifier's positions 4 and 5", vec![7]),
    ];
    let due = due.iter().flat_map(|(sort, answers)| answers.iter().map(|&answer| (*sort, answer)));
    assert_eq!(met, due.collect());
}

/// The same seed gives the same case, and every slip is known to be refused, but that of a pair that
/// writes the same number in both orders.
#[test]
fn cases_can_be_made_again() {
    for number in 0..200 {
        assert_eq!(damage::case(3, number).bytes, damage::case(3, number).bytes);
    }
    let mut slipped = Vec::new();
    slips::slips(3, 5, |number, case| {
        let is_refused = matches!(case.known, Known::Refused { .. });
        assert_eq!(is_refused, case.damage != "slip: excepted pair exchanged");
        slipped.push((number, case.bytes, case.known));
    });
    let mut again = slipped.into_iter();
    slips::slips(3, 5, |number, case| {
        assert_eq!(again.next(), Some((number, case.bytes, case.known)));
    });
}
