//! `--json`: one object per file, item or value, always with the same keys, and the keys documented.

use crate::common::*;
use std::collections::BTreeMap;

/// A small reader of JSON, enough to hold the command to it.
#[derive(Clone, Debug, PartialEq)]
enum Json {
    Null,
    Number(u64),
    Text(String),
    List(Vec<Json>),
    Object(Vec<(String, Json)>),
}

struct Reader<'a> {
    rest: &'a str,
}

impl Reader<'_> {
    /// Takes this text, if it comes next.
    fn takes(&mut self, text: &str) -> bool {
        let rest = self.rest.strip_prefix(text);
        self.rest = rest.unwrap_or(self.rest);
        rest.is_some()
    }

    /// Takes a value.
    fn value(&mut self) -> Json {
        if self.takes("null") {
            Json::Null
        } else if self.takes("[") {
            let mut list = Vec::new();
            while !self.takes("]") {
                assert!(list.is_empty() || self.takes(","), "{}", self.rest);
                list.push(self.value());
            }
            Json::List(list)
        } else if self.takes("{") {
            let mut object = Vec::new();
            while !self.takes("}") {
                assert!(object.is_empty() || self.takes(","), "{}", self.rest);
                let key = self.text();
                assert!(self.takes(":"), "{}", self.rest);
                object.push((key, self.value()));
            }
            Json::Object(object)
        } else if self.rest.starts_with('"') {
            Json::Text(self.text())
        } else {
            let end = self.rest.find(|digit: char| !digit.is_ascii_digit()).unwrap();
            let (number, rest) = self.rest.split_at(end);
            self.rest = rest;
            Json::Number(number.parse().unwrap())
        }
    }

    /// Takes a text in quotation marks.
    fn text(&mut self) -> String {
        assert!(self.takes("\""), "{}", self.rest);
        let mut units = Vec::new();
        while !self.takes("\"") {
            if self.takes("\\u") {
                units.push(u16::from_str_radix(&self.rest[..4], 16).unwrap());
                self.rest = &self.rest[4..];
            } else {
                self.takes("\\");
                let letter = self.rest.chars().next().unwrap();
                assert!(!letter.is_control());
                units.extend(letter.encode_utf16(&mut [0; 2]).iter());
                self.rest = &self.rest[letter.len_utf8()..];
            }
        }
        String::from_utf16(&units).unwrap()
    }
}

/// The objects of the lines.
fn objects(lines: &str) -> Vec<BTreeMap<String, Json>> {
    let object = |line: &str| {
        let mut reader = Reader { rest: line };
        let Json::Object(pairs) = reader.value() else { panic!("{line}") };
        assert_eq!(reader.rest, "");
        let object: BTreeMap<String, Json> = pairs.iter().cloned().collect();
        assert_eq!(object.len(), pairs.len(), "a key stands twice");
        object
    };
    lines.lines().map(object).collect()
}

/// A text as a value.
fn string(text: &str) -> Json {
    Json::Text(text.to_string())
}

#[test]
fn one_object_per_file() {
    let none = sample("none.xml");
    let (good, bad) = (sample("evening.xml"), sample("october.xml"));
    let said = bulk(&["--json", "judge", text(&good), text(&bad), text(&none)]);
    let objects = objects(&said.out);
    assert_eq!((said.status, objects.len()), (2, 3));
    let keys = |at: usize| objects[at].keys().collect::<Vec<_>>();
    assert!(keys(0) == keys(1) && keys(0) == keys(2));

    let first = &objects[0];
    assert_eq!(first["verdict"], string("accepted"));
    assert_eq!((&first["count"], &first["cents"]), (&Json::Number(5), &Json::Number(202_490)));
    assert_eq!(first["msg_id"], string("BULK-2026-10-28-EVENING"));
    assert_eq!(first["settlement_date"], string("2026-10-30"));
    assert_eq!((&first["instrument"], &first["number"]), (&string("CORE"), &Json::Null));
    let second = &objects[1];
    assert_eq!((&second["number"], &second["place"]), (&Json::Number(24), &Json::Number(3988)));
    assert_eq!((&second["item"], &second["earlier_item"]), (&Json::Number(3), &Json::Number(2)));
    assert_eq!((&second["found"], &second["tx_id"]), (&string("TX-20261028-0002"), &Json::Null));
    assert_eq!(second["why"], string("item 3 has the TxId of item 2"));
    assert_eq!((&first["earlier_item"], &second["header"]), (&Json::Null, &Json::Null));
    assert_eq!(second["same_msg_id"], string(text(&good)));
    let Json::List(doubled) = &second["doubled"] else { panic!() };
    let pair = Json::Object(vec![
        ("tx_id".into(), string("TX-20261028-0002")),
        ("items".into(), Json::List(vec![Json::Number(2), Json::Number(3)])),
    ]);
    assert_eq!((doubled.len(), &doubled[0]), (2, &pair));
    assert_eq!(objects[2]["verdict"], string("unread"));
    assert!(matches!(&objects[2]["error"], Json::Text(text) if text.contains("no such file")));
}

#[test]
fn a_refusal_in_an_item_of_a_file_with_an_odd_name() {
    let folder = Folder::new();
    let odd = folder.put("\u{202e}\"\\\n.xml", damaged("Gluehbirne", "Glühbirne"));
    let said = bulk(&["--json", "judge", text(&odd)]).done(1);
    assert!(!said.contains('\u{202e}'));
    let object = &objects(&said)[0];
    assert_eq!(object["file"], string(text(&odd)));
    assert_eq!(object["found"], string("Anna Glühbirne"));
    assert_eq!(object["why"], string("character 8, “ü”, is not allowed"));
    assert_eq!((&object["item"], &object["item_cents"]), (&Json::Number(1), &Json::Number(84_500)));
    assert_eq!((&object["tx_id"], &object["debtor"]), (&string("TX-20261028-0001"), &Json::Null));
}

#[test]
fn one_object_per_item() {
    let said = bulk(&["--json", "items", text(&sample("evening.xml"))]).done(0);
    let items = objects(&said);
    assert_eq!(items.len(), 5);
    let item = &items[2];
    assert_eq!((&item["item"], &item["cents"]), (&Json::Number(3), &Json::Number(112_050)));
    assert_eq!((&item["euros"], &item["sequence"]), (&string("1120.50"), &string("RCUR")));
    assert_eq!(item["mandate"], string("LEASE-2023-0208"));
    assert_eq!(item["mandate_date"], string("2023-02-14"));
    assert_eq!(item["doubled"], Json::Null);
    // A bulk whose count is wrong has items too; the refusal is on standard error.
    let october = without_doubles(&std::fs::read_to_string(sample("october.xml")).unwrap());
    let said = piped(&["--json", "items", "-"], october);
    assert_eq!(said.status, 1);
    let items = objects(&said.out);
    assert_eq!(items.len(), 7);
    let other = |at: usize| (&items[at]["doubled"], &items[at]["looks_doubled"]);
    assert_eq!(other(1), (&Json::Null, &Json::Number(3)));
    assert_eq!(other(2), (&Json::Null, &Json::Number(2)));
    let refused = &objects(&said.err)[0];
    assert_eq!((&refused["number"], &refused["doubled"]), (&Json::Number(14), &Json::List(vec![])));
    assert_eq!((&refused["header"], &refused["items"]), (&string("9"), &string("7")));
}

#[test]
fn one_object_for_records_and_for_a_value() {
    let folder = Folder::new();
    let (file, out) = (sample("evening.xml"), folder.path("out"));
    let said = objects(&bulk(&["--json", "records", text(&file), text(&out)]).done(0));
    assert_eq!(
        (&said[0]["records"], &said[0]["cents"]),
        (&string(text(&out)), &Json::Number(202_490))
    );
    let said = objects(&bulk(&["--json", "check", "item-amount", "5.3"]).done(0));
    assert_eq!((&said[0]["worth"], &said[0]["number"]), (&Json::Number(530), &Json::Null));
    let said = objects(&bulk(&["--json", "check", "bic", "X\u{1b}"]).done(1));
    assert_eq!((&said[0]["value"], &said[0]["number"]), (&string("X\u{1b}"), &Json::Number(7)));
}

#[test]
fn one_object_for_the_plain_form() {
    let folder = Folder::new();
    let (file, out) = (sample("evening.xml"), folder.path("out"));
    let said = objects(&bulk(&["--json", "plain", text(&file), text(&out)]).done(0));
    assert_eq!(
        (&said[0]["plain"], &said[0]["cents"]),
        (&string(text(&out)), &Json::Number(202_490))
    );
    // To standard output: the object is on standard error.
    let said = bulk(&["--json", "plain", text(&file)]);
    assert_eq!(said.out, std::fs::read_to_string(&out).unwrap());
    let object = &objects(&said.err)[0];
    assert_eq!((&object["plain"], &object["verdict"]), (&Json::Null, &string("accepted")));
}

#[test]
fn one_object_for_two_files() {
    let [one, padded, more, bad] =
        ["evening.xml", "evening-padded.xml", "alike.xml", "october.xml"].map(sample);
    let compare = |one, other, status| {
        let said = objects(&bulk(&["--json", "same", text(one), text(other)]).done(status));
        assert_eq!(said.len(), 1);
        said.into_iter().next().unwrap()
    };
    let same = compare(&one, &padded, 0);
    assert_eq!((&same["file"], &same["other"]), (&string(text(&one)), &string(text(&padded))));
    assert_eq!((&same["verdict"], &same["count"]), (&string("same"), &Json::Number(5)));
    assert_eq!(
        (&same["cents"], &same["differences"]),
        (&Json::Number(202_490), &Json::List(vec![]))
    );

    let different = compare(&one, &more, 1);
    assert_eq!((&different["verdict"], &different["count"]), (&string("different"), &Json::Null));
    assert_eq!(different["different_items"], Json::List(vec![Json::Number(6)]));
    let Json::List(differences) = &different["differences"] else { panic!() };
    let object = |item, tx_id, other, element: &str, here, there| {
        let keys = ["item", "tx_id", "other_tx_id", "element", "here", "there"].map(String::from);
        let values = [item, tx_id, other, string(element), here, there];
        Json::Object(keys.into_iter().zip(values).collect())
    };
    let null = || Json::Null;
    let count = object(null(), null(), null(), "NbOfTxs", string("5"), string("6"));
    let tx_id = || string("TX-20261028-0006");
    let item = object(Json::Number(6), null(), tx_id(), "DrctDbtTxInf", null(), tx_id());
    assert_eq!((&differences[0], &differences[2], differences.len()), (&count, &item, 3));

    let refused = compare(&bad, &one, 1);
    assert_eq!(refused["verdict"], string("refused"));
    let judged = bulk(&["--json", "judge", text(&bad)]).done(1);
    let judged = Reader { rest: judged.trim_end() }.value();
    assert_eq!(refused["refused"], Json::List(vec![judged]));
    assert!(same.keys().eq(different.keys()) && same.keys().eq(refused.keys()));
}

#[test]
fn one_object_per_call() {
    let folder = Folder::new();
    let (good, bad) = (sample("evening.xml"), sample("october.xml"));
    let key = "CORE BULK-2026-10-28-EVENING HAFNDEHHXXX 2026-10-30";
    let lines = format!(
        "# a day\nenter {0}\nenter {1}\nenter {0}\nfind {key}\ntotal\nlist\nwithdraw {key}\n\
         find {key}\n",
        text(&good),
        text(&bad)
    );
    let script = folder.put("day.book", lines);
    let said = objects(&bulk(&["--json", "book", text(&script)]).done(1));
    let verdicts =
        ["entered", "refused", "refused", "at", "total", "list", "withdrawn", "none"].map(string);
    assert_eq!(said.iter().map(|object| object["verdict"].clone()).collect::<Vec<_>>(), verdicts);
    assert!(said.iter().all(|object| object.keys().eq(said[0].keys())));
    let lines = (2..10).map(Json::Number);
    assert!(lines.eq(said.iter().map(|object| object["line"].clone())));

    let [entered, refused, doubled, at, _, list, withdrawn, none] = &said[..] else { panic!() };
    assert_eq!((&entered["call"], &entered["file"]), (&string("enter"), &string(text(&good))));
    assert_eq!((&entered["service"], &entered["bic"]), (&string("CORE"), &string("HAFNDEHHXXX")));
    assert_eq!((&entered["cents"], &entered["open"]), (&Json::Number(202_490), &Json::Number(1)));
    assert_eq!(entered["open_euros"], string("2024.90"));
    for (object, file, status) in [(entered, &good, 0), (refused, &bad, 1)] {
        let judged = bulk(&["--json", "judge", text(file)]).done(status);
        assert_eq!(object["judged"], Reader { rest: judged.trim_end() }.value());
    }
    assert_eq!((&refused["number"], &refused["place"]), (&Json::Number(24), &Json::Number(3988)));
    assert_eq!((&doubled["number"], &doubled["place"]), (&Json::Number(20), &Json::Number(0)));
    assert_eq!(doubled["meaning"], string("A bulk with this key is open already."));
    assert_eq!((&at["at"], &at["file"]), (&Json::Number(0), &Json::Null));
    let Json::List(bulks) = &list["bulks"] else { panic!() };
    let Json::Object(first) = &bulks[0] else { panic!() };
    assert_eq!((bulks.len(), &first[0]), (1, &("at".to_string(), Json::Number(0))));
    assert_eq!(first[5], ("cents".to_string(), Json::Number(202_490)));
    assert_eq!((&withdrawn["cents"], &withdrawn["open"]), (&at["cents"], &Json::Number(0)));
    assert_eq!((&none["at"], &none["bulks"]), (&Json::Null, &Json::List(vec![])));
}

#[test]
fn an_iban_of_another_length() {
    let changed = damaged("DE48200999000041726300", "DE592009990000417263000");
    let said = objects(&piped(&["--json", "judge", "-"], &changed).done(1));
    assert_eq!((&said[0]["number"], &said[0]["item"]), (&Json::Number(19), &Json::Number(1)));
    assert_eq!(said[0]["found"], string("DE592009990000417263000"));
    let why = string("an IBAN from DE has 22 characters, this one has 23");
    assert_eq!(said[0]["why"], why);
    let place = changed.find("DE592009990000417263000").unwrap() as u64;
    assert_eq!(said[0]["place"], Json::Number(place));
    let said = objects(&bulk(&["--json", "check", "iban", "DE592009990000417263000"]).done(1));
    assert_eq!((&said[0]["number"], &said[0]["why"]), (&Json::Number(19), &why));
    // No item of it is told: those behind the place were not judged.
    let said = piped(&["--json", "items", "-"], &changed);
    assert_eq!((said.status, said.out.as_str()), (1, ""));
    assert_eq!(objects(&said.err)[0]["number"], Json::Number(19));
}

#[test]
fn a_total_is_never_rounded() {
    // Too large for a float to tell it from its neighbours.
    let said = piped(&["--json", "judge", "-"], damaged("2024.90", "999999999999999.99")).done(1);
    let said = objects(&said);
    assert_eq!(said[0]["header"], string("999999999999999.99"));
    assert_eq!(said[0]["items"], string("2024.90"));
}

#[test]
fn every_key_is_documented() {
    let readme = include_str!("../../README.md");
    let folder = Folder::new();
    let (file, out, good) = (sample("october.xml"), folder.path("out"), sample("evening.xml"));
    for words in [
        &["judge", text(&file)][..],
        &["items", text(&good)],
        &["records", text(&sample("evening.xml")), text(&out)],
        &["plain", text(&sample("evening.xml")), text(&folder.path("plain"))],
        &["same", text(&sample("evening.xml")), text(&sample("alike.xml"))],
        &["book", text(&folder.put("day.book", format!("enter {}\nlist\n", text(&good))))],
        &["check", "iban", "x"],
        &["play", text(&sample("october-day.rec")), text(&sample("october-night.xml"))],
        &["play", text(&folder.put("no.rec", ""))],
    ] {
        for object in objects(&bulk(&[&["--json"], words].concat()).out) {
            let mut keys: Vec<&String> = object.keys().collect();
            // Those of a difference, of an open bulk and of a sum too.
            for list in ["differences", "bulks", "sums"].map(|key| object.get(key)) {
                let Some(Json::List(list)) = list else { continue };
                let Some(Json::Object(pairs)) = list.first() else { continue };
                keys.extend(pairs.iter().map(|pair| &pair.0));
            }
            for key in keys {
                assert!(readme.contains(&format!("| `{key}` |")), "{key}");
            }
        }
    }
}
