//! What two plain forms differ in: the version, the elements of the header, and the first element of the
//! first item. The library has written them, so what is compared here is bytes alone. Where the versions
//! differ, a BIC of the one is held against that of the other, so that all else that differs is told too.

use crate::doubled::Group;
use crate::message::{self, Contents, Item};
use crate::show::shown;
use crate::tags::{until, Open, Tags, HEADER, ITEM};
use crate::version::Version;

/// What every plain form ends with, behind its last item.
const END: &[u8] = b"</FIToFICstmrDrctDbt></Document>";

/// The element whose namespace is the version.
pub const ROOT: &str = "Document";

/// A value in which the two differ.
#[derive(Debug, PartialEq, Eq)]
pub struct Difference<'a> {
    /// The number of the item, from 1, with its TxId on either side, empty where there is no such item;
    /// none for the header.
    pub item: Option<(usize, [&'a [u8]; 2])>,
    /// The path of the element in the header or in the item; the root for the version; none for an item
    /// that one side has alone.
    pub element: Option<String>,
    /// What it says on either side, if it is there. Of a whole item that is its TxId.
    pub values: [Option<&'a [u8]>; 2],
}

/// Two plain forms that were compared.
#[derive(Debug, PartialEq, Eq)]
pub struct Compared<'a> {
    /// The version, all in the header, and the first in the first item that differs.
    pub differences: Vec<Difference<'a>>,
    /// The numbers of all items that differ, or that one side has alone.
    pub items: Group,
}

impl<'a> Compared<'a> {
    /// Compares two plain forms.
    pub fn of(one: &'a [u8], other: &'a [u8]) -> Compared<'a> {
        let (one, other) = (Parts::of(one), Parts::of(other));
        let mut differences = Vec::from_iter(versions(&one, &other));
        differences.extend(between(one.header, other.header, None));
        let most = one.items.len().max(other.items.len());
        let differ = |&at: &usize| match (one.item(at), other.item(at)) {
            (Some(one), Some(other)) => one != other && !between(one, other, None).is_empty(),
            _ => true,
        };
        let items: Group = (1..=most).filter(differ).collect();
        differences.extend(items.first().and_then(|&at| first_in(at, &one, &other)));
        Compared { differences, items }
    }

    /// Whether they do not differ.
    pub fn is_same(&self) -> bool {
        self.differences.is_empty()
    }
}

/// The versions, where they differ.
fn versions<'a>(one: &Parts, other: &Parts) -> Option<Difference<'a>> {
    let values = [one, other].map(|parts| parts.version.map(|version| version.name().as_bytes()));
    let element = Some(ROOT.to_string());
    (values[0] != values[1]).then_some(Difference { item: None, element, values })
}

/// The first difference in an item, by its number.
fn first_in<'a>(at: usize, one: &Parts<'a>, other: &Parts<'a>) -> Option<Difference<'a>> {
    let tx_ids = [one.tx_id(at), other.tx_id(at)];
    let item = Some((at, tx_ids));
    match (one.item(at), other.item(at)) {
        (Some(one), Some(other)) => between(one, other, item).into_iter().next(),
        _ => {
            let values = tx_ids.map(|tx_id| Some(tx_id).filter(|tx_id| !tx_id.is_empty()));
            Some(Difference { item, element: None, values })
        }
    }
}

/// A plain form in parts: its header with all before it, and its items.
struct Parts<'a> {
    form: &'a [u8],
    header: &'a [u8],
    items: Vec<Item<'a>>,
    /// Where the last item ends.
    end: usize,
    version: Option<Version>,
}

impl<'a> Parts<'a> {
    /// The parts of a form.
    fn of(form: &'a [u8]) -> Parts<'a> {
        let Contents { items, version, .. } = message::read(form, form.len());
        let end = form.len().saturating_sub(END.len());
        let header = &form[..items.first().map_or(end, |item| item.place)];
        Parts { form, header, items, end, version }
    }

    /// The bytes of an item, by its number from 1, if it is there.
    fn item(&self, number: usize) -> Option<&'a [u8]> {
        let start = self.items.get(number - 1)?.place;
        let end = self.items.get(number).map_or(self.end, |next| next.place);
        Some(&self.form[start..end])
    }

    /// The TxId of an item; of one that is not there it is empty.
    fn tx_id(&self, number: usize) -> &'a [u8] {
        self.items.get(number - 1).map_or(b"", |item| item.tx_id)
    }
}

/// A value and the path of its element.
type Value<'a> = (String, &'a [u8]);

/// Of the path of a BIC, in either version, the group that it stands in.
fn around_bic(path: &str) -> Option<&str> {
    let (group, name) = path.rsplit_once('/')?;
    Version::is_bic(name.as_bytes()).then_some(group)
}

/// Whether two paths are those of one element: of a BIC also in two versions.
fn is_one(path: &str, other: &str) -> bool {
    path == other || (around_bic(path).is_some() && around_bic(path) == around_bic(other))
}

/// The values of a header or an item in their order. In a plain form nothing stands behind the start
/// tag of a group, and no value is empty.
fn values(part: &[u8]) -> Vec<Value<'_>> {
    let mut open = Open::default();
    let mut values = Vec::new();
    for tag in Tags::of(part) {
        let value = until(&part[tag.end..], b'<');
        if open.step(&tag) && !value.is_empty() {
            let inside = open.names().skip_while(|name| *name != HEADER && *name != ITEM);
            let path: Vec<String> = inside.skip(1).map(shown).collect();
            values.push((path.join("/"), value));
        }
    }
    values
}

/// What two headers or two items differ in, in the order of their elements. An element that comes next
/// on one side and not at all on the other is missing there. A path is told as the first side has it.
fn between<'a>(
    one: &'a [u8],
    other: &'a [u8],
    item: Option<(usize, [&'a [u8]; 2])>,
) -> Vec<Difference<'a>> {
    let (ones, others) = (values(one), values(other));
    let (mut ones, mut others) = (&ones[..], &others[..]);
    let mut found = Vec::new();
    loop {
        let next = match ones.first() {
            Some(one) if others.iter().all(|other| !is_one(&other.0, &one.0)) => Some(one),
            _ => others.first(),
        };
        let path = match next {
            Some((path, _)) => path,
            None => return found,
        };
        let path = ones.first().map(|one| &one.0).filter(|one| is_one(one, path)).unwrap_or(path);
        let values = [take(&mut ones, path), take(&mut others, path)];
        if values[0] != values[1] {
            found.push(Difference { item, element: Some(path.clone()), values });
        }
    }
}

/// Takes the next value if it is of this path.
fn take<'a>(left: &mut &[Value<'a>], path: &str) -> Option<&'a [u8]> {
    let (first, rest) = left.split_first().filter(|(first, _)| is_one(&first.0, path))?;
    *left = rest;
    Some(first.1)
}

#[cfg(test)]
mod tests {
    use super::*;

    const EVENING: &str = include_str!("../../../samples/evening.xml");

    /// The evening's plain form with these texts replaced, each the first of its kind.
    fn evening(replaced: &[(&str, &str)]) -> Vec<u8> {
        let mut text = EVENING.trim_end().to_string();
        for (old, new) in replaced {
            assert!(text.contains(old), "{old}");
            text = text.replacen(old, new, 1);
        }
        text.into_bytes()
    }

    /// The differences as text: item, element, here and there.
    fn told(one: &[u8], other: &[u8]) -> Vec<String> {
        let value = |value: Option<&[u8]>| value.map_or("none".to_string(), shown);
        let line = |difference: &Difference| {
            let item = difference.item.map_or(0, |(item, _)| item);
            let element = difference.element.as_deref().unwrap_or("all of it");
            let [here, there] = difference.values.map(value);
            format!("{item} {element}: {here}, {there}")
        };
        Compared::of(one, other).differences.iter().map(line).collect()
    }

    #[test]
    fn the_same_is_the_same() {
        let evening = evening(&[]);
        let compared = Compared::of(&evening, &evening);
        assert_eq!(compared, Compared { differences: Vec::new(), items: Vec::new() });
        assert!(compared.is_same());
    }

    /// Each value of the evening changed alone is the difference that is told, with its own path.
    #[test]
    fn every_value_is_found() {
        let evening = evening(&[]);
        let parts = Parts::of(&evening);
        assert_eq!(parts.items.len(), 5);
        let mut paths = 0;
        for number in 0..=5 {
            let part = if number == 0 { parts.header } else { parts.item(number).unwrap() };
            for (path, value) in values(part) {
                let place = value.as_ptr() as usize - evening.as_ptr() as usize;
                let mut other = evening.clone();
                other.insert(place, b'7');
                let (here, there) = (shown(value), format!("7{}", shown(value)));
                let due = format!("{number} {path}: {here}, {there}");
                assert_eq!(told(&evening, &other), [due]);
                let numbers: Group = (number..=number).filter(|&number| number > 0).collect();
                assert_eq!(Compared::of(&evening, &other).items, numbers);
                paths += 1;
            }
        }
        // Seven in the header, 18 in each item, and in all of them one InstrId and three Ustrd.
        assert_eq!(paths, 7 + 5 * 18 + 4);
    }

    #[test]
    fn the_header_and_the_first_item() {
        let one = evening(&[]);
        let other = evening(&[
            ("18:42:07", "18:45:00"),
            ("2024.90", "2024.91"),
            ("1120.50", "1120.51"),
            ("TX-20261028-0005", "TX-20261028-0009"),
        ]);
        let due = [
            "0 CreDtTm: 2026-10-28T18:42:07+01:00, 2026-10-28T18:45:00+01:00",
            "0 TtlIntrBkSttlmAmt: 2024.90, 2024.91",
            "3 IntrBkSttlmAmt: 1120.50, 1120.51",
        ];
        assert_eq!(told(&one, &other), due);
        assert_eq!(Compared::of(&one, &other).items, [3, 5]);
    }

    #[test]
    fn an_element_on_one_side_alone() {
        let one = evening(&[]);
        let other = evening(&[("<PmtId>", "<PmtId><InstrId>I-1</InstrId>")]);
        assert_eq!(told(&one, &other), ["1 PmtId/InstrId: none, I-1"]);
        assert_eq!(told(&other, &one), ["1 PmtId/InstrId: I-1, none"]);
        let start = EVENING.find("<RmtInf>").unwrap();
        let end = EVENING.find("</RmtInf>").unwrap() + "</RmtInf>".len();
        let text = &EVENING[start..end];
        let said = text.replace("<RmtInf><Ustrd>", "").replace("</Ustrd></RmtInf>", "");
        let other = evening(&[(text, "")]);
        assert_eq!(told(&one, &other), [format!("1 RmtInf/Ustrd: {said}, none")]);
        assert_eq!(told(&other, &one), [format!("1 RmtInf/Ustrd: none, {said}")]);
    }

    /// The other version alone, and with other differences: each BIC is held against its own.
    #[test]
    fn two_versions() {
        let one = evening(&[]);
        let as_08 = |form: &[u8]| {
            let text = String::from_utf8(form.to_vec()).unwrap();
            text.replacen("001.02", "001.08", 1).replace("BIC>", "BICFI>").into_bytes()
        };
        let versions = "0 Document: pacs.003.001.02, pacs.003.001.08";
        assert_eq!(told(&one, &as_08(&one)), [versions]);
        assert_eq!(told(&as_08(&one), &one), ["0 Document: pacs.003.001.08, pacs.003.001.02"]);
        assert_eq!(told(&as_08(&one), &as_08(&one)), [""; 0]);
        let other = as_08(&evening(&[("HAFNDEHHXXX", "1AFNDEHHXXX"), ("TULPNL2A", "TUL1NL2A")]));
        let compared = Compared::of(&one, &other);
        assert_eq!(compared.items, [3]);
        let due = [
            versions,
            "0 InstgAgt/FinInstnId/BIC: HAFNDEHHXXX, 1AFNDEHHXXX",
            "3 DbtrAgt/FinInstnId/BIC: TULPNL2A, TUL1NL2A",
        ];
        assert_eq!(told(&one, &other), due);
        let due = "3 DbtrAgt/FinInstnId/BICFI: TUL1NL2A, TULPNL2A";
        assert_eq!(told(&other, &one).last().unwrap(), due);
        // An element on one side alone, and an item.
        let other = as_08(&evening(&[("<PmtId>", "<PmtId><InstrId>I-1</InstrId>")]));
        assert_eq!(told(&one, &other), [versions, "1 PmtId/InstrId: none, I-1"]);
        let parts = Parts::of(&one);
        let fewer = [&one[..parts.items[4].place], &one[parts.end..]].concat();
        let due = [versions, "5 all of it: TX-20261028-0005, none"];
        assert_eq!(told(&one, &as_08(&fewer)), due);
    }

    #[test]
    fn an_item_on_one_side_alone() {
        let one = evening(&[]);
        let parts = Parts::of(&one);
        let last = parts.item(5).unwrap().len();
        let cut = parts.end - last;
        let other = [&one[..cut], &one[parts.end..]].concat();
        assert_eq!(told(&one, &other), ["5 all of it: TX-20261028-0005, none"]);
        assert_eq!(told(&other, &one), ["5 all of it: none, TX-20261028-0005"]);
        assert_eq!(Compared::of(&one, &other).items, [5]);
        // One in the middle: all behind it have moved.
        let (second, third) = (parts.items[1].place, parts.items[2].place);
        let other = [&one[..second], &one[third..]].concat();
        let compared = Compared::of(&one, &other);
        assert_eq!(compared.items, [2, 3, 4, 5]);
        let tx_ids = [&b"TX-20261028-0002"[..], b"TX-20261028-0003"];
        assert_eq!(compared.differences[0].item, Some((2, tx_ids)));
    }
}
