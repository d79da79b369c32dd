//! Doubled items: a TxId that stands more than once, for which a bulk is refused, and items that agree in
//! all that matters under different TxIds, which are warned of. Each item is looked up once, so ten
//! thousand take no longer than they must.

use crate::language::Language;
use crate::message::Item;
use crate::show::shown;
use std::collections::HashMap;
use std::hash::Hash;

/// Items, by their numbers from 1 in rising order, that are doubles of each other.
pub type Group = Vec<usize>;

/// The doubled items of a bulk, each list in the order of the first item of its groups.
#[derive(Debug, Default, PartialEq, Eq)]
pub struct Doubled<'a> {
    /// Each TxId that stands more than once, and its items.
    pub same: Vec<(&'a [u8], Group)>,
    /// Different TxIds, and the same EndToEndId (collapsed), debtor IBAN, amount and collection date.
    pub alike: Vec<Group>,
}

impl<'a> Doubled<'a> {
    /// The doubled ones among the items.
    pub fn among(items: &[Item<'a>]) -> Doubled<'a> {
        let mut alike = groups(items, |item| {
            let texts = [&*item.end_to_end_id, item.debtor_iban, item.collection_date];
            item.cents.filter(|_| !texts.contains(&&b""[..])).map(|cents| (cents, texts))
        });
        // Where all share one TxId the first list has them.
        alike.retain(|group| {
            group.iter().any(|&number| items[number - 1].tx_id != items[group[0] - 1].tx_id)
        });
        Doubled { alike, ..Doubled::same_among(items) }
    }

    /// Those with the same TxId alone.
    pub fn same_among(items: &[Item<'a>]) -> Doubled<'a> {
        let same = groups(items, |item| Some(item.tx_id).filter(|tx_id| !tx_id.is_empty()));
        let named = |group: Group| (items[group[0] - 1].tx_id, group);
        Doubled { same: same.into_iter().map(named).collect(), alike: Vec::new() }
    }
}

/// The items that share a key, where there are two or more.
fn groups<'a, K: Eq + Hash>(items: &'a [Item], key: impl Fn(&'a Item) -> Option<K>) -> Vec<Group> {
    let mut by_key: HashMap<K, Group> = HashMap::new();
    for (at, item) in items.iter().enumerate() {
        if let Some(key) = key(item) {
            by_key.entry(key).or_default().push(at + 1);
        }
    }
    let mut groups: Vec<Group> = by_key.into_values().filter(|group| group.len() > 1).collect();
    groups.sort_unstable();
    groups
}

/// For each of so many items the group that it belongs to, if any.
pub fn by_item(groups: &[Group], count: usize) -> Vec<Option<&Group>> {
    let mut of = vec![None; count];
    for group in groups {
        group.iter().for_each(|&number| of[number - 1] = Some(group));
    }
    of
}

/// Another item of the group: its first, and for that one its second.
pub fn other(group: &Group, number: usize) -> usize {
    if group[0] == number {
        group[1]
    } else {
        group[0]
    }
}

/// What is told below a line, indented, with a line for each group: the TxIds that stand more than once,
/// and the warning of items that look doubled.
pub fn told(items: &[Item], doubled: &Doubled, language: Language) -> String {
    let mut text = String::new();
    let (warning, word) = language.say(("Warning", "items"), ("Warnung", "Posten"));
    if !doubled.same.is_empty() {
        let heading = language.say("TxId more than once", "TxId mehrfach");
        text.push_str(&format!("  {heading} ({}):\n", doubled.same.len()));
        for (tx_id, group) in &doubled.same {
            let tx_id = shown(tx_id);
            text.push_str(&format!("    {tx_id}: {word} {}\n", numbers(group, language)));
        }
    }
    if !doubled.alike.is_empty() {
        let heading = language.say(
            "looks doubled: the same EndToEndId, debtor IBAN, amount and date under different TxIds",
            "sieht doppelt aus: gleiche EndToEndId, IBAN des Zahlungspflichtigen, Betrag und \
             Fälligkeit unter verschiedenen TxIds",
        );
        text.push_str(&format!("  {warning}: {heading} ({}):\n", doubled.alike.len()));
        for group in &doubled.alike {
            let shared = shared(&items[group[0] - 1], language);
            text.push_str(&format!("    {shared}: {word} {}\n", numbers(group, language)));
        }
    }
    text
}

/// What items that are alike have in common.
fn shared(item: &Item, language: Language) -> String {
    let euros = language.euros(item.cents.unwrap_or(0).into());
    let (id, iban) = (shown(&item.end_to_end_id), shown(item.debtor_iban));
    format!("{id}, {iban}, {euros}, {}", shown(item.collection_date))
}

/// Numbers of items, with neighbours drawn together: `1, 6`, `2 to 9`.
pub fn numbers(group: &Group, language: Language) -> String {
    let mut texts = Vec::new();
    let mut at = 0;
    while at < group.len() {
        let first = group[at];
        let run =
            group[at..].iter().enumerate().take_while(|(step, n)| **n == first + step).count();
        let run = if run < 3 { 1 } else { run };
        texts.push(match run {
            1 => first.to_string(),
            _ => format!("{first} {} {}", language.say("to", "bis"), first + run - 1),
        });
        at += run;
    }
    texts.join(", ")
}

#[cfg(test)]
mod tests {
    use super::*;

    /// An item of which only these differ.
    fn item<'a>(tx_id: &'a str, end_to_end_id: &'a str, cents: u64) -> Item<'a> {
        Item {
            tx_id: tx_id.as_bytes(),
            end_to_end_id: end_to_end_id.as_bytes().into(),
            cents: Some(cents),
            collection_date: b"2026-10-30",
            debtor_iban: b"DE87200500001234567890",
            ..Item::default()
        }
    }

    #[test]
    fn same_and_alike() {
        let items = [
            item("B", "1", 5),
            item("A", "2", 5),
            item("B", "1", 5),
            item("C", "1", 5),
            item("D", "1", 6),
            item("A", "9", 5),
            item("B", "7", 7),
        ];
        let doubled = Doubled::among(&items);
        assert_eq!(doubled.same, [(&b"B"[..], vec![1, 3, 7]), (b"A", vec![2, 6])]);
        assert_eq!(doubled.alike, [vec![1, 3, 4]]);
        let same = Doubled::same_among(&items);
        assert_eq!((same.same, same.alike), (doubled.same, Vec::new()));
        assert_eq!(Doubled::among(&items[3..6]), Doubled::default());
        // Another date or another account is another payment, and what was not read agrees with nothing.
        let other_date = Item { collection_date: b"2026-10-31", ..item("E", "1", 5) };
        let other_iban = Item { debtor_iban: b"DE21500500009876543210", ..item("F", "1", 5) };
        let unread = Item { cents: None, ..item("", "1", 5) };
        let items = [items[0].clone(), other_date, other_iban, unread.clone(), unread];
        assert_eq!(Doubled::among(&items), Doubled::default());
    }

    #[test]
    fn a_double_is_only_told_once_where_the_tx_id_is_the_same() {
        let items = [item("A", "1", 5), item("A", "1", 5)];
        let doubled = Doubled::among(&items);
        assert_eq!((doubled.same.len(), doubled.alike.len()), (1, 0));
        let groups = [vec![1, 2]];
        assert_eq!(by_item(&groups, 3), [Some(&groups[0]), Some(&groups[0]), None]);
        assert_eq!((other(&vec![1, 2, 5], 1), other(&vec![1, 2, 5], 5)), (2, 1));
    }

    #[test]
    fn neighbours_are_drawn_together() {
        let told = |group: &[usize]| numbers(&group.to_vec(), Language::English);
        assert_eq!(told(&[1, 6]), "1, 6");
        assert_eq!(told(&[1, 2]), "1, 2");
        assert_eq!(told(&[1, 2, 3, 7, 8, 10]), "1 to 3, 7, 8, 10");
        assert_eq!(numbers(&(1..=10_000).collect(), Language::German), "1 bis 10000");
    }
}
