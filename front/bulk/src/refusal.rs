//! All that is told of a refusal: where, which payment, what was found, why, and what the header says
//! against what the items come to.

use crate::language::Language;
use crate::message::{worth, Contents, Item};
use crate::pages;
use crate::place::{self, Found};
use crate::profile::{self, Content};
use crate::show::{beginning, ending, shown};
use crate::tags::{until, Open};
use crate::version::Version;
use crate::why::{country, why, Why};
use face::Kind;

/// The most bytes of a value that are shown.
pub const MOST: usize = 40;

/// The range of an amount, in cents.
const LEAST: u64 = 1;
const MOST_OF_ITEM: u64 = 99_999_999_999;
const MOST_OF_HEADER: u64 = 99_999_999_999_999_999;

/// What the header says, and what the items come to.
pub enum Against {
    Count {
        said: u64,
        came: u64,
    },
    Total {
        said: u64,
        came: u64,
    },
    /// Too many items: how many there are, by their tags.
    Limit {
        came: u64,
    },
}

pub struct Refusal<'a> {
    pub number: u64,
    pub place: usize,
    pub line: usize,
    pub column: usize,
    pub path: Option<String>,
    /// The number of the item, from 1, in which the place lies, and what was read of it.
    pub item: Option<(usize, Item<'a>)>,
    pub found: Found<'a>,
    pub why: Option<Why<'a>>,
    pub against: Option<Against>,
}

impl<'a> Refusal<'a> {
    /// What there is to tell of a refusal of this message.
    pub fn of(
        message: &'a [u8],
        contents: &Contents<'a>,
        number: u64,
        place: usize,
    ) -> Refusal<'a> {
        let (line, column) = place::line_and_column(message, place);
        let open = place::open(message, number, place);
        let found = place::found(message, number, place);
        let item = open.is_in_item().then(|| {
            let read = contents.items.get(open.items - 1).filter(|_| number != 12);
            (open.items, read.cloned().unwrap_or_default())
        });
        let why = reason(&open, contents, number, &found);
        let against = against(message, contents, number, place);
        let path = place::path(&open, number);
        Refusal { number, place, line, column, path, item, found, why, against }
    }

    /// The number of the earlier item, from 1, whose TxId the refused one has.
    pub fn earlier(&self) -> Option<usize> {
        match self.why {
            Some(Why::SameAs { earlier, .. }) => Some(earlier),
            _ => None,
        }
    }

    /// In words: number, place, element, payment, what was found and why, the sentence of the number.
    pub fn words(&self, language: Language) -> String {
        let Refusal { number, place, line, column, .. } = self;
        let mut text = language.say(
            format!("refused {number} at place {place} (line {line}, column {column})"),
            format!("abgelehnt (Nr. {number}) an Stelle {place} (Zeile {line}, Spalte {column})"),
        );
        if let Some(path) = &self.path {
            text.push_str(&format!(" in {path}"));
        }
        text.push_str(&self.payment(language));
        text.push_str(&self.found_told(language));
        text.push_str(": ");
        text.push_str(&pages::sentence(*number, language));
        text.push_str(&self.against_told(language));
        text
    }

    /// Which payment it is: TxId, debtor and amount, as far as they were read. Before the TxId there is
    /// the EndToEndId to go by.
    fn payment(&self, language: Language) -> String {
        let item = match &self.item {
            Some((_, item)) => item,
            None => return String::new(),
        };
        let debtor = language.say("debtor", "Zahlungspflichtiger");
        let mut parts = Vec::new();
        match (item.tx_id, &*item.end_to_end_id) {
            (b"", b"") => {}
            (b"", id) => parts.push(format!("EndToEndId {}", shown(id))),
            (id, _) => parts.push(format!("TxId {}", shown(id))),
        }
        if !item.debtor.is_empty() {
            parts.push(format!("{debtor} {}", shown(&item.debtor)));
        }
        parts.extend(item.cents.map(|cents| language.euros(cents.into())));
        match parts.len() {
            0 => String::new(),
            _ => format!(" ({})", parts.join(", ")),
        }
    }

    /// What was found, and in brackets why it was refused.
    pub fn found_told(&self, language: Language) -> String {
        match self.found {
            Found::Nothing => String::new(),
            Found::NoByte => {
                language.say(", the message is empty", ", die Nachricht ist leer").to_string()
            }
            Found::Empty => {
                let empty = language.say(", the value is empty", ", der Wert ist leer");
                format!("{empty}{}", details(language, None, self.why.as_ref()))
            }
            Found::End(all) => {
                let tail = ending(all, MOST);
                let cut = if tail.len() < all.len() { "…" } else { "" };
                let tail = language.quoted(&format!("{cut}{}", shown(tail)));
                language.say(format!(", the end after {tail}"), format!(", Ende nach {tail}"))
            }
            Found::Bytes(bytes) => {
                // A root tag differs at its end, so more of it is shown.
                let is_root = self.number == 2 && bytes.first() == Some(&b'<');
                let most = if is_root { 2 * MOST } else { MOST };
                let found = language.say("found", "gefunden");
                format!(", {found} {}", value(language, bytes, most, self.why.as_ref()))
            }
        }
    }

    /// For a wrong count or total: what the header says, and what the items come to.
    pub fn against_told(&self, language: Language) -> String {
        match self.against {
            None => String::new(),
            Some(Against::Limit { came }) => {
                let came = language.items(came.into());
                language.say(format!(" The bulk has {came}."), format!(" Der Bulk hat {came}."))
            }
            Some(Against::Count { said, came }) => {
                let (said, came) = (language.number(said.into()), language.items(came.into()));
                language.say(
                    format!(" The header says {said}, the bulk has {came}."),
                    format!(" Im Kopf steht {said}, der Bulk hat {came}."),
                )
            }
            Some(Against::Total { said, came }) => {
                let (more, less) = language.say(("more", "less"), ("mehr", "weniger"));
                let word = if came > said { more } else { less };
                let apart = language.euros(came.abs_diff(said).into());
                let (said, came) = (language.euros(said.into()), language.euros(came.into()));
                language.say(
                    format!(" The header says {said}, the items come to {came} ({apart} {word})."),
                    format!(" Im Kopf stehen {said}, die Posten ergeben {came} ({apart} {word})."),
                )
            }
        }
    }
}

/// A value in quotation marks: its first bytes, and in brackets how many there are, if that is not
/// all, and why it was refused.
pub fn value(language: Language, bytes: &[u8], most: usize, why: Option<&Why>) -> String {
    let first = beginning(bytes, most);
    let is_cut = first.len() < bytes.len();
    let quoted = language.quoted(&format!("{}{}", shown(first), if is_cut { "…" } else { "" }));
    format!("{quoted}{}", details(language, is_cut.then_some(bytes.len()), why))
}

/// What stands in brackets behind a value.
fn details(language: Language, length: Option<usize>, why: Option<&Why>) -> String {
    let length = length.filter(|_| !matches!(why, Some(why) if why.tells_length()));
    let length = length.map(|length| format!("{length} {}", language.say("bytes", "Bytes")));
    let why = why.map(|why| why.words(language));
    let parts: Vec<String> = length.into_iter().chain(why).collect();
    match parts.len() {
        0 => String::new(),
        _ => format!(" ({})", parts.join("; ")),
    }
}

/// Why the bytes that were found are refused with this number.
fn reason<'a>(
    open: &Open,
    contents: &Contents<'a>,
    number: u64,
    found: &Found<'a>,
) -> Option<Why<'a>> {
    let content = profile::innermost(open).map(|element| element.content);
    match (number, found, content) {
        (2, Found::Bytes(bytes), _) if bytes.starts_with(b"\xef\xbb\xbf") => {
            Some(Why::ByteOrderMark)
        }
        (4, found, Some(_)) => Some(expected(open, found)),
        (7, Found::Bytes(value), Some(Content::Value(kind) | Content::Amount(kind))) => {
            why(kind, value)
        }
        (9, Found::Bytes(value), Some(Content::Amount(kind))) => Some(range(kind, value)),
        (10, _, Some(Content::Code(codes))) => Some(Why::Codes(codes)),
        (11, ..) => Some(Why::FirstHas(contents.instrument())),
        (19, Found::Bytes(value), _) => Some(country(value)),
        (24, Found::Bytes(id), _) => {
            let earlier = contents.items.iter().position(|item| item.tx_id == *id)? + 1;
            Some(Why::SameAs { item: open.items, earlier })
        }
        (23, ..) => Some(Why::HeaderHas(contents.header.instrument, contents.header.sequence)),
        _ => None,
    }
}

/// The tags that may come in place of what was found; for the tag of a BIC also by which version, since
/// it may be another's.
fn expected(open: &Open, found: &Found) -> Why<'static> {
    let tags = profile::expected(open);
    match (found, open.version) {
        (Found::Bytes(tag), Some(version))
            if is_bic(tag) && tags.iter().any(|due| is_bic(due.as_bytes())) =>
        {
            Why::ExpectedIn(version, tags)
        }
        _ => Why::Expected(tags),
    }
}

/// Whether a tag is one of a BIC, in either version.
fn is_bic(tag: &[u8]) -> bool {
    let name = tag.strip_prefix(b"</").or_else(|| tag.strip_prefix(b"<"));
    let name = name.and_then(|name| name.strip_suffix(b">"));
    matches!(name, Some(name) if Version::is_bic(name))
}

/// The limit that an amount is under or over. One of no cents has only zeros.
pub fn range(kind: Kind, value: &[u8]) -> Why<'static> {
    match value.iter().any(|byte| (b'1'..=b'9').contains(byte)) {
        false => Why::LeastCents(LEAST),
        true if kind == Kind::ItemAmount => Why::MostCents(MOST_OF_ITEM),
        true => Why::MostCents(MOST_OF_HEADER),
    }
}

/// What the header says against what the items come to, for the refusals that compare them.
fn against(message: &[u8], contents: &Contents, number: u64, place: usize) -> Option<Against> {
    let value = until(&message[place.min(message.len())..], b'<');
    match number {
        12 => Some(Against::Limit { came: contents.items.len() as u64 }),
        14 => {
            let came = contents.items.len() as u64;
            worth(Kind::Count, value).map(|said| Against::Count { said, came })
        }
        15 => {
            let came = contents.cents()?;
            worth(Kind::HeaderAmount, value).map(|said| Against::Total { said, came })
        }
        _ => None,
    }
}
