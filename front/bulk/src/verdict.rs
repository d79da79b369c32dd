//! The verdict on one message, with all that is told of it, in each form.

use crate::doubled::{self, Doubled, Group};
use crate::json::Object;
use crate::language::Language;
use crate::message::{self, Contents, Item};
use crate::place::{self, Found};
use crate::refusal::{Against, Refusal};
use crate::show::{self, beginning, bytes_of, shown};
use crate::version::Version;
use crate::{euro, pages, Status};
use std::ffi::{OsStr, OsString};

/// The most bytes of what was found that JSON has.
const MOST: usize = 200;

#[derive(Clone, Copy, Debug, PartialEq, Eq)]
pub enum Verdict {
    Accepted { count: u64, cents: u64 },
    Refused { number: u64, place: usize },
}

impl Verdict {
    /// The verdict of the library.
    pub fn of(message: &[u8]) -> Verdict {
        match face::judge(message) {
            [0, count, cents] => Verdict::Accepted { count, cents },
            [number, place, _] => Verdict::Refused { number, place: place as usize },
        }
    }

    /// The exit status of the verdict.
    pub fn status(self) -> Status {
        match self {
            Verdict::Accepted { .. } => Status::Accepted,
            Verdict::Refused { .. } => Status::Refused,
        }
    }

    /// Whether each item is in order by itself: only the count or the total is not.
    pub fn has_items(self) -> bool {
        matches!(self, Verdict::Accepted { .. } | Verdict::Refused { number: 14 | 15, .. })
    }

    /// How far the message is read: as far as it is in order, or to its end where doubled items are
    /// looked for.
    fn reach(self, message: &[u8]) -> usize {
        match self {
            Verdict::Refused { number, place } if ![12, 14, 15].contains(&number) => place,
            _ => message.len(),
        }
    }

    /// The line of the thin program.
    pub fn plain(self) -> String {
        match self {
            Verdict::Accepted { count, cents } => format!("accepted {count} {cents}"),
            Verdict::Refused { number, place } => format!("refused {number} {place}"),
        }
    }
}

/// A file that was judged.
pub struct Judged<'a> {
    pub name: &'a OsStr,
    pub message: &'a [u8],
    pub verdict: Verdict,
    pub contents: Contents<'a>,
    pub doubled: Doubled<'a>,
    /// The first file of the same call that has the same MsgId.
    pub same_msg_id: Option<OsString>,
}

impl<'a> Judged<'a> {
    /// Judges a message and reads what is told of it.
    pub fn of(name: &'a OsStr, message: &'a [u8]) -> Judged<'a> {
        let verdict = Verdict::of(message);
        let contents = message::read(message, verdict.reach(message));
        let doubled = match verdict {
            Verdict::Accepted { .. } | Verdict::Refused { number: 12 | 14 | 15, .. } => {
                Doubled::among(&contents.items)
            }
            // One is where reading ended. The others stand behind it too, and are found by their tags.
            Verdict::Refused { number: 24, .. } => {
                Doubled::same_among(&message::read(message, message.len()).items)
            }
            Verdict::Refused { .. } => Doubled::default(),
        };
        Judged { name, message, verdict, contents, doubled, same_msg_id: None }
    }

    /// One line in words, without its end.
    pub fn line(&self, language: Language) -> String {
        let name = show::name(self.name);
        match self.verdict {
            Verdict::Accepted { count, cents } => {
                let accepted = language.say("accepted", "angenommen");
                format!("{name}: {accepted}, {}", self.signed(count, cents, language))
            }
            Verdict::Refused { number, place } => {
                let refusal = Refusal::of(self.message, &self.contents, number, place);
                format!("{name}: {}", refusal.words(language))
            }
        }
    }

    /// What is signed: so many items and cents, which bulk, when it settles, of which kind and version.
    pub fn signed(&self, count: u64, cents: u64, language: Language) -> String {
        let header = &self.contents.header;
        let (items, money) = (language.items(count.into()), language.money(cents));
        let (msg_id, date) = (shown(header.msg_id), shown(header.settlement_date));
        let settles = language.say("settlement date", "Abrechnungsdatum");
        let (instrument, version) = (shown(self.contents.instrument()), self.version());
        format!("{items}, {money}, MsgId {msg_id}, {settles} {date}, {instrument}, {version}")
    }

    /// The version that the root names; nothing where it was not read.
    pub fn version(&self) -> &'static str {
        self.contents.version.map_or("", Version::name)
    }

    /// What stands below the line, indented: an excerpt of the place, doubled items, and the warnings.
    pub fn below(&self, language: Language) -> String {
        let mut text = match self.verdict {
            Verdict::Refused { place, .. } if self.has_excerpt() => {
                place::excerpt(self.message, place)
            }
            _ => String::new(),
        };
        text.push_str(&doubled::told(&self.contents.items, &self.doubled, language));
        if let Some(warning) = self.same_msg_id_told(language) {
            text.push_str(&format!("  {warning}\n"));
        }
        text
    }

    /// Whether there are bytes to show at the place of the refusal.
    pub fn has_excerpt(&self) -> bool {
        matches!(self.verdict, Verdict::Refused { number, .. } if number != 1)
            && !self.message.is_empty()
    }

    /// The warning of an earlier file with the same MsgId.
    pub fn same_msg_id_told(&self, language: Language) -> Option<String> {
        let file = show::name(self.same_msg_id.as_ref()?);
        let id = shown(self.contents.header.msg_id);
        Some(language.say(
            format!("Warning: {file} has the same MsgId, {id}"),
            format!("Warnung: {file} hat dieselbe MsgId, {id}"),
        ))
    }

    /// The line in words and all below it.
    pub fn words(&self, language: Language) -> String {
        format!("{}\n{}", self.line(language), self.below(language))
    }

    /// One object, with every key whatever the verdict.
    pub fn json(&self, language: Language) -> Object {
        let header = &self.contents.header;
        let object = Object::default().text("file", bytes_of(self.name));
        let object = match self.verdict {
            Verdict::Accepted { count, cents } => {
                let object = object.text("verdict", b"accepted");
                no_refusal(object.number("count", count).number("cents", cents))
            }
            Verdict::Refused { number, place } => {
                let refusal = Refusal::of(self.message, &self.contents, number, place);
                let object = object.text("verdict", b"refused");
                refused(object.raw("count", "null").raw("cents", "null"), &refusal, language)
            }
        };
        let items = &self.contents.items;
        object
            .raw("error", "null")
            .text_or_null("msg_id", header.msg_id)
            .text_or_null("settlement_date", header.settlement_date)
            .text_or_null("instrument", self.contents.instrument())
            .text_or_null("version", self.version().as_bytes())
            .list("doubled", self.doubled.same.iter().map(same_json))
            .list("looks_doubled", self.doubled.alike.iter().map(|group| alike_json(items, group)))
            .text_or_null(
                "same_msg_id",
                self.same_msg_id.as_ref().map_or(b"", |file| bytes_of(file)),
            )
    }
}

/// The object of a file that could not be read, with the same keys.
pub fn unread_json(name: &OsStr, error: &str) -> Object {
    let object = Object::default().text("file", bytes_of(name)).text("verdict", b"unread");
    let object = no_refusal(object.raw("count", "null").raw("cents", "null"));
    let object = object.text("error", error.as_bytes());
    let keys = ["msg_id", "settlement_date", "instrument", "version"];
    let object = keys.iter().fold(object, |object, key| object.raw(key, "null"));
    object.raw("doubled", "[]").raw("looks_doubled", "[]").raw("same_msg_id", "null")
}

/// The keys of a refusal where there is none.
fn no_refusal(object: Object) -> Object {
    let keys = [
        "number",
        "place",
        "line",
        "column",
        "element",
        "item",
        "tx_id",
        "debtor",
        "item_cents",
        "found",
        "why",
        "meaning",
        "header",
        "items",
        "earlier_item",
    ];
    keys.iter().fold(object, |object, key| object.raw(key, "null"))
}

/// The keys of a refusal.
fn refused(object: Object, refusal: &Refusal, language: Language) -> Object {
    let unread = Item::default();
    let (number, item) = match &refusal.item {
        Some((number, item)) => (Some(*number as u64), item),
        None => (None, &unread),
    };
    let object = object
        .number("number", refusal.number)
        .number("place", refusal.place as u64)
        .number("line", refusal.line as u64)
        .number("column", refusal.column as u64)
        .text_or_null("element", refusal.path.as_deref().unwrap_or("").as_bytes())
        .number_or_null("item", number)
        .text_or_null("tx_id", item.tx_id)
        .text_or_null("debtor", &item.debtor)
        .number_or_null("item_cents", item.cents);
    let object = match refusal.found {
        Found::Bytes(bytes) => object.text("found", beginning(bytes, MOST)),
        Found::Empty => object.text("found", b""),
        _ => object.raw("found", "null"),
    };
    let why = refusal.why.as_ref().map_or(String::new(), |why| why.words(language));
    let meaning = pages::sentence(refusal.number, language);
    let (header, items) = against_json(refusal.against.as_ref());
    object
        .text_or_null("why", why.as_bytes())
        .text("meaning", meaning.as_bytes())
        .text_or_null("header", header.as_bytes())
        .text_or_null("items", items.as_bytes())
        .number_or_null("earlier_item", refusal.earlier().map(|item| item as u64))
}

/// What the header says and what the items come to, as text: a total may be too large for a program
/// that reads numbers as floats, and no cent may be rounded.
fn against_json(against: Option<&Against>) -> (String, String) {
    match against {
        Some(Against::Count { said, came }) => (said.to_string(), came.to_string()),
        Some(Against::Total { said, came }) => (euro::euros(*said), euro::euros(*came)),
        Some(Against::Limit { came }) => (String::new(), came.to_string()),
        None => (String::new(), String::new()),
    }
}

/// Items with one TxId.
fn same_json((tx_id, group): &(&[u8], Group)) -> String {
    Object::default().text("tx_id", tx_id).numbers("items", group).end()
}

/// Items that are alike.
fn alike_json(items: &[Item], group: &[usize]) -> String {
    let item = &items[group[0] - 1];
    Object::default()
        .text("end_to_end_id", &item.end_to_end_id)
        .text("debtor_iban", item.debtor_iban)
        .number_or_null("cents", item.cents)
        .text("collection_date", item.collection_date)
        .numbers("items", group)
        .end()
}
