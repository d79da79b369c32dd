//! One value that was held against its single checker, and what is told of it in each form.

use crate::json::Object;
use crate::language::Language;
use crate::pages;
use crate::refusal::{self, range};
use crate::why::{country, why, Why};
use face::Kind;

/// The kinds, by the names under which they are asked for.
pub const KINDS: [(&str, Kind); 13] = [
    ("iban", Kind::Iban),
    ("creditor-id", Kind::CreditorId),
    ("bic", Kind::Bic),
    ("bicfi", Kind::Bicfi),
    ("count", Kind::Count),
    ("item-amount", Kind::ItemAmount),
    ("header-amount", Kind::HeaderAmount),
    ("date", Kind::Date),
    ("time", Kind::Time),
    ("reference", Kind::Reference),
    ("end-to-end", Kind::EndToEnd),
    ("text70", Kind::Text70),
    ("text140", Kind::Text140),
];

/// The kinds, as a list.
pub fn names() -> String {
    KINDS.map(|pair| pair.0).join(", ")
}

/// A value that was checked.
pub struct Checked<'a> {
    name: &'static str,
    kind: Kind,
    value: &'a [u8],
    words: face::Words,
}

impl<'a> Checked<'a> {
    /// Checks one value of the kind of this name, in small letters; none where there is no such kind.
    pub fn of(name: &str, value: &'a [u8]) -> Option<Checked<'a>> {
        let &(name, kind) = KINDS.iter().find(|pair| pair.0 == name)?;
        Some(Checked { name, kind, value, words: face::check(kind, value) })
    }

    /// Whether it holds.
    pub fn is_accepted(&self) -> bool {
        self.words[0] == 0
    }
}

impl Checked<'_> {
    /// The number or the cents, where the kind has one.
    fn worth(&self) -> Option<u64> {
        match (self.kind, self.words) {
            (Kind::Count | Kind::ItemAmount | Kind::HeaderAmount, [0, worth, _]) => Some(worth),
            _ => None,
        }
    }

    /// Why it was refused, where there is more to tell.
    fn why(&self) -> Option<Why<'_>> {
        match self.words[0] {
            7 => why(self.kind, self.value),
            9 => Some(range(self.kind, self.value)),
            19 => Some(country(self.value)),
            _ => None,
        }
    }

    /// For scripts.
    pub fn plain(&self) -> String {
        match (self.worth(), self.words) {
            (Some(worth), _) => format!("accepted {worth}"),
            (None, [0, ..]) => "accepted".to_string(),
            (None, [number, place, _]) => format!("refused {number} {place}"),
        }
    }

    /// As an object.
    pub fn json(&self, language: Language) -> String {
        let number = Some(self.words[0]).filter(|number| *number != 0);
        let verdict: &[u8] = if number.is_none() { b"accepted" } else { b"refused" };
        let why = self.why().map_or(String::new(), |why| why.words(language));
        let meaning = number.map_or(String::new(), |number| pages::sentence(number, language));
        Object::default()
            .text("kind", self.name.as_bytes())
            .text("value", self.value)
            .text("verdict", verdict)
            .number_or_null("worth", self.worth())
            .number_or_null("number", number)
            .text_or_null("why", why.as_bytes())
            .text_or_null("meaning", meaning.as_bytes())
            .end()
    }

    /// In words.
    pub fn told(&self, language: Language) -> String {
        let shown = refusal::value(language, self.value, refusal::MOST, self.why().as_ref());
        let accepted = language.say("accepted", "angenommen");
        let verdict = match (self.worth(), self.words[0]) {
            (Some(worth), _) if self.kind == Kind::Count => {
                format!("{accepted}, {}", language.number(worth.into()))
            }
            (Some(worth), _) => format!("{accepted}, {}", language.money(worth)),
            (None, 0) => accepted.to_string(),
            (None, number) => {
                let sentence = pages::sentence(number, language);
                language.say(
                    format!("refused {number}: {sentence}"),
                    format!("abgelehnt (Nr. {number}): {sentence}"),
                )
            }
        };
        format!("{} {shown}: {verdict}", self.name)
    }
}
