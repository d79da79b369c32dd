//! Request 14: the straight engine has readers of its own for the values of an item. The values that the
//! single checkers are asked about stand here in the second or the last item of a message: what the
//! checker answers, the judge answers, and the message may end close behind the value.

use crate::damage::{fine, values_of, Case, Known};
use crate::kind::Kind;
use crate::message::{accepted, Message, Plan, Spacing, Version, What};
use crate::random::Random;
use crate::value;

/// Of the more than a million swept values the gate's run puts one in so many into an item.
pub const SHARE: u64 = 13;
/// The items of each message.
const ITEMS: usize = 3;

/// A message with a value in it.
struct Base {
    message: Message,
    bytes: Vec<u8>,
    total: usize,
}

/// The messages: compact and in lines, of both versions.
pub struct Bases([Base; 4]);

impl Bases {
    /// Those of a seed.
    pub fn new(seed: u64) -> Bases {
        let layouts = [Spacing::None, Spacing::Indented];
        let base = |way: usize| {
            let plan = Plan {
                items: ITEMS,
                spacing: layouts[way / 2],
                small: true,
                declaration: false,
                optional: Some(true),
                type_in_header: false,
                version: Version::ALL[way % 2],
            };
            let message = accepted(&plan, &mut Random::new(seed ^ 0x17E5, way as u64));
            let total = message.place(message.header_value("TtlIntrBkSttlmAmt"));
            Base { bytes: message.bytes(), total, message }
        };
        Bases([0, 1, 2, 3].map(base))
    }

    /// A value in a message, chosen by its number: compact or in lines; whole or cut at most 70 bytes
    /// behind the value; in the second item or in the last, where the kind is an item's.
    pub fn with(&self, number: u64, case: &value::Case) -> Case {
        let random = &mut Random::new(0x17E5, number);
        let version = match case.kind {
            Kind::Bic => 0,
            Kind::Bicfi => 1,
            _ => random.below(2),
        };
        let base = &self.0[2 * random.below(2) + version];
        let parts = base.parts(case.kind);
        let part = parts[random.below(parts.len())];
        let cut = random.once_in(2).then(|| random.between(0, 70));
        base.with(part, case, cut)
    }
}

impl Base {
    /// The values of a kind that are put in: the header's, or those of the second and the last item.
    fn parts(&self, kind: Kind) -> Vec<usize> {
        let all = values_of(&self.message, kind);
        let behind = |part: &usize| *part >= self.message.items[1].0;
        match all.iter().any(behind) {
            true => all.into_iter().filter(behind).collect(),
            false => all,
        }
    }

    /// The message with the value for a part; whole, or cut so many bytes behind the value's end.
    fn with(&self, part: usize, case: &value::Case, cut: Option<usize>) -> Case {
        let place = self.message.place(part);
        let behind = &self.bytes[place + self.message.parts[part].bytes.len()..];
        let left = &behind[..cut.unwrap_or(behind.len()).min(behind.len())];
        let bytes = [&self.bytes[..place], &case.bytes, left].concat();
        let sort = if cut.is_some() { "value in an item, cut" } else { "value in an item" };
        let known = match case.known {
            // The value ends at the first `<`.
            _ if case.bytes.contains(&b'<') => Known::Nothing,
            // Nothing ends it.
            _ if left.is_empty() => Known::Refused { number: 3, place: bytes.len() },
            None => Known::Nothing,
            Some(Err(number)) => Known::Refused { number, place },
            // What is put in may be another item's TxId.
            Some(Ok(_)) if self.message.parts[part].name == "TxId" => Known::Nothing,
            Some(Ok(_)) if left.len() < behind.len() => {
                Known::Refused { number: 3, place: bytes.len() }
            }
            Some(Ok(worth)) => self.with_worth(part, worth),
        };
        Case::new(bytes, sort, known)
    }

    /// What is known of the message with a valid value for a part: the count and the amounts must agree
    /// with the items.
    fn with_worth(&self, part: usize, worth: u64) -> Known {
        let Message { parts, count, cents, .. } = &self.message;
        let (is_right, number, place) = match parts[part].what {
            What::Value(Kind::Count) => (worth == *count, 14, self.message.place(part)),
            What::Value(Kind::HeaderAmount) => (worth == *cents, 15, self.total),
            What::Value(Kind::ItemAmount) => {
                (worth == value::cents_of(&parts[part].bytes), 15, self.total)
            }
            _ => (true, 0, 0),
        };
        match is_right {
            true => fine(&self.message),
            false => Known::Refused { number, place },
        }
    }
}
