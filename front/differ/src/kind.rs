//! The kinds of value that the tests tell apart.

/// The value kinds of the paper.
#[derive(Clone, Copy, Debug, PartialEq, Eq)]
pub enum Kind {
    Iban,
    CreditorId,
    Bic,
    /// The BIC of version .08.
    Bicfi,
    Date,
    Time,
    Reference,
    EndToEnd,
    Text70,
    Text140,
    Count,
    ItemAmount,
    HeaderAmount,
    /// A code, with those listed for it.
    Code(&'static [&'static str]),
}

impl Kind {
    /// Of a kind that collapses, the most bytes of a collapsed value. No other kind has white space.
    pub fn longest_collapsed(self) -> Option<usize> {
        match self {
            Kind::EndToEnd => Some(35),
            Kind::Text70 => Some(70),
            Kind::Text140 => Some(140),
            _ => None,
        }
    }
}

/// The kinds that have a single checker.
pub const CHECKED: [Kind; 13] = [
    Kind::Iban,
    Kind::CreditorId,
    Kind::Bic,
    Kind::Bicfi,
    Kind::Date,
    Kind::Time,
    Kind::Reference,
    Kind::EndToEnd,
    Kind::Text70,
    Kind::Text140,
    Kind::Count,
    Kind::ItemAmount,
    Kind::HeaderAmount,
];
