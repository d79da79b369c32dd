//! What is told of a message, in words and in each other form: all of the command that needs no file and
//! no system. The page in the browser is made of the same parts, compiled to WebAssembly (page/make), so
//! that the two cannot drift apart. Debian 12 has the WebAssembly target for its rustc 1.63 alone, so
//! these parts, and `face` below them, keep to what that one knows.

#![forbid(unsafe_code)]

pub mod booked;
pub mod checked;
pub mod collapsed;
pub mod compared;
pub mod csv;
pub mod differences;
pub mod doubled;
pub mod euro;
pub mod json;
pub mod language;
pub mod message;
pub mod pages;
pub mod place;
pub mod profile;
pub mod refusal;
pub mod rows;
pub mod show;
pub mod tags;
pub mod tally;
pub mod verdict;
pub mod version;
pub mod why;
pub mod written;

/// The exit status: 0, 1 or 2, each worse than the one before. Two bulks that differ end as a refusal
/// does.
#[derive(Clone, Copy, Debug, PartialEq, Eq, PartialOrd, Ord)]
pub enum Status {
    Accepted,
    Refused,
    Trouble,
}

impl Status {
    /// The worse of two.
    pub fn worse(self, other: Status) -> Status {
        self.max(other)
    }
}

/// What is read here and what the library says of a message do not fit together.
#[derive(Clone, Copy, Debug, PartialEq, Eq)]
pub struct Disagreement;
