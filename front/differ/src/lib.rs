//! Values and messages made from a seed, what is known of them, and the judges that are asked.
//!
//! - [`random`]: a seeded generator of numbers.
//! - [`kind`]: the kinds of value.
//! - [`value`], [`handmade`]: values of each kind: valid, nearly valid, damaged, random.
//! - [`collapse`]: values that collapse, and white space in values of every kind.
//! - [`message`]: accepted messages, with what is known of them.
//! - [`damage`]: damaged messages, with what is known of their refusal.
//! - [`sweep`]: every byte and every part of small messages damaged; messages at the limits.
//! - [`typed`]: the payment type in the header, in items, in both and in neither.
//! - [`versions`]: both versions, and messages that mix them; roots of neither.
//! - [`twice`]: TxIds that stand twice, and such as nearly do.
//! - [`layouts`], [`edges`]: items in many layouts with values at the edges of what is read at once, and a
//!   damage behind the first; [`in_items`]: the values of the single checkers in items.
//! - [`slips`], [`letters`]: every slip of an accepted message; those in the letters of accounts.
//! - [`twins`]: accepted messages in pairs, which mean the same or do not.
//! - [`spellings`]: every spelling of counts and amounts, white space at every place.
//! - [`slow`]: a second judge, made from a table of the elements, to hold `plain` against.
//! - [`face`]: the library under test, asked by the kinds of these tests.
//! - [`ask`], [`form`], [`recorded`], [`indexed`]: the questions: the judges, what is known, and the
//!   laws held against each other; those about the plain form; that about equal records; those about the
//!   lent index.
//! - [`days`], [`daybook`]: days of the day book, and the questions about them.
//! - [`plays`], [`playback`]: days to be played back, and the questions about them.
//! - [`tally`]: what a run has seen; a difference, printed so that it can be run again.
//! - [`answers`]: messages with the library's answers, for a test on another machine.
//! - [`usual`], [`bench`], [`counted`]: messages like those that are sent, and others; the stopwatch, and
//!   instructions counted.

#![forbid(unsafe_code)]

pub mod answers;
pub mod ask;
pub mod bench;
pub mod collapse;
pub mod counted;
pub mod damage;
pub mod daybook;
pub mod days;
pub mod edges;
pub mod face;
pub mod form;
pub mod handmade;
pub mod in_items;
pub mod indexed;
pub mod kind;
pub mod layouts;
pub mod letters;
pub mod message;
pub mod playback;
pub mod plays;
pub mod random;
pub mod recorded;
pub mod slips;
pub mod slow;
pub mod spellings;
pub mod sweep;
pub mod tally;
pub mod twice;
pub mod twins;
pub mod typed;
pub mod usual;
pub mod value;
pub mod versions;
