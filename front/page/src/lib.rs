//! What the page in the browser asks, answered by the command's own parts (`told`, front/bulk) over the
//! proved library. page/make compiles it to WebAssembly with Debian's rustc 1.63; here it is built, linted
//! and tested for this machine.
//!
//! - [`exports`]: the functions that the page calls, and the memory that it lends bytes in.
//! - [`judged`]: the verdict on one file, with all that is told of it.
//! - [`listed`]: the items of a file as rows, and their sums by sequence type.
//! - [`asked`]: one value, two files compared, the pages of the refusals.
//! - [`kept`]: the day book of the window.
//!
//! An answer in JSON has its texts in both languages, `[English, German]`, so that the page can change the
//! language without asking again. Whatever comes from a message has been made visible (`told::show`).

#![deny(unsafe_code)]

pub mod asked;
#[allow(unsafe_code)]
pub mod exports;
pub mod judged;
pub mod kept;
pub mod listed;

use told::json::{string, Object};
use told::language::Language;

/// The two languages, in the order of every answer.
pub const LANGUAGES: [Language; 2] = [Language::English, Language::German];

/// A text in both languages, as JSON.
pub fn both(text: impl Fn(Language) -> String) -> String {
    let texts = LANGUAGES.map(|language| string(text(language).as_bytes()));
    format!("[{}]", texts.join(","))
}

/// A key with a text in both languages; null where it is empty.
pub fn told_in_both(object: Object, key: &str, text: impl Fn(Language) -> String) -> Object {
    match text(Language::English).is_empty() {
        true => object.raw(key, "null"),
        false => object.raw(key, &both(text)),
    }
}
