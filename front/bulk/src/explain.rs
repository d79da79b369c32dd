//! `explain`: the pages of the refusals.

use crate::call::Call;
use crate::language::Language;
use crate::trouble::Trouble;
use crate::{out, pages};
use std::ffi::OsStr;

/// The list of the numbers, or the page of one. In the language that was chosen; where
/// none was, in both, that of the locale first.
pub fn explain(call: &Call, number: Option<&OsStr>) -> Result<(), Trouble> {
    let languages: &[usize] = match (call.language, call.is_chosen) {
        (Language::English, true) => &[0],
        (Language::German, true) => &[1],
        (Language::English, false) => &[0, 1],
        (Language::German, false) => &[1, 0],
    };
    let text = match number {
        None => pages::list(languages),
        Some(word) => {
            let number = word.to_str().and_then(|word| word.parse().ok());
            let page = number.and_then(|number| pages::page(number, languages));
            page.ok_or_else(|| Trouble::UnknownNumber(word.to_owned()))?
        }
    };
    out::put(&text)
}
