//! `items`: the items of a message, of one that is accepted or whose count or total alone is wrong.

use crate::call::{Call, Form};
use crate::trouble::Trouble;
use crate::verdict::{Judged, Verdict};
use crate::{out, read, Status};
use std::ffi::OsStr;
use told::{csv, rows};

/// Prints the items on standard output, and the refusal or the warnings on standard error, so that
/// the output holds the items alone.
pub fn items(call: &Call, name: &OsStr) -> Result<Status, Trouble> {
    let message = read::bytes(name)?;
    let judged = Judged::of(name, &message);
    let language = call.language;
    // A script that does not look at the status must not take the rows of a refused bulk.
    let is_shown = match call.form {
        Form::Plain => judged.verdict.status() == Status::Accepted,
        _ => judged.verdict.has_items(),
    };
    if is_shown {
        rows::agree(&judged)?;
        let rows = rows::rows(&judged);
        out::put(&match call.form {
            Form::Plain => rows.iter().map(rows::plain).collect(),
            Form::Json => rows.iter().map(rows::json).collect(),
            Form::Csv => csv::of(&rows, language),
            Form::Words => rows::table(&rows, judged.contents.cents().unwrap_or(0), language),
        })?;
    }
    match (judged.verdict, call.form) {
        (Verdict::Accepted { .. }, Form::Words | Form::Csv) => out::tell(&judged.below(language)),
        (Verdict::Accepted { .. }, _) => {}
        (verdict, Form::Plain) => out::tell(&format!("{}\n", verdict.plain())),
        (_, Form::Json) => out::tell(&format!("{}\n", judged.json(language).end())),
        _ => out::tell(&judged.words(language)),
    }
    Ok(judged.verdict.status())
}
