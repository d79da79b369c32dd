//! `same`: whether two bulks have the same plain form, and if not, where they differ.

use crate::call::{Call, Command, Form};
use crate::trouble::Trouble;
use crate::verdict::Judged;
use crate::{out, read, show, Status};
use std::ffi::OsStr;
use told::compared::Compared;
use told::differences;

/// How it is to be called, in English and in German.
pub const USAGE: (&str, &str) = (
    "Usage: bulk same FILE FILE. Two files, and - at most once.",
    "Aufruf: bulk same DATEI DATEI. Zwei Dateien, und - höchstens einmal.",
);

/// Compares two bulks. Where one is refused there is nothing to compare, and it is told why.
pub fn same(call: &Call, one: &OsStr, other: &OsStr) -> Result<Status, Trouble> {
    if one == read::INPUT && other == read::INPUT {
        return Err(Trouble::Misused(Command::Same));
    }
    let (first, second) = (read::bytes(one)?, read::bytes(other)?);
    let both = [Judged::of(one, &first), Judged::of(other, &second)];
    let (Some(first), Some(second)) = (differences::form(&both[0])?, differences::form(&both[1])?)
    else {
        return out::put(&refused(call, &both)).map(|()| Status::Refused);
    };
    let compared = Compared::of(&first, &second);
    if compared.is_same() != (first == second) {
        return Err(Trouble::Disagreement);
    }
    out::put(&match call.form {
        Form::Plain => differences::plain(&compared, &both),
        Form::Json => format!("{}\n", differences::json(&compared, &both)),
        _ => differences::words(&compared, &both, call.language),
    })?;
    Ok(if compared.is_same() { Status::Accepted } else { Status::Refused })
}

/// Which of the two is refused and why, as `judge` tells it.
fn refused(call: &Call, both: &[Judged; 2]) -> String {
    let language = call.language;
    let refused = both.iter().filter(|judged| judged.verdict.status() == Status::Refused);
    match call.form {
        Form::Plain => refused
            .map(|judged| format!("{}\t{}\n", judged.verdict.plain(), show::name(judged.name)))
            .collect(),
        Form::Json => {
            let object = differences::beginning(both, "refused", None).raw("differences", "[]");
            let object = object.raw("different_items", "[]");
            let refused = refused.map(|judged| judged.json(language).end());
            format!("{}\n", object.list("refused", refused).end())
        }
        _ => {
            let lines: String = refused.map(|judged| judged.words(language)).collect();
            let not_compared = language.say(
                "Not compared: only an accepted bulk has a plain form.",
                "Nicht verglichen: Nur ein angenommener Bulk hat eine Normalform.",
            );
            format!("{lines}{not_compared}\n")
        }
    }
}
