//! `judge`: one line per file, in order, and a closing line for several.

use crate::call::{Call, Command, Form};
use crate::trouble::Trouble;
use crate::verdict::{unread_json, Judged};
use crate::{out, read, show, Status};
use std::ffi::OsStr;
use told::tally::Tally;

/// Judges every file. One that cannot be read does not keep the others from being judged.
pub fn judge(call: &Call, names: &[&OsStr]) -> Result<Status, Trouble> {
    if names.is_empty() || names.iter().filter(|&&name| name == read::INPUT).count() > 1 {
        return Err(Trouble::Misused(Command::Judge));
    }
    let is_several = names.len() > 1 || read::is_folder(names[0]);
    let (mut tally, mut status) = (Tally::default(), Status::Accepted);
    for name in names {
        let files = match read::files(name) {
            Ok(files) => files,
            Err(trouble) => {
                status = status.worse(unread(call, &mut tally, name, &trouble, is_several)?);
                continue;
            }
        };
        for file in files {
            status = status.worse(one(call, &mut tally, &file, is_several)?);
        }
    }
    if is_several && call.form == Form::Words {
        out::put(&tally.closing(call.language))?;
    }
    Ok(status)
}

/// Judges one file and prints its line.
fn one(call: &Call, tally: &mut Tally, file: &OsStr, is_several: bool) -> Result<Status, Trouble> {
    let message = match read::bytes(file) {
        Ok(message) => message,
        Err(trouble) => return unread(call, tally, file, &trouble, is_several),
    };
    let mut judged = Judged::of(file, &message);
    tally.add(&mut judged);
    out::put(&match call.form {
        Form::Plain if is_several => {
            format!("{}\t{}\n", judged.verdict.plain(), show::name(file))
        }
        Form::Plain => format!("{}\n", judged.verdict.plain()),
        Form::Json => format!("{}\n", judged.json(call.language).end()),
        _ => judged.words(call.language),
    })?;
    Ok(judged.verdict.status())
}

/// A file that could not be read: why, on standard error, and for a script a line in its place.
fn unread(
    call: &Call,
    tally: &mut Tally,
    name: &OsStr,
    trouble: &Trouble,
    is_several: bool,
) -> Result<Status, Trouble> {
    tally.files += 1;
    let words = trouble.words(call.language);
    out::report(&words);
    match call.form {
        Form::Plain if is_several => out::put(&format!("unread\t{}\n", show::name(name)))?,
        Form::Json => out::put(&format!("{}\n", unread_json(name, &words).end()))?,
        _ => {}
    }
    Ok(Status::Trouble)
}
