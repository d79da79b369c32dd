//! `book`: the calls of a script on a day book that lives as long as the command.

use crate::call::{Call, Form};
use crate::script::{self, Ask, Fault};
use crate::trouble::Trouble;
use crate::{out, read, Status};
use face::book::Entry;
use std::ffi::OsStr;
pub use told::booked::*;

/// Makes the calls of a script one after the other, and tells what each came to.
pub fn book(call: &Call, script: &OsStr) -> Result<Status, Trouble> {
    let lines = script::read(script)?;
    let mut book = Book::default();
    let mut status = Status::Accepted;
    for line in &lines {
        let message = match &line.ask {
            Ask::Enter(file) => read::bytes(file).map_err(|why| Fault::at(script, line, why))?,
            _ => Vec::new(),
        };
        let made = book.make(line, &message)?;
        out::put(&match call.form {
            Form::Plain => made.plain(),
            Form::Json => {
                let listed: &[Entry] = if made.answer == Answer::List { made.open } else { &[] };
                let bulks =
                    listed.iter().enumerate().map(|(at, entry)| entry_json(at, entry).end());
                format!("{}\n", made.json(call.language).list("bulks", bulks).end())
            }
            _ => made.words(call.language),
        })?;
        status = status.worse(made.status());
    }
    Ok(status)
}
