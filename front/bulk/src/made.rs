//! `records` and `plain`: the posting records or the plain form of an accepted message, into a file
//! that is whole or not touched, or to standard output.

use crate::call::{Call, Form};
use crate::language::Language;
use crate::target::Target;
use crate::trouble::Trouble;
use crate::verdict::{Judged, Verdict};
use crate::{out, read, show, Status};
use std::ffi::OsStr;
use std::os::unix::ffi::OsStrExt;
use told::{written, Disagreement};

/// What is made of an accepted message.
#[derive(Clone, Copy, Debug, PartialEq, Eq)]
pub enum Made {
    Records,
    Plain,
}

impl Made {
    /// It, of an accepted message with so many items.
    fn of(self, message: &[u8], count: u64) -> Result<Vec<u8>, Disagreement> {
        match self {
            Made::Records => written::records(message, count),
            Made::Plain => written::plain(message, count),
        }
    }

    /// Where it was written to, in words.
    fn written(self, out: &OsStr, language: Language) -> String {
        let words = match self {
            Made::Records => language.say("records written to", "Buchungssätze geschrieben nach"),
            Made::Plain => language.say("plain form written to", "Normalform geschrieben nach"),
        };
        format!("; {words} {}", show::name(out))
    }

    /// The key of the file that was written, in JSON.
    fn key(self) -> &'static str {
        match self {
            Made::Records => "records",
            Made::Plain => "plain",
        }
    }
}

/// Writes what is made to `out`. A refused message leaves it as it was, and so does any failure.
pub fn made(call: &Call, made: Made, name: &OsStr, out: &OsStr) -> Result<Status, Trouble> {
    if out.is_empty() {
        return Err(Trouble::NoName(made));
    }
    let message = read::bytes(name)?;
    let judged = Judged::of(name, &message);
    let is_to_output = out == out::OUTPUT;
    let written = match judged.verdict {
        Verdict::Accepted { count, .. } if is_to_output => {
            out::put_made(made, &made.of(&message, count)?)?;
            None
        }
        Verdict::Accepted { count, .. } => {
            let area = made.of(&message, count)?;
            write(call, &Target::of(out, name, made, &area)?, &area)?;
            Some(out)
        }
        Verdict::Refused { .. } => None,
    };
    let text = told(call, made, &judged, written);
    match (out::put_unless(is_to_output, &text), written) {
        (Err(Trouble::Output(error)), Some(out)) => {
            Err(Trouble::OutputAfter(made, out.to_owned(), error))
        }
        (put, _) => put.map(|()| judged.verdict.status()),
    }
}

/// Writes the file, and says what of the old one could not be kept.
fn write(call: &Call, target: &Target, area: &[u8]) -> Result<(), Trouble> {
    for lost in target.write(area)? {
        out::report(&format!("{}: {}", show::name(&target.out), lost.words(call.language)));
    }
    Ok(())
}

/// The verdict, and where it was written to.
fn told(call: &Call, made: Made, judged: &Judged, written: Option<&OsStr>) -> String {
    let language = call.language;
    match call.form {
        Form::Plain => format!("{}\n", judged.verdict.plain()),
        Form::Json => {
            let out = written.map_or(&b""[..], OsStr::as_bytes);
            format!("{}\n", judged.json(language).text_or_null(made.key(), out).end())
        }
        _ => {
            let written = written.map_or(String::new(), |out| made.written(out, language));
            format!("{}{written}\n{}", judged.line(language), judged.below(language))
        }
    }
}
