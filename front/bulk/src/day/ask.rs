//! What is asked of a day, and of which.

use super::fault::Fault;
use super::store::RECORDING;
use crate::call::{Call, Command, Form};
use crate::script::Named;
use crate::trouble::Trouble;
use std::ffi::{OsStr, OsString};
use std::os::unix::ffi::OsStrExt;
use std::path::{Path, PathBuf};

/// How it is to be called, in English and in German.
pub const USAGE: (&str, &str) = (
    "Usage: bulk day CALL. CALL is new DIR, enter FILE, withdraw SERVICE MSGID BIC DATE, total, \
     list, report, play [REPORT], or repair. More: bulk help day",
    "Aufruf: bulk day ANWEISUNG. ANWEISUNG ist new ORDNER, enter DATEI, withdraw VERFAHREN MSGID \
     BIC DATUM, total, list, report, play [BERICHT] oder repair. Mehr: bulk help day",
);

pub enum Ask<'a> {
    New(&'a OsStr),
    Enter(&'a OsStr),
    Withdraw(Named),
    Total,
    List,
    Report,
    /// With the clearer's report, if there is one.
    Play(Option<&'a OsStr>),
    Repair,
}

impl<'a> Ask<'a> {
    /// What these words ask for, with options that fit it.
    pub fn of(call: &Call, words: &[&'a OsStr]) -> Result<Ask<'a>, Trouble> {
        let word = words.first().and_then(|word| word.to_str());
        let ask = match (word, words.get(1..).unwrap_or(&[])) {
            (Some("new"), [folder]) => Ask::New(folder),
            (Some("enter"), [file]) => Ask::Enter(file),
            (Some("withdraw"), &[service, msg_id, bic, date]) => {
                Ask::Withdraw([service, msg_id, bic, date].map(|part| part.as_bytes().to_vec()))
            }
            (Some("total"), []) => Ask::Total,
            (Some("list"), []) => Ask::List,
            (Some("report"), []) => Ask::Report,
            (Some("play"), []) => Ask::Play(None),
            (Some("play"), [report]) => Ask::Play(Some(report)),
            (Some("repair"), []) => Ask::Repair,
            _ => return Err(Trouble::Misused(Command::Day)),
        };
        match ask.unfit(call) {
            Some(option) => Err(Trouble::OptionOf(option, ask.name())),
            None => Ok(ask),
        }
    }

    /// An option that does not fit.
    fn unfit(&self, call: &Call) -> Option<&'static str> {
        let is_table = matches!(self, Ask::List | Ask::Report);
        let is_recorded = matches!(self, Ask::Enter(_) | Ask::Withdraw(_));
        match call.form {
            Form::Csv if !is_table => Some("--csv"),
            _ if call.time.is_some() && !is_recorded => Some("--time"),
            _ if call.day.is_some() && matches!(self, Ask::New(_)) => Some("--day"),
            _ => None,
        }
    }

    /// The words for it.
    fn name(&self) -> &'static str {
        match self {
            Ask::New(_) => "day new",
            Ask::Enter(_) => "day enter",
            Ask::Withdraw(_) => "day withdraw",
            Ask::Total => "day total",
            Ask::List => "day list",
            Ask::Report => "day report",
            Ask::Play(_) => "day play",
            Ask::Repair => "day repair",
        }
    }
}

/// The folder that is meant: that of --day, else that of BULK_DAY, else the one in which the
/// command is called, if it has a recording.
pub fn folder(call: &Call) -> Result<PathBuf, Trouble> {
    let of_environment = || std::env::var_os("BULK_DAY").filter(|folder| !folder.is_empty());
    match call.day.clone().or_else(of_environment) {
        Some(folder) => named(folder),
        None if Path::new(RECORDING).is_file() => Ok(PathBuf::from(".")),
        None => Err(Fault::NoFolder.into()),
    }
}

/// A folder by its name. An empty one, as of a variable that is not set, names none.
pub fn named(folder: OsString) -> Result<PathBuf, Trouble> {
    match folder.is_empty() {
        true => Err(Fault::NoFolder.into()),
        false => Ok(PathBuf::from(folder)),
    }
}
