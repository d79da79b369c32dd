//! The script of `book`: a line is a call, `#` and empty lines are skipped. A script is read whole
//! before anything of it is done.

use crate::call::Command;
use crate::language::Language;
use crate::read;
use crate::show::{beginning, name, shown};
use crate::trouble::Trouble;
use std::ffi::{OsStr, OsString};
use std::os::unix::ffi::OsStrExt;
pub use told::booked::{Ask, Line, Named};

/// The most bytes of a wrong line that are shown.
const MOST_SHOWN: usize = 60;

/// Why a script cannot be done.
#[derive(Debug)]
pub enum Fault {
    TooLong(OsString),
    /// A line, found before anything was done, or when what stands before it was done.
    Line {
        script: OsString,
        number: usize,
        why: Why,
        is_begun: bool,
    },
}

/// What is wrong with a line.
#[derive(Debug)]
pub enum Why {
    NoCall(Vec<u8>),
    /// Standard input is to be read a second time.
    InputTwice,
    Other(Box<Trouble>),
}

/// The calls of a script. Where a line is none, or names a file that cannot be read, nothing is done.
pub fn read(script: &OsStr) -> Result<Vec<Line>, Trouble> {
    let text = read::bytes(script)?;
    if text.len() as u64 > read::MOST {
        return Err(Trouble::Script(Fault::TooLong(script.to_owned())));
    }
    let fault = |number, why| {
        let script = script.to_owned();
        Trouble::Script(Fault::Line { script, number, why, is_begun: false })
    };
    // An editor may have put a byte order mark before the first line.
    let text = text.strip_prefix(b"\xef\xbb\xbf").unwrap_or(&text);
    let mut lines = Vec::new();
    let mut is_input_read = script == read::INPUT;
    for (at, line) in text.split(|&byte| byte == b'\n').enumerate() {
        let (number, line) = (at + 1, line.trim_ascii());
        if line.is_empty() || line.starts_with(b"#") {
            continue;
        }
        let ask = ask(line).ok_or_else(|| fault(number, Why::NoCall(line.to_vec())))?;
        if let Ask::Enter(file) = &ask {
            look(file, &mut is_input_read).map_err(|why| fault(number, why))?;
        }
        lines.push(Line { number, ask });
    }
    Ok(lines)
}

/// What a line asks for; none if it is no call. A FILE goes to the end of the line, so its name may
/// have spaces.
fn ask(line: &[u8]) -> Option<Ask> {
    let end = line.iter().position(u8::is_ascii_whitespace).unwrap_or(line.len());
    let (word, rest) = (&line[..end], line[end..].trim_ascii());
    match (word, rest) {
        (b"enter", [_, ..]) => Some(Ask::Enter(OsStr::from_bytes(rest).to_owned())),
        (b"withdraw", _) => named(rest).map(Ask::Withdraw),
        (b"find", _) => named(rest).map(Ask::Find),
        (b"total", []) => Some(Ask::Total),
        (b"list", []) => Some(Ask::List),
        _ => None,
    }
}

/// The four words of a key; none if there are more or fewer.
fn named(words: &[u8]) -> Option<Named> {
    let words = words.split(u8::is_ascii_whitespace).filter(|word| !word.is_empty());
    words.map(<[u8]>::to_vec).collect::<Vec<_>>().try_into().ok()
}

/// Whether a file to be entered can be read. Standard input can be read once.
fn look(file: &OsStr, is_input_read: &mut bool) -> Result<(), Why> {
    if file != read::INPUT {
        return read::look(file).map_err(|trouble| Why::Other(Box::new(trouble)));
    }
    match std::mem::replace(is_input_read, true) {
        true => Err(Why::InputTwice),
        false => Ok(()),
    }
}

impl Fault {
    /// A trouble that came up in a line when what stands before it was done.
    pub fn at(script: &OsStr, line: &Line, trouble: Trouble) -> Trouble {
        let (script, why) = (script.to_owned(), Why::Other(Box::new(trouble)));
        Trouble::Script(Fault::Line { script, number: line.number, why, is_begun: true })
    }

    /// In words.
    pub fn words(&self, language: Language) -> String {
        match self {
            Fault::TooLong(script) => {
                let script = name(script);
                language.say(
                    format!("{script}: The script has more than 16,777,216 bytes."),
                    format!("{script}: Das Skript hat mehr als 16.777.216 Bytes."),
                )
            }
            Fault::Line { script, number, why, is_begun } => {
                let (script, why) = (name(script), why.words(language));
                let done = match is_begun {
                    true => language.say(
                        "The script was done up to here.",
                        "Das Skript wurde bis hierher ausgeführt.",
                    ),
                    false => language.say(
                        "Nothing of the script was done.",
                        "Vom Skript wurde nichts ausgeführt.",
                    ),
                };
                language.say(
                    format!("Line {number} of {script}: {why} {done}"),
                    format!("Zeile {number} von {script}: {why} {done}"),
                )
            }
        }
    }
}

impl Why {
    /// In words.
    fn words(&self, language: Language) -> String {
        match self {
            Why::NoCall(line) => {
                let first = beginning(line, MOST_SHOWN);
                let cut = if first.len() < line.len() { "…" } else { "" };
                let line = language.quoted(&format!("{}{cut}", shown(first)));
                let no_call = language.say("is no call.", "ist keine Anweisung.");
                format!("{line} {no_call} {}", Command::Book.usage(language))
            }
            Why::InputTwice => language
                .say(
                    "Standard input can be read only once. Name a file.",
                    "Die Standardeingabe lässt sich nur einmal lesen. Bitte eine Datei nennen.",
                )
                .to_string(),
            Why::Other(trouble) => trouble.words(language),
        }
    }
}

#[cfg(test)]
mod tests {
    use super::*;

    /// The key that these words name.
    fn key(words: [&str; 4]) -> Named {
        words.map(|word| word.as_bytes().to_vec())
    }

    #[test]
    fn every_call() {
        let four = ["CORE", "MSG/1", "BANKDEFF", "2010-12-03"];
        for (line, due) in [
            ("enter a.xml", Ask::Enter("a.xml".into())),
            ("enter\t a b .xml", Ask::Enter("a b .xml".into())),
            ("enter -", Ask::Enter("-".into())),
            ("withdraw CORE MSG/1 BANKDEFF 2010-12-03", Ask::Withdraw(key(four))),
            ("find  CORE\tMSG/1 BANKDEFF   2010-12-03", Ask::Find(key(four))),
            ("total", Ask::Total),
            ("list", Ask::List),
        ] {
            assert_eq!(ask(line.as_bytes()), Some(due), "{line}");
        }
    }

    #[test]
    fn what_is_no_call() {
        for line in [
            "enter",
            "Enter a.xml",
            "enters a.xml",
            "enter# a.xml",
            "withdraw",
            "withdraw CORE MSG/1 BANKDEFF",
            "withdraw CORE MSG/1 BANKDEFF 2010-12-03 5",
            "find CORE MSG/1 BANKDEFF 2010-12-03 5",
            "total 5",
            "total# 5",
            "list all",
            "lists",
            "-",
        ] {
            assert_eq!(ask(line.as_bytes()), None, "{line}");
        }
    }
}
