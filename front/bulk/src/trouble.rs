//! Why the command could not do its work. A trouble is typed where it comes up, and put into words
//! once, here, in the chosen language.

use crate::call::{Command, Form};
use crate::day;
use crate::failure::cause;
use crate::language::Language;
use crate::made::Made;
use crate::script::Fault;
use crate::show::name;
use std::ffi::OsString;
use std::io;

#[derive(Debug)]
pub enum Trouble {
    /// The call itself.
    NoCommand,
    UnknownCommand(OsString),
    UnknownOption(OsString),
    /// The command was not called as it must be.
    Misused(Command),
    /// More than one of --plain, --json and --csv.
    SeveralForms,
    /// A form that the command does not have.
    FormOf(Form, Command),
    UnknownKind(OsString),
    UnknownNumber(OsString),
    /// Reading.
    Unreadable(OsString, io::Error),
    InputClosed,
    NoXml(OsString),
    LongRecording(OsString),
    /// Standard output.
    Output(io::Error),
    OutputClosed(Made),
    /// What was made is in this file; only the verdict could not be told.
    OutputAfter(Made, OsString, io::Error),
    /// The file for what is made.
    NoName(Made),
    NoFile(OsString),
    LeadsNowhere(OsString),
    Device(OsString),
    IsMessage(Made, OsString),
    /// What it holds would be lost.
    NotReplaced(Made, OsString),
    Unwritable(OsString, io::Error),
    /// An option that the command does not have.
    OptionOf(&'static str, &'static str),
    /// An option without its value.
    NoValue(OsString),
    /// The script of `book`.
    Script(Fault),
    /// A call on a day.
    Day(day::Fault),
    /// The command and the library do not agree.
    Disagreement,
}

impl From<told::Disagreement> for Trouble {
    /// As it is told.
    fn from(told::Disagreement: told::Disagreement) -> Trouble {
        Trouble::Disagreement
    }
}

impl Trouble {
    /// In words, for standard error.
    pub fn words(&self, language: Language) -> String {
        match self {
            Trouble::UnknownCommand(word)
            | Trouble::UnknownOption(word)
            | Trouble::UnknownKind(word)
            | Trouble::UnknownNumber(word) => self.of_word(&name(word), language),
            Trouble::NoCommand
            | Trouble::Misused(_)
            | Trouble::SeveralForms
            | Trouble::FormOf(..)
            | Trouble::OptionOf(..)
            | Trouble::NoValue(_) => self.of_call(language),
            Trouble::Script(fault) => fault.words(language),
            Trouble::Day(fault) => fault.words(language),
            Trouble::Output(error) => output(error, language),
            Trouble::OutputAfter(made, out, error) => {
                format!("{} {} {}", output(error, language), is_in(*made, language), name(out))
            }
            Trouble::Unreadable(file, error) => {
                format!("{}: {}", name(file), unreadable(error, language))
            }
            Trouble::Unwritable(out, error) => {
                let nothing = language.say("Nothing was changed.", "Nichts wurde verändert.");
                format!("{}: {} {nothing}", name(out), unwritable(error, language))
            }
            Trouble::NoXml(file)
            | Trouble::LongRecording(file)
            | Trouble::NoFile(file)
            | Trouble::LeadsNowhere(file)
            | Trouble::Device(file)
            | Trouble::IsMessage(_, file)
            | Trouble::NotReplaced(_, file) => {
                format!("{}: {}", name(file), self.of_file(language))
            }
            _ => self.of_file(language).to_string(),
        }
    }

    /// A word that means nothing, and which ones do.
    fn of_word(&self, word: &str, language: Language) -> String {
        let (quoted, see) = (language.quoted(word), see_help(language));
        match self {
            Trouble::UnknownCommand(_) => {
                let all = Command::names();
                language.say(
                    format!("Unknown command {quoted}. Commands: {all} {see}"),
                    format!("Unbekannter Befehl {quoted}. Befehle: {all} {see}"),
                )
            }
            Trouble::UnknownKind(_) => {
                let all = told::checked::names();
                language.say(
                    format!("Unknown kind {quoted}. Kinds: {all}"),
                    format!("Unbekannte Art {quoted}. Arten: {all}"),
                )
            }
            Trouble::UnknownNumber(_) => language.say(
                format!("There is no refusal {quoted}. bulk explain lists them all."),
                format!("Ablehnung {quoted} gibt es nicht. bulk explain nennt alle."),
            ),
            _ => language.say(
                format!("Unknown option {quoted}. If you mean a file: ./{word} {see}"),
                format!("Unbekannte Option {quoted}. Falls eine Datei gemeint ist: ./{word} {see}"),
            ),
        }
    }

    /// What is wrong with the call, and how it should be.
    fn of_call(&self, language: Language) -> String {
        let text = match self {
            Trouble::Misused(command) => command.usage(language).to_string(),
            Trouble::FormOf(form, command) => no_option(form.option(), command.name(), language),
            Trouble::OptionOf(option, command) => no_option(option, command, language),
            Trouble::NoValue(option) => {
                let option = name(option);
                language.say(
                    format!("The value of {option} is missing."),
                    format!("Der Wert von {option} fehlt."),
                )
            }
            Trouble::SeveralForms => language
                .say(
                    "Choose one of --plain, --json and --csv.",
                    "Bitte nur eines wählen: --plain, --json oder --csv.",
                )
                .to_string(),
            _ => language
                .say(
                    "What is to be done? To begin: bulk judge FILE",
                    "Was ist zu tun? Zum Beispiel: bulk judge DATEI",
                )
                .to_string(),
        };
        format!("{text} {}", see_help(language))
    }

    /// What is wrong with a file or a stream, and what to do.
    fn of_file(&self, language: Language) -> &'static str {
        let (english, german) = match self {
            Trouble::NoXml(_) => (
                "The folder has no .xml file. Name another folder or a file.",
                "Der Ordner enthält keine .xml-Datei. Bitte einen anderen Ordner oder eine Datei \
                 nennen.",
            ),
            Trouble::LongRecording(_) => (
                "The recording has more than 16,777,216 bytes. Name the recording of one day.",
                "Die Aufzeichnung hat mehr als 16.777.216 Bytes. Bitte die Aufzeichnung eines Tages nennen.",
            ),
            Trouble::InputClosed => (
                "Standard input is closed. Name a file, or send the message to the command.",
                "Die Standardeingabe ist geschlossen. Bitte eine Datei nennen oder die Nachricht \
                 an den Befehl leiten.",
            ),
            Trouble::OutputClosed(Made::Records) => (
                "Standard output is closed, so the records would be lost. Name a file for them.",
                "Die Standardausgabe ist geschlossen, die Buchungssätze gingen verloren. Bitte \
                 eine Datei dafür nennen.",
            ),
            Trouble::OutputClosed(Made::Plain) => (
                "Standard output is closed, so the plain form would be lost. Name a file for it.",
                "Die Standardausgabe ist geschlossen, die Normalform ginge verloren. Bitte eine \
                 Datei dafür nennen.",
            ),
            Trouble::Disagreement => (
                "The command and the library do not agree on this message. Please report this, \
                 with the file.",
                "Befehl und Bibliothek sind sich über diese Nachricht nicht einig. Bitte mit der \
                 Datei melden.",
            ),
            _ => self.of_out(),
        };
        language.say(english, german)
    }

    /// Why the file for what is made stays as it is.
    fn of_out(&self) -> (&'static str, &'static str) {
        match self {
            Trouble::NoName(made) | Trouble::IsMessage(made, _) | Trouble::NotReplaced(made, _) => {
                self.of_made(*made)
            }
            Trouble::NoFile(_) => (
                "It is a folder or a device, not a file. Name a file. Nothing was changed.",
                "Das ist ein Ordner oder ein Gerät, keine Datei. Bitte eine Datei nennen. Nichts \
                 wurde verändert.",
            ),
            Trouble::LeadsNowhere(_) => (
                "It is a link to a file that is not there. Remove it, or choose another name.",
                "Das ist ein Verweis auf eine Datei, die es nicht gibt. Bitte entfernen oder \
                 einen anderen Namen wählen.",
            ),
            _ => (
                "Nothing is written under /dev or /proc. For standard output give - as OUT.",
                "Unter /dev und /proc wird nichts geschrieben. Für die Standardausgabe bitte - als \
                 ZIEL angeben.",
            ),
        }
    }

    /// The same, where it depends on what is made.
    fn of_made(&self, made: Made) -> (&'static str, &'static str) {
        match (self, made) {
            (Trouble::NoName(_), Made::Records) => (
                "OUT is empty. Name a file for the records, or - for standard output.",
                "ZIEL ist leer. Bitte eine Datei für die Buchungssätze nennen oder - für die \
                 Standardausgabe.",
            ),
            (Trouble::NoName(_), Made::Plain) => (
                "OUT is empty. Name a file for the plain form, or - for standard output.",
                "ZIEL ist leer. Bitte eine Datei für die Normalform nennen oder - für die \
                 Standardausgabe.",
            ),
            (Trouble::IsMessage(..), Made::Records) => (
                "OUT is the message itself. Choose another name for the records.",
                "ZIEL ist die Nachricht selbst. Bitte einen anderen Namen für die Buchungssätze \
                 wählen.",
            ),
            (Trouble::IsMessage(..), Made::Plain) => (
                "OUT is the message itself. Choose another name for the plain form.",
                "ZIEL ist die Nachricht selbst. Bitte einen anderen Namen für die Normalform wählen.",
            ),
            (_, Made::Records) => (
                "The file does not hold posting records, so it was not replaced. Choose another \
                 name, or remove it first.",
                "Die Datei enthält keine Buchungssätze und wurde nicht ersetzt. Bitte einen anderen \
                 Namen wählen oder sie vorher löschen.",
            ),
            (_, Made::Plain) => (
                "The file is not empty and holds something else, perhaps another bulk, so it was \
                 not replaced. Choose another name, or remove it first.",
                "Die Datei ist nicht leer und enthält etwas anderes, vielleicht einen anderen Bulk; \
                 sie wurde nicht ersetzt. Bitte einen anderen Namen wählen oder sie vorher löschen.",
            ),
        }
    }
}

/// Where what was made is, before the name of the file.
fn is_in(made: Made, language: Language) -> &'static str {
    match made {
        Made::Records => language.say("The records are in", "Die Buchungssätze stehen in"),
        Made::Plain => language.say("The plain form is in", "Die Normalform steht in"),
    }
}

/// An option that a command does not have.
fn no_option(option: &str, command: &str, language: Language) -> String {
    language.say(
        format!("There is no {option} for {command}."),
        format!("Für {command} gibt es {option} nicht."),
    )
}

/// Where the help is.
fn see_help(language: Language) -> &'static str {
    language.say("(see bulk --help)", "(siehe bulk --help)")
}

/// Why standard output could not be written, and what to do.
pub fn output(error: &io::Error, language: Language) -> String {
    let cause = cause(error, language);
    language.say(
        format!("Standard output cannot be written: {cause}. Redirect the output."),
        format!(
            "Die Standardausgabe lässt sich nicht schreiben: {cause}. Bitte die Ausgabe umleiten."
        ),
    )
}

/// Why a file could not be read, and what to do. The numbers are the system's, the same on every
/// Linux that we build for.
fn unreadable(error: &io::Error, language: Language) -> String {
    let (english, german) = match error.raw_os_error() {
        Some(2 | 20) => (
            "There is no such file. Check the name and the folder.",
            "Diese Datei gibt es nicht. Bitte Name und Ordner prüfen.",
        ),
        Some(1 | 13) => (
            "No permission to read it. Ask its owner for permission.",
            "Das Leserecht fehlt. Bitte beim Eigentümer der Datei anfragen.",
        ),
        Some(21) => (
            "It is a folder. Name a file in it.",
            "Das ist ein Ordner. Bitte eine Datei darin nennen.",
        ),
        _ => {
            let cause = cause(error, language);
            return language.say(
                format!("Reading failed: {cause}. Copy the file again and try again."),
                format!(
                    "Lesen fehlgeschlagen: {cause}. Bitte die Datei neu kopieren und noch einmal \
                     versuchen."
                ),
            );
        }
    };
    language.say(english, german).to_string()
}

/// Why a file could not be written, and what to do.
pub fn unwritable(error: &io::Error, language: Language) -> String {
    let (english, german) = match error.raw_os_error() {
        Some(2 | 20) => (
            "The folder does not exist. Create it, or choose another one.",
            "Den Ordner gibt es nicht. Bitte anlegen oder einen anderen wählen.",
        ),
        Some(1 | 13) => (
            "No permission to write there. Choose another folder, or ask for permission.",
            "Dort fehlt das Schreibrecht. Bitte einen anderen Ordner wählen oder Schreibrecht \
             anfordern.",
        ),
        Some(30) => (
            "The disk is read-only. Choose another folder.",
            "Der Datenträger ist schreibgeschützt. Bitte einen anderen Ordner wählen.",
        ),
        Some(27 | 28 | 122) => (
            "The disk is full. Make room, then try again.",
            "Der Datenträger ist voll. Bitte Platz schaffen und noch einmal versuchen.",
        ),
        Some(36) => (
            "The name is too long. Choose a shorter one.",
            "Der Name ist zu lang. Bitte einen kürzeren wählen.",
        ),
        _ => {
            let cause = cause(error, language);
            return language.say(
                format!("Writing failed: {cause}. Choose another folder."),
                format!("Schreiben fehlgeschlagen: {cause}. Bitte einen anderen Ordner wählen."),
            );
        }
    };
    language.say(english, german).to_string()
}
