//! Where the folder of a day is not as it was written: copied in part, or changed. No cut-off call
//! leaves that, so no repair touches it.

use super::left::Left;
use crate::language::Language;
use crate::pages;

#[derive(Debug)]
pub enum Damage {
    /// The message of an entry is missing.
    NoMessage { record: u64, message: String },
    /// The message of an entry is refused, or is another one.
    Message { record: u64, message: String, number: u64 },
    /// A record is none, or could not be made.
    Record { record: u64, number: u64 },
    /// More messages have no record than one cut-off call can leave.
    NoRecord(Left),
}

impl Damage {
    /// In words.
    pub fn words(&self, language: Language) -> String {
        let copied = language.say(
            "The folder was copied in part, or changed. Copy it again. Nothing was changed.",
            "Der Ordner ist unvollständig kopiert oder wurde verändert. Bitte noch einmal kopieren. \
             Nichts wurde verändert.",
        );
        format!("{} {copied}", self.what(language))
    }

    /// What it is.
    fn what(&self, language: Language) -> String {
        match self {
            Damage::NoMessage { record, message } => language.say(
                format!("The message of record {record}, messages/{message}, is missing."),
                format!("Die Nachricht zu Satz {record}, messages/{message}, fehlt."),
            ),
            Damage::Message { record, message, number } => {
                let (file, refused) = (format!("messages/{message}"), refused(*number, language));
                language.say(
                    format!("The message of record {record}, {file}, is another now, {refused}"),
                    format!(
                        "Die Nachricht zu Satz {record}, {file}, ist nicht mehr dieselbe, \
                         {refused}"
                    ),
                )
            }
            Damage::Record { record, number } => {
                let refused = refused(*number, language);
                language.say(
                    format!("Record {record} of the recording does not play back, {refused}"),
                    format!(
                        "Satz {record} der Aufzeichnung lässt sich nicht nachspielen, {refused}"
                    ),
                )
            }
            Damage::NoRecord(left) => {
                let left = left.words(language).join("; ");
                language.say(
                    format!("Records are missing at the end of the recording: there is {left}."),
                    format!("Am Ende der Aufzeichnung fehlen Sätze. Übrig ist: {left}."),
                )
            }
        }
    }
}

/// The number of a refusal, and its sentence.
fn refused(number: u64, language: Language) -> String {
    let refused = language.say(format!("refused {number}"), format!("abgelehnt (Nr. {number})"));
    match pages::sentence(number, language).as_str() {
        "" => format!("{refused}."),
        sentence => format!("{refused}: {sentence}"),
    }
}
