//! Why a call on a day could not be done, in words.

use super::clearer;
use super::damage::Damage;
use super::disk::Failed;
use super::left::Left;
use super::record::MOST_MSG_ID;
use crate::failure::cause;
use crate::language::Language;
use crate::show::{name, shown};
use crate::trouble::{output, unwritable, Trouble};
use std::ffi::OsString;
use std::io;
use std::path::{Path, PathBuf};

#[derive(Debug)]
pub enum Fault {
    /// No folder was named.
    NoFolder,
    /// A folder that holds no day, holds messages without a recording, or holds a day already.
    NoDay(PathBuf),
    NoRecording(PathBuf),
    IsDay(PathBuf),
    /// The lock.
    Busy(PathBuf),
    NoLock(PathBuf, io::Error),
    /// The time of a call.
    NoTime(OsString),
    NoClock,
    TimeFalls {
        time: Vec<u8>,
        last: Vec<u8>,
    },
    /// An accepted message that no record can tell of.
    LongMsgId(OsString, Vec<u8>),
    /// What a cut-off call left, before anything is written.
    Unrepaired(PathBuf, Left),
    /// What no call can have left.
    Damaged(PathBuf, Damage),
    /// Writing failed, and the call is not recorded.
    Unwritten(Failed),
    /// Writing failed, and so did taking it back.
    Unsure(Failed),
    Unrepairable(Failed),
    /// The call is recorded; only its answer could not be told.
    Untold(io::Error),
    NoMemory,
    /// The clearer's report.
    Report(OsString, clearer::Fault),
}

impl From<Fault> for Trouble {
    /// As a trouble of the command.
    fn from(fault: Fault) -> Trouble {
        Trouble::Day(fault)
    }
}

impl Fault {
    /// In words, for standard error.
    pub fn words(&self, language: Language) -> String {
        match self {
            Fault::NoDay(folder)
            | Fault::NoRecording(folder)
            | Fault::IsDay(folder)
            | Fault::Busy(folder) => {
                format!("{}: {}", name(folder.as_os_str()), self.of_folder(language))
            }
            Fault::NoLock(file, error) => {
                no_lock(&name(file.as_os_str()), &cause(error, language), language)
            }
            Fault::LongMsgId(file, msg_id) => long_msg_id(&name(file), msg_id, language),
            Fault::NoTime(_) | Fault::TimeFalls { .. } => self.of_time(language),
            Fault::Unrepaired(folder, left) => {
                let before = language
                    .say("Nothing is written before that.", "Vorher wird nichts geschrieben.");
                format!("{} {before}", cut_off(folder, left, language))
            }
            Fault::Damaged(folder, damage) => {
                format!("{}: {}", name(folder.as_os_str()), damage.words(language))
            }
            Fault::Unwritten(failed) | Fault::Unsure(failed) | Fault::Unrepairable(failed) => {
                let (file, why) =
                    (name(failed.file.as_os_str()), unwritable(&failed.error, language));
                format!("{file}: {why} {}", self.of_failure(failed.is_left, language))
            }
            Fault::Untold(error) => {
                let done = language.say("The call is recorded.", "Der Aufruf ist aufgezeichnet.");
                format!("{} {done}", output(error, language))
            }
            Fault::Report(file, fault) => format!("{}: {}", name(file), fault.words(language)),
            Fault::NoFolder | Fault::NoClock | Fault::NoMemory => {
                self.of_folder(language).to_string()
            }
        }
    }

    /// What is wrong with a folder, and what to do.
    fn of_folder(&self, language: Language) -> &'static str {
        let (english, german) = match self {
            Fault::NoDay(_) => (
                "It is not the folder of a day: it has no recording. bulk day new DIR makes one.",
                "Das ist kein Tagesordner: Er hat keine Aufzeichnung (recording). bulk day new \
                 ORDNER legt einen an.",
            ),
            Fault::NoRecording(_) => (
                "Messages of a day are here, but its recording is missing: the folder was copied \
                 in part. Copy it again. Nothing was changed.",
                "Hier liegen Nachrichten eines Tages, aber die Aufzeichnung (recording) fehlt: Der \
                 Ordner ist unvollständig kopiert. Bitte noch einmal kopieren. Nichts wurde \
                 verändert.",
            ),
            Fault::IsDay(_) => (
                "It holds a day already. Choose another folder. Nothing was changed.",
                "Der Ordner enthält schon einen Tag. Bitte einen anderen wählen. Nichts wurde \
                 verändert.",
            ),
            Fault::Busy(_) => (
                "Another command has been at work on this day for 10 seconds. Try again. Nothing \
                 was changed.",
                "Ein anderer Befehl arbeitet seit 10 Sekunden an diesem Tag. Bitte noch einmal \
                 versuchen. Nichts wurde verändert.",
            ),
            _ => self.of_machine(),
        };
        language.say(english, german)
    }

    /// What is wrong with the machine, or with the call.
    fn of_machine(&self) -> (&'static str, &'static str) {
        match self {
            Fault::NoClock => (
                "The clock tells no time that can be recorded. Set it, or give the time: --time",
                "Die Uhr nennt keine Zeit, die sich aufzeichnen lässt. Bitte stellen oder die Zeit \
                 angeben: --time",
            ),
            Fault::NoMemory => (
                "The messages of this day need more memory than there is. Nothing was changed.",
                "Die Nachrichten dieses Tages brauchen mehr Speicher, als vorhanden ist. Nichts \
                 wurde verändert.",
            ),
            _ => (
                "Which day? Name its folder: --day DIR, or BULK_DAY. bulk day new DIR makes one.",
                "Welcher Tag? Bitte den Ordner nennen: --day ORDNER oder BULK_DAY. bulk day new \
                 ORDNER legt einen an.",
            ),
        }
    }

    /// What is wrong with a time.
    fn of_time(&self, language: Language) -> String {
        match self {
            Fault::TimeFalls { time, last } => {
                let (time, last) = (shown(time), shown(last));
                language.say(
                    format!(
                        "The time of this call, {time}, lies before that of the last record, \
                         {last}. Nothing was changed. Set the clock, or give a time: --time {last}"
                    ),
                    format!(
                        "Die Zeit dieses Aufrufs, {time}, liegt vor der des letzten Satzes, {last}. \
                         Nichts wurde verändert. Bitte die Uhr stellen oder die Zeit angeben: \
                         --time {last}"
                    ),
                )
            }
            Fault::NoTime(word) => {
                let word = language.quoted(&name(word));
                language.say(
                    format!(
                        "The time {word} cannot be recorded. Expected: 2026-10-25T02:30:00+02:00, \
                         without fraction, with its offset."
                    ),
                    format!(
                        "Die Zeit {word} lässt sich nicht aufzeichnen. Erwartet: \
                         2026-10-25T02:30:00+02:00, ohne Bruchteile, mit Zeitverschiebung."
                    ),
                )
            }
            _ => String::new(),
        }
    }

    /// What a failure leaves.
    fn of_failure(&self, is_left: bool, language: Language) -> &'static str {
        let (english, german) = match self {
            Fault::Unsure(_) => (
                "What was written could not be taken back either: look with bulk day list, when \
                 the disk works again, whether the call is recorded.",
                "Das Geschriebene ließ sich auch nicht zurücknehmen: Bitte mit bulk day list \
                 nachsehen, ob der Aufruf aufgezeichnet ist, sobald der Datenträger wieder arbeitet.",
            ),
            Fault::Unrepairable(_) => (
                "Not all of it was set aside. Call bulk day repair again.",
                "Nicht alles wurde beiseitegelegt. Bitte bulk day repair noch einmal aufrufen.",
            ),
            _ if is_left => (
                "Nothing was recorded, but a part of the message is left: bulk day repair sets it \
                 aside.",
                "Nichts wurde aufgezeichnet, aber ein Teil der Nachricht blieb liegen: bulk day \
                 repair legt ihn beiseite.",
            ),
            _ => ("Nothing was recorded.", "Nichts wurde aufgezeichnet."),
        };
        language.say(english, german)
    }
}

/// What a cut-off call left in a folder, and what to do.
pub fn cut_off(folder: &Path, left: &Left, language: Language) -> String {
    let (folder, left) = (name(folder.as_os_str()), left.words(language).join("; "));
    language.say(
        format!(
            "{folder}: A call was cut off before it was answered, and left {left}. It does not \
             count. bulk day repair sets that aside."
        ),
        format!(
            "{folder}: Ein Aufruf wurde abgebrochen, bevor er beantwortet war. Zurück blieb: \
             {left}. Er zählt nicht. bulk day repair legt das beiseite."
        ),
    )
}

/// A file system without locks.
fn no_lock(file: &str, cause: &str, language: Language) -> String {
    language.say(
        format!(
            "{file}: It cannot be locked ({cause}), so nothing is written to it. Keep the day on \
             another disk."
        ),
        format!(
            "{file}: Die Datei lässt sich nicht sperren ({cause}), deshalb wird nichts \
             hineingeschrieben. Bitte den Tag auf einem anderen Datenträger führen."
        ),
    )
}

/// A MsgId that no record has room for.
fn long_msg_id(file: &str, msg_id: &[u8], language: Language) -> String {
    let (bytes, msg_id) = (msg_id.len(), language.quoted(&shown(msg_id)));
    language.say(
        format!(
            "{file}: The MsgId {msg_id} has {bytes} bytes, and a record has room for \
             {MOST_MSG_ID}, so the bulk cannot be recorded. Have it exported with a shorter \
             MsgId. Nothing was changed."
        ),
        format!(
            "{file}: Die MsgId {msg_id} hat {bytes} Zeichen, ein Satz fasst nur {MOST_MSG_ID}; \
             der Bulk lässt sich nicht aufzeichnen. Bitte mit einer kürzeren MsgId exportieren \
             lassen. Nichts wurde verändert."
        ),
    )
}
