//! The folder of a day: the recording, the messages of its entries, and the lock, which is the
//! recording's own. Nothing else is kept, and everything that is told of a day is played back from
//! it.

use super::damage::Damage;
use super::disk::{self, Failed};
use super::fault::Fault;
use super::left::Left;
use super::messages::{self, Messages};
use super::played::{played, Played};
use super::record::{self, Record, RECORD};
use crate::system;
use crate::trouble::Trouble;
use face::book::Key;
use std::fs::{self, File, OpenOptions};
use std::io::{self, Read};
use std::os::unix::fs::MetadataExt;
use std::path::{Path, PathBuf};
use std::time::{Duration, Instant};

/// The file of the records.
pub const RECORDING: &str = "recording";

/// How long a call waits for another that writes, and how often it looks.
const PATIENCE: Duration = Duration::from_secs(10);
const PAUSE: Duration = Duration::from_millis(10);

/// Whether a call reads the day alone, or may write to it.
#[derive(Clone, Copy, Debug, PartialEq, Eq)]
pub enum Access {
    Reading,
    Writing,
}

/// A day's folder, locked as long as it is open.
pub struct Store {
    pub folder: PathBuf,
    file: File,
    /// The whole records.
    pub recording: Vec<u8>,
    pub messages: Messages,
    /// What calls that were cut off left behind.
    pub left: Left,
}

/// A call that was tried: the day behind it, and the number of a refusal, with which the day is as
/// before.
pub struct Tried {
    pub played: Played,
    pub refused: Option<u64>,
}

impl Store {
    /// Opens a day and reads all of it.
    pub fn open(folder: &Path, access: Access) -> Result<Store, Trouble> {
        let path = folder.join(RECORDING);
        let mut file = locked(folder, &path, access)?;
        let mut recording = Vec::new();
        let read = file.read_to_end(&mut recording);
        read.map_err(|error| Trouble::Unreadable(path.into(), error))?;
        let torn = Left::torn(&recording);
        let torn = recording.split_off(recording.len() - torn);
        let entries = recording.chunks(RECORD).filter(|record| record::is_entry(record)).count();
        let (messages, others) = Messages::read(folder, entries)?;
        let left = Left::of(torn, entries, others);
        Ok(Store { folder: folder.to_owned(), file, recording, messages, left })
    }

    /// The path of the recording.
    pub fn path(&self) -> PathBuf {
        self.folder.join(RECORDING)
    }

    /// The number of records.
    pub fn records(&self) -> u64 {
        (self.recording.len() / RECORD) as u64
    }

    /// The day, played back from nothing. Where that is refused, the folder is not as it was
    /// written.
    pub fn play(&self) -> Result<Played, Trouble> {
        let played =
            played(&self.recording, &self.messages.buffer, &self.messages.ends).agreed()?;
        match played.refused {
            Some((number, record)) => Err(self.damaged(number, record)),
            None if self.left.is_damage() => {
                Err(Fault::Damaged(self.folder.clone(), Damage::NoRecord(self.left.clone())).into())
            }
            None => Ok(played),
        }
    }

    /// The day with one more call, played back from nothing; nothing is written. Behind an entry
    /// stands its message.
    pub fn tried(&mut self, record: &Record, message: Option<&[u8]>) -> Result<Tried, Trouble> {
        let place = self.records();
        let (length, before) = (self.recording.len(), self.messages.ends.len());
        self.recording.extend_from_slice(record);
        message.map_or(Ok(()), |message| self.messages.push(message))?;
        let played = played(&self.recording, &self.messages.buffer, &self.messages.ends).agreed();
        self.recording.truncate(length);
        self.messages.truncate(before);
        let played = played?;
        match played.refused {
            Some((number, at)) if at == place => Ok(Tried { played, refused: Some(number) }),
            Some((number, at)) => Err(self.damaged(number, at)),
            None => Ok(Tried { played, refused: None }),
        }
    }

    /// What is wrong where a record does not play.
    fn damaged(&self, number: u64, record: u64) -> Trouble {
        let mut records = self.recording.chunks(RECORD);
        let before = records.by_ref().take(record as usize);
        let entered = before.filter(|record| record::is_entry(record)).count();
        let is_entry = records.next().is_some_and(record::is_entry);
        let message = messages::name(entered as u64);
        let damage = match number {
            28 if entered == self.messages.ends.len() => Damage::NoMessage { record, message },
            20 | 21 | 26 | 27 => Damage::Record { record, number },
            _ if is_entry => Damage::Message { record, message, number },
            _ => Damage::Record { record, number },
        };
        Fault::Damaged(self.folder.clone(), damage).into()
    }

    /// Nothing is written to a day before what cut-off calls left is set aside.
    pub fn repaired(&self) -> Result<(), Trouble> {
        match self.left.is_empty() {
            true => Ok(()),
            // What no cut-off call can have left is told as what it is.
            false => Err(match self.play() {
                Err(trouble) => trouble,
                Ok(_) => Fault::Unrepaired(self.folder.clone(), self.left.clone()).into(),
            }),
        }
    }

    /// Puts a call on the disk: of an entry first its message, then the record.
    pub fn write(&mut self, record: &Record, message: Option<&[u8]>) -> Result<(), Trouble> {
        let name = messages::name(self.messages.ends.len() as u64);
        let file = self.folder.join(messages::FOLDER).join(name);
        if let Some(message) = message {
            disk::make_folder(&self.folder.join(messages::FOLDER)).map_err(Fault::Unwritten)?;
            disk::create(&file, message).map_err(Fault::Unwritten)?;
        }
        let length = self.recording.len() as u64;
        disk::append(&self.file, &self.path(), length, record).map_err(|failed| {
            // A record that may be there needs its message.
            match (failed.is_left, message) {
                (true, _) => Fault::Unsure(failed),
                (false, Some(_)) if disk::remove(&file).is_err() => {
                    Fault::Unwritten(Failed { is_left: true, ..failed })
                }
                (false, _) => Fault::Unwritten(failed),
            }
        })?;
        self.recording.extend_from_slice(record);
        message.map_or(Ok(()), |message| self.messages.push(message))
    }

    /// Cuts what is left of a torn record from the recording.
    pub fn cut(&self) -> Result<(), Trouble> {
        let (path, length) = (self.path(), self.recording.len() as u64);
        disk::cut(&self.file, &path, length).map_err(|error| {
            Fault::Unrepairable(Failed { file: path.clone(), error, is_left: true }).into()
        })
    }

    /// The last entry with a key: its time, and its message.
    pub fn entry(&self, key: &Key) -> Option<(&[u8], &[u8])> {
        let records = self.recording.chunks(RECORD).filter(|record| record::is_entry(record));
        let entries = records.enumerate().filter(|(_, record)| record::key(record) == Some(*key));
        let (message, record) = entries.last()?;
        Some((record::time(record), self.messages.get(message)?))
    }
}

/// Opens the recording and takes its lock: a writer alone, readers together. The system gives it
/// back when the process ends, however it ends.
fn locked(folder: &Path, path: &Path, access: Access) -> Result<File, Trouble> {
    let end = Instant::now() + PATIENCE;
    loop {
        let file = opened(folder, path, access)?;
        let lock = match access {
            Access::Reading => system::share(&file),
            Access::Writing => system::lock(&file),
        };
        match lock {
            // Another file may have got the name in the meantime.
            Ok(()) if is_same(&file, path) => return Ok(file),
            Err(error) if !is_transient(&error) => return unlocked(file, path, access, error),
            _ if Instant::now() < end => std::thread::sleep(PAUSE),
            _ => return Err(Fault::Busy(folder.to_owned()).into()),
        }
    }
}

/// Whether somebody else has the lock, or a signal came in between.
fn is_transient(error: &io::Error) -> bool {
    matches!(error.kind(), io::ErrorKind::WouldBlock | io::ErrorKind::Interrupted)
}

/// On a file system without locks a day can be read, but nobody may write to it.
fn unlocked(file: File, path: &Path, access: Access, error: io::Error) -> Result<File, Trouble> {
    match access {
        Access::Reading => Ok(file),
        Access::Writing => Err(Fault::NoLock(path.to_owned(), error).into()),
    }
}

/// Whether a name still leads to a file that is open.
fn is_same(file: &File, path: &Path) -> bool {
    match (file.metadata(), fs::metadata(path)) {
        (Ok(open), Ok(named)) => open.dev() == named.dev() && open.ino() == named.ino(),
        _ => false,
    }
}

/// Opens the recording.
fn opened(folder: &Path, path: &Path, access: Access) -> Result<File, Trouble> {
    match fs::metadata(path) {
        Ok(data) if data.is_file() => {}
        Err(error) if !is_missing(&error) => return Err(Trouble::Unreadable(path.into(), error)),
        _ => return Err(missing(folder)),
    }
    let mut options = OpenOptions::new();
    let file = options.read(true).append(access == Access::Writing).open(path);
    file.map_err(|error| match access {
        Access::Reading => Trouble::Unreadable(path.into(), error),
        Access::Writing => Trouble::Unwritable(path.into(), error),
    })
}

/// Whether there is no such file, or no such folder.
fn is_missing(error: &io::Error) -> bool {
    matches!(error.raw_os_error(), Some(2 | 20))
}

/// What a folder without a recording is.
fn missing(folder: &Path) -> Trouble {
    match messages::are_there(folder) {
        true => Fault::NoRecording(folder.to_owned()).into(),
        false => Fault::NoDay(folder.to_owned()).into(),
    }
}

/// Makes a new day: the folder, the folder of its messages, and last the recording, which makes it
/// a day.
pub fn make(folder: &Path) -> Result<(), Trouble> {
    let path = folder.join(RECORDING);
    if disk::is_there(&path) {
        return Err(Fault::IsDay(folder.to_owned()).into());
    }
    if messages::are_there(folder) {
        return Err(Fault::NoRecording(folder.to_owned()).into());
    }
    disk::make_folder(folder).map_err(Fault::Unwritten)?;
    disk::make_folder(&folder.join(messages::FOLDER)).map_err(Fault::Unwritten)?;
    disk::create_empty(&path).map_err(|failed| match failed.error.kind() {
        io::ErrorKind::AlreadyExists => Fault::IsDay(folder.to_owned()).into(),
        _ => Fault::Unwritten(failed).into(),
    })
}
