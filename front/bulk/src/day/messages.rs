//! The messages of a day's entries, each in a file of its own, byte for byte as it was entered.

use super::disk;
use super::fault::Fault;
use crate::read;
use crate::trouble::Trouble;
use std::ffi::OsString;
use std::fs;
use std::io;
use std::path::Path;

/// The folder of the messages.
pub const FOLDER: &str = "messages";

/// The name of a message's file.
pub fn name(number: u64) -> String {
    format!("{number:06}.xml")
}

/// The messages one after another, and where each ends.
#[derive(Default)]
pub struct Messages {
    pub buffer: Vec<u8>,
    pub ends: Vec<u64>,
}

/// What lies beside the messages that entries have.
#[derive(Clone, Debug, Default, PartialEq, Eq)]
pub struct Others {
    /// The numbers of messages, in order.
    pub messages: Vec<u64>,
    /// Files that are not whole: they were being written.
    pub beside: Vec<String>,
}

impl Messages {
    /// Reads the messages of so many entries, as far as they are there, and tells what else is.
    pub fn read(folder: &Path, entries: usize) -> Result<(Messages, Others), Trouble> {
        let folder = folder.join(FOLDER);
        let Others { messages: numbers, beside } = names(&folder)?;
        let (own, others) = numbers.split_at(numbers.partition_point(|n| *n < entries as u64));
        let mut messages = Messages::default();
        for (due, number) in own.iter().enumerate() {
            if *number != due as u64 {
                break;
            }
            messages.push(&read::bytes(folder.join(name(*number)).as_os_str())?)?;
        }
        Ok((messages, Others { messages: others.to_vec(), beside }))
    }

    /// Puts one message behind the others.
    pub fn push(&mut self, message: &[u8]) -> Result<(), Trouble> {
        self.buffer.try_reserve(message.len()).map_err(|_| Fault::NoMemory)?;
        self.buffer.extend_from_slice(message);
        self.ends.push(self.buffer.len() as u64);
        Ok(())
    }

    /// Takes away all but the first so many.
    pub fn truncate(&mut self, count: usize) {
        self.ends.truncate(count);
        self.buffer.truncate(self.ends.last().map_or(0, |end| *end as usize));
    }

    /// One of them.
    pub fn get(&self, number: usize) -> Option<&[u8]> {
        let start = number.checked_sub(1).map_or(0, |before| self.ends[before] as usize);
        self.buffer.get(start..*self.ends.get(number)? as usize)
    }
}

/// Whether a folder holds messages of a day.
pub fn are_there(folder: &Path) -> bool {
    names(&folder.join(FOLDER)).is_ok_and(|found| !found.messages.is_empty())
}

/// The names that are those of messages, or of messages that are not whole. Other files, which a
/// share or an editor may leave there, do not count. Without the folder there are none.
fn names(folder: &Path) -> Result<Others, Trouble> {
    let fail = |error| Trouble::Unreadable(OsString::from(folder), error);
    let entries = match fs::read_dir(folder) {
        Err(error) if error.kind() == io::ErrorKind::NotFound => return Ok(Others::default()),
        entries => entries.map_err(fail)?,
    };
    let mut found = Others::default();
    for entry in entries {
        let Ok(file) = entry.map_err(fail)?.file_name().into_string() else { continue };
        match number_of(file.strip_suffix(disk::BESIDE).unwrap_or(&file)) {
            Some(_) if file.ends_with(disk::BESIDE) => found.beside.push(file),
            Some(number) => found.messages.push(number),
            None => {}
        }
    }
    found.messages.sort_unstable();
    found.beside.sort_unstable();
    Ok(found)
}

/// The number in the name of a message's file.
fn number_of(file: &str) -> Option<u64> {
    let number = file.strip_suffix(".xml")?.parse().ok()?;
    (name(number) == file).then_some(number)
}

#[cfg(test)]
mod tests {
    use super::*;

    #[test]
    fn names_of_messages() {
        for number in [0, 1, 999_999, 1_000_000] {
            assert_eq!(number_of(&name(number)), Some(number));
        }
        for other in ["0.xml", "0000000.xml", "+00000.xml", "000000.XML", "000000", ".xml"] {
            assert_eq!(number_of(other), None, "{other}");
        }
    }

    #[test]
    fn messages_one_after_another() {
        let mut messages = Messages::default();
        for message in [&b"one"[..], b"", b"three"] {
            messages.push(message).unwrap();
        }
        assert_eq!(messages.ends, [3, 3, 8]);
        let all: Vec<_> = (0..4).map(|number| messages.get(number)).collect();
        assert_eq!(all, [Some(&b"one"[..]), Some(b""), Some(b"three"), None]);
        messages.truncate(1);
        assert_eq!((&messages.buffer[..], &messages.ends[..]), (&b"one"[..], &[3][..]));
        messages.truncate(0);
        assert_eq!(messages.buffer, b"");
    }
}
