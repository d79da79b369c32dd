//! Messages and values from files and from standard input.

use crate::system;
use crate::trouble::Trouble;
use std::ffi::{OsStr, OsString};
use std::fs::{self, File};
use std::io::{self, Read};
use std::path::Path;

/// The most bytes that the judge takes. One more is refused with 1 whatever follows, so no more than
/// that is ever read: a file of any size, or an endless one, does no harm.
pub const MOST: u64 = 16_777_216;

/// The name of standard input.
pub const INPUT: &str = "-";

/// The bytes of a file, or of standard input.
pub fn bytes(name: &OsStr) -> Result<Vec<u8>, Trouble> {
    let read = if name == INPUT {
        if system::is_closed(&io::stdin()) {
            return Err(Trouble::InputClosed);
        }
        up_to_most(io::stdin().lock(), 0)
    } else {
        File::open(name).and_then(|file| {
            let length = file.metadata()?.len();
            up_to_most(file, length)
        })
    };
    read.map_err(|error| Trouble::Unreadable(name.to_owned(), error))
}

/// Whether a file can be read, as far as that is told without reading it: a pipe is read only once.
pub fn look(name: &OsStr) -> Result<(), Trouble> {
    let looked = fs::metadata(name).and_then(|data| match data.is_dir() {
        // What reading a folder would answer.
        true => Err(io::Error::from_raw_os_error(21)),
        false if data.is_file() => File::open(name).map(drop),
        false => Ok(()),
    });
    looked.map_err(|error| Trouble::Unreadable(name.to_owned(), error))
}

/// Reads up to the most, with room for the length that is known.
fn up_to_most(from: impl Read, length: u64) -> io::Result<Vec<u8>> {
    let mut bytes = Vec::with_capacity(length.min(MOST) as usize + 1);
    from.take(MOST + 1).read_to_end(&mut bytes)?;
    Ok(bytes)
}

/// The files that an argument means: itself, or of a folder its .xml files.
pub fn files(name: &OsStr) -> Result<Vec<OsString>, Trouble> {
    if !is_folder(name) {
        return Ok(vec![name.to_owned()]);
    }
    let fail = |error| Trouble::Unreadable(name.to_owned(), error);
    let mut files = Vec::new();
    for entry in fs::read_dir(name).map_err(fail)? {
        let path = entry.map_err(fail)?.path();
        // A file that is there but cannot be looked at is named too: the judge will say why.
        let is_file = fs::metadata(&path).map_or(true, |data| data.is_file());
        if is_file && is_xml(&path) {
            files.push(path.into_os_string());
        }
    }
    files.sort();
    match files.len() {
        0 => Err(Trouble::NoXml(name.to_owned())),
        _ => Ok(files),
    }
}

/// Whether an argument is a folder.
pub fn is_folder(name: &OsStr) -> bool {
    name != INPUT && fs::metadata(name).is_ok_and(|data| data.is_dir())
}

/// Whether a name ends in .xml, in any case. Hidden files do not count.
pub fn is_xml(path: &Path) -> bool {
    let is_hidden = path.file_name().is_some_and(|name| name.to_string_lossy().starts_with('.'));
    !is_hidden && path.extension().is_some_and(|end| end.eq_ignore_ascii_case("xml"))
}
