//! The file for the records or the plain form: which file it really is, whether it may be replaced, and
//! a new one in its place that is whole or not there at all.

use crate::language::Language;
use crate::made::Made;
use crate::trouble::Trouble;
use crate::{read, system};
use face::RECORD;
use std::ffi::{CStr, OsStr, OsString};
use std::fs::{self, File, Metadata, OpenOptions, Permissions};
use std::io::{self, Read, Seek, Write};
use std::os::unix::ffi::OsStrExt;
use std::os::unix::fs::{fchown, MetadataExt, OpenOptionsExt, PermissionsExt};
use std::path::{Path, PathBuf};

/// The most links that are followed, as the system does.
const MOST_LINKS: usize = 40;

/// The bytes of a record before request 9.
const OLD_RECORD: usize = 256;

/// The extended attribute that lets others read: the access control list.
const ACCESS: &CStr = c"system.posix_acl_access";

/// The rights of the group.
const OF_GROUP: u32 = 0o070;

/// The file to be written: the name that was given, its real place, and what stands there now.
pub struct Target {
    pub out: OsString,
    folder: PathBuf,
    file: PathBuf,
    old: Option<File>,
}

/// What of an old file its new one could not keep.
pub enum Lost {
    Owner,
    Group,
    Mode,
    Attribute(String),
}

impl Lost {
    /// In words, as a note.
    pub fn words(&self, language: Language) -> String {
        let (english, german) = match self {
            Lost::Owner => ("The owner", "Der Eigentümer"),
            Lost::Group => ("The group with its rights", "Die Gruppe mit ihren Rechten"),
            Lost::Mode => ("The mode", "Die Zugriffsrechte"),
            Lost::Attribute(_) => ("The attribute", "Das Attribut"),
        };
        let name = match self {
            Lost::Attribute(name) => format!(" {name}"),
            _ => String::new(),
        };
        let did = if matches!(self, Lost::Mode) { "ließen" } else { "ließ" };
        language.say(
            format!("{english}{name} could not be kept. Check who may read the file."),
            format!("{german}{name} {did} sich nicht übernehmen. Bitte prüfen, wer die Datei lesen darf."),
        )
    }
}

impl Target {
    /// Nothing, or a file that may be replaced by what was made: anything else stays as it is. The
    /// message itself is never written over.
    pub fn of(out: &OsStr, message: &OsStr, made: Made, area: &[u8]) -> Result<Target, Trouble> {
        let fail = |error: io::Error| Trouble::Unwritable(out.to_owned(), error);
        let (folder, file, is_there) = real(out)?;
        let out = out.to_owned();
        if !is_there {
            return Ok(Target { out, folder, file, old: None });
        }
        let data = fs::metadata(&file).map_err(fail)?;
        if !data.is_file() {
            return Err(Trouble::NoFile(out));
        }
        if is_same(&data, message) {
            return Err(Trouble::IsMessage(made, out));
        }
        // A file that is write-protected stays: a new one in its place would undo that.
        let open = OpenOptions::new().read(true).append(true).open(&file);
        let mut old = open.map_err(|error| Trouble::Unwritable(out.clone(), error))?;
        let may_go = match made {
            Made::Records => looks_like_records(&mut old),
            Made::Plain => is_empty_or(&mut old, area),
        };
        match may_go {
            Ok(true) => Ok(Target { out, folder, file, old: Some(old) }),
            Ok(false) => Err(Trouble::NotReplaced(made, out)),
            Err(error) => Err(Trouble::Unreadable(out, error)),
        }
    }

    /// Writes a new file beside the old one, and gives it the name only when it is whole.
    pub fn write(&self, area: &[u8]) -> Result<Vec<Lost>, Trouble> {
        self.replace(area).map_err(|error| Trouble::Unwritable(self.out.clone(), error))
    }

    /// Writes, renames, and leaves nothing behind where that fails.
    fn replace(&self, area: &[u8]) -> io::Result<Vec<Lost>> {
        remove_leftovers(&self.folder);
        let (new, file) = self.new_file()?;
        let done = self.fill(&file, area).and_then(|lost| {
            fs::rename(&new, &self.file)?;
            Ok(lost)
        });
        if done.is_err() {
            // Should that fail too, the first failure is the one to tell.
            let _ = fs::remove_file(&new);
            return done;
        }
        // The name is on the disk when the folder is. Not every file system can do that, and what was
        // made is whole under either name, so a failure here is none.
        let _ = File::open(&self.folder).and_then(|folder| folder.sync_all());
        done
    }

    /// A new file of a name that nothing else has, locked as long as it is being written. Where a file
    /// is replaced, nobody else may read the new one until it has the rights of the old one.
    fn new_file(&self) -> io::Result<(PathBuf, File)> {
        let mut options = OpenOptions::new();
        options.write(true).create_new(true);
        if self.old.is_some() {
            options.mode(0o600);
        }
        let mut number = 0;
        loop {
            let new = self.folder.join(new_name(std::process::id(), number));
            number += 1;
            match options.open(&new) {
                Err(error) if error.kind() == io::ErrorKind::AlreadyExists && number < 1000 => {}
                Ok(file) if !is_kept(&file) && number < 1000 => {}
                opened => return opened.map(|file| (new, file)),
            }
        }
    }

    /// Writes what was made, and what the old file had.
    fn fill(&self, mut file: &File, area: &[u8]) -> io::Result<Vec<Lost>> {
        file.write_all(area)?;
        file.flush()?;
        let lost = match &self.old {
            Some(old) => keep(old, file)?,
            None => Vec::new(),
        };
        file.sync_all()?;
        Ok(lost)
    }
}

/// The folder and the file that a name leads to, and whether there is one. Behind a link the file that
/// it leads to is replaced, not the link. Nothing under /dev or /proc is: what stands there may be a
/// link to a file that is open elsewhere.
fn real(out: &OsStr) -> Result<(PathBuf, PathBuf, bool), Trouble> {
    let fail = |error: io::Error| Trouble::Unwritable(out.to_owned(), error);
    let mut path = PathBuf::from(out);
    for links in 0..MOST_LINKS {
        let name = path.file_name().filter(|_| !path.as_os_str().as_bytes().ends_with(b"/"));
        let Some(name) = name else { return Err(Trouble::NoFile(out.to_owned())) };
        let folder = match path.parent() {
            Some(folder) if !folder.as_os_str().is_empty() => folder,
            _ => Path::new("."),
        };
        let folder = fs::canonicalize(folder).map_err(fail)?;
        if folder.starts_with("/dev") || folder.starts_with("/proc") {
            return Err(Trouble::Device(out.to_owned()));
        }
        let file = folder.join(name);
        match fs::symlink_metadata(&file) {
            Err(error) if error.kind() == io::ErrorKind::NotFound && links == 0 => {
                return Ok((folder, file, false));
            }
            Err(error) if error.kind() == io::ErrorKind::NotFound => {
                return Err(Trouble::LeadsNowhere(out.to_owned()));
            }
            Ok(data) if data.is_symlink() => {
                path = folder.join(fs::read_link(&file).map_err(fail)?);
            }
            found => return found.map_err(fail).map(|_| (folder, file, true)),
        }
    }
    Err(Trouble::LeadsNowhere(out.to_owned()))
}

/// Whether the file is the message, which may come from standard input.
fn is_same(data: &Metadata, message: &OsStr) -> bool {
    let source = if message == read::INPUT { OsStr::new("/dev/stdin") } else { message };
    let is_it = |source: Metadata| data.dev() == source.dev() && data.ino() == source.ino();
    fs::metadata(source).is_ok_and(is_it)
}

/// Whether a file is empty or looks like records, also those of an evening before request 9.
fn looks_like_records(file: &mut File) -> io::Result<bool> {
    Ok(has_records_of(file, RECORD)? || has_records_of(file, OLD_RECORD)?)
}

/// Whether a file is as long as some number of records of this length, with a line end at the last byte
/// of each.
fn has_records_of(file: &mut File, length: usize) -> io::Result<bool> {
    if file.metadata()?.len() % length as u64 != 0 {
        return Ok(false);
    }
    file.rewind()?;
    let mut reader = io::BufReader::new(file);
    let mut record = vec![0; length];
    loop {
        match reader.read_exact(&mut record) {
            Ok(()) if record.last() == Some(&b'\n') => {}
            Ok(()) => return Ok(false),
            Err(error) if error.kind() == io::ErrorKind::UnexpectedEof => return Ok(true),
            Err(error) => return Err(error),
        }
    }
}

/// Whether a file is empty, or holds just these bytes. A plain form is a bulk itself and cannot be told
/// from one that somebody exported, so no other is replaced.
fn is_empty_or(file: &mut File, bytes: &[u8]) -> io::Result<bool> {
    let length = file.metadata()?.len();
    if length != bytes.len() as u64 {
        return Ok(length == 0);
    }
    let mut held = Vec::new();
    file.take(length).read_to_end(&mut held)?;
    Ok(held == bytes)
}

/// The name of a new file of a process.
fn new_name(process: u32, number: u32) -> String {
    format!(".bulk-{process}-{number}.new")
}

/// Locks a new file and tells whether it is still there: another run may have taken it for a leftover
/// before it was locked. A file system without locks has no such other run.
fn is_kept(file: &File) -> bool {
    let _ = system::lock(file);
    file.metadata().map_or(true, |data| data.nlink() > 0)
}

/// Removes the new files of runs that were killed: they hold bank data. Whatever fails here is left
/// for the next run.
fn remove_leftovers(folder: &Path) {
    let Ok(entries) = fs::read_dir(folder) else { return };
    for path in entries.flatten().map(|entry| entry.path()) {
        if is_leftover(&path).unwrap_or(false) {
            let _ = fs::remove_file(&path);
        }
    }
}

/// Whether it is a new file of ours that no running process owns: no other process has its number, and
/// none holds its lock, which the system takes from whoever ends.
fn is_leftover(path: &Path) -> io::Result<bool> {
    let Some(process) = path.file_name().and_then(OsStr::to_str).and_then(process_of) else {
        return Ok(false);
    };
    let is_running = Path::new("/proc").join(process.to_string()).exists();
    if (is_running && process != std::process::id()) || !fs::symlink_metadata(path)?.is_file() {
        return Ok(false);
    }
    let file = File::open(path)?;
    system::lock(&file)?;
    let (locked, named) = (file.metadata()?, fs::symlink_metadata(path)?);
    Ok(locked.dev() == named.dev() && locked.ino() == named.ino())
}

/// The number of the process in the name of a new file.
fn process_of(name: &str) -> Option<u32> {
    let (process, number) = name.strip_prefix(".bulk-")?.strip_suffix(".new")?.split_once('-')?;
    let (process, number) = (process.parse().ok()?, number.parse().ok()?);
    (new_name(process, number) == name).then_some(process)
}

/// Gives the new file what the old one has: owner and group, attributes and access control list, then
/// the mode. Tells what the system did not allow.
fn keep(old: &File, new: &File) -> io::Result<Vec<Lost>> {
    let data = old.metadata()?;
    let mut lost = Vec::new();
    if fchown(new, Some(data.uid()), Some(data.gid())).is_err() {
        // Whoever may not give a file away may still give it to a group of their own.
        let _ = fchown(new, None, Some(data.gid()));
    }
    let now = new.metadata()?;
    let mut mode = data.permissions().mode() & 0o7777;
    if now.uid() != data.uid() {
        lost.push(Lost::Owner);
    }
    if now.gid() != data.gid() {
        // Another group must not get the rights of this one.
        mode &= !OF_GROUP;
        lost.push(Lost::Group);
    }
    keep_attributes(old, new, &mut lost);
    if new.set_permissions(Permissions::from_mode(mode)).is_err() {
        lost.push(Lost::Mode);
    }
    Ok(lost)
}

/// Copies the attributes; one that the new file has already needs no copy.
fn keep_attributes(old: &File, new: &File, lost: &mut Vec<Lost>) {
    // A file system without attributes has none to keep.
    let names = system::attributes(old).unwrap_or_default();
    for name in &names {
        let value = system::attribute(old, name);
        let is_there =
            || matches!((&value, system::attribute(new, name)), (Ok(a), Ok(b)) if *a == b);
        let is_set =
            value.as_ref().is_ok_and(|value| system::set_attribute(new, name, value).is_ok());
        if !is_set && !is_there() {
            lost.push(Lost::Attribute(name.to_string_lossy().into_owned()));
        }
    }
    // The folder may have given the new file readers that the old one did not have.
    if !names.iter().any(|name| name.as_c_str() == ACCESS) {
        let _ = system::remove_attribute(new, ACCESS);
    }
}

#[cfg(test)]
mod tests {
    use super::*;

    #[test]
    fn names_of_new_files() {
        assert_eq!(process_of(".bulk-17-0.new"), Some(17));
        for other in ["bulk-17-0.new", ".bulk-17-0.newer", ".bulk-x-0.new", ".bulk-17.new"] {
            assert_eq!(process_of(other), None, "{other}");
        }
        assert_eq!(process_of(".bulk-017-0.new"), None);
        assert_eq!(process_of(".bulk-17--1.new"), None);
    }
}
