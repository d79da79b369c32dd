//! Writing that is on the disk when it is answered: a file is written beside its name, synced,
//! renamed, and its folder synced; a record is appended and synced. What fails is undone as far as
//! it can be, and what could not be undone is told.

use super::trial::{done, parts, Step};
use std::ffi::OsString;
use std::fs::{self, File, OpenOptions};
use std::io::{self, Write};
use std::path::{Path, PathBuf};

/// What stands behind the name of a file that is not whole yet.
pub const BESIDE: &str = ".new";

/// The system's numbers for a file system that cannot sync a folder.
const CANNOT: [i32; 2] = [22, 95];

/// Why writing failed, and whether something half-done is left.
#[derive(Debug)]
pub struct Failed {
    pub file: PathBuf,
    pub error: io::Error,
    pub is_left: bool,
}

/// Makes a folder, unless it is there, and puts its name on the disk.
pub fn make_folder(folder: &Path) -> Result<(), Failed> {
    let failed = |error| Failed { file: folder.to_owned(), error, is_left: false };
    match done(Step::MakeFolder(folder), || fs::create_dir(folder)) {
        Err(error) if error.kind() == io::ErrorKind::AlreadyExists && folder.is_dir() => Ok(()),
        made => made.and_then(|()| sync_folder(above(folder))).map_err(failed),
    }
}

/// Makes a file that is whole, or is not there under its name. Nothing has that name yet.
pub fn create(file: &Path, bytes: &[u8]) -> Result<(), Failed> {
    let mut beside = OsString::from(file);
    beside.push(BESIDE);
    let beside = PathBuf::from(beside);
    let failed = |error, undone: &Path| {
        let is_left = is_there(undone) && remove(undone).is_err();
        Failed { file: file.to_owned(), error, is_left }
    };
    write_new(&beside, bytes).map_err(|error| failed(error, &beside))?;
    if is_there(file) {
        return Err(failed(io::Error::from_raw_os_error(17), &beside));
    }
    done(Step::Rename(&beside, file), || fs::rename(&beside, file))
        .map_err(|error| failed(error, &beside))?;
    sync_folder(above(file)).map_err(|error| failed(error, file))
}

/// Writes a file that is not there yet, and syncs it.
fn write_new(path: &Path, bytes: &[u8]) -> io::Result<()> {
    let file =
        done(Step::Create(path), || OpenOptions::new().write(true).create_new(true).open(path))?;
    write(&file, path, bytes)?;
    sync(&file, path)
}

/// Writes bytes at the end of a file.
fn write(mut file: &File, path: &Path, bytes: &[u8]) -> io::Result<()> {
    for part in parts(bytes) {
        done(Step::Write(path, part), || file.write_all(part))?;
    }
    Ok(())
}

/// Puts what a file holds on the disk.
fn sync(file: &File, path: &Path) -> io::Result<()> {
    done(Step::Sync(path), || file.sync_all())
}

/// Makes an empty file of a name that nothing has yet.
pub fn create_empty(path: &Path) -> Result<(), Failed> {
    let made = write_new(path, b"").and_then(|()| sync_folder(above(path)));
    made.map_err(|error| Failed { file: path.to_owned(), error, is_left: false })
}

/// Appends bytes to a file of this length. Where that fails, the file is cut back to it.
pub fn append(file: &File, path: &Path, length: u64, bytes: &[u8]) -> Result<(), Failed> {
    let appended = write(file, path, bytes).and_then(|()| sync(file, path));
    appended.map_err(|error| {
        let is_left = cut(file, path, length).is_err();
        Failed { file: path.to_owned(), error, is_left }
    })
}

/// Cuts a file to a length.
pub fn cut(file: &File, path: &Path, length: u64) -> io::Result<()> {
    done(Step::Cut(path, length), || file.set_len(length))?;
    sync(file, path)
}

/// Removes a file.
pub fn remove(path: &Path) -> io::Result<()> {
    done(Step::Remove(path), || fs::remove_file(path))?;
    sync_folder(above(path))
}

/// Gives a file a name in another folder that nothing has yet.
pub fn put_aside(from: &Path, to: &Path) -> Result<(), Failed> {
    let failed = |error| Failed { file: to.to_owned(), error, is_left: true };
    done(Step::Rename(from, to), || fs::rename(from, to)).map_err(failed)?;
    // The new name first: a power cut must not take both.
    sync_folder(above(to)).and_then(|()| sync_folder(above(from))).map_err(failed)
}

/// Puts the names in a folder on the disk. A file system that cannot do that, as some shares, keeps
/// them by itself.
pub fn sync_folder(folder: &Path) -> io::Result<()> {
    let synced =
        done(Step::SyncFolder(folder), || File::open(folder).and_then(|folder| folder.sync_all()));
    match synced {
        Err(error) if error.raw_os_error().is_some_and(|number| CANNOT.contains(&number)) => Ok(()),
        synced => synced,
    }
}

/// Whether something has this name.
pub fn is_there(path: &Path) -> bool {
    fs::symlink_metadata(path).is_ok()
}

/// The folder in which a name stands.
fn above(path: &Path) -> &Path {
    match path.parent() {
        Some(folder) if !folder.as_os_str().is_empty() => folder,
        _ => Path::new("."),
    }
}
