//! What the standard library does not offer of the system: locks, extended attributes, the local time's
//! offset, and whether standard input or output was closed. The only unsafe code of the command.

use std::ffi::{c_char, c_int, c_long, c_void, CStr, CString};
use std::fs::{self, File};
use std::io;
use std::mem::{offset_of, size_of, MaybeUninit};
use std::os::fd::{AsFd, AsRawFd};
use std::os::unix::fs::MetadataExt;

extern "C" {
    fn flock(file: c_int, operation: c_int) -> c_int;
    fn fcntl(file: c_int, operation: c_int, ...) -> c_int;
    fn flistxattr(file: c_int, list: *mut c_char, size: usize) -> isize;
    fn fgetxattr(file: c_int, name: *const c_char, value: *mut c_void, size: usize) -> isize;
    fn fsetxattr(
        file: c_int,
        name: *const c_char,
        value: *const c_void,
        size: usize,
        flags: c_int,
    ) -> c_int;
    fn fremovexattr(file: c_int, name: *const c_char) -> c_int;
    fn localtime_r(seconds: *const i64, time: *mut Time) -> *mut Time;
}

/// A local time as the system breaks it down.
#[repr(C)]
struct Time {
    /// Second, minute, hour, day, month, year, and three more.
    parts: [c_int; 9],
    /// By how many seconds it is ahead of UTC.
    ahead: c_long,
    zone: *const c_char,
}

const _: () = assert!(size_of::<Time>() == 56 && offset_of!(Time, ahead) == 40);

// The numbers of the system, the same on every Linux that we build for.
const LOCK_SH_NB: c_int = 1 | 4;
const LOCK_EX_NB: c_int = 2 | 4;
const F_GETFL: c_int = 3;
const O_ACCMODE: c_int = 3;
const O_RDWR: c_int = 2;

/// What a call of the system answers: a length, or the error that it left behind.
fn answered(length: isize) -> io::Result<usize> {
    usize::try_from(length).map_err(|_| io::Error::last_os_error())
}

/// Takes the lock of a file. The system gives it back when the process ends, however it ends.
pub fn lock(file: &File) -> io::Result<()> {
    // SAFETY: the file is open for the call.
    answered(unsafe { flock(file.as_raw_fd(), LOCK_EX_NB) } as isize).map(|_| ())
}

/// Takes a share of the lock of a file: others may have one too, but nobody has the lock.
pub fn share(file: &File) -> io::Result<()> {
    // SAFETY: the file is open for the call.
    answered(unsafe { flock(file.as_raw_fd(), LOCK_SH_NB) } as isize).map(|_| ())
}

/// By how many seconds the local time is ahead of UTC at an instant, in seconds from 1970. The system
/// tells it as `date` does: by TZ in each of its forms, else by the zone of the machine.
pub fn ahead_of_utc(instant: i64) -> Option<i64> {
    let mut time = MaybeUninit::<Time>::zeroed();
    // SAFETY: the instant is lent for the call, the time mutably so; all zeros are a time.
    let (answer, time) =
        unsafe { (localtime_r(&instant, time.as_mut_ptr()), time.assume_init_ref()) };
    (!answer.is_null()).then_some(time.ahead)
}

/// The names of a file's extended attributes. Access control lists are among them.
pub fn attributes(file: &File) -> io::Result<Vec<CString>> {
    let list = lent(|bytes, size| {
        // SAFETY: the file is open, and so many bytes are lent for the call.
        unsafe { flistxattr(file.as_raw_fd(), bytes.cast(), size) }
    })?;
    let names = list.split(|&byte| byte == 0).filter(|name| !name.is_empty());
    Ok(names.filter_map(|name| CString::new(name).ok()).collect())
}

/// The value of an extended attribute.
pub fn attribute(file: &File, name: &CStr) -> io::Result<Vec<u8>> {
    lent(|bytes, size| {
        // SAFETY: the file is open, the name ends with a NUL, and so many bytes are lent.
        unsafe { fgetxattr(file.as_raw_fd(), name.as_ptr(), bytes.cast(), size) }
    })
}

/// Asks how many bytes there are, then lends as many.
fn lent(call: impl Fn(*mut u8, usize) -> isize) -> io::Result<Vec<u8>> {
    let mut bytes = vec![0; answered(call(std::ptr::null_mut(), 0))?];
    if !bytes.is_empty() {
        let length = answered(call(bytes.as_mut_ptr(), bytes.len()))?;
        bytes.truncate(length);
    }
    Ok(bytes)
}

/// Gives a file an extended attribute.
pub fn set_attribute(file: &File, name: &CStr, value: &[u8]) -> io::Result<()> {
    let bytes = value.as_ptr().cast();
    // SAFETY: the file is open, the name ends with a NUL, and the value is lent for the call.
    let answer = unsafe { fsetxattr(file.as_raw_fd(), name.as_ptr(), bytes, value.len(), 0) };
    answered(answer as isize).map(|_| ())
}

/// Takes an extended attribute from a file.
pub fn remove_attribute(file: &File, name: &CStr) -> io::Result<()> {
    // SAFETY: the file is open, and the name ends with a NUL.
    answered(unsafe { fremovexattr(file.as_raw_fd(), name.as_ptr()) } as isize).map(|_| ())
}

/// Whether standard input or output was closed when the program began. Rust then opens the null
/// device in its place, for reading and writing; `< /dev/null` opens it for reading alone.
pub fn is_closed(stream: &impl AsFd) -> bool {
    let stream = stream.as_fd();
    // SAFETY: the stream is open, and the operation takes no third word.
    let how = unsafe { fcntl(stream.as_raw_fd(), F_GETFL) };
    let device = |file: File| file.metadata().map(|data| data.rdev()).ok();
    let own = stream.try_clone_to_owned().ok().and_then(|copy| device(File::from(copy)));
    let null = fs::metadata("/dev/null").map(|data| data.rdev()).ok();
    how & O_ACCMODE == O_RDWR && own.is_some() && own == null
}
