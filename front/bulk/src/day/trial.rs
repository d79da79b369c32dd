//! What a test does to the disk of a day: it ends the command at a step of its writing, or lets
//! that step fail, or has the steps noted. A shipped command has nothing of this.

use std::path::Path;

#[cfg(debug_assertions)]
pub use tested::{done, parts};

/// A step of writing. All writing is at the end of a file.
#[cfg_attr(not(debug_assertions), allow(dead_code))]
#[derive(Clone, Copy, Debug)]
pub enum Step<'a> {
    MakeFolder(&'a Path),
    Create(&'a Path),
    Write(&'a Path, &'a [u8]),
    Sync(&'a Path),
    Rename(&'a Path, &'a Path),
    Remove(&'a Path),
    Cut(&'a Path, u64),
    SyncFolder(&'a Path),
}

/// Does a step.
#[cfg(not(debug_assertions))]
pub fn done<T>(_: Step, act: impl FnOnce() -> std::io::Result<T>) -> std::io::Result<T> {
    act()
}

/// The parts in which bytes are written: one.
#[cfg(not(debug_assertions))]
pub fn parts(bytes: &[u8]) -> impl Iterator<Item = &[u8]> {
    std::iter::once(bytes)
}

/// What only a test has. `BULK_TRIAL` names what happens, at which point, counted from 0, and the
/// system's number of a failure: `kill 5`, `fail 5 28`, or `dead 5 30`, where all that follows
/// fails too. `BULK_STEPS` names a file to which each step is appended when it was done.
#[cfg(debug_assertions)]
mod tested {
    use super::Step;
    use std::fs::OpenOptions;
    use std::io::{self, Write};
    use std::sync::atomic::{AtomicU32, Ordering};

    /// Does a step, between two points: at the first it may fail, at each the command may end.
    pub fn done<T>(step: Step, act: impl FnOnce() -> io::Result<T>) -> io::Result<T> {
        point().map_or(Ok(()), |number| Err(io::Error::from_raw_os_error(number)))?;
        let made = act()?;
        note(step);
        // What was done cannot fail any more.
        point();
        Ok(made)
    }

    /// Bytes are written in two parts, so that the command may end between them.
    pub fn parts(bytes: &[u8]) -> impl Iterator<Item = &[u8]> {
        let (one, other) = bytes.split_at(bytes.len() / 2);
        [one, other].into_iter()
    }

    /// Passes a point: the command may end here, or the number of a failure is answered.
    fn point() -> Option<i32> {
        static PASSED: AtomicU32 = AtomicU32::new(0);
        let point = PASSED.fetch_add(1, Ordering::Relaxed);
        let trial = std::env::var("BULK_TRIAL").ok()?;
        let mut words = trial.split(' ');
        let (what, at) = (words.next()?, words.next()?.parse::<u32>().ok()?);
        match what {
            "kill" if point == at => std::process::abort(),
            "fail" if point == at => words.next()?.parse().ok(),
            "dead" if point >= at => words.next()?.parse().ok(),
            _ => None,
        }
    }

    /// Notes a step that was done, if that is asked for.
    fn note(step: Step) {
        let Some(file) = std::env::var_os("BULK_STEPS") else { return };
        let told = |path: &std::path::Path| path.display().to_string();
        let line = match step {
            Step::MakeFolder(path) => format!("make-folder\t{}", told(path)),
            Step::Create(path) => format!("create\t{}", told(path)),
            Step::Write(path, bytes) => {
                let bytes: String = bytes.iter().map(|byte| format!("{byte:02x}")).collect();
                format!("write\t{}\t{bytes}", told(path))
            }
            Step::Sync(path) => format!("sync\t{}", told(path)),
            Step::Rename(from, to) => format!("rename\t{}\t{}", told(from), told(to)),
            Step::Remove(path) => format!("remove\t{}", told(path)),
            Step::Cut(path, length) => format!("cut\t{}\t{length}", told(path)),
            Step::SyncFolder(path) => format!("sync-folder\t{}", told(path)),
        };
        let file = OpenOptions::new().create(true).append(true).open(file);
        writeln!(file.expect("the steps can be noted"), "{line}").expect("the steps can be noted");
    }
}
