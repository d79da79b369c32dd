//! What the tests of every command share: a folder, the command, what it said, the samples.

// Each file of tests uses a part of it.
#![allow(dead_code)]

pub mod course;
pub mod day;

use std::ffi::OsStr;
use std::fs::{self, Permissions};
use std::io::Write;
use std::os::unix::fs::{MetadataExt, PermissionsExt};
use std::os::unix::process::CommandExt;
use std::path::{Path, PathBuf};
use std::process::{Command, Output, Stdio};
use std::sync::atomic::{AtomicUsize, Ordering};

pub const COMMAND: &str = env!("CARGO_BIN_EXE_bulk");
pub const PAGES: &str = include_str!("../../../../../docs/REFUSALS.md");
pub const LIMIT: usize = 16_777_216;
pub const BULK: &str = "FIToFICstmrDrctDbt";
pub const START: &str = "<DrctDbtTxInf>";
pub const END: &str = "</DrctDbtTxInf>";

/// A folder for one test, removed at its end.
pub struct Folder(pub PathBuf);

impl Folder {
    /// A folder that no other test has.
    pub fn new() -> Folder {
        static NUMBER: AtomicUsize = AtomicUsize::new(0);
        let number = NUMBER.fetch_add(1, Ordering::Relaxed);
        let path = std::env::temp_dir().join(format!("bulk-test-{}-{number}", std::process::id()));
        fs::create_dir(&path).unwrap();
        Folder(path)
    }

    /// The path of a name in it.
    pub fn path(&self, name: &str) -> PathBuf {
        self.0.join(name)
    }

    /// Writes a file in it; answers its path.
    pub fn put(&self, name: &str, bytes: impl AsRef<[u8]>) -> PathBuf {
        fs::write(self.path(name), bytes).unwrap();
        self.path(name)
    }

    /// The names in it, in order.
    pub fn names(&self) -> Vec<String> {
        let entries = fs::read_dir(&self.0).unwrap();
        let name = |entry: std::io::Result<fs::DirEntry>| entry.unwrap().file_name();
        let mut names: Vec<String> =
            entries.map(|entry| name(entry).into_string().unwrap()).collect();
        names.sort();
        names
    }
}

impl Drop for Folder {
    /// Removes it, also where a test took its rights.
    fn drop(&mut self) {
        let _ = fs::set_permissions(&self.0, Permissions::from_mode(0o700));
        let _ = fs::remove_dir_all(&self.0);
    }
}

/// What the command said.
pub struct Said {
    pub status: i32,
    pub out: String,
    pub err: String,
}

impl From<Output> for Said {
    /// Of what a program left.
    fn from(output: Output) -> Said {
        Said {
            status: output.status.code().expect("the command ended by itself"),
            out: String::from_utf8(output.stdout).unwrap(),
            err: String::from_utf8(output.stderr).unwrap(),
        }
    }
}

impl Said {
    /// The status, and that the work was done without a word on standard error.
    pub fn done(self, status: i32) -> String {
        assert_eq!((self.status, self.err.as_str()), (status, ""), "{}", self.out);
        self.out
    }

    /// The work was not done: status 2, nothing on standard output, a message that begins with a
    /// capital or with the name of a file.
    pub fn trouble(self) -> String {
        assert_eq!((self.status, self.out.as_str()), (2, ""), "{}", self.err);
        assert!(self.err.starts_with("bulk: ") && self.err.ends_with('\n'), "{}", self.err);
        let words = &self.err["bulk: ".len()..];
        let sentence = words.split_once(": ").map_or(words, |(_, sentence)| sentence);
        let is_capital = |text: &str| text.starts_with(char::is_uppercase);
        assert!(is_capital(words) || is_capital(sentence), "{}", self.err);
        self.err
    }
}

/// The command, with no locale.
pub fn command<I: AsRef<OsStr>>(words: &[I]) -> Command {
    let mut command = Command::new(COMMAND);
    command.args(words).stdin(Stdio::null());
    command.env_remove("LC_ALL").env_remove("LC_MESSAGES").env_remove("LANG");
    command
}

/// Runs the command with these words.
pub fn bulk<I: AsRef<OsStr>>(words: &[I]) -> Said {
    command(words).output().unwrap().into()
}

/// The command with bytes on standard input.
pub fn piped(words: &[&str], bytes: impl AsRef<[u8]>) -> Said {
    let mut command = command(words);
    command.stdin(Stdio::piped()).stdout(Stdio::piped()).stderr(Stdio::piped());
    let mut child = command.spawn().unwrap();
    // It reads no more than it must, so the end of the pipe may be gone. It may also write before it
    // has read all, so another thread writes.
    let mut input = child.stdin.take().unwrap();
    let bytes = bytes.as_ref().to_vec();
    let writer = std::thread::spawn(move || input.write_all(&bytes));
    let said = child.wait_with_output().unwrap().into();
    let _ = writer.join().unwrap();
    said
}

/// The command with bytes on standard input, and nobody who reads its output: the reader has gone
/// before the command can have anything to say.
pub fn unheard(words: &[&str], bytes: impl AsRef<[u8]>) -> Said {
    let mut command = command(words);
    command.stdin(Stdio::piped()).stdout(Stdio::piped()).stderr(Stdio::piped());
    let mut child = command.spawn().unwrap();
    drop(child.stdout.take());
    child.stdin.take().unwrap().write_all(bytes.as_ref()).unwrap();
    child.wait_with_output().unwrap().into()
}

/// The command by way of a shell, whose script has it as "$@".
pub fn shell(script: &str, words: &[&str]) -> Said {
    let mut shell = Command::new("sh");
    shell.args(["-c", script, "sh", COMMAND]).args(words).stdin(Stdio::null());
    shell.env_remove("LC_ALL").env_remove("LC_MESSAGES").env_remove("LANG");
    shell.output().unwrap().into()
}

/// A path as text.
pub fn text(path: &Path) -> &str {
    path.to_str().unwrap()
}

/// The path of a sample.
pub fn sample(name: &str) -> PathBuf {
    Path::new(env!("CARGO_MANIFEST_DIR")).join("../../samples").join(name)
}

/// The indented evening.
pub fn evening() -> String {
    fs::read_to_string(sample("evening-indented.xml")).unwrap()
}

/// The evening with one text of it replaced, the first of its kind.
pub fn damaged(old: &str, new: &str) -> String {
    let (evening, damaged) = (evening(), evening().replacen(old, new, 1));
    assert_ne!(evening, damaged, "{old}");
    damaged
}

/// A message with the header and the end of the evening, these items, and a count and total that fit.
pub fn bulk_of(items: &[String], cents: u64) -> String {
    let evening = fs::read_to_string(sample("evening.xml")).unwrap();
    let (start, end) = (evening.find(START).unwrap(), evening.rfind(END).unwrap() + END.len());
    let total = format!(">{}.{:02}<", cents / 100, cents % 100);
    let head = evening[..start].replacen(">5<", &format!(">{}<", items.len()), 1);
    let head = head.replacen(">2024.90<", &total, 1);
    format!("{head}{}{}", items.concat(), &evening[end..])
}

/// The five items of the evening.
pub fn evening_items() -> Vec<String> {
    let evening = fs::read_to_string(sample("evening.xml")).unwrap();
    let end = evening.rfind(END).unwrap() + END.len();
    let items = &evening[evening.find(START).unwrap()..end];
    items.split_inclusive(END).map(str::to_string).collect()
}

/// A bulk with another TxId for the second of each two items that have the same.
pub fn without_doubles(message: &str) -> String {
    let mut seen = std::collections::HashSet::new();
    let mut pieces = message.split("<TxId>");
    let mut text = pieces.next().unwrap().to_string();
    for (number, piece) in pieces.enumerate() {
        let (id, rest) = piece.split_once('<').unwrap();
        let id = if seen.insert(id) { id.to_string() } else { format!("{id}-{number}") };
        text += &format!("<TxId>{id}<{rest}");
    }
    text
}

/// So many items, all different, each of 1.00 euro.
pub fn many_items(count: usize) -> Vec<String> {
    let item = evening_items()[0].replacen("845.00", "1.00", 1);
    let made = |number: usize| {
        item.replacen("TX-20261028-0001", &format!("TX-{number}"), 1).replacen(
            "RENT-2026-11-FLAT-4B",
            &format!("RENT-{number}"),
            1,
        )
    };
    (1..=count).map(made).collect()
}

/// The paper's whole example, and its record.
pub fn example() -> (String, String) {
    let read = |file| fs::read_to_string(sample(file)).unwrap();
    (read("example.xml"), read("example.record"))
}

/// The cells of a table's row in the pages, without its bars.
pub fn cells(row: &str) -> Vec<String> {
    row.trim_matches('|').split('|').map(|cell| cell.trim().to_string()).collect()
}

/// The two sentences of a number in the overview, without the marks of its layout.
pub fn overview(number: u64) -> [String; 2] {
    let start = format!("| {number} | ");
    let cells = cells(PAGES.lines().find(|line| line.starts_with(&start)).unwrap());
    [&cells[1], &cells[2]].map(|sentence| sentence.replace('`', ""))
}

/// Text without its line breaks.
pub fn flat(text: &str) -> String {
    text.split_whitespace().collect::<Vec<_>>().join(" ")
}

/// Whether the tests run as root.
pub fn is_root() -> bool {
    fs::metadata("/proc/self").unwrap().uid() == 0
}

/// The command without any special rights: as it is, or, under root, as nobody. The command is copied
/// to the folder, where nobody can reach it.
pub fn unprivileged(folder: &Folder, words: &[&str]) -> Said {
    if !is_root() {
        return bulk(words);
    }
    let copy = folder.path("command");
    if !copy.exists() {
        // By a process of its own: a file that a child of another test holds open cannot run.
        let copied = Command::new("install").args(["-m", "755", COMMAND, text(&copy)]).status();
        assert!(copied.unwrap().success());
        fs::set_permissions(&folder.0, Permissions::from_mode(0o755)).unwrap();
    }
    let mut command = Command::new(copy);
    command.args(words).env_clear().uid(65534).gid(65534).output().unwrap().into()
}

/// Says in the output why a test is left out. front/test shows it.
pub fn left_out(why: &str) {
    println!("left out: {why}");
}

/// Under root the rights must be given up first; a machine may not allow that, and then there is
/// nothing to try.
pub fn no_rights_to_give_up() -> bool {
    let nobody = Command::new("true").uid(65534).gid(65534).status();
    let skipped = is_root() && !nobody.is_ok_and(|status| status.success());
    if skipped {
        left_out("this root cannot become nobody");
    }
    skipped
}
