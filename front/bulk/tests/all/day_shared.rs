//! A day that others use too: several writers, readers between them, no right to write, no room on
//! the disk.

use crate::common::day::*;
use crate::common::*;
use std::fs::{self, File, Permissions};
use std::io::Read;
use std::os::unix::fs::PermissionsExt;
use std::process::{Child, Command, Stdio};

/// Begins a command.
fn begun(mut command: Command) -> Child {
    command.stdout(Stdio::piped()).stderr(Stdio::piped()).spawn().unwrap()
}

/// Waits for all of them.
fn ended(children: Vec<Child>) -> Vec<Said> {
    children.into_iter().map(|child| child.wait_with_output().unwrap().into()).collect()
}

/// Many at once enter different bulks, while others read: all are in, none twice, and nobody sees a
/// call that is half done.
#[test]
fn many_writers_at_once() {
    let day = Day::new();
    let names: Vec<String> = (0..24).map(|number| format!("M{number}")).collect();
    let writers = names.iter().map(|name| begun(day.asking(["enter", "CORE", name]))).collect();
    let readers = (0..12).map(|_| begun(day.command(&["--plain", "play"]))).collect();
    let mut answers: Vec<String> = ended(writers).into_iter().map(|said| said.done(0)).collect();
    for said in ended(readers) {
        let words: Vec<u64> =
            said.done(0).split_whitespace().filter_map(|word| word.parse().ok()).collect();
        assert_eq!(words, [words[0], words[0], words[0] * 202_490]);
    }
    // Each answer is that of a place of its own.
    let mut due: Vec<String> =
        (1..=24).map(|number| format!("entered {number} {}\n", number * 202_490)).collect();
    answers.sort();
    due.sort();
    assert_eq!(answers, due);
    let list = day.list();
    assert!(names.iter().all(|name| list.matches(&format!(" {name} ")).count() == 1), "{list}");
    assert_eq!(day.held().len(), 25);
}

#[test]
fn the_same_bulk_by_many_at_once() {
    let day = Day::new();
    day.bulk("CORE", "A");
    let writers = (0..16).map(|_| begun(day.asking(["enter", "CORE", "A"]))).collect();
    let mut answers: Vec<String> = ended(writers).into_iter().map(|said| said.out).collect();
    answers.sort();
    assert_eq!(answers[0], "entered 1 202490\n");
    assert_eq!(answers[1..], vec!["refused 20 0\n"; 15]);
    assert_eq!(day.call(&["play", "--plain"]).done(0), "played 1 1 202490\n");
}

/// Whoever holds the lock for long is told of; nothing is changed then.
#[test]
fn a_day_that_another_holds() {
    let day = Day::new();
    if !Command::new("flock").arg("--version").output().is_ok_and(|said| said.status.success()) {
        return left_out("there is no flock");
    }
    let script = "exec 3< \"$0\"; flock 3; echo held; exec sleep 60";
    let mut holder = Command::new("sh");
    holder.args(["-c", script, text(&day.file("recording"))]).stdout(Stdio::piped());
    let mut holder = holder.spawn().unwrap();
    let mut held = [0; 5];
    holder.stdout.as_mut().unwrap().read_exact(&mut held).unwrap();
    let before = day.held();
    let (one, other) =
        (begun(day.asking(["enter", "CORE", "A"])), begun(day.command(&["--de", "total"])));
    let mut said = ended(vec![one, other]).into_iter().map(Said::trouble);
    let (english, german) = (said.next().unwrap(), said.next().unwrap());
    assert!(
        english.contains("Another command has been at work on this day for 10 seconds."),
        "{english}"
    );
    assert!(
        german.contains("Ein anderer Befehl arbeitet seit 10 Sekunden an diesem Tag."),
        "{german}"
    );
    assert_eq!(day.held(), before);
    // The system gives back the lock of a process that was ended.
    holder.kill().unwrap();
    holder.wait().unwrap();
    assert_eq!(day.ask(["enter", "CORE", "A"]).done(0), "entered 1 202490\n");
}

/// Readers do not hold each other up.
#[test]
fn readers_share() {
    let day = Day::new();
    if !Command::new("flock").arg("--version").output().is_ok_and(|said| said.status.success()) {
        return left_out("there is no flock");
    }
    let script = "exec 3< \"$0\"; flock -s 3; exec \"$@\"";
    let mut shell = Command::new("sh");
    shell.args(["-c", script, text(&day.file("recording")), COMMAND, "--plain", "day", "total"]);
    shell.env_clear().env("BULK_DAY", day.path()).env("PATH", std::env::var_os("PATH").unwrap());
    assert_eq!(Said::from(shell.output().unwrap()).done(0), "open 0 0\n");
}

/// Who may only read can read, and is told that writing is not allowed.
#[test]
fn a_folder_that_may_only_be_read() {
    if no_rights_to_give_up() {
        return;
    }
    let day = Day::new();
    day.ask(["enter", "CORE", "A"]).done(0);
    let file = day.bulk("CORE", "B");
    for (path, mode) in
        [("recording", 0o444), ("messages/000000.xml", 0o444), ("messages", 0o555), ("", 0o555)]
    {
        fs::set_permissions(day.file(path), Permissions::from_mode(mode)).unwrap();
    }
    let (before, path) = (day.held(), day.path());
    let call = |words: &[&str]| {
        unprivileged(&day.folder, &[&["day", "--day", text(&path)], words].concat())
    };
    assert_eq!(call(&["total", "--plain"]).done(0), "open 1 202490\n");
    assert_eq!(call(&["play", "--plain"]).done(0), "played 1 1 202490\n");
    let said = call(&["enter", text(&file)]).trouble();
    assert!(said.contains("day/recording: No permission to write there."), "{said}");
    let said = call(&["--de", "repair"]).trouble();
    assert!(said.contains("day/recording: Dort fehlt das Schreibrecht."), "{said}");
    // The recording may be written, but no message beside it.
    fs::set_permissions(day.file("recording"), Permissions::from_mode(0o666)).unwrap();
    let said = call(&["enter", text(&file)]).trouble();
    let due =
        "day/messages/000001.xml: No permission to write there. Choose another folder, or ask for \
               permission. Nothing was recorded.\n";
    assert!(said.ends_with(due), "{said}");
    assert_eq!(day.held(), before);
    let said = call(&["withdraw", "--plain", "CORE", "A", "HAFNDEHHXXX", "2026-10-30"]).done(0);
    assert_eq!(said, "withdrawn 0 0\n");
    for (path, mode) in [("", 0o755), ("messages", 0o755)] {
        fs::set_permissions(day.file(path), Permissions::from_mode(mode)).unwrap();
    }
}

/// No file may grow over one block: the message has no room, and later the recording has none.
#[test]
fn a_file_that_may_not_grow() {
    let day = Day::new();
    day.ask(["enter", "CORE", "A"]).done(0);
    let before = day.held();
    let limited = |blocks: usize, asked: Asked| {
        let script = format!("trap '' XFSZ; ulimit -f {blocks}; exec \"$@\"");
        let mut command = Command::new("sh");
        command.args(["-c", &script, "sh", COMMAND, "day"]).args(day.words(asked));
        Said::from(command.env_clear().env("BULK_DAY", day.path()).output().unwrap())
    };
    let said = limited(1, ["enter", "CORE", "B"]).trouble();
    let due =
        "messages/000001.xml: The disk is full. Make room, then try again. Nothing was recorded.\n";
    assert!(said.ends_with(due), "{said}");
    assert_eq!(day.held(), before);
    let said = limited(0, ["withdraw", "CORE", "A"]).trouble();
    let due = "recording: The disk is full. Make room, then try again. Nothing was recorded.\n";
    assert!(said.ends_with(due), "{said}");
    assert_eq!(day.held(), before);
    assert_eq!(day.ask(["withdraw", "CORE", "A"]).done(0), "withdrawn 0 0\n");
}

/// A small disk of the test's own, unmounted at its end.
struct Disk(Folder);

impl Disk {
    /// One of this size in bytes, if it may be mounted.
    fn new(size: u64) -> Option<Disk> {
        let folder = Folder::new();
        let mut mount = Command::new("mount");
        mount.args(["-t", "tmpfs", "-o", &format!("size={size}"), "none", text(&folder.0)]);
        let done = mount.stderr(Stdio::null()).status();
        done.is_ok_and(|status| status.success()).then(|| Disk(folder))
    }
}

impl Drop for Disk {
    /// Unmounts it.
    fn drop(&mut self) {
        let _ = Command::new("umount").arg(&self.0 .0).status();
    }
}

/// A disk that is filled up by the day itself: the entry that has no room is not recorded, all
/// before it are, and when there is room the day goes on.
#[test]
fn a_disk_that_is_full() {
    let Some(disk) = Disk::new(128 * 1024) else {
        return left_out("no disk can be mounted");
    };
    let bulks = Day::new();
    let path = disk.0.path("day");
    bulk(&["day", "new", text(&path)]).done(0);
    let on_disk =
        |mut command: Command| Said::from(command.env("BULK_DAY", &path).output().unwrap());
    let ask = |asked: Asked| on_disk(bulks.asking(asked));
    let total = || on_disk(bulks.command(&["total", "--plain"])).done(0);
    let mut open = 0;
    let said = loop {
        let said = ask(["enter", "CORE", &format!("M{open}")]);
        if said.status != 0 {
            break said.trouble();
        }
        open += 1;
        assert!(open < 64, "the disk is never full");
    };
    assert!(
        said.contains("The disk is full. Make room, then try again. Nothing was recorded."),
        "{said}"
    );
    assert!(open > 3);
    assert_eq!(total(), format!("open {open} {}\n", open * 202_490));
    // Where not one block is left, a withdrawal may still have room in that of the recording.
    let (mut zero, rest) = (File::open("/dev/zero").unwrap(), disk.0.path("rest"));
    assert!(std::io::copy(&mut zero, &mut File::create(&rest).unwrap()).is_err());
    let said = ask(["withdraw", "CORE", "M0"]);
    match said.status {
        0 => open -= 1,
        _ => assert!(said.trouble().contains("The disk is full.")),
    }
    fs::remove_file(rest).unwrap();
    assert_eq!(total(), format!("open {open} {}\n", open * 202_490));
    assert_eq!(
        ask(["withdraw", "CORE", "M1"]).done(0),
        format!("withdrawn {} {}\n", open - 1, (open - 1) * 202_490)
    );
}
