//! `records`: whole or not at all, nothing else overwritten, and what a file had is kept.

use crate::common::*;
use face::RECORD;
use std::ffi::CString;
use std::fs::{self, File, Permissions};
use std::os::unix::ffi::OsStrExt;
use std::os::unix::fs::{symlink, MetadataExt, PermissionsExt};
use std::os::unix::net::UnixListener;
use std::path::{Path, PathBuf};
use std::process::Command;

/// Something that looks like old records: so many lines of the record's length.
fn old_records(count: usize) -> String {
    format!("{:1$}\n", "OLD", RECORD - 1).repeat(count)
}

#[test]
fn the_records_of_the_paper_s_example() {
    let (folder, (message, record)) = (Folder::new(), example());
    let (file, out) = (folder.put("bulk.xml", message), folder.path("out"));
    let said = bulk(&["records", text(&file), text(&out)]).done(0);
    let line = "bulk.xml: accepted, 1 item, 12.34 EUR (1234 cents), MsgId MSG/1, settlement date \
                2010-12-03, CORE, pacs.003.001.02; records written to ";
    assert!(said.contains(line) && said.ends_with("/out\n"), "{said}");
    assert_eq!(fs::read_to_string(&out).unwrap(), record);
    assert_eq!(folder.names(), ["bulk.xml", "out"]);
    let said = piped(&["--plain", "records", "-", text(&out)], evening()).done(0);
    assert_eq!(said, "accepted 5 202490\n");
    let records = fs::read(&out).unwrap();
    assert_eq!(records.len(), 5 * RECORD);
    assert!(records[4 * RECORD..].starts_with(b"TX-20261028-0005 "));
    assert_eq!(folder.names(), ["bulk.xml", "out"]);
}

#[test]
fn a_name_without_a_folder_is_in_the_current_one() {
    let (folder, (message, record)) = (Folder::new(), example());
    folder.put("bulk.xml", message);
    let mut command = command(&["records", "bulk.xml", "out"]);
    let said = Said::from(command.current_dir(&folder.0).output().unwrap()).done(0);
    assert!(said.ends_with("; records written to out\n"), "{said}");
    assert_eq!(fs::read_to_string(folder.path("out")).unwrap(), record);
    assert_eq!(folder.names(), ["bulk.xml", "out"]);
}

#[test]
fn what_looks_doubled_is_warned_of() {
    let folder = Folder::new();
    let items = [evening_items(), evening_items()].concat();
    let file = folder.put("bulk.xml", without_doubles(&bulk_of(&items, 404_980)));
    let said = bulk(&["records", text(&file), text(&folder.path("out"))]).done(0);
    assert!(said.contains("/out\n  Warning: looks doubled: "), "{said}");
}

#[test]
fn a_refused_message_leaves_the_old_records() {
    let folder = Folder::new();
    let (october, out) = (sample("october.xml"), folder.put("out", old_records(1)));
    let said = bulk(&["records", text(&october), text(&out)]).done(1);
    assert!(said.contains("refused 24 at place 3988"), "{said}");
    let new = folder.path("new");
    let said = bulk(&["--plain", "records", text(&october), text(&new)]).done(1);
    assert_eq!(said, "refused 24 3988\n");
    assert_eq!(fs::read_to_string(&out).unwrap(), old_records(1));
    assert_eq!(folder.names(), ["out"]);
}

#[test]
fn another_bulk_is_never_overwritten() {
    let folder = Folder::new();
    let (one, two) = (folder.put("one.xml", evening()), folder.put("two.xml", evening()));
    // As the shell makes it of `bulk records *.xml`.
    let said = bulk(&["records", text(&one), text(&two)]).trouble();
    assert!(
        said.contains("two.xml: The file does not hold posting records, so it was not replaced.")
    );
    assert!(said.contains("Choose another name, or remove it first."), "{said}");
    let said = bulk(&["--de", "records", text(&one), text(&two)]).trouble();
    assert!(said.contains("two.xml: Die Datei enthält keine Buchungssätze"), "{said}");
    // Nor the message itself, where it comes by a pipe.
    piped(&["records", "-", text(&one)], evening()).trouble();
    assert_eq!(fs::read_to_string(&one).unwrap(), evening());
    assert_eq!(fs::read_to_string(&two).unwrap(), evening());
    assert_eq!(folder.names(), ["one.xml", "two.xml"]);
}

#[test]
fn only_an_empty_file_or_records_are_replaced() {
    let folder = Folder::new();
    let file = sample("evening.xml");
    let mut almost = old_records(2).into_bytes();
    almost[RECORD - 1] = b' ';
    for bytes in [
        b"x".to_vec(),
        vec![b'x'; RECORD],
        vec![b'\n'; RECORD - 1],
        almost,
        old_records(2)[1..].into(),
    ] {
        let out = folder.put("out", &bytes);
        assert!(bulk(&["records", text(&file), text(&out)])
            .trouble()
            .contains("does not hold posting"));
        assert_eq!(fs::read(&out).unwrap(), bytes);
    }
    for bytes in ["".to_string(), old_records(1), old_records(10)] {
        let out = folder.put("out", bytes);
        bulk(&["records", text(&file), text(&out)]).done(0);
        assert_eq!(fs::metadata(&out).unwrap().len() as usize, 5 * RECORD);
    }
    assert_eq!(folder.names(), ["out"]);
}

/// Records of 256 bytes, as they were before request 9, are replaced by the new ones; what is nearly so
/// is not.
#[test]
fn records_of_the_old_length_are_replaced() {
    let (folder, file) = (Folder::new(), sample("evening.xml"));
    let old = |count| format!("{:255}\n", "OLD").repeat(count);
    for count in [1, 4, 5] {
        let out = folder.put("out", old(count));
        bulk(&["records", text(&file), text(&out)]).done(0);
        assert_eq!(fs::metadata(&out).unwrap().len() as usize, 5 * RECORD);
    }
    for bytes in [old(2)[1..].to_string(), old(2).replacen('\n', " ", 1), old(1) + "\n"] {
        let out = folder.put("out", &bytes);
        bulk(&["records", text(&file), text(&out)]).trouble();
        assert_eq!(fs::read_to_string(&out).unwrap(), bytes);
    }
}

/// The fields of request 9 in the evening, where the second item alone has an InstrId, and in the
/// partner's bulk, which has its LclInstrm in the header.
#[test]
fn instruction_instrument_and_signature_date() {
    let fields = |file: &str| -> Vec<String> {
        let said = bulk(&["records", text(&sample(file)), "-"]);
        let records = said.out.as_bytes().chunks(RECORD);
        records.map(|record| String::from_utf8_lossy(&record[255..]).into_owned()).collect()
    };
    let field = |id: &str, date: &str| format!("{id:35}CORE{date}{:15}\n", "");
    let due = [
        field("", "2021-03-29"),
        field("BATCH-7/LINE-2", "2026-09-30"),
        field("", "2023-02-14"),
        field("", "2026-10-06"),
        field("", "2022-05-02"),
    ];
    assert_eq!(fields("evening.xml"), due);
    assert_eq!(fields("partner.xml"), [field("", "2021-03-29"), field("", "2023-02-14")]);
}

#[test]
fn nothing_under_dev_or_proc_is_replaced() {
    let folder = Folder::new();
    let file = sample("evening.xml");
    let log = folder.put("day.log", old_records(3));
    symlink("/dev/stdout", folder.path("link")).unwrap();
    let link = folder.path("link");
    // The log even looks like records.
    let script = format!("exec \"$@\" >> '{}'", text(&log));
    let other = "/dev/../dev/fd/1";
    for out in ["/dev/stdout", "/dev/fd/1", "/proc/self/fd/1", text(&link), other, "/dev/none"] {
        let said = shell(&script, &["records", text(&file), out]).trouble();
        assert!(said.contains(": Nothing is written under /dev or /proc."), "{said}");
        assert!(said.contains("give - as OUT"), "{said}");
        assert_eq!(fs::read_to_string(&log).unwrap(), old_records(3), "{out}");
    }
    assert!(!Path::new("/dev/none").exists());
    assert_eq!(folder.names(), ["day.log", "link"]);
}

#[test]
fn records_to_standard_output() {
    let (folder, (message, record)) = (Folder::new(), example());
    let file = folder.put("bulk.xml", message);
    let said = bulk(&["records", text(&file), "-"]);
    assert_eq!((said.status, said.out.as_str()), (0, record.as_str()));
    assert!(said.err.contains("bulk.xml: accepted, 1 item, "), "{}", said.err);
    let said = bulk(&["--plain", "records", text(&file), "-"]);
    assert_eq!((said.out.as_str(), said.err.as_str()), (record.as_str(), "accepted 1 1234\n"));
    // A log that it is added to keeps what it had.
    let log = folder.put("day.log", "old\n");
    let script = format!("exec \"$@\" >> '{}'", text(&log));
    assert_eq!(shell(&script, &["records", text(&file), "-"]).status, 0);
    assert_eq!(fs::read_to_string(&log).unwrap(), format!("old\n{record}"));
    let said = bulk(&["records", text(&sample("october.xml")), "-"]);
    assert_eq!((said.status, said.out.as_str()), (1, ""));
    assert!(said.err.contains("refused 24 "), "{}", said.err);
}

/// They hold the collapsed EndToEndId.
#[test]
fn collapsed_values_in_records() {
    let [rents, wrapped] =
        ["rents.xml", "rents-wrapped.xml"].map(|name| bulk(&["records", text(&sample(name)), "-"]));
    assert_eq!((rents.status, wrapped.status), (0, 0));
    assert_eq!(rents.out, wrapped.out);
    let ids: Vec<&str> = rents.out.lines().map(|record| record[35..70].trim_end()).collect();
    assert_eq!(ids, ["RENT 2023 04", "RENT 2023 04", "BUSY 2023 03 LP017"]);
}

#[test]
fn records_that_nobody_takes_are_told() {
    let file = sample("evening.xml");
    let said = unheard(&["records", "-", "-"], evening()).trouble();
    assert!(said.contains("Standard output cannot be written: "), "{said}");
    let said = shell("exec \"$@\" >&-", &["records", text(&file), "-"]).trouble();
    assert!(said.contains("Standard output is closed, so the records would be lost."), "{said}");
}

#[test]
fn an_empty_name_is_told() {
    let file = sample("evening.xml");
    let said = bulk(&["records", text(&file), ""]).trouble();
    assert!(said.contains("OUT is empty. Name a file for the records"), "{said}");
    let said = bulk(&["--de", "records", text(&file), ""]).trouble();
    assert!(said.contains("ZIEL ist leer."), "{said}");
}

#[test]
fn records_are_told_even_if_the_verdict_cannot_be() {
    let full = match File::options().write(true).open("/dev/full") {
        Ok(full) => full,
        Err(error) => return left_out(&format!("/dev/full: {error}")),
    };
    let (folder, file) = (Folder::new(), sample("evening.xml"));
    let out = folder.path("out");
    let mut command = command(&["records", text(&file), text(&out)]);
    let said = Said::from(command.stdout(full).output().unwrap()).trouble();
    assert!(said.contains("Standard output cannot be written: No space left on device."), "{said}");
    assert!(said.ends_with(&format!("The records are in {}\n", text(&out))), "{said}");
    assert_eq!(fs::metadata(&out).unwrap().len() as usize, 5 * RECORD);
}

#[test]
fn old_records_are_replaced_with_their_rights() {
    let folder = Folder::new();
    let (file, out) = (sample("evening.xml"), folder.put("out", old_records(20)));
    fs::set_permissions(&out, Permissions::from_mode(0o640)).unwrap();
    symlink("out", folder.path("link")).unwrap();
    symlink("link", folder.path("second")).unwrap();
    bulk(&["records", text(&file), text(&folder.path("second"))]).done(0);
    assert_eq!(fs::read(&out).unwrap().len(), 5 * RECORD);
    assert_eq!(fs::metadata(&out).unwrap().permissions().mode() & 0o777, 0o640);
    assert!(fs::symlink_metadata(folder.path("link")).unwrap().is_symlink());
    assert_eq!(folder.names(), ["link", "out", "second"]);
}

#[test]
fn the_owner_is_kept() {
    if !is_root() {
        return left_out("only root can give a file to another owner");
    }
    let folder = Folder::new();
    let (file, out) = (sample("evening.xml"), folder.put("out", old_records(1)));
    std::os::unix::fs::chown(&out, Some(1234), Some(4321)).unwrap();
    fs::set_permissions(&out, Permissions::from_mode(0o640)).unwrap();
    bulk(&["records", text(&file), text(&out)]).done(0);
    let data = fs::metadata(&out).unwrap();
    assert_eq!((data.uid(), data.gid(), data.mode() & 0o777), (1234, 4321, 0o640));
    assert_eq!(data.len() as usize, 5 * RECORD);
}

#[test]
fn an_owner_that_cannot_be_kept_is_told() {
    if !is_root() || no_rights_to_give_up() {
        return left_out("only root can make a file of another owner");
    }
    let folder = Folder::new();
    let file = folder.put("bulk.xml", evening());
    let inner = folder.path("inner");
    fs::create_dir(&inner).unwrap();
    fs::set_permissions(&inner, Permissions::from_mode(0o777)).unwrap();
    let out = inner.join("out");
    fs::write(&out, old_records(1)).unwrap();
    std::os::unix::fs::chown(&out, Some(1234), Some(4321)).unwrap();
    fs::set_permissions(&out, Permissions::from_mode(0o666)).unwrap();
    let said = unprivileged(&folder, &["records", text(&file), text(&out)]);
    assert_eq!(said.status, 0, "{}", said.err);
    assert!(said.err.contains("out: The owner could not be kept."), "{}", said.err);
    assert!(said.err.contains("out: The group with its rights could not be kept."), "{}", said.err);
    // Another group does not get the rights of the old one.
    assert_eq!(fs::metadata(&out).unwrap().mode() & 0o777, 0o606);
    let said = unprivileged(&folder, &["records", "--de", text(&file), text(&out)]);
    assert_eq!((said.status, said.err.as_str()), (0, ""));
}

extern "C" {
    fn setxattr(path: *const i8, name: *const i8, value: *const u8, size: usize, flags: i32)
        -> i32;
    fn getxattr(path: *const i8, name: *const i8, value: *mut u8, size: usize) -> isize;
}

/// Gives a file an extended attribute; false where the file system has none.
fn set_attribute(file: &Path, name: &str, value: &[u8]) -> bool {
    let (path, name) =
        (CString::new(file.as_os_str().as_bytes()).unwrap(), CString::new(name).unwrap());
    // SAFETY: both names end with a NUL, and the value is lent for the call.
    unsafe {
        setxattr(path.as_ptr().cast(), name.as_ptr().cast(), value.as_ptr(), value.len(), 0) == 0
    }
}

/// The extended attribute of a file, if it has it.
fn attribute(file: &Path, name: &str) -> Option<Vec<u8>> {
    let (path, name) =
        (CString::new(file.as_os_str().as_bytes()).unwrap(), CString::new(name).unwrap());
    let mut value = vec![0; 256];
    // SAFETY: both names end with a NUL, and as many bytes are lent.
    let length = unsafe {
        getxattr(path.as_ptr().cast(), name.as_ptr().cast(), value.as_mut_ptr(), value.len())
    };
    usize::try_from(length).ok().map(|length| value[..length].to_vec())
}

/// An access control list: the owner, one more reader, the group, the mask, all others.
fn access(reader: u32) -> Vec<u8> {
    let entries: [(u16, u16, u32); 5] =
        [(1, 6, u32::MAX), (2, 4, reader), (4, 4, u32::MAX), (16, 4, u32::MAX), (32, 0, u32::MAX)];
    let entry = |(tag, rights, who): &(u16, u16, u32)| {
        [&tag.to_le_bytes()[..], &rights.to_le_bytes(), &who.to_le_bytes()].concat()
    };
    [&2_u32.to_le_bytes()[..], &entries.iter().flat_map(entry).collect::<Vec<u8>>()].concat()
}

#[test]
fn attributes_and_readers_are_kept() {
    let folder = Folder::new();
    let (file, out) = (sample("evening.xml"), folder.put("out", old_records(1)));
    let (list, own) = ("system.posix_acl_access", "user.ledger");
    if !set_attribute(&out, list, &access(1234)) || !set_attribute(&out, own, b"day 28") {
        return left_out("this file system has no attributes");
    }
    bulk(&["records", text(&file), text(&out)]).done(0);
    assert_eq!(attribute(&out, own).as_deref(), Some(&b"day 28"[..]));
    assert_eq!(attribute(&out, list), Some(access(1234)));
    assert_eq!(fs::metadata(&out).unwrap().len() as usize, 5 * RECORD);
}

#[test]
fn the_folder_gives_no_new_readers() {
    let folder = Folder::new();
    let (file, out) = (sample("evening.xml"), folder.put("out", old_records(1)));
    fs::set_permissions(&out, Permissions::from_mode(0o640)).unwrap();
    if !set_attribute(&folder.0, "system.posix_acl_default", &access(1234)) {
        return left_out("this file system has no access control lists");
    }
    bulk(&["records", text(&file), text(&out)]).done(0);
    assert_eq!(attribute(&out, "system.posix_acl_access"), None);
    assert_eq!(fs::metadata(&out).unwrap().mode() & 0o777, 0o640);
}

/// The number of a process that has ended.
fn ended() -> u32 {
    let mut process = Command::new("true").spawn().unwrap();
    process.wait().unwrap();
    process.id()
}

#[test]
fn the_file_of_a_killed_run_is_removed() {
    let (folder, file) = (Folder::new(), sample("evening.xml"));
    let name = format!(".bulk-{}-0.new", ended());
    folder.put(&name, &old_records(1)[..100]);
    // Others stay: of a process that runs, and of names that are not ours.
    let running = format!(".bulk-{}-0.new", std::process::id());
    folder.put(&running, old_records(1));
    folder.put(".bulk-x.new", "other");
    fs::create_dir(folder.path(".bulk-1-7.new")).unwrap();
    bulk(&["records", text(&file), text(&folder.path("out"))]).done(0);
    let mut names = vec![".bulk-1-7.new".to_string(), running, ".bulk-x.new".into(), "out".into()];
    names.sort();
    assert_eq!(folder.names(), names);
}

#[test]
fn a_killed_run_leaves_nothing_for_long() {
    let (folder, (message, record)) = (Folder::new(), example());
    folder.put("bulk.xml", message);
    // The shell has the number that the command will have, and leaves a file of its first name.
    let script = "echo rest > .bulk-$$-0.new; exec \"$@\"";
    let mut shell = Command::new("sh");
    shell.args(["-c", script, "sh", COMMAND, "records", "bulk.xml", "out"]).env_clear();
    Said::from(shell.current_dir(&folder.0).output().unwrap()).done(0);
    assert_eq!(fs::read_to_string(folder.path("out")).unwrap(), record);
    assert_eq!(folder.names(), ["bulk.xml", "out"]);
}

#[test]
fn a_file_that_another_run_still_writes_stays() {
    if !Command::new("flock").arg("--version").output().is_ok_and(|said| said.status.success()) {
        return left_out("there is no flock");
    }
    let (folder, (message, record)) = (Folder::new(), example());
    folder.put("bulk.xml", message);
    // Its number is free here, as that of a process in another container may be: the lock alone tells.
    let name = format!(".bulk-{}-0.new", ended());
    let script = format!("echo other > {name}; exec 3< {name}; flock 3; exec \"$@\"");
    let mut shell = Command::new("sh");
    shell.args(["-c", &script, "sh", COMMAND, "records", "bulk.xml", "out"]).env_clear();
    shell.env("PATH", std::env::var_os("PATH").unwrap());
    Said::from(shell.current_dir(&folder.0).output().unwrap()).done(0);
    assert_eq!(fs::read_to_string(folder.path("out")).unwrap(), record);
    assert_eq!(folder.names(), [name.as_str(), "bulk.xml", "out"]);
    assert_eq!(fs::read(folder.path(&name)).unwrap(), b"other\n");
    // Once nobody holds it, it goes.
    let (file, out) = (folder.path("bulk.xml"), folder.path("out"));
    bulk(&["records", text(&file), text(&out)]).done(0);
    assert_eq!(folder.names(), ["bulk.xml", "out"]);
}

#[test]
fn what_cannot_be_written() {
    let folder = Folder::new();
    let file = sample("evening.xml");
    fs::create_dir(folder.path("folder")).unwrap();
    // A socket stands for every special file: a device of the machine is not to be put at risk.
    let _socket = UnixListener::bind(folder.path("socket")).unwrap();
    symlink("nowhere", folder.path("link")).unwrap();
    symlink("round", folder.path("round")).unwrap();
    folder.put("file", "old");
    let link = ("It is a link to a file that is not", "Das ist ein Verweis auf eine Datei");
    let no_file = ("It is a folder or a device", "Das ist ein Ordner oder ein Gerät");
    let no_folder = ("The folder does not exist.", "Den Ordner gibt es nicht.");
    for (out, (english, german)) in [
        (folder.path("folder"), no_file),
        (folder.path("new/"), no_file),
        (folder.path("folder/.."), no_file),
        (folder.path("socket"), no_file),
        (folder.path("none/out"), no_folder),
        (folder.path("file/out"), no_folder),
        (folder.path("link"), link),
        (folder.path("round"), link),
        (folder.path(&"x".repeat(256)), ("The name is too long.", "Der Name ist zu lang.")),
    ] {
        let said = bulk(&["records", text(&file), text(&out)]).trouble();
        assert!(said.contains(&format!("{}: {english}", text(&out))), "{said}");
        let said = bulk(&["--de", "records", text(&file), text(&out)]).trouble();
        assert!(said.contains(&format!("{}: {german}", text(&out))), "{said}");
    }
    assert_eq!(folder.names(), ["file", "folder", "link", "round", "socket"]);
    assert!(!fs::metadata(folder.path("socket")).unwrap().is_file());
    assert_eq!(fs::read(folder.path("file")).unwrap(), b"old");
}

#[test]
fn the_message_is_never_written_over() {
    let (folder, evening) = (Folder::new(), evening());
    let file = folder.put("bulk.xml", &evening);
    symlink("bulk.xml", folder.path("link")).unwrap();
    for out in ["bulk.xml", "link"] {
        let said = bulk(&["records", text(&file), text(&folder.path(out))]).trouble();
        assert!(said.contains("OUT is the message itself."), "{said}");
    }
    let mut command = command(&["records", "-", text(&file)]);
    let said = command.stdin(File::open(&file).unwrap()).output().unwrap();
    assert!(Said::from(said).trouble().contains("OUT is the message itself."));
    assert_eq!(fs::read_to_string(&file).unwrap(), evening);
    assert_eq!(folder.names(), ["bulk.xml", "link"]);
}

#[test]
fn a_full_disk_loses_nothing() {
    let folder = Folder::new();
    let (file, out) = (sample("evening.xml"), folder.put("out", old_records(1)));
    // No file may grow over one block, and the signal for that is ignored: writing fails half way.
    let script = "trap '' XFSZ; ulimit -f 1; exec \"$@\"";
    for (out, left) in [(out.clone(), old_records(1)), (folder.path("new"), String::new())] {
        let mut command = Command::new("sh");
        command.args(["-c", script, "sh", COMMAND, "records", text(&file), text(&out)]);
        let said = Said::from(command.env_clear().output().unwrap()).trouble();
        assert!(
            said.ends_with("The disk is full. Make room, then try again. Nothing was changed.\n"),
            "{said}"
        );
        assert_eq!(fs::read_to_string(&out).unwrap_or_default(), left);
    }
    assert_eq!(folder.names(), ["out"]);
}

/// An accepted message, and a file that cannot be replaced: in a folder of its own, with the rights
/// that the two are given.
fn guarded(folder: &Folder, of_file: u32, of_folder: u32) -> (PathBuf, PathBuf) {
    let file = folder.put("bulk.xml", evening());
    let inner = folder.path("inner");
    fs::create_dir(&inner).unwrap();
    fs::write(inner.join("out"), old_records(1)).unwrap();
    fs::set_permissions(inner.join("out"), Permissions::from_mode(of_file)).unwrap();
    fs::set_permissions(&inner, Permissions::from_mode(of_folder)).unwrap();
    (file, inner)
}

/// Writing under this name fails, the old file is as it was, and no other stands beside it.
fn stays(folder: &Folder, file: &Path, inner: &Path, name: &str) {
    let out = inner.join(name);
    let said = unprivileged(folder, &["records", text(file), text(&out)]).trouble();
    assert!(said.contains(&format!("inner/{name}: No permission to write there.")), "{said}");
    let said = unprivileged(folder, &["--de", "records", text(file), text(&out)]).trouble();
    assert!(said.contains("wählen oder Schreibrecht anfordern."), "{said}");
    assert_eq!(fs::read_to_string(inner.join("out")).unwrap(), old_records(1));
    assert_eq!(fs::read_dir(inner).unwrap().count(), 1);
}

#[test]
fn a_read_only_folder_loses_nothing() {
    if no_rights_to_give_up() {
        return;
    }
    let folder = Folder::new();
    let (file, inner) = guarded(&folder, 0o666, 0o555);
    stays(&folder, &file, &inner, "out");
    stays(&folder, &file, &inner, "new");
    fs::set_permissions(&inner, Permissions::from_mode(0o777)).unwrap();
    unprivileged(&folder, &["records", text(&file), text(&inner.join("new"))]).done(0);
}

#[test]
fn a_write_protected_file_stays() {
    if no_rights_to_give_up() {
        return;
    }
    let folder = Folder::new();
    let (file, inner) = guarded(&folder, 0o444, 0o777);
    stays(&folder, &file, &inner, "out");
}
