//! `plain`: the plain form to standard output or into a file, and no other file is ever replaced.

use crate::common::*;
use std::fs::{self, File, Permissions};
use std::os::unix::fs::{symlink, PermissionsExt};
use std::process::Command;

/// The plain form of the evening: its sample is that, and a line end.
fn plain_evening() -> String {
    let evening = fs::read_to_string(sample("evening.xml")).unwrap();
    evening.strip_suffix('\n').unwrap().to_string()
}

#[test]
fn one_plain_form_of_every_spelling() {
    for name in ["evening.xml", "evening-indented.xml", "evening-padded.xml"] {
        let file = sample(name);
        for words in [&["plain", text(&file)][..], &["plain", text(&file), "-"]] {
            let said = bulk(words);
            assert_eq!((said.status, said.out), (0, plain_evening()), "{name}");
            let verdict = ": accepted, 5 items, 2,024.90 EUR (202490 cents), MsgId ";
            assert!(said.err.contains(&format!("{name}{verdict}")), "{}", said.err);
        }
    }
    // Its own plain form is itself.
    let said = piped(&["--plain", "plain", "-"], plain_evening());
    assert_eq!((said.out, said.err.as_str()), (plain_evening(), "accepted 5 202490\n"));
}

/// It holds the collapsed EndToEndId, names and remittance texts.
#[test]
fn white_space_in_values_collapses() {
    let rents = fs::read_to_string(sample("rents.xml")).unwrap();
    for name in ["rents.xml", "rents-wrapped.xml"] {
        let said = bulk(&["plain", text(&sample(name))]);
        assert_eq!((said.status, said.out.as_str()), (0, rents.trim_end()), "{name}");
    }
}

/// As much longer than the message as it can be: a declaration, and `.00` for each amount.
#[test]
fn a_plain_form_may_be_longer_than_the_message() {
    let (message, _) = example();
    let short = message.replace(">12.34<", ">5<");
    let said = piped(&["plain", "-"], &short);
    let declaration = "<?xml version=\"1.0\" encoding=\"UTF-8\"?>";
    assert_eq!(said.out, format!("{declaration}{}", short.replace(">5<", ">5.00<")));
    assert_eq!(said.out.len(), short.len() + 38 + 2 * 3);
}

#[test]
fn into_a_file() {
    let folder = Folder::new();
    let (file, out) = (sample("evening-padded.xml"), folder.path("out.xml"));
    let said = bulk(&["plain", text(&file), text(&out)]).done(0);
    assert!(
        said.ends_with(&format!("CORE, pacs.003.001.02; plain form written to {}\n", text(&out))),
        "{said}"
    );
    assert_eq!(fs::read_to_string(&out).unwrap(), plain_evening());
    // Once more: the file holds just this.
    fs::set_permissions(&out, Permissions::from_mode(0o640)).unwrap();
    let said = bulk(&["--de", "plain", text(&file), text(&out)]).done(0);
    assert!(said.ends_with(&format!("; Normalform geschrieben nach {}\n", text(&out))), "{said}");
    assert_eq!(fs::read_to_string(&out).unwrap(), plain_evening());
    assert_eq!(fs::metadata(&out).unwrap().permissions().mode() & 0o777, 0o640);
    let said = bulk(&["--plain", "plain", text(&file), text(&out)]).done(0);
    assert_eq!(said, "accepted 5 202490\n");
    assert_eq!(folder.names(), ["out.xml"]);
}

#[test]
fn a_refused_message_has_none() {
    let folder = Folder::new();
    let (october, out) = (sample("october.xml"), folder.path("out"));
    let said = bulk(&["plain", text(&october)]);
    assert_eq!((said.status, said.out.as_str()), (1, ""));
    assert!(said.err.contains("refused 24 at place 3988"), "{}", said.err);
    let said = bulk(&["plain", text(&october), text(&out)]).done(1);
    assert!(said.contains("refused 24 at place 3988") && !said.contains("written"), "{said}");
    let out = folder.put("empty", "");
    assert_eq!(
        bulk(&["--plain", "plain", text(&october), text(&out)]).done(1),
        "refused 24 3988\n"
    );
    assert_eq!(fs::read(&out).unwrap(), b"");
    assert_eq!(folder.names(), ["empty"]);
}

/// A plain form is a bulk: whatever stands in the file may be one that somebody needs.
#[test]
fn no_other_file_is_replaced() {
    let (folder, file) = (Folder::new(), sample("evening-padded.xml"));
    let mut almost = plain_evening().into_bytes();
    let last = almost.len() - 1;
    almost[last] = b'<';
    let mut shorter = plain_evening().into_bytes();
    shorter.pop();
    let (message, _) = example();
    let longer = format!("{}\n", plain_evening());
    for bytes in [b"x".to_vec(), almost, shorter, longer.into_bytes(), message.into_bytes()] {
        let out = folder.put("out.xml", &bytes);
        let said = bulk(&["plain", text(&file), text(&out)]).trouble();
        assert!(said.contains("out.xml: The file is not empty and holds something else"), "{said}");
        assert!(said.ends_with("Choose another name, or remove it first.\n"), "{said}");
        let said = bulk(&["--de", "plain", text(&file), text(&out)]).trouble();
        assert!(said.contains("vielleicht einen anderen Bulk; sie wurde nicht ersetzt."), "{said}");
        assert_eq!(fs::read(&out).unwrap(), bytes);
    }
    let out = folder.put("out.xml", "");
    bulk(&["plain", text(&file), text(&out)]).done(0);
    assert_eq!(fs::read_to_string(&out).unwrap(), plain_evening());
    assert_eq!(folder.names(), ["out.xml"]);
}

#[test]
fn the_message_is_never_written_over() {
    let folder = Folder::new();
    // It holds just what would be written.
    let file = folder.put("bulk.xml", plain_evening());
    symlink("bulk.xml", folder.path("link")).unwrap();
    for out in ["bulk.xml", "link"] {
        let said = bulk(&["plain", text(&file), text(&folder.path(out))]).trouble();
        let words = "OUT is the message itself. Choose another name for the plain form.";
        assert!(said.contains(words), "{said}");
    }
    let said = bulk(&["--de", "plain", text(&file), text(&file)]).trouble();
    assert!(said.contains("einen anderen Namen für die Normalform wählen."), "{said}");
    let mut command = command(&["plain", "-", text(&file)]);
    let said = command.stdin(File::open(&file).unwrap()).output().unwrap();
    assert!(Said::from(said).trouble().contains("OUT is the message itself."));
    assert_eq!(fs::read_to_string(&file).unwrap(), plain_evening());
    assert_eq!(folder.names(), ["bulk.xml", "link"]);
}

#[test]
fn what_cannot_be_written() {
    let (folder, file) = (Folder::new(), sample("evening.xml"));
    for (out, english, german) in [
        ("", "OUT is empty. Name a file for the plain form", "eine Datei für die Normalform"),
        ("/dev/stdout", "Nothing is written under /dev", "Unter /dev und /proc"),
        (text(&folder.0), "It is a folder or a device", "Das ist ein Ordner"),
        (text(&folder.path("none/out")), "The folder does not exist.", "Den Ordner gibt es nicht."),
    ] {
        let said = bulk(&["plain", text(&file), out]).trouble();
        assert!(said.contains(english), "{said}");
        let said = bulk(&["--de", "plain", text(&file), out]).trouble();
        assert!(said.contains(german), "{said}");
    }
    let said = unheard(&["plain", "-"], evening()).trouble();
    assert!(said.contains("Standard output cannot be written: "), "{said}");
    let said = shell("exec \"$@\" >&-", &["plain", text(&file)]).trouble();
    assert!(said.contains("Standard output is closed, so the plain form would be lost."), "{said}");
    let said = shell("exec \"$@\" >&-", &["--de", "plain", text(&file)]).trouble();
    assert!(said.contains("die Normalform ginge verloren."), "{said}");
    assert_eq!(folder.names(), [""; 0]);
}

#[test]
fn a_full_disk_loses_nothing() {
    let (folder, file) = (Folder::new(), sample("evening.xml"));
    let out = folder.put("out", "");
    // No file may grow over one block, and the signal for that is ignored: writing fails half way.
    let script = "trap '' XFSZ; ulimit -f 1; exec \"$@\"";
    let mut command = Command::new("sh");
    command.args(["-c", script, "sh", COMMAND, "plain", text(&file), text(&out)]);
    let said = Said::from(command.env_clear().output().unwrap()).trouble();
    assert!(said.contains("The disk is full."), "{said}");
    assert_eq!(fs::read(&out).unwrap(), b"");
    assert_eq!(folder.names(), ["out"]);
}

#[test]
fn the_plain_form_is_told_even_if_the_verdict_cannot_be() {
    let full = match File::options().write(true).open("/dev/full") {
        Ok(full) => full,
        Err(error) => return left_out(&format!("/dev/full: {error}")),
    };
    let (folder, file) = (Folder::new(), sample("evening.xml"));
    let out = folder.path("out");
    let mut command = command(&["plain", text(&file), text(&out)]);
    let said = Said::from(command.stdout(full).output().unwrap()).trouble();
    assert!(said.ends_with(&format!("The plain form is in {}\n", text(&out))), "{said}");
    assert_eq!(fs::read_to_string(&out).unwrap(), plain_evening());
}

#[test]
fn what_looks_doubled_is_warned_of() {
    let (folder, file) = (Folder::new(), sample("alike.xml"));
    let said = bulk(&["plain", text(&file)]);
    assert!(said.err.contains("  Warning: looks doubled: "), "{}", said.err);
    let out = folder.path("out");
    let said = bulk(&["plain", text(&file), text(&out)]).done(0);
    assert!(said.contains("/out\n  Warning: looks doubled: "), "{said}");
}
