//! The script `bulk` at the root: the first build says which crate of how many is proved.

use crate::common::*;
use std::fs::{self, File, Permissions};
use std::os::unix::fs::PermissionsExt;
use std::path::{Path, PathBuf};
use std::process::Command;
use std::time::{Duration, SystemTime};

const CRATES: &str =
    "# below: above\ntext:\nwords: text  # a word\nbulk: words io\nvectors: bulk io\n";

const RT: &str = "#!/bin/sh\n[ \"$*\" = lib ] && [ \"${PWD##*/}\" = bulk ] || exit 3\n\
                  echo 'rt: chose --jobs 2 for text'\necho 'fn text::same: proved'\n\
                  echo 'logic=proved functions=1'\necho 'rt: chose --jobs 1 for words'\n\
                  echo 'logic=proved functions=7'\necho 'rt: chose --jobs 2 for bulk'\n\
                  [ -e ../../fail ] && { echo 'logic=not-proved'; exit 1; }\n\
                  echo 'logic=proved functions=2'\n";

/// Files that decide how the command is built.
const SOURCES: [&str; 5] = [
    "front/Cargo.toml",
    "front/Cargo.lock",
    "front/.cargo/config.toml",
    "front/bulk/Cargo.toml",
    "docs/REFUSALS.md",
];

const LINK: &str = "#!/bin/sh\nmkdir -p target/front && touch target/front/libbulk.a\n";

const CARGO: &str = "#!/bin/sh\nmkdir -p \"$CARGO_TARGET_DIR/release\"\n\
                     printf '#!/bin/sh\\necho judged \"$@\"\\n' > \"$CARGO_TARGET_DIR/release/bulk\"\n\
                     chmod +x \"$CARGO_TARGET_DIR/release/bulk\"\n";

/// Writes a program.
fn program(path: PathBuf, text: &str) {
    fs::create_dir_all(path.parent().unwrap()).unwrap();
    fs::write(&path, text).unwrap();
    fs::set_permissions(&path, Permissions::from_mode(0o755)).unwrap();
}

/// A house of its own in a folder, in which the script proves and compiles nothing real.
fn house() -> Folder {
    let folder = Folder::new();
    for name in ["bulk", "front/prove"] {
        let script = Path::new(env!("CARGO_MANIFEST_DIR")).join("../..").join(name);
        program(folder.path(name), &fs::read_to_string(script).unwrap());
    }
    folder.put("crates.txt", CRATES);
    for name in ["crates/bulk", "front/bulk/src", "front/face", "front/.cargo", "docs"] {
        fs::create_dir_all(folder.path(name)).unwrap();
    }
    for name in SOURCES {
        folder.put(name, "");
    }
    program(folder.path("front/link"), LINK);
    program(folder.path("front/need-cargo"), "#!/bin/sh\n");
    program(folder.path("tools/rt"), RT);
    program(folder.path("tools/cargo"), CARGO);
    folder
}

/// Runs the script of a house in a locale.
fn run(house: &Folder, words: &[&str], locale: &str) -> Said {
    let path = format!("{}:{}", text(&house.path("tools")), std::env::var("PATH").unwrap());
    let mut command = Command::new(house.path("bulk"));
    command.args(words).env("PATH", path).env("LANG", locale);
    command.env_remove("LC_ALL").env_remove("LC_MESSAGES").output().unwrap().into()
}

#[test]
fn each_crate_is_told_when_it_is_proved() {
    let house = house();
    let said = run(&house, &["judge", "x"], "C");
    let told = "bulk: Building, some minutes the first time\nbulk: Proved 1 of 3: text\n\
                bulk: Proved 2 of 3: words\nbulk: Proved 3 of 3: bulk\n\
                bulk: Linking\nbulk: Compiling the command\n";
    assert_eq!((said.status, said.out.as_str(), said.err.as_str()), (0, "judged judge x\n", told));
    // And never again, as long as nothing changes.
    assert_eq!(run(&house, &["judge", "x"], "C").done(0), "judged judge x\n");
}

#[test]
fn a_changed_source_is_compiled_again() {
    let house = house();
    run(&house, &["x"], "C");
    for name in SOURCES {
        let later = SystemTime::now() + Duration::from_secs(1);
        File::options().write(true).open(house.path(name)).unwrap().set_modified(later).unwrap();
        let said = run(&house, &["x"], "C");
        let told = "bulk: Building, some minutes the first time\nbulk: Compiling the command\n";
        assert_eq!((said.out.as_str(), said.err.as_str()), ("judged x\n", told), "{name}");
        let before = SystemTime::now() - Duration::from_secs(60);
        File::options().write(true).open(house.path(name)).unwrap().set_modified(before).unwrap();
    }
}

#[test]
fn the_script_speaks_one_language() {
    for (words, locale, told) in [
        (&["judge", "x"][..], "de_DE.UTF-8", "bulk: 3 von 3 bewiesen: bulk\n"),
        (&["--de", "x"], "C", "bulk: Wird gebaut, beim ersten Mal einige Minuten\n"),
        (&["--en", "x"], "de", "bulk: Proved 3 of 3: bulk\n"),
        (&["x"], "den_CA", "bulk: Proved 3 of 3: bulk\n"),
    ] {
        let said = run(&house(), words, locale);
        assert!(said.err.contains(told) && !said.err.contains(" · "), "{}", said.err);
    }
}

#[test]
fn a_crate_that_is_not_proved_is_told() {
    let house = house();
    house.put("fail", "");
    let said = run(&house, &["judge", "x"], "C");
    assert_eq!((said.status, said.out.as_str()), (2, ""));
    assert!(said.err.contains("logic=not-proved\n"), "{}", said.err);
    assert!(said.err.contains("bulk: The library could not be proved. See "), "{}", said.err);
    let said = run(&house, &["--de", "judge", "x"], "C");
    assert!(
        said.err.contains("bulk: Die Bibliothek ließ sich nicht beweisen. Siehe "),
        "{}",
        said.err
    );
}
