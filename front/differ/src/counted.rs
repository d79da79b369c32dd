//! Instructions, where valgrind is installed: what a processor does for a byte, which no other work on the
//! machine disturbs. One call more is counted, by the difference of two runs.

use crate::bench::{QUICK, TAKEN};
use crate::face;
use crate::usual::usual;
use std::fmt::Write;
use std::path::{Path, PathBuf};
use std::process::{Command, ExitCode};

/// The items of the messages.
const ITEMS: usize = 1000;

/// The contender of this number so many times over the message in a file.
pub fn repeat(file: &str, (who, rounds): (u64, u64)) -> ExitCode {
    let (Some(who), Ok(message)) = (QUICK.get(who as usize), std::fs::read(file)) else {
        eprintln!("no such contender, or {file} cannot be read");
        return ExitCode::from(2);
    };
    let (mut area, mut index) = (vec![0; face::RECORD * ITEMS], vec![0; face::INDEX]);
    for _ in 0..rounds {
        assert_eq!(who.ask(&message, &mut area, &mut index)[0], 0);
    }
    ExitCode::SUCCESS
}

/// The instructions of a whole run of this program, if valgrind tells them.
fn counted(who: usize, file: &Path, rounds: usize) -> Option<f64> {
    let program = std::env::current_exe().ok()?;
    let said = Command::new("valgrind")
        .args(["--tool=cachegrind", "--cache-sim=no", "--cachegrind-out-file=/dev/null"])
        .arg(program)
        .args(["repeat", &who.to_string()])
        .arg(file)
        .arg(rounds.to_string())
        .output()
        .ok()?;
    let text = String::from_utf8_lossy(&said.stderr).into_owned();
    // "I refs:", with one space between or more.
    let (_, number) = text.split_once("refs:")?;
    number.lines().next()?.trim().replace(',', "").parse().ok()
}

/// The instructions of one call for each byte of the message in a file.
fn a_byte(who: usize, file: &Path, bytes: usize) -> Option<f64> {
    Some((counted(who, file, 2)? - counted(who, file, 1)?) / bytes as f64)
}

/// The rows of the table, if valgrind tells them.
fn rows(files: &[(PathBuf, usize); 2]) -> Option<String> {
    let mut text = String::new();
    for (at, who) in QUICK.iter().enumerate() {
        let [compact, indented] = files;
        let compact = a_byte(at, &compact.0, compact.1)?;
        let indented = a_byte(at, &indented.0, indented.1)?;
        writeln!(text, "| {} | {compact:.2} | {indented:.2} |", who.name()).expect(TAKEN);
    }
    Some(text)
}

/// The table of instructions, or that it is left out.
pub(crate) fn instructions(folder: &Path) -> String {
    let files = [false, true].map(|indented| {
        let file = folder.join(format!("counted-{indented}.xml"));
        let message = usual(ITEMS, indented);
        std::fs::write(&file, &message).expect("the message can be written");
        (file, message.len())
    });
    let rows = rows(&files);
    files.iter().for_each(|(file, _)| drop(std::fs::remove_file(file)));
    match rows {
        Some(rows) => format!(
            "\nInstructions for each byte of the message, 1,000 items, counted by valgrind (the index \
             cleared twice included):\n\n| | compact | indented |\n|---|---|---|\n{rows}"
        ),
        None => "\nInstructions are left out: valgrind is not installed, or does not tell them.\n".into(),
    }
}
