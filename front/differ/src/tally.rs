//! What a run has seen. A case that differs is printed with a file of its bytes, the command that runs
//! it again, and the answers.

use std::collections::BTreeMap;
use std::fmt::Debug;
use std::path::PathBuf;
use std::process::ExitCode;
use std::time::Instant;

/// The name of a case: the run that makes it, its seed, its number there, and how it is made.
#[derive(Clone, Copy)]
pub struct Name<'a> {
    pub run: &'a str,
    pub seed: u64,
    pub number: u64,
    pub sort: &'a str,
}

/// So many cases that differ are printed, and so many questions of each; the rest is counted.
const PRINTED: u64 = 20;
const QUESTIONS: u64 = 4;

pub struct Tally {
    what: String,
    pub cases: u64,
    asked: u64,
    /// How often the judge gave each number; 0 is accepted.
    pub numbers: BTreeMap<u64, u64>,
    pub differences: u64,
    /// The cases that differ, and the last one of them with its differences.
    differing: u64,
    last: Option<(u64, u64)>,
    started: Instant,
}

impl Tally {
    /// A tally of a run that has begun.
    pub fn new(what: String) -> Tally {
        Tally {
            what,
            cases: 0,
            asked: 0,
            numbers: BTreeMap::new(),
            differences: 0,
            differing: 0,
            last: None,
            started: Instant::now(),
        }
    }

    /// Notes a case and the number that it was given.
    pub fn met(&mut self, number: u64) {
        self.cases += 1;
        *self.numbers.entry(number).or_default() += 1;
    }

    /// Holds two answers to a question about these bytes against each other.
    pub fn hold<T: PartialEq + Debug>(
        &mut self,
        name: &Name,
        question: &dyn Fn() -> String,
        bytes: &[u8],
        one: (&str, &T),
        other: (&str, &T),
    ) {
        self.asked += 1;
        if one.1 != other.1 {
            let told = [format!("{:?}", one.1), format!("{:?}", other.1)];
            self.differ(name, &question(), bytes, [one.0, other.0], told);
        }
    }

    /// Holds two areas against each other; of a difference, its first place and what stands there.
    pub fn hold_areas(
        &mut self,
        name: &Name,
        question: &dyn Fn() -> String,
        bytes: &[u8],
        one: (&str, &[u8]),
        other: (&str, &[u8]),
    ) {
        self.asked += 1;
        if one.1 != other.1 {
            let first = one.1.iter().zip(other.1).take_while(|(a, b)| a == b).count();
            let told = |area: &[u8]| {
                let end = area.len().min(first + 40);
                format!("from byte {first}: b\"{}\"", area[first..end].escape_ascii())
            };
            let told = [told(one.1), told(other.1)];
            self.differ(name, &question(), bytes, [one.0, other.0], told);
        }
    }

    /// Tells a difference: the case, both answers, a file with its bytes, and how to run it again.
    fn differ(
        &mut self,
        name: &Name,
        question: &str,
        bytes: &[u8],
        who: [&str; 2],
        told: [String; 2],
    ) {
        self.differences += 1;
        let questions = match self.last {
            Some((number, questions)) if number == name.number => questions + 1,
            _ => 1,
        };
        self.last = Some((name.number, questions));
        self.differing += u64::from(questions == 1);
        if self.differing > PRINTED || questions > QUESTIONS {
            return;
        }
        if questions == 1 {
            introduce(name, bytes);
        }
        println!("  {question}: {} {}; {} {}", who[0], told[0], who[1], told[1]);
    }

    /// Prints what was seen.
    pub fn end(&self) -> ExitCode {
        let numbers: Vec<String> =
            self.numbers.iter().map(|(number, times)| format!("{number}: {times}")).collect();
        println!(
            "{}: {} cases, {} answers held, {} differences in {} cases, {:.1} s; given {}",
            self.what,
            self.cases,
            self.asked,
            self.differences,
            self.differing,
            self.started.elapsed().as_secs_f64(),
            numbers.join(", ")
        );
        ExitCode::from(u8::from(self.differences > 0))
    }
}

/// Prints which case differs, where its bytes are kept, and how it is run again.
fn introduce(name: &Name, bytes: &[u8]) {
    let Name { run, seed, number, sort } = name;
    if *run == "file" {
        println!("DIFFERENCE {sort}");
        return;
    }
    println!("DIFFERENCE {run} {seed} {number} ({sort})");
    match keep(name, bytes) {
        Ok(file) => println!("  bytes ({}): {}", bytes.len(), file.display()),
        Err(error) => println!("  bytes ({}) could not be kept: {error}", bytes.len()),
    }
    let program = std::env::args().next().unwrap_or_default();
    println!("  again: {program} again {run} {seed} {number}");
}

/// Leaves the bytes of a case in a file.
fn keep(name: &Name, bytes: &[u8]) -> std::io::Result<PathBuf> {
    let folder = PathBuf::from(face::FOLDER).join("differences");
    std::fs::create_dir_all(&folder)?;
    let file = folder.join(format!("{}-{}-{}", name.run, name.seed, name.number));
    std::fs::write(&file, bytes)?;
    Ok(file)
}
