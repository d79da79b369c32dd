//! A power cut, simulated: it comes behind any step of a call, and of the steps that are not yet on
//! the disk it takes any, or leaves bytes that were never written. What is played back afterwards
//! are the calls that were answered, or one more.

use crate::common::course::*;
use crate::common::day::*;
use crate::common::*;
use std::collections::{BTreeMap, BTreeSet};
use std::fs;

/// A step of writing, as the command notes it: what, and where in the folder of the day.
#[derive(Clone, Debug)]
struct Step {
    what: String,
    path: String,
    more: String,
}

/// What becomes of a step that is not yet on the disk.
#[derive(Clone, Copy, Debug, PartialEq, Eq)]
enum Fate {
    Lost,
    Kept,
    /// The file has its length, and zeros in place of the bytes.
    Zeros,
}

/// The steps of a command, with which it is called again.
fn steps(day: &Day, mut command: std::process::Command) -> Vec<Step> {
    let file = day.folder.path("steps");
    let _ = fs::remove_file(&file);
    Said::from(command.env("BULK_STEPS", &file).output().unwrap()).done(0);
    let root = text(&day.path()).to_string();
    let inside =
        |path: &str| path.strip_prefix(&root).unwrap_or("..").trim_start_matches('/').to_string();
    let step = |line: &str| {
        let mut words = line.split('\t');
        let mut next = || words.next().unwrap_or("").to_string();
        let (what, path, more) = (next(), next(), next());
        let more = if what == "rename" { inside(&more) } else { more };
        Step { what, path: inside(&path), more }
    };
    fs::read_to_string(&file).unwrap().lines().map(step).collect()
}

/// The folder of a name.
fn above(path: &str) -> &str {
    path.rsplit_once('/').map_or("", |(folder, _)| folder)
}

impl Step {
    /// Whether it changes the disk, rather than making sure of it.
    fn is_change(&self) -> bool {
        !self.what.starts_with("sync")
    }

    /// Whether this later step makes sure of it. A file may have another name by then, so that a
    /// sync of either is one of it.
    fn is_kept_by(&self, later: &Step, names: &BTreeMap<String, String>) -> bool {
        let file = |path: &str| names.get(path).cloned().unwrap_or_else(|| path.to_string());
        match self.what.as_str() {
            "write" | "cut" => later.what == "sync" && file(&later.path) == file(&self.path),
            "rename" => later.what == "sync-folder" && later.path == above(&self.more),
            _ => later.what == "sync-folder" && later.path == above(&self.path),
        }
    }
}

/// The first name of each file that was renamed, by its last.
fn first_names(steps: &[Step]) -> BTreeMap<String, String> {
    let renames = steps.iter().filter(|step| step.what == "rename");
    renames.map(|step| (step.more.clone(), step.path.clone())).collect()
}

/// The folder as a power cut leaves it, where each change has its fate.
fn left(before: &Held, changes: &[(&Step, Fate)]) -> Held {
    let mut held = before.clone();
    for (step, fate) in changes {
        if *fate == Fate::Lost {
            continue;
        }
        match step.what.as_str() {
            "create" => drop(held.insert(step.path.clone(), Vec::new())),
            "remove" => drop(held.remove(&step.path)),
            "rename" => {
                if let Some(bytes) = held.remove(&step.path) {
                    held.insert(step.more.clone(), bytes);
                }
            }
            "cut" => {
                if let Some(bytes) = held.get_mut(&step.path) {
                    bytes.truncate(step.more.parse().unwrap());
                }
            }
            "write" => {
                let byte = |at| u8::from_str_radix(&step.more[at..at + 2], 16).unwrap();
                let bytes = (0..step.more.len()).step_by(2).map(byte);
                if let Some(file) = held.get_mut(&step.path) {
                    file.extend(bytes.map(|byte| if *fate == Fate::Zeros { 0 } else { byte }));
                }
            }
            _ => {}
        }
    }
    held
}

/// Every folder that a power cut can leave behind so many of the steps.
fn all_left(before: &Held, steps: &[Step]) -> BTreeSet<Held> {
    let names = first_names(steps);
    let changes: Vec<(usize, &Step)> =
        steps.iter().enumerate().filter(|(_, step)| step.is_change()).collect();
    let mut fates: Vec<Vec<(&Step, Fate)>> = vec![Vec::new()];
    for (at, step) in changes {
        let is_kept = steps[at..].iter().any(|later| step.is_kept_by(later, &names));
        let choices: &[Fate] = match step.what.as_str() {
            _ if is_kept => &[Fate::Kept],
            "write" => &[Fate::Lost, Fate::Kept, Fate::Zeros],
            _ => &[Fate::Lost, Fate::Kept],
        };
        let mut more = Vec::new();
        for one in &fates {
            for fate in choices {
                more.push([&one[..], &[(step, *fate)]].concat());
            }
        }
        fates = more;
    }
    fates.iter().map(|changes| left(before, changes)).collect()
}

#[test]
fn a_power_cut_behind_every_step_of_every_call() {
    let course = Course::new();
    let mut tried = 0;
    for (at, asked) in CALLS.into_iter().enumerate() {
        course.day.put_back(&course.held[at]);
        let steps = steps(&course.day, course.day.asking(asked));
        let least = if asked[0] == "enter" { 9 } else { 3 };
        assert!(steps.len() >= least, "{steps:?}");
        for done in 0..=steps.len() {
            let is_last = done == steps.len();
            for held in all_left(&course.held[at], &steps[..done]) {
                course.day.put_back(&held);
                let made = course.settle(at);
                // Behind the last step the call may have been answered.
                assert!(!is_last || made == at + 1, "{asked:?} is lost");
                tried += 1;
            }
        }
        course.finish(at + 1);
    }
    assert!(tried > 150, "only {tried}");
}

/// The same of a repair: a second one completes it, and what was set aside is not lost.
#[test]
fn a_power_cut_behind_every_step_of_a_repair() {
    let course = Course::new();
    for before in cut_off(&course, 3) {
        course.day.put_back(&before);
        let steps = steps(&course.day, course.day.command(&["repair"]));
        let own = &course.held[3];
        let extra: Vec<&[u8]> = before
            .iter()
            .filter(|(name, _)| !own.contains_key(*name))
            .map(|(_, bytes)| &bytes[..])
            .chain(before["recording"].get(own["recording"].len()..))
            .collect();
        for done in 0..=steps.len() {
            for held in all_left(&before, &steps[..done]) {
                for bytes in &extra {
                    assert!(held.values().any(|file| file.ends_with(bytes)), "something is lost");
                }
                course.day.put_back(&held);
                course.day.call(&["repair"]).done(0);
                assert_eq!(read(&course.day), (course.said[3].clone(), false));
            }
        }
        course.finish(3);
    }
}

/// The same of a new day: it is one, or another call makes it.
#[test]
fn a_power_cut_behind_every_step_of_a_new_day() {
    let day = Day::new();
    fs::remove_dir_all(day.path()).unwrap();
    let steps = steps(&day, command(&["day", "new", text(&day.path())]));
    for done in 0..=steps.len() {
        for held in all_left(&Held::new(), &steps[..done]) {
            day.put_back(&held);
            match held.contains_key("recording") {
                true => drop(day.call(&["new", text(&day.path())]).trouble()),
                false => drop(day.call(&["new", text(&day.path())]).done(0)),
            }
            assert_eq!(
                read(&day),
                (
                    Vec::from(["open 0 0\n", "", &zeros(), "played 0 0 0\n"].map(str::to_string)),
                    false
                )
            );
        }
    }
}

/// The report of an empty day.
fn zeros() -> String {
    let line = |service: &str| {
        ["FRST", "RCUR", "FNAL", "OOFF"].map(|of| format!("{service} {of} 0\n")).concat()
    };
    format!("{}{}open 0 0\n", line("CORE"), line("B2B"))
}
