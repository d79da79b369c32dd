//! A day whose calls are cut off: ended at every step of their writing, failing at every step, and
//! by a power cut that takes what was not yet on the disk. What is played back afterwards are the
//! calls that were answered, or one more.

use crate::common::course::*;
use crate::common::*;
use std::fs;
use std::os::unix::process::ExitStatusExt;

/// Ends the command at every step of every call. The lock of a process that was ended holds nobody
/// up.
#[test]
fn ended_at_every_step() {
    let course = Course::new();
    for (at, asked) in CALLS.into_iter().enumerate() {
        let mut points = 0;
        loop {
            course.day.put_back(&course.held[at]);
            let trial = format!("kill {points}");
            let output = course.day.asking(asked).env("BULK_TRIAL", trial).output().unwrap();
            if output.status.signal().is_none() {
                assert_eq!(Said::from(output).status, 0);
                break;
            }
            // It was ended before it answered.
            assert_eq!(output.stdout, b"");
            let made = course.settle(at);
            course.finish(made);
            points += 1;
        }
        let least = if asked[0] == "enter" { 17 } else { 6 };
        assert!(points >= least, "only {points} points in {asked:?}");
    }
}

/// Ends the repair at every step of it, for each way in which a call can be cut off. A second one
/// completes it.
#[test]
fn a_repair_ended_at_every_step() {
    let course = Course::new();
    for held in cut_off(&course, 3) {
        let mut points = 0;
        loop {
            course.day.put_back(&held);
            let mut command = course.day.command(&["repair", "--plain"]);
            let output = command.env("BULK_TRIAL", format!("kill {points}")).output().unwrap();
            if output.status.signal().is_none() {
                assert_eq!(Said::from(output).status, 0);
                break;
            }
            let (said, is_cut_off) = read(&course.day);
            assert_eq!(said, course.said[3]);
            if is_cut_off {
                course.day.call(&["repair"]).done(0);
            }
            assert_eq!(read(&course.day), (said, false));
            course.finish(3);
            points += 1;
        }
        assert!(points >= 4, "only {points} points");
    }
}

/// A torn record of every length, with and without its message, and one whose bytes the disk had
/// not yet written: it is told, it does not count, and it is set aside.
#[test]
fn torn_records_of_every_length() {
    let course = Course::new();
    for (made, has_message) in [(3, true), (3, false), (5, false)] {
        let (before, after) = (&course.held[made], &course.held[made + 1]);
        for length in 1..=64 {
            let mut held = if has_message { after.clone() } else { before.clone() };
            let mut recording = after["recording"][..made * 64 + length].to_vec();
            // Of the last length the record is there, but its bytes are not.
            let torn = if length < 64 { vec![length] } else { (0..64).step_by(7).collect() };
            for from in torn {
                recording.truncate(made * 64 + from);
                recording.resize(made * 64 + length, 0);
                held.insert("recording".into(), recording.clone());
                course.day.put_back(&held);
                assert_eq!(course.settle(made), made);
                let aside = fs::read(course.day.file(&format!("set-aside/record-{made:06}")));
                assert_eq!(aside.unwrap(), recording[made * 64..]);
            }
        }
        course.finish(made);
    }
}

/// What was set aside twice under one name is there twice.
#[test]
fn set_aside_more_than_once() {
    let course = Course::new();
    let held = cut_off(&course, 3);
    course.day.put_back(&held[2]);
    for _ in 0..3 {
        for (name, bytes) in &held[2] {
            fs::write(course.day.file(name), bytes).unwrap();
        }
        course.day.call(&["repair"]).done(0);
    }
    let names: Vec<String> =
        course.day.held().into_keys().filter(|name| name.contains("aside")).collect();
    let due = [
        "000002.xml",
        "1-000002.xml",
        "1-record-000003",
        "2-000002.xml",
        "2-record-000003",
        "record-000003",
    ];
    assert_eq!(names, due.map(|name| format!("set-aside/{name}")));
    let said = course.day.call(&["--de", "repair"]).done(0);
    assert!(said.starts_with("nichts zu reparieren; offen: 1 Bulk, "), "{said}");
}

/// In both languages: what is left, and what to do.
#[test]
fn what_is_told_of_a_cut_off_call() {
    let course = Course::new();
    let told = [
        (
            "a message that was being written, messages/000002.xml.new",
            "eine nicht fertig geschriebene Nachricht, messages/000002.xml.new",
        ),
        (
            "a message without its record, messages/000002.xml",
            "eine Nachricht ohne ihren Satz, messages/000002.xml",
        ),
        (
            "a torn record of 30 bytes at the end of the recording; a message without",
            "ein unvollständiger Satz von 30 Bytes am Ende der Aufzeichnung; eine Nachricht ohne",
        ),
    ];
    for (held, (english, german)) in cut_off(&course, 3).iter().zip(told) {
        course.day.put_back(held);
        let said = course.day.call(&["total"]).err;
        assert!(said.contains(&format!("and left {english}")), "{said}");
        let said = course.day.call(&["--de", "total"]).err;
        assert!(said.contains(&format!("Zurück blieb: {german}")), "{said}");
        let said = course
            .day
            .call(&["--de", "withdraw", "B2B", "B", "HAFNDEHHXXX", "2026-10-30"])
            .trouble();
        assert!(
            said.ends_with("bulk day repair legt das beiseite. Vorher wird nichts geschrieben.\n"),
            "{said}"
        );
        let said = course.day.call(&["--de", "repair"]).done(0);
        assert!(said.contains("beiseitegelegt als set-aside/"), "{said}");
        assert!(said.contains("Der Aufruf wurde nie beantwortet"), "{said}");
    }
}

/// Lets every step of every call fail: the disk is full, or is read-only from then on. The call is
/// not recorded, but where taking it back failed too; and what is left is told.
#[test]
fn failing_at_every_step() {
    let course = Course::new();
    for (at, asked) in CALLS.into_iter().enumerate() {
        let mut failures = 0;
        for trial in
            (0..20).flat_map(|point| [format!("fail {point} 28"), format!("dead {point} 30")])
        {
            course.day.put_back(&course.held[at]);
            let mut command = course.day.asking(asked);
            let said = Said::from(command.env("BULK_TRIAL", &trial).output().unwrap());
            if said.status == 0 {
                // What is done already does not fail any more.
                assert_eq!(course.settle(at), at + 1);
                continue;
            }
            failures += 1;
            let words = said.trouble();
            let is_unsure = words.contains("look with bulk day list");
            let is_cut_off = read(&course.day).1;
            let is_told = is_unsure || words.contains("bulk day repair");
            assert!(is_unsure || words.contains("Nothing was recorded"), "{trial}: {words}");
            assert!(is_told || !is_cut_off, "{trial}: {words}");
            assert!(trial.starts_with("dead") || !is_told, "{trial}: {words}");
            let made = course.settle(at);
            assert!(made == at || is_unsure, "{trial}: {words}");
            course.finish(made);
        }
        let least = if asked[0] == "enter" { 25 } else { 8 };
        assert!(failures >= least, "only {failures} failures in {asked:?}");
    }
}

/// The same of a repair: it is told, and a second one completes it.
#[test]
fn a_repair_that_fails_at_every_step() {
    let course = Course::new();
    for held in cut_off(&course, 3) {
        for trial in
            (0..16).flat_map(|point| [format!("fail {point} 28"), format!("dead {point} 30")])
        {
            course.day.put_back(&held);
            let mut command = course.day.command(&["repair", "--plain"]);
            let said = Said::from(command.env("BULK_TRIAL", &trial).output().unwrap());
            if said.status != 0 {
                let words = said.trouble();
                assert!(words.contains("Call bulk day repair again."), "{trial}: {words}");
                course.day.call(&["repair"]).done(0);
            }
            assert_eq!(read(&course.day), (course.said[3].clone(), false), "{trial}");
        }
    }
}
