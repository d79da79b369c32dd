//! A day's folder that was copied half, or changed: every command says what is wrong and changes
//! nothing.

use crate::common::course::*;
use crate::common::day::*;
use crate::common::*;
use std::fs;

/// Every command of a day.
const ALL: [&[&str]; 7] = [
    &["total"],
    &["list"],
    &["report"],
    &["play"],
    &["repair"],
    &["enter", "FILE"],
    &["withdraw", "CORE", "C", "HAFNDEHHXXX", "2026-10-30"],
];

/// Every command refuses the folder with these words, in both languages, and leaves it as it is.
fn refused(course: &Course, held: &Held, english: &str, german: &str) {
    course.day.put_back(held);
    let before = course.day.held();
    let file = course.day.bulk("CORE", "X");
    for words in ALL {
        let words: Vec<&str> =
            words.iter().map(|word| if *word == "FILE" { text(&file) } else { word }).collect();
        let said = course.day.call(&words).trouble();
        assert!(said.contains(english), "{words:?}: {said}");
        assert!(said.ends_with("Copy it again. Nothing was changed.\n"), "{words:?}: {said}");
        let said = course.day.call(&[&["--de"], &words[..]].concat()).trouble();
        assert!(said.contains(german), "{words:?}: {said}");
    }
    assert_eq!(course.day.held(), before);
}

/// The whole day without a file.
fn without(course: &Course, name: &str) -> Held {
    let mut held = course.held[CALLS.len()].clone();
    assert!(held.remove(name).is_some());
    held
}

/// The whole day with another file.
fn with(course: &Course, name: &str, bytes: &[u8]) -> Held {
    let mut held = course.held[CALLS.len()].clone();
    held.insert(name.to_string(), bytes.to_vec());
    held
}

#[test]
fn copied_without_the_recording() {
    let course = Course::new();
    let held = without(&course, "recording");
    refused(&course, &held, "its recording is missing", "die Aufzeichnung (recording) fehlt");
    // Nor is a new day made over it.
    let said = course.day.call(&["new", text(&course.day.path())]).trouble();
    assert!(said.contains("its recording is missing"), "{said}");
}

#[test]
fn copied_without_a_message() {
    let course = Course::new();
    for (number, record) in [(0, 0), (1, 1), (2, 3), (3, 4)] {
        let name = format!("messages/{number:06}.xml");
        refused(
            &course,
            &without(&course, &name),
            &format!("The message of record {record}, {name}, is missing."),
            &format!("Die Nachricht zu Satz {record}, {name}, fehlt."),
        );
    }
}

#[test]
fn a_message_that_is_shorter() {
    let course = Course::new();
    let (name, whole) = ("messages/000002.xml", named("CORE", "C"));
    let end = whole.rfind("</Document>").unwrap();
    for length in [0, 1, 100, whole.len() / 2, end, end + 10] {
        refused(
            &course,
            &with(&course, name, &whole.as_bytes()[..length]),
            &format!("The message of record 3, {name}, is another now, refused 3: "),
            &format!("Satz 3, {name}, ist nicht mehr dieselbe, abgelehnt (Nr. 3): "),
        );
    }
    // White space behind it means nothing.
    course.day.put_back(&with(&course, name, &whole.as_bytes()[..end + 11]));
    assert_eq!(read(&course.day), (course.said[CALLS.len()].clone(), false));
}

#[test]
fn a_message_that_is_another() {
    let course = Course::new();
    let name = "messages/000001.xml";
    let held = with(&course, name, named("CORE", "B").as_bytes());
    refused(&course, &held, "is another now, refused 28", "mehr dieselbe, abgelehnt (Nr. 28)");
    let held = with(&course, name, &fs::read(sample("october.xml")).unwrap());
    refused(&course, &held, "is another now, refused 24: ", "abgelehnt (Nr. 24): ");
}

/// Where more messages have no record than one cut-off call leaves, records are missing: that is no
/// matter of a repair.
#[test]
fn a_recording_that_is_shorter() {
    let course = Course::new();
    let whole = &course.held[CALLS.len()]["recording"];
    for records in [0, 1, 2] {
        let held = with(&course, "recording", &whole[..64 * records]);
        refused(
            &course,
            &held,
            "Records are missing at the end of the recording: there is a message without",
            "Am Ende der Aufzeichnung fehlen Sätze. Übrig ist: eine Nachricht ohne",
        );
    }
    let held = with(&course, "recording", &whole[..64 * 2 + 17]);
    refused(
        &course,
        &held,
        "there is a torn record of 17 bytes",
        "Übrig ist: ein unvollständiger Satz",
    );
}

#[test]
fn a_record_that_was_changed() {
    let course = Course::new();
    let whole = course.held[CALLS.len()]["recording"].clone();
    for (at, byte, number) in [
        (64, b'x', 26),
        (64 + 25, b'X', 26),
        (64 + 63, b' ', 26),
        // The first is later than the second; the withdrawal is of a bulk that is not open.
        (9, b'9', 27),
        (64 * 2 + 51, b'Z', 22),
    ] {
        let mut recording = whole.clone();
        recording[at] = byte;
        let record = if number == 27 { 1 } else { at / 64 };
        refused(
            &course,
            &with(&course, "recording", &recording),
            &format!("Record {record} of the recording does not play back, refused {number}"),
            &format!(
                "Satz {record} der Aufzeichnung lässt sich nicht nachspielen, abgelehnt (Nr. \
                 {number})"
            ),
        );
    }
    // Twice the same entry.
    let recording = [&whole[..64], &whole[..64]].concat();
    let mut held = with(&course, "recording", &recording);
    held.insert("messages/000001.xml".into(), held["messages/000000.xml"].clone());
    refused(&course, &held, "Record 1 of the recording does not play back, refused 20", "(Nr. 20)");
}

/// Files that a share or an editor leaves do not matter, and a lost empty folder is made again.
#[test]
fn other_files_do_not_matter() {
    let course = Course::new();
    let mut held = course.held[CALLS.len()].clone();
    for name in [
        "Thumbs.db",
        "messages/.DS_Store",
        "messages/notes.xml",
        "messages/000000.xml~",
        "messages/1.xml",
    ] {
        held.insert(name.to_string(), b"x".to_vec());
    }
    course.day.put_back(&held);
    assert_eq!(read(&course.day), (course.said[CALLS.len()].clone(), false));
    course.day.ask(["enter", "B2B", "X"]).done(0);
    let day = Day::new();
    fs::remove_dir(day.file("messages")).unwrap();
    assert_eq!(day.call(&["total", "--plain"]).done(0), "open 0 0\n");
    day.ask(["enter", "CORE", "A"]).done(0);
    assert_eq!(day.held().len(), 2);
}

/// Bytes changed at random, files cut at random: every command answers what is played back or says
/// what is wrong, and no reading one changes anything.
#[test]
fn damage_at_random() {
    let course = Course::new();
    let whole = &course.held[CALLS.len()];
    let names: Vec<&String> = whole.keys().collect();
    let mut seed = 13;
    for case in 0..300 {
        let mut held = whole.clone();
        // Most of it in the recording, which is the shortest.
        let name = if case % 3 == 0 {
            names[random(&mut seed, names.len())].as_str()
        } else {
            "recording"
        };
        let file = held.get_mut(name).unwrap();
        let at = random(&mut seed, file.len());
        match random(&mut seed, 3) {
            0 => file[at] = random(&mut seed, 256) as u8,
            1 => file.truncate(at),
            _ => drop(file.splice(at..at, [random(&mut seed, 256) as u8])),
        }
        course.day.put_back(&held);
        for words in &ALL[..4] {
            let said = course.day.call(words);
            assert!([0, 2].contains(&said.status), "case {case}: {}", said.err);
            assert!(said.status == 0 || said.out.is_empty(), "case {case}: {}", said.out);
        }
        assert_eq!(course.day.held(), held, "case {case}");
    }
}
