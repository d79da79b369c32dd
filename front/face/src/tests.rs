//! The guard words and the index. That the library answers rightly is the matter of `differ`.

use super::*;
use std::process::Command;

const EXAMPLE: &[u8] = include_bytes!("../../../samples/example.xml");

/// Writes the ten words of playback, or what a wrong library might write.
fn played(how: &str) -> play::Played {
    // SAFETY: `answered` lends ten words between two others, so these twelve may be written.
    answered(|answer| unsafe {
        (0..10).for_each(|word| answer.offset(word).write(word as u64));
        match how {
            "before ten" => answer.offset(-1).write(7),
            "behind ten" => answer.offset(10).write(7),
            "the tenth not" => answer.offset(9).write(UNWRITTEN),
            _ => {}
        }
    })
}

/// Writes the three words, or what a wrong library might write.
fn written(how: &str) -> Words {
    // SAFETY: `answered` lends three words between two others, so these five may be written.
    answered(|answer| unsafe {
        let words: &[(isize, u64)] = match how {
            "right" => &[(0, 0), (1, 2), (2, 246)],
            "before" => &[(-1, 7), (0, 0), (1, 2), (2, 246)],
            "behind" => &[(0, 0), (1, 2), (2, 246), (3, 7)],
            "not all" => &[(0, 0), (1, 2)],
            _ => &[],
        };
        for &(at, word) in words {
            answer.offset(at).write(word);
        }
    })
}

/// Clears the index, or leaves in it what a wrong library might leave: of these numbers the one at
/// this place is not 0.
fn cleared(numbers: usize, but: Option<usize>) -> Words {
    let mut index = vec![7; numbers];
    // SAFETY: the numbers are lent, and so are the three words.
    answered_with(&mut index, |index, length, answer| unsafe {
        for at in 0..length {
            index.add(at as usize).write(u32::from(but == Some(at as usize)));
        }
        (0..3).for_each(|word| answer.add(word).write(word as u64));
    })
}

/// What a wrong library does, by its name.
fn wrong(how: &str) -> Words {
    match how {
        _ if how.contains("ten") => [played(how)[9], 0, 0],
        "first left" => cleared(INDEX, Some(0)),
        "last left" => cleared(INDEX, Some(INDEX - 1)),
        "last of more left" => cleared(INDEX + 1, Some(INDEX)),
        "short one cleared" => cleared(INDEX - 1, None),
        _ => written(how),
    }
}

/// This test again in a process of its own, with a wrong library: how it ends, and what it says.
fn ended(how: &str) -> (bool, String) {
    let this = std::env::current_exe().expect("a test is a file");
    let mut again = Command::new(this);
    again.args(["--exact", "tests::a_wrong_library_ends_the_program", "--nocapture"]);
    let output = again.env("WRITTEN", how).output().expect("a test can be run again");
    (output.status.success(), String::from_utf8_lossy(&output.stderr).into_owned())
}

#[test]
fn a_wrong_library_ends_the_program() {
    if let Ok(how) = std::env::var("WRITTEN") {
        wrong(&how);
        return;
    }
    assert_eq!(written("right"), [0, 2, 246]);
    assert_eq!(played("right"), [0, 1, 2, 3, 4, 5, 6, 7, 8, 9]);
    assert_eq!((cleared(INDEX, None), cleared(INDEX + 1, None)), ([0, 1, 2], [0, 1, 2]));
    assert_eq!(ended("right"), (true, String::new()));
    for (how, why) in [
        ("before", "it wrote beside the answer"),
        ("behind", "it wrote beside the answer"),
        ("not all", "it wrote no whole answer"),
        ("nothing", "it wrote no whole answer"),
        ("before ten", "it wrote beside the answer"),
        ("behind ten", "it wrote beside the answer"),
        ("the tenth not", "it wrote no whole answer"),
        ("first left", "it left the index uncleared"),
        ("last left", "it left the index uncleared"),
        ("last of more left", "it left the index uncleared"),
        ("short one cleared", "it wrote into an index that is too short"),
    ] {
        let said = format!("bulk: The library failed: {why}. The program is ended.\n");
        assert_eq!(ended(how), (false, said), "{how}");
    }
}

/// With an index of its own a call answers as with the caller's, whatever that holds, and as without
/// one; one number too few is 25, whatever is asked, and areas are as lent.
#[test]
fn the_caller_s_index() {
    let (mut index, room) = (vec![7; INDEX], 2 * EXAMPLE.len());
    let (mut area, mut other) = (vec![7; room], vec![7; room]);
    assert_eq!(judge(EXAMPLE), judge_with(EXAMPLE, &mut index));
    assert_eq!((judge(EXAMPLE), judge_plainly(EXAMPLE)), ([0, 1, 1234], [0, 1, 1234]));
    index.fill(9);
    assert_eq!(judge(EXAMPLE), judge_by_table(EXAMPLE, &mut index));
    index.fill(u32::MAX);
    assert_eq!(item(EXAMPLE, 0), item_with(EXAMPLE, 0, &mut index));
    index.fill(1);
    assert_eq!(records(EXAMPLE, &mut area), records_with(EXAMPLE, &mut other, &mut index));
    assert_eq!(plain(EXAMPLE, &mut area), plain_with(EXAMPLE, &mut other, &mut index));
    assert!(area == other && area != vec![7; room]);
    area.fill(7);
    other.fill(7);
    index.fill(3);
    assert_eq!(records(EXAMPLE, &mut area), records_by_table(EXAMPLE, &mut other, &mut index));
    assert!(area == other && area != vec![7; room]);
    let short = &mut vec![7; INDEX - 1];
    assert_eq!(
        (judge_with(EXAMPLE, short), item_with(EXAMPLE, 0, short)),
        ([25, 0, 0], [25, 0, 0])
    );
    assert_eq!(records_with(EXAMPLE, &mut other, short), [25, 0, 0]);
    assert_eq!(plain_with(EXAMPLE, &mut other, short), [25, 0, 0]);
    assert_eq!(area, other);
}
