//! Values of the kinds that collapse (EndToEndId, Nm, Ustrd): what they mean, how a system may write
//! them, and what is known of a value of any kind when white space is put in.

use crate::kind::{Kind, CHECKED};
use crate::random::Random;
use crate::value::{self, alone_and_inside, edge, reference, Valid, REFERENCE_SET, WHITE};

/// A valid value of a kind that collapses, made from what it means.
pub fn valid(kind: Kind, random: &mut Random) -> Valid {
    let meant = match kind {
        Kind::EndToEnd => end_to_end(random),
        _ => text(random, longest(kind)),
    };
    Valid { bytes: spelled(&meant, random), meant, worth: 0 }
}

/// The most bytes of a collapsed value.
fn longest(kind: Kind) -> usize {
    kind.longest_collapsed().expect("a kind that collapses")
}

/// A collapsed EndToEndId: a reference, or one in which some bytes are spaces.
fn end_to_end(random: &mut Random) -> Vec<u8> {
    let mut bytes = reference(random);
    let seldom = [0, 2, 5, 9][random.below(4)];
    for byte in &mut bytes {
        if seldom > 0 && random.once_in(seldom) {
            *byte = b' ';
        }
    }
    alone_and_inside(&mut bytes, b' ', random);
    bytes
}

/// A collapsed text of up to this length.
fn text(random: &mut Random, longest: usize) -> Vec<u8> {
    let length = random.length(1, longest);
    let mut bytes = random.bytes(REFERENCE_SET, length);
    for byte in &mut bytes {
        if random.once_in(5) {
            *byte = b' ';
        }
    }
    alone_and_inside(&mut bytes, b' ', random);
    bytes
}

/// A legal text of this kind that has just so many bytes as it lies: collapsed it may be shorter.
pub fn text_of_raw_length(kind: Kind, length: usize, random: &mut Random) -> Vec<u8> {
    let meant = text(random, longest(kind).min(length));
    spelled_to(&meant, length, random)
}

/// A collapsed value as a system may write it: every other time as it is meant, else with white space
/// that does not count.
pub fn spelled(meant: &[u8], random: &mut Random) -> Vec<u8> {
    let more = match random.below(12) {
        0..=5 => return meant.to_vec(),
        6..=8 => random.between(0, 3),
        9 | 10 => random.between(1, 20),
        _ => random.between(20, 200),
    };
    spelled_to(meant, meant.len() + more, random)
}

/// The same with just so many bytes: each space is a run of white bytes, and so are the ends.
pub fn spelled_to(meant: &[u8], length: usize, random: &mut Random) -> Vec<u8> {
    let words: Vec<&[u8]> = meant.split(|&byte| byte == b' ').collect();
    // One byte between two words, none at the ends; then as many more as there are to be.
    let mut runs = vec![1; words.len() + 1];
    (runs[0], runs[words.len()]) = (0, 0);
    for _ in meant.len()..length {
        runs[random.below(words.len() + 1)] += 1;
    }
    let mut bytes = random.bytes(WHITE, runs[0]);
    for (word, &run) in words.iter().zip(&runs[1..]) {
        bytes.extend(*word);
        bytes.extend(random.bytes(WHITE, run));
    }
    bytes
}

/// A value that is about as long as it may be when it is collapsed, with white space that does not
/// count, and with slashes anywhere.
pub fn near(kind: Kind, random: &mut Random) -> Vec<u8> {
    let set = random.pick(&[b"A".as_slice(), b"AAAAAAA /", b"A/", b"A /"]);
    let mut value = edge(random, set, longest(kind) - 2, longest(kind) + 2);
    if random.once_in(2) {
        alone_and_inside(&mut value, b' ', random);
    }
    spelled(&value, random)
}

/// Runs of white space: each of one and of two bytes, all four, and a long one.
pub fn white_runs() -> Vec<Vec<u8>> {
    let mut runs: Vec<Vec<u8>> = WHITE.chunks(1).map(<[u8]>::to_vec).collect();
    for &one in WHITE {
        runs.extend(WHITE.iter().map(|&other| vec![one, other]));
    }
    runs.push(WHITE.to_vec());
    runs.push(b"\r\n\t  ".repeat(30));
    runs
}

/// What the checker answers to a valid value, of this meaning, when white space is put in before its
/// byte `at`: a kind that collapses has a space more where a word is parted, and no other kind may
/// have it.
pub fn known_with_white(kind: Kind, value: &[u8], meant: &[u8], at: usize) -> Result<u64, u8> {
    let Some(longest) = kind.longest_collapsed() else { return Err(7) };
    let (before, after) = value.split_at(at);
    let is_word = |byte: Option<&u8>| byte.is_some_and(|byte| !WHITE.contains(byte));
    let more = usize::from(is_word(before.last()) && is_word(after.first()));
    if meant.len() + more <= longest {
        Ok(0)
    } else {
        Err(7)
    }
}

/// A valid value with white space put in at any place, and what is known of it.
pub fn with_white(kind: Kind, random: &mut Random) -> (Vec<u8>, Result<u64, u8>) {
    let Valid { bytes, meant, .. } = value::valid(kind, random);
    let (at, length) = (random.length(0, bytes.len()), random.length(1, 9));
    let (before, after) = bytes.split_at(at);
    let with = [before, &random.bytes(WHITE, length), after].concat();
    (with, known_with_white(kind, &bytes, &meant, at))
}

type Give<'a> = &'a mut dyn FnMut(Kind, Vec<u8>, &'static str, Result<u64, u8>);

/// White space in values of every kind: each run at each place, alone, in values of each length, and
/// beside slashes. What the checker answers is known of each.
pub fn sweep(random: &mut Random, give: Give) {
    for kind in CHECKED {
        for _ in 0..2 {
            sweep_places(kind, &value::valid(kind, random), give);
        }
        for run in white_runs() {
            give(kind, run, "sweep: white space alone", Err(7));
        }
        for length in 1..300 {
            let white = random.bytes(WHITE, length);
            give(kind, white, "sweep: white space alone", Err(7));
        }
        if kind.longest_collapsed().is_some() {
            sweep_places(kind, &Valid::new(words(longest(kind)), 0), give);
            sweep_lengths(kind, random, give);
        }
    }
    sweep_slashes(give);
}

/// Each run of white space at each place of a value.
fn sweep_places(kind: Kind, value: &Valid, give: Give) {
    for run in white_runs() {
        for at in 0..=value.bytes.len() {
            let (before, after) = value.bytes.split_at(at);
            let known = known_with_white(kind, &value.bytes, &value.meant, at);
            give(kind, [before, &run, after].concat(), "sweep: white space put in", known);
        }
    }
}

/// So many bytes: words of up to four letters, collapsed.
pub fn words(length: usize) -> Vec<u8> {
    let is_space = |at: usize| at % 5 == 4 && at + 1 < length;
    (0..length).map(|at| if is_space(at) { b' ' } else { b'A' }).collect()
}

/// Each length of the collapsed value, with and without white space that does not count.
fn sweep_lengths(kind: Kind, random: &mut Random, give: Give) {
    for length in 1..=longest(kind) + 5 {
        let known = if length <= longest(kind) { Ok(0) } else { Err(7) };
        for meant in [words(length), vec![b'A'; length]] {
            for more in [0, 1, 2, 3, 10, 100, 1000] {
                let bytes = spelled_to(&meant, length + more, random);
                give(kind, bytes, "sweep: collapsed length", known);
            }
        }
    }
}

/// An EndToEndId in which white space stands for each `_`, and whether the slashes are right there.
const SLASHES: [(&str, bool); 24] = [
    ("A_/_B", true),
    ("A/_B", true),
    ("A_/B", true),
    ("A/_/B", true),
    ("A_/_/_B", true),
    ("_A/B_", true),
    ("A_B/C_D", true),
    ("_A_", true),
    ("/", false),
    ("_/_", false),
    ("/_/", false),
    ("_/_/_", false),
    ("/_A", false),
    ("_/A", false),
    ("_/_A", false),
    ("A_/", false),
    ("A/_", false),
    ("A_/_", false),
    ("_A/_", false),
    ("A_//_B", false),
    ("A_//B", false),
    ("A//_B", false),
    ("A_B//C", false),
    ("_//_", false),
];

/// Each run of white space beside slashes: the slash rule holds on the collapsed value, and a text has
/// none.
fn sweep_slashes(give: Give) {
    for run in white_runs() {
        let run = String::from_utf8(run).expect("white space is ASCII");
        for (value, is_right) in SLASHES {
            let bytes = value.replace('_', &run).into_bytes();
            let known = if is_right { Ok(0) } else { Err(7) };
            give(Kind::EndToEnd, bytes.clone(), "sweep: slashes", known);
            give(Kind::Text70, bytes.clone(), "sweep: slashes", Ok(0));
            give(Kind::Text140, bytes, "sweep: slashes", Ok(0));
        }
    }
}
