//! Every slip in the letters of an account: a letter replaced by another, two neighbours exchanged of
//! which one at least is a letter. What the checker answers is known from the theorems of request 7,
//! without a remainder by 97.

use crate::handmade::EXAMPLES;
use crate::kind::Kind;
use crate::random::Random;
use crate::value::{self, CAPITALS, CAPITALS_DIGITS, DIGITS, LETTERS_DIGITS, REFERENCE_SET};

type Answer = Result<u64, u8>;
type Give<'a> = &'a mut dyn FnMut(Vec<u8>, &'static str, Answer);

/// "three pairs excepted: 1 with B, 2 with M, 3 with X"
const EXCEPTED: [[u8; 2]; 3] = [*b"1B", *b"2M", *b"3X"];

/// The pair is one of the three, in either order.
fn is_excepted(one: u8, other: u8) -> bool {
    EXCEPTED.contains(&[one, other]) || EXCEPTED.contains(&[other, one])
}

/// Every slip in the letters of the published IBANs; of IBANs with every digit beside every letter,
/// in both orders and at every place; and of identifiers.
pub fn sweep(random: &mut Random, give: &mut dyn FnMut(Kind, Vec<u8>, &'static str, Answer)) {
    let ibans = &mut |bytes: Vec<u8>, sort, known| give(Kind::Iban, bytes, sort, known);
    for published in EXAMPLES.map(str::as_bytes) {
        iban(published, ibans);
        small(published, ibans);
    }
    for published in ["GB82WEST12345698765432", "MT84MALT011000012345MTLCAST001S"] {
        beside(published.as_bytes(), random, ibans);
    }
    let identifiers = &mut |bytes: Vec<u8>, sort, known| give(Kind::CreditorId, bytes, sort, known);
    for _ in 0..200 {
        identifier(&value::valid(Kind::CreditorId, random).bytes, identifiers);
    }
    national(random, identifiers);
}

/// Every slip in the letters of a valid IBAN.
pub fn iban(value: &[u8], give: Give) {
    for at in 0..value.len() {
        let is_letter = value[at].is_ascii_uppercase();
        for &letter in CAPITALS.iter().filter(|&&other| is_letter && other != value[at]) {
            let slipped = replaced(value, at, letter);
            let known = country_or_digits(&slipped, at);
            give(slipped, "slip: letter replaced", known);
        }
        if let [one, other, ..] = value[at..] {
            exchange(value, at, one, other, give);
        }
    }
}

/// Every character of a valid IBAN replaced by every small letter.
fn small(value: &[u8], give: Give) {
    for at in 0..value.len() {
        for letter in b'a'..=b'z' {
            give(replaced(value, at, letter), "slip: small letter", Err(7));
        }
    }
}

/// The characters at a place and at the next one exchanged, if one at least is a letter.
fn exchange(value: &[u8], at: usize, one: u8, other: u8, give: Give) {
    let slipped = exchanged(value, at);
    match (one.is_ascii_digit(), other.is_ascii_digit()) {
        (true, true) => {}
        (false, false) if one == other => {}
        (false, false) => {
            let known = country_or_digits(&slipped, at);
            give(slipped, "slip: letters exchanged", known);
        }
        _ if at < 4 => give(slipped, "slip: digit and letter exchanged early", Err(7)),
        _ if is_excepted(one, other) => give(slipped, "slip: excepted pair exchanged", Ok(0)),
        _ => give(slipped, "slip: digit and letter exchanged", Err(8)),
    }
}

/// A slip in the country is 19 where the length is not the new country's, else 8; after position 4
/// it is 8.
fn country_or_digits(slipped: &[u8], at: usize) -> Answer {
    if at < 2 {
        return value::known_iban(slipped, false);
    }
    Err(8)
}

/// IBANs like this one, with every digit beside every letter, both orders, at every place after
/// position 4: the two exchanged.
fn beside(like: &[u8], random: &mut Random, give: Give) {
    for at in 4..like.len() - 1 {
        for &digit in DIGITS {
            for &letter in CAPITALS {
                for (one, other) in [(digit, letter), (letter, digit)] {
                    let mut body = random.bytes(CAPITALS_DIGITS, like.len() - 4);
                    (body[at - 4], body[at - 3]) = (one, other);
                    exchange(&value::with_digits(&like[..2], &body), at, one, other, give);
                }
            }
        }
    }
}

/// What a character writes in the number that is divided: either case counts alike, what is no
/// letter or digit writes nothing.
fn written(character: u8) -> String {
    match (character as char).to_digit(36) {
        Some(worth) => worth.to_string(),
        None => String::new(),
    }
}

/// Every letter of a valid identifier replaced by every other, and every two neighbours exchanged
/// after position 7.
fn identifier(value: &[u8], give: Give) {
    for at in 7..value.len() {
        for &letter in LETTERS_DIGITS.iter().filter(|l| l.is_ascii_alphabetic()) {
            if value[at].is_ascii_alphabetic() && letter != value[at] {
                let same = letter.eq_ignore_ascii_case(&value[at]);
                let known = if same { Ok(0) } else { Err(8) };
                give(replaced(value, at, letter), "slip: identifier's letter replaced", known);
            }
        }
        if at + 1 < value.len() {
            neighbours(value, at, give);
        }
    }
    across(value, give);
}

/// Two neighbours after position 7 of an identifier: hidden where both orders write one number.
fn neighbours(value: &[u8], at: usize, give: Give) {
    let (one, other) = (written(value[at]), written(value[at + 1]));
    let hidden = format!("{one}{other}") == format!("{other}{one}");
    let known = if hidden { Ok(0) } else { Err(8) };
    give(exchanged(value, at), "slip: identifier's neighbours exchanged", known);
}

/// Positions 7 and 8 exchanged, where the eighth alone counts; 5 to 7 among themselves, where none
/// does; and 4 and 5, where a letter may not come to position 4.
fn across(value: &[u8], give: Give) {
    let (seventh, eighth) = (written(value[6]), written(value[7]));
    let known = match () {
        () if eighth.is_empty() => Err(7),
        () if seventh == eighth => Ok(0),
        () => Err(8),
    };
    give(exchanged(value, 6), "slip: identifier's positions 7 and 8", known);
    for at in [4, 5] {
        give(exchanged(value, at), "slip: identifier's positions 5 to 7", Ok(0));
    }
    if value[4].is_ascii_alphabetic() {
        give(exchanged(value, 3), "slip: identifier's positions 4 and 5", Err(7));
    }
}

/// Identifiers with every two characters beside each other after position 7.
fn national(random: &mut Random, give: Give) {
    for &one in REFERENCE_SET {
        for &other in REFERENCE_SET {
            let body = [b"7".as_slice(), &[one, other], &random.bytes(DIGITS, 3)].concat();
            let check = value::check_digits(b"DE", &body);
            neighbours(&[b"DE", check.as_slice(), b"ZZZ", &body].concat(), 8, give);
        }
    }
}

/// The value with another character at a place.
fn replaced(value: &[u8], at: usize, character: u8) -> Vec<u8> {
    let mut slipped = value.to_vec();
    slipped[at] = character;
    slipped
}

/// The value with the characters at a place and at the next one exchanged.
fn exchanged(value: &[u8], at: usize) -> Vec<u8> {
    let mut slipped = value.to_vec();
    slipped.swap(at, at + 1);
    slipped
}
