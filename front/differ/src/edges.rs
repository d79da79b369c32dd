//! Values at the edges of what the straight engine reads at once: references by 32 bytes and one by one,
//! names by 64, texts by 160, accounts of 22 characters.

use crate::kind::Kind;
use crate::random::Random;
use crate::value::{self, alone_and_inside, with_digits, Valid};
use crate::value::{CAPITALS_DIGITS, DIGITS, LETTERS_DIGITS, REFERENCE_SET};

/// The lengths of a value of this kind about the edges, also such as are too long; none of a kind whose
/// length tells nothing.
pub fn lengths(kind: Kind) -> &'static [usize] {
    match kind {
        Kind::Reference | Kind::EndToEnd => {
            &[1, 2, 7, 8, 9, 15, 16, 17, 30, 31, 32, 33, 34, 35, 36, 37, 64]
        }
        Kind::Text70 => {
            &[1, 2, 15, 16, 17, 30, 31, 32, 33, 34, 62, 63, 64, 65, 66, 69, 70, 71, 72, 128]
        }
        Kind::Text140 => &[
            1, 2, 31, 32, 33, 63, 64, 65, 70, 71, 95, 96, 97, 126, 127, 128, 129, 130, 139, 140,
            141, 142, 159, 160, 161,
        ],
        _ => &[],
    }
}

/// The most bytes of a value of a kind that has lengths.
pub fn longest(kind: Kind) -> usize {
    kind.longest_collapsed().unwrap_or(35)
}

/// A legal value of this length, of a kind that has lengths; where it is too long, that is its fault.
pub fn of_length(kind: Kind, length: usize, random: &mut Random) -> Vec<u8> {
    let set = random.pick(&[LETTERS_DIGITS, REFERENCE_SET]);
    let mut bytes = random.bytes(set, length);
    match kind {
        Kind::Text70 | Kind::Text140 => {
            for byte in &mut bytes {
                if random.once_in(9) {
                    *byte = b' ';
                }
            }
            alone_and_inside(&mut bytes, b' ', random);
        }
        _ => alone_and_inside(&mut bytes, b'/', random),
    }
    bytes
}

/// A valid value at the edges: of one of the lengths, an account that is read at once, or any.
pub fn valid(kind: Kind, random: &mut Random) -> Valid {
    let lengths = lengths(kind);
    let short = lengths.iter().take_while(|length| **length <= longest(kind)).count();
    match kind {
        Kind::Iban => {
            let country = random.pick(&["DE", "GB", "BG", "IE", "VA"]);
            let (letters, digits) = (random.bytes(CAPITALS_DIGITS, 4), random.bytes(DIGITS, 14));
            let body = [letters, digits].concat();
            Valid::new(with_digits(country.as_bytes(), &body), 0)
        }
        _ if short == 0 => value::valid(kind, random),
        _ => {
            let length = lengths[random.below(short)];
            Valid::new(of_length(kind, length, random), 0)
        }
    }
}
