//! The values as the quick reader judges them: those of each kind that are usual, by words of eight bytes
//! and a table of classes; all others by the checkers of `value`, which are asked for the same bytes.

use crate::value::{
    bic, bicfi, code, creditor_id, date, end_to_end, iban, item_amount, length_of, reference,
    text140, text70,
};

/// The classes of bytes, one bit each.
const DIGIT: u8 = 1;
const CAPITAL: u8 = 2;
const SMALL: u8 = 4;
/// `- ? : ( ) . , ' +`
const MARK: u8 = 8;
const SLASH: u8 = 16;
const SPACE: u8 = 32;
/// All others: tab, CR and LF too.
const OTHER: u8 = 64;

/// The class of each byte.
const CLASSES: [u8; 256] = {
    let mut classes = [OTHER; 256];
    let mut byte = 0;
    while byte < 256 {
        classes[byte] = class(byte as u8);
        byte += 1;
    }
    classes
};

/// The class of a byte; `<`, which ends a value, has none.
const fn class(byte: u8) -> u8 {
    match byte {
        b'0'..=b'9' => DIGIT,
        b'A'..=b'Z' => CAPITAL,
        b'a'..=b'z' => SMALL,
        b'-' | b'?' | b':' | b'(' | b')' | b'.' | b',' | b'\'' | b'+' => MARK,
        b'/' => SLASH,
        b' ' => SPACE,
        b'<' => 0,
        _ => OTHER,
    }
}

/// One byte in all eight places of a word.
const fn eight_of(byte: u8) -> u64 {
    u64::from_le_bytes([byte; 8])
}

/// How long the value is that begins here and ends before the next `<`, and, if `CLASSED`, the classes
/// of its bytes. Nothing where no `<` is found: the last bytes that make no word are not looked at.
#[inline]
fn measured<const CLASSED: bool>(rest: &[u8]) -> Option<(usize, u8)> {
    let classes_of = |word| if CLASSED { classes_of(word) } else { 0 };
    let mut classes = 0;
    let mut length = 0;
    for bytes in rest.chunks_exact(8) {
        let word = u64::from_le_bytes(bytes.try_into().ok()?);
        // The highest bit of each byte that is a `<`. Behind the first one others may have it too.
        let angles = word ^ eight_of(b'<');
        let found = angles.wrapping_sub(eight_of(1)) & !angles & eight_of(0x80);
        if found != 0 {
            let before = ((found & found.wrapping_neg()) - 1) >> 7;
            classes |= classes_of((word & before) | (eight_of(b'<') & !before));
            return Some((length + found.trailing_zeros() as usize / 8, classes));
        }
        classes |= classes_of(word);
        length += 8;
    }
    None
}

/// A value that is judged by the classes of its bytes.
pub struct Text<'m> {
    pub bytes: &'m [u8],
    classes: u8,
}

impl<'m> Text<'m> {
    /// The value that begins here, and what follows.
    #[inline]
    pub fn first_of(rest: &'m [u8]) -> Option<(Self, &'m [u8])> {
        let (length, classes) = measured::<true>(rest)?;
        Some((Text { bytes: rest.get(..length)?, classes }, rest.get(length..)?))
    }

    /// Whether it has 1 to so many bytes, all of these classes.
    #[inline]
    fn is_of(&self, longest: usize, classes: u8) -> bool {
        (1..=longest).contains(&self.bytes.len()) && self.classes & !classes == 0
    }

    /// A reference without a slash, for which there is no slash rule; or any other.
    #[inline]
    pub fn is_reference(&self) -> bool {
        self.is_of(35, DIGIT | CAPITAL | SMALL | MARK) || reference(self.bytes).is_ok()
    }

    /// An EndToEndId that is such a reference: it has no white space, so it is collapsed as it lies; or
    /// any other.
    #[inline]
    pub fn is_end_to_end(&self) -> bool {
        self.is_of(35, DIGIT | CAPITAL | SMALL | MARK) || end_to_end(self.bytes).is_ok()
    }

    /// A text of at most 70.
    #[inline]
    pub fn is_text70(&self) -> bool {
        self.is_usual_text(70) || text70(self.bytes).is_ok()
    }

    /// A text of at most 140.
    #[inline]
    pub fn is_text140(&self) -> bool {
        self.is_usual_text(140) || text140(self.bytes).is_ok()
    }

    /// A text that is short enough before it is collapsed, begins with no space and has no other white
    /// space: collapsing leaves its first byte, and makes no byte that is not of the set.
    #[inline]
    fn is_usual_text(&self, longest: usize) -> bool {
        self.is_of(longest, !OTHER) && self.bytes.first() != Some(&b' ')
    }
}

/// A value that is judged by its figures, or code by code.
pub struct Figures<'m> {
    pub bytes: &'m [u8],
    /// Its first eight bytes, or all of it and some of what follows.
    word: u64,
}

impl<'m> Figures<'m> {
    /// The value that begins here, and what follows.
    #[inline]
    pub fn first_of(rest: &'m [u8]) -> Option<(Self, &'m [u8])> {
        let word = u64::from_le_bytes(*rest.first_chunk()?);
        let (length, _) = measured::<false>(rest)?;
        Some((Figures { bytes: rest.get(..length)?, word }, rest.get(length..)?))
    }

    /// An IBAN with digits alone behind its check digits; or any other.
    #[inline]
    pub fn is_iban(&self) -> bool {
        is_usual_iban(self.bytes).unwrap_or(false) || iban(self.bytes).is_ok()
    }

    /// A creditor identifier with digits alone behind its business code; or any other.
    #[inline]
    pub fn is_creditor_id(&self) -> bool {
        is_usual_creditor_id(self.bytes).unwrap_or(false) || creditor_id(self.bytes).is_ok()
    }

    /// A date.
    #[inline]
    pub fn is_date(&self) -> bool {
        is_usual_date(self.bytes).unwrap_or(false) || date(self.bytes).is_ok()
    }

    /// A BIC of version .02.
    #[inline]
    pub fn is_bic(&self) -> bool {
        bic(self.bytes).is_ok()
    }

    /// A BIC of version .08.
    #[inline]
    pub fn is_bicfi(&self) -> bool {
        bicfi(self.bytes).is_ok()
    }

    /// A SeqTp.
    #[inline]
    pub fn is_sequence_type(&self) -> bool {
        code::sequence_type(self.bytes).is_ok()
    }

    /// The cents of an item's amount.
    #[inline]
    pub fn cents(&self) -> Option<u64> {
        self.usual_cents().or_else(|| item_amount(self.bytes).ok())
    }

    /// The cents of an amount of one to five digits, a point and two digits; nothing for any other,
    /// and for zero.
    #[inline]
    fn usual_cents(&self) -> Option<u64> {
        if !(4..=8).contains(&self.bytes.len()) {
            return None;
        }
        // To the word's end, with zeros before it: 00012.34
        let free = 64 - 8 * self.bytes.len();
        let word = (self.word << free) | (eight_of(b'0') & ((1 << free) - 1));
        if (word >> 40) & 0xFF != u64::from(b'.') {
            return None;
        }
        // Without the point, and one more zero before it: 00001234
        let whole = (word << 8) & 0x0000_FFFF_FFFF_FF00;
        let cents = eight_digits((word & 0xFFFF_0000_0000_0000) | whole | u64::from(b'0'))?;
        (cents > 0).then_some(cents)
    }
}

/// The classes of eight bytes together.
#[inline]
fn classes_of(word: u64) -> u8 {
    word.to_le_bytes().iter().fold(0, |classes, &byte| classes | CLASSES[usize::from(byte)])
}

/// The number that eight digits write, if they are digits.
#[inline]
fn eight_digits(word: u64) -> Option<u64> {
    let digits = word ^ eight_of(b'0');
    // A digit is 0 to 9 now. With 0x76 more, 10 to 127 have the highest bit; what is above has it before.
    if (digits | digits.wrapping_add(eight_of(0x76))) & eight_of(0x80) != 0 {
        return None;
    }
    // Pairs, then fours, then all eight, each behind the one before it.
    let pairs = (digits.wrapping_mul((10 << 8) + 1) >> 8) & 0x00FF_00FF_00FF_00FF;
    let fours = (pairs.wrapping_mul((100 << 16) + 1) >> 16) & 0x0000_FFFF_0000_FFFF;
    Some(fours.wrapping_mul((10_000 << 32) + 1) >> 32)
}

/// Whether it is an IBAN of digits alone behind its check digits; nothing where it is no such one.
#[inline]
fn is_usual_iban(value: &[u8]) -> Option<bool> {
    let (head, body) = value.split_first_chunk::<4>()?;
    Some(leaves_one(head, body)? && value.len() == length_of([head[0], head[1]]))
}

/// Whether it is an identifier of digits alone behind its business code; nothing where it is no such one.
#[inline]
fn is_usual_creditor_id(value: &[u8]) -> Option<bool> {
    let (head, after) = value.split_first_chunk::<4>()?;
    let (business, national) = after.split_first_chunk::<3>()?;
    Some(
        leaves_one(head, national)?
            && value.len() <= 35
            && !national.is_empty()
            && business.iter().all(u8::is_ascii_alphanumeric),
    )
}

/// Whether a head of two capitals and the check digits 02 to 98 stands before digits, and the digits,
/// then the head, leave 1 when divided by 97; nothing where the others are not digits.
#[inline]
fn leaves_one(head: &[u8; 4], digits: &[u8]) -> Option<bool> {
    let mut number = 0;
    let mut words = digits.chunks_exact(8);
    for word in &mut words {
        let eight = eight_digits(u64::from_le_bytes(word.try_into().ok()?))?;
        number = (number * 100_000_000 + eight) % 97;
    }
    for digit in words.remainder() {
        number = number * 10 + u64::from(digit.is_ascii_digit().then(|| digit - b'0')?);
    }
    let &[first @ b'A'..=b'Z', second @ b'A'..=b'Z', tens @ b'0'..=b'9', units @ b'0'..=b'9'] =
        head
    else {
        return None;
    };
    let country = u64::from(first - b'A' + 10) * 100 + u64::from(second - b'A' + 10);
    let check = u64::from(tens - b'0') * 10 + u64::from(units - b'0');
    Some((2..=98).contains(&check) && ((number * 10_000 + country) * 100 + check) % 97 == 1)
}

/// Whether it is a date, if it is not the 29th of February.
#[inline]
fn is_usual_date(value: &[u8]) -> Option<bool> {
    const DAYS: [u64; 13] = [0, 31, 28, 31, 30, 31, 30, 31, 31, 30, 31, 30, 31];
    let &[y1, y2, y3, y4, b'-', m1, m2, b'-', d1, d2] = value else {
        return None;
    };
    let number = eight_digits(u64::from_le_bytes([y1, y2, y3, y4, m1, m2, d1, d2]))?;
    let (year, month, day) = (number / 10_000, number / 100 % 100, number % 100);
    let days = *DAYS.get(month as usize)?;
    Some(year >= 1 && day >= 1 && day <= days)
}
