//! An amount in euros as a report has it, in cents: `1234.56`, `1.234,56`, `1,234.56`, `5,3`.
//! Nothing is rounded, and what could be read in two ways is no amount.

use crate::language::Language;

/// The most digits before the decimal mark, as in a message.
const MOST_DIGITS: usize = 15;

/// Why a text is no amount.
#[derive(Clone, Copy, Debug, PartialEq, Eq)]
pub enum Unclear {
    /// It is not digits, groups of three and a decimal mark.
    Form,
    /// It has no decimals, so it may be euros or cents.
    NoDecimals,
    /// Three digits stand behind the last mark, so they may be thousands or decimals.
    ThreeDigits,
    TooLarge,
}

/// The cents of an amount.
pub fn cents(text: &[u8]) -> Result<u64, Unclear> {
    let is_digit = |byte: &u8| byte.is_ascii_digit();
    if !matches!(text, [first, .., last] if is_digit(first) && is_digit(last)) {
        return match text {
            [only] if is_digit(only) => Err(Unclear::NoDecimals),
            _ => Err(Unclear::Form),
        };
    }
    let Some(mark) = text.iter().rposition(|byte| !byte.is_ascii_digit()) else {
        return Err(Unclear::NoDecimals);
    };
    let (whole, fraction) = (&text[..mark], &text[mark + 1..]);
    let other = match text[mark] {
        b'.' => b',',
        b',' => b'.',
        _ => return Err(Unclear::Form),
    };
    let whole = digits(whole, other).or_else(|| {
        // Groups alone: `1.234.567`.
        (fraction.len() == 3).then(|| digits(whole, text[mark])).flatten()
    });
    let whole = whole.ok_or(Unclear::Form)?;
    match fraction {
        [tenth] => worth(&whole, &[*tenth, b'0']),
        [_, _] => worth(&whole, fraction),
        [_, _, _] => Err(Unclear::ThreeDigits),
        _ => Err(Unclear::Form),
    }
}

/// The digits of a whole number, alone or in groups of three with a mark between them.
fn digits(whole: &[u8], mark: u8) -> Option<Vec<u8>> {
    let groups: Vec<&[u8]> = whole.split(|byte| *byte == mark).collect();
    let is_grouped = match &groups[..] {
        [_] => true,
        [first, others @ ..] => {
            (1..=3).contains(&first.len()) && others.iter().all(|group| group.len() == 3)
        }
        [] => false,
    };
    let digits = groups.concat();
    let is_whole = is_grouped && !digits.is_empty() && digits.iter().all(u8::is_ascii_digit);
    is_whole.then_some(digits)
}

/// The cents of digits before the mark, and of two behind it.
fn worth(whole: &[u8], fraction: &[u8]) -> Result<u64, Unclear> {
    if whole.len() > MOST_DIGITS {
        return Err(Unclear::TooLarge);
    }
    let digits = whole.iter().chain(fraction);
    Ok(digits.fold(0, |sum, digit| 10 * sum + u64::from(digit - b'0')))
}

impl Unclear {
    /// In words.
    pub fn words(self, language: Language) -> &'static str {
        let (english, german) = match self {
            Unclear::Form => ("is no amount such as 1234.56", "ist kein Betrag wie 1234,56"),
            Unclear::NoDecimals => (
                "may be euros or cents; write it with two decimals",
                "kann Euro oder Cent meinen; bitte mit zwei Nachkommastellen schreiben",
            ),
            Unclear::ThreeDigits => (
                "may have thousands or decimals behind its last mark; write it with two decimals",
                "kann hinter dem letzten Zeichen Tausender oder Nachkommastellen haben; bitte mit \
                 zwei Nachkommastellen schreiben",
            ),
            Unclear::TooLarge => (
                "has more than 15 digits before the decimal mark",
                "hat mehr als 15 Stellen vor dem Komma",
            ),
        };
        language.say(english, german)
    }
}

#[cfg(test)]
mod tests {
    use super::*;

    #[test]
    fn exact_to_the_cent() {
        for (text, due) in [
            ("0.01", 1),
            ("0,01", 1),
            ("5.3", 530),
            ("5,3", 530),
            ("1234.56", 123_456),
            ("1234,56", 123_456),
            ("1.234,56", 123_456),
            ("1,234.56", 123_456),
            ("12.345.678,90", 1_234_567_890),
            ("0001.00", 100),
            // A float would lose the last cent of these.
            ("90071992547409.93", 9_007_199_254_740_993),
            ("999.999.999.999.999,99", 99_999_999_999_999_999),
        ] {
            assert_eq!(cents(text.as_bytes()), Ok(due), "{text}");
        }
    }

    #[test]
    fn what_could_be_read_in_two_ways_is_no_amount() {
        for (text, due) in [
            ("5", Unclear::NoDecimals),
            ("123456", Unclear::NoDecimals),
            ("1.234", Unclear::ThreeDigits),
            ("1,234", Unclear::ThreeDigits),
            ("1.234.567", Unclear::ThreeDigits),
            ("1.234,567", Unclear::ThreeDigits),
            ("1234.567", Unclear::ThreeDigits),
            ("1.234.56", Unclear::Form),
            ("1,23,45", Unclear::Form),
            ("12.34,56", Unclear::Form),
            ("1234.567,89", Unclear::Form),
            (".123,45", Unclear::Form),
            ("1..234,56", Unclear::Form),
            ("1.2345", Unclear::Form),
            ("", Unclear::Form),
            (".5", Unclear::Form),
            ("5.", Unclear::Form),
            ("-5.00", Unclear::Form),
            ("5.00-", Unclear::Form),
            ("1 234,56", Unclear::Form),
            ("1'234.56", Unclear::Form),
            ("5.00 EUR", Unclear::Form),
            ("5.0e1", Unclear::Form),
            ("1000000000000000.00", Unclear::TooLarge),
        ] {
            assert_eq!(cents(text.as_bytes()), Err(due), "{text}");
        }
    }

    /// Every number of cents, written in each of the ways, is read as itself.
    #[test]
    fn every_way_of_writing() {
        for cents_due in (0..3_000_000_u64).step_by(7).chain([99_999_999_999_999_999]) {
            let (euros, fraction) = (cents_due / 100, cents_due % 100);
            for (group, mark) in [("", "."), ("", ","), (".", ","), (",", ".")] {
                let text =
                    format!("{}{mark}{fraction:02}", crate::euro::grouped(euros.into(), group));
                assert_eq!(cents(text.as_bytes()), Ok(cents_due), "{text}");
            }
        }
    }
}
