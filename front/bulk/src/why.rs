//! Why a value was refused: the character, the length, the form. The library judges; this only puts
//! its answer into words, and the tests hold it against the library.

use crate::collapsed::{collapsed, WHITE};
use crate::language::Language;
use crate::show::{characters, shown};
use crate::version::Version;
use face::Kind;

#[derive(Clone, Debug, PartialEq, Eq)]
pub enum Why<'a> {
    Empty,
    /// The character of this number, from 1, may not stand there.
    Character(usize, &'a [u8]),
    AtMost {
        length: usize,
        most: usize,
    },
    /// The same of a collapsed value, where the value as it lies is longer.
    AtMostCollapsed {
        length: usize,
        most: usize,
    },
    AtLeast {
        length: usize,
        least: usize,
    },
    EightOrEleven(usize),
    WhiteSpaceAlone,
    SlashFirst,
    SlashLast,
    TwoSlashes,
    WrittenAsDate,
    WrittenAsTime,
    /// The time of a record of a recording, which has but one form.
    WrittenAsRecorded,
    /// The last byte of such a record.
    NoLineEnd,
    NoSuchDay,
    NoSuchTime,
    /// An identifier that has no letter or digit behind position 7.
    NoLetterOrDigit,
    TwoPoints,
    NoDigitBefore,
    NoDigitBehind,
    ManyDigitsBefore(usize),
    ManyDigitsBehind(usize),
    /// An IBAN that is not as long as those of its country.
    CountryLength {
        country: &'a [u8],
        length: usize,
        due: usize,
    },
    /// An IBAN whose country is not on the list of lengths.
    NoCountry(&'a [u8]),
    /// An amount under or over its range, with the cents of its limit.
    LeastCents(u64),
    MostCents(u64),
    /// The codes that the element may have.
    Codes(&'static [&'static str]),
    /// What the first item has.
    FirstHas(&'a [u8]),
    /// LclInstrm and SeqTp, which the header has for all items.
    HeaderHas(&'a [u8], &'a [u8]),
    /// The item of this number, from 1, has the TxId of an earlier one.
    SameAs {
        item: usize,
        earlier: usize,
    },
    /// The tags that may come.
    Expected(Vec<String>),
    /// The tags that may come in the version that the root names; another version has what was found.
    ExpectedIn(Version, Vec<String>),
    ByteOrderMark,
}

/// Why a value is not of its kind's form; none if it is.
pub fn why(kind: Kind, value: &[u8]) -> Option<Why<'_>> {
    if value.is_empty() {
        return Some(Why::Empty);
    }
    match kind {
        Kind::Date => date(value),
        Kind::Time => time(value),
        Kind::EndToEnd | Kind::Text70 | Kind::Text140 => collapsing(kind, value),
        _ => character(kind, value).or_else(|| length(kind, value)).or_else(|| rule(kind, value)),
    }
}

/// Why a value of a kind that collapses is not of the form. A character is told by its number in the
/// value as it lies; length and slashes are those of the collapsed value.
fn collapsing(kind: Kind, value: &[u8]) -> Option<Why<'_>> {
    let meant = collapsed(value);
    if meant.is_empty() {
        return Some(Why::WhiteSpaceAlone);
    }
    let length = || match length(kind, &meant)? {
        Why::AtMost { length, most } if length < value.len() => {
            Some(Why::AtMostCollapsed { length, most })
        }
        why => Some(why),
    };
    character(kind, value).or_else(length).or_else(|| rule(kind, &meant))
}

/// Why an IBAN is refused with 19: the length that is due in its country, or that there is none. The
/// list is the library's alone. To an IBAN of zeros it answers 19 unless the length is the right one.
pub fn country(value: &[u8]) -> Why<'_> {
    let country = &value[..value.len().min(2)];
    let zeros = |length: usize| [country, &vec![b'0'; length - country.len()]].concat();
    match (15..=34).find(|&length| face::check(Kind::Iban, &zeros(length))[0] != 19) {
        Some(due) => Why::CountryLength { country, length: value.len(), due },
        None => Why::NoCountry(country),
    }
}

/// The first character that may not stand where it does.
fn character(kind: Kind, value: &[u8]) -> Option<Why<'_>> {
    let may_stand = |at: usize, character: &[u8]| match character {
        [byte] => may_stand(kind, at, *byte),
        _ => false,
    };
    let mut all = characters(value).enumerate();
    let (at, character) = all.find(|(at, character)| !may_stand(*at, character))?;
    Some(Why::Character(at + 1, character))
}

/// Whether a byte may stand at a position, from 0.
fn may_stand(kind: Kind, at: usize, byte: u8) -> bool {
    let capital_or_digit = byte.is_ascii_uppercase() || byte.is_ascii_digit();
    let in_reference = byte.is_ascii_alphanumeric() || b"/-?:().,'+".contains(&byte);
    match (kind, at) {
        (Kind::Count, _) => byte.is_ascii_digit(),
        (Kind::ItemAmount | Kind::HeaderAmount, _) => byte.is_ascii_digit() || byte == b'.',
        (Kind::Iban | Kind::CreditorId, 0..=1) | (Kind::Bic, 0..=5) | (Kind::Bicfi, 4..=5) => {
            byte.is_ascii_uppercase()
        }
        (Kind::Iban | Kind::CreditorId, 2..=3) => byte.is_ascii_digit(),
        (Kind::CreditorId, 4..=6) => byte.is_ascii_alphanumeric(),
        (Kind::Bic, 6) => capital_or_digit && !b"01".contains(&byte),
        (Kind::Bic, 7) => capital_or_digit && byte != b'O',
        (Kind::Iban | Kind::Bic | Kind::Bicfi, _) => capital_or_digit,
        (Kind::EndToEnd | Kind::Text70 | Kind::Text140, _) => in_reference || WHITE.contains(&byte),
        _ => in_reference,
    }
}

/// A length outside that of the kind.
fn length(kind: Kind, value: &[u8]) -> Option<Why<'static>> {
    let (least, most) = match kind {
        Kind::Bic | Kind::Bicfi if ![8, 11].contains(&value.len()) => {
            return Some(Why::EightOrEleven(value.len()))
        }
        Kind::Iban => (15, 34),
        Kind::CreditorId => (8, 35),
        Kind::Count => (1, 15),
        Kind::Reference | Kind::EndToEnd => (1, 35),
        Kind::Text70 => (1, 70),
        Kind::Text140 => (1, 140),
        _ => return None,
    };
    match value.len() {
        length if length > most => Some(Why::AtMost { length, most }),
        length if length < least => Some(Why::AtLeast { length, least }),
        _ => None,
    }
}

/// What else a kind asks of a value whose characters and length are right.
fn rule(kind: Kind, value: &[u8]) -> Option<Why<'static>> {
    match kind {
        Kind::Reference | Kind::EndToEnd => slashes(value),
        Kind::CreditorId if !value[7..].iter().any(u8::is_ascii_alphanumeric) => {
            Some(Why::NoLetterOrDigit)
        }
        Kind::ItemAmount | Kind::HeaderAmount => amount(value),
        _ => None,
    }
}

/// The slash rule.
fn slashes(value: &[u8]) -> Option<Why<'static>> {
    match value {
        [b'/', ..] => Some(Why::SlashFirst),
        [.., b'/'] => Some(Why::SlashLast),
        _ => value.windows(2).any(|pair| pair == b"//").then_some(Why::TwoSlashes),
    }
}

/// Digits and points: 1 to 15 digits, then perhaps a point and one or two digits.
fn amount(value: &[u8]) -> Option<Why<'static>> {
    let mut parts = value.split(|&byte| byte == b'.').map(<[u8]>::len);
    match (parts.next().unwrap_or(0), parts.next(), parts.next()) {
        (_, _, Some(_)) => Some(Why::TwoPoints),
        (0, ..) => Some(Why::NoDigitBefore),
        (digits, ..) if digits > 15 => Some(Why::ManyDigitsBefore(digits)),
        (_, Some(0), _) => Some(Why::NoDigitBehind),
        (_, Some(digits), _) if digits > 2 => Some(Why::ManyDigitsBehind(digits)),
        _ => None,
    }
}

/// Whether the bytes are written as a pattern, in which 0 stands for any digit.
fn is_written(value: &[u8], pattern: &[u8]) -> bool {
    let fits = |(byte, due): (&u8, &u8)| match due {
        b'0' => byte.is_ascii_digit(),
        _ => byte == due,
    };
    value.len() == pattern.len() && value.iter().zip(pattern).all(fits)
}

/// A date: its form, then the day.
fn date(value: &[u8]) -> Option<Why<'static>> {
    match face::check(Kind::Date, value)[0] {
        0 => None,
        _ if is_written(value, b"0000-00-00") => Some(Why::NoSuchDay),
        _ => Some(Why::WrittenAsDate),
    }
}

/// A time: its form, then the day, then the clock.
fn time(value: &[u8]) -> Option<Why<'static>> {
    let zones: [&[u8]; 4] = [b"", b"Z", b"+00:00", b"-00:00"];
    let mut patterns = [&b"0000-00-00T00:00:00"[..], b"0000-00-00T00:00:00.000"]
        .into_iter()
        .flat_map(|time| zones.map(|zone| [time, zone].concat()));
    if face::check(Kind::Time, value)[0] == 0 {
        return None;
    }
    match patterns.any(|pattern| is_written(value, &pattern)) {
        false => Some(Why::WrittenAsTime),
        true => Some(date(&value[..10]).unwrap_or(Why::NoSuchTime)),
    }
}

impl Why<'_> {
    /// Whether it tells the value's length already.
    pub fn tells_length(&self) -> bool {
        matches!(
            self,
            Why::AtMost { .. }
                | Why::AtMostCollapsed { .. }
                | Why::AtLeast { .. }
                | Why::EightOrEleven(_)
                | Why::CountryLength { .. }
        )
    }

    /// In words, as a part of a sentence.
    pub fn words(&self, language: Language) -> String {
        match self {
            Why::Character(number, bytes) => {
                let character = language.quoted(&shown(bytes));
                language.say(
                    format!("character {number}, {character}, is not allowed"),
                    format!("das {number}. Zeichen, {character}, ist nicht zulässig"),
                )
            }
            Why::LeastCents(_) | Why::MostCents(_) | Why::Codes(_) => self.limits(language),
            Why::Expected(_) | Why::ExpectedIn(..) => self.tags(language),
            Why::FirstHas(_) | Why::HeaderHas(..) | Why::SameAs { .. } => self.elsewhere(language),
            Why::CountryLength { country, length, due } => {
                let country = shown(country);
                language.say(
                    format!("an IBAN from {country} has {due} characters, this one has {length}"),
                    format!("eine IBAN aus {country} hat {due} Stellen, diese hat {length}"),
                )
            }
            Why::NoCountry(country) => {
                let country = shown(country);
                language.say(
                    format!("{country} is not on the list of countries"),
                    format!("{country} steht nicht auf der Länderliste"),
                )
            }
            _ => self.lengths(language).unwrap_or_else(|| {
                let (english, german) = self.fixed();
                language.say(english, german).to_string()
            }),
        }
    }

    /// What the first item, the header or an earlier item has.
    fn elsewhere(&self, language: Language) -> String {
        match self {
            Why::FirstHas(code) => {
                let code = shown(code);
                language.say(
                    format!("the first item has {code}"),
                    format!("der erste Posten hat {code}"),
                )
            }
            Why::HeaderHas(instrument, sequence) => {
                let types = format!("{}, {}", shown(instrument), shown(sequence));
                language.say(format!("the header has {types}"), format!("im Kopf steht {types}"))
            }
            Why::SameAs { item, earlier } => language.say(
                format!("item {item} has the TxId of item {earlier}"),
                format!("Posten {item} hat die TxId von Posten {earlier}"),
            ),
            _ => String::new(),
        }
    }

    /// What would be allowed.
    fn limits(&self, language: Language) -> String {
        let texts = |codes: &[&str]| codes.iter().map(|code| code.to_string()).collect::<Vec<_>>();
        match self {
            Why::LeastCents(cents) => {
                let euros = language.euros((*cents).into());
                language.say(format!("at least {euros}"), format!("mindestens {euros}"))
            }
            Why::MostCents(cents) => {
                let euros = language.euros((*cents).into());
                language.say(format!("at most {euros}"), format!("höchstens {euros}"))
            }
            Why::Codes(codes) => {
                let codes = language.one_of(&texts(codes));
                language.say(format!("allowed: {codes}"), format!("zulässig: {codes}"))
            }
            _ => String::new(),
        }
    }

    /// The tags that may come.
    fn tags(&self, language: Language) -> String {
        match self {
            Why::Expected(tags) => {
                let tags = language.one_of(tags);
                language.say(format!("expected: {tags}"), format!("erwartet: {tags}"))
            }
            Why::ExpectedIn(version, tags) => {
                let (version, tags) = (version.name(), language.one_of(tags));
                language.say(
                    format!("expected: {tags}, since the root names {version}"),
                    format!("erwartet: {tags}, denn das Wurzelelement nennt {version}"),
                )
            }
            _ => String::new(),
        }
    }

    /// A length, and what it may be.
    fn lengths(&self, language: Language) -> Option<String> {
        let (characters, at_most, at_least, eight) = language.say(
            ("characters", "at most", "at least", "8 or 11 are allowed"),
            ("Zeichen", "höchstens", "mindestens", "zulässig sind 8 oder 11"),
        );
        Some(match self {
            Why::AtMost { length, most } => format!("{length} {characters}, {at_most} {most}"),
            Why::AtMostCollapsed { length, most } => language.say(
                format!("{length} characters without needless white space, at most {most}"),
                format!("{length} Zeichen ohne überflüssigen Leerraum, höchstens {most}"),
            ),
            Why::AtLeast { length, least } => format!("{length} {characters}, {at_least} {least}"),
            Why::EightOrEleven(length) => format!("{length} {characters}, {eight}"),
            Why::ManyDigitsBefore(digits) => language.say(
                format!("{digits} digits before the point, at most 15"),
                format!("{digits} Stellen vor dem Punkt, höchstens 15"),
            ),
            Why::ManyDigitsBehind(digits) => language.say(
                format!("{digits} digits after the point, at most 2"),
                format!("{digits} Stellen nach dem Punkt, höchstens 2"),
            ),
            _ => return None,
        })
    }

    /// The reasons that need no number, in English and German.
    fn fixed(&self) -> (&'static str, &'static str) {
        match self {
            Why::Empty => ("the value is empty", "der Wert ist leer"),
            Why::WhiteSpaceAlone => ("nothing but white space", "nur Leerraum"),
            Why::SlashFirst => ("it begins with a slash", "er beginnt mit einem Schrägstrich"),
            Why::SlashLast => ("it ends with a slash", "er endet mit einem Schrägstrich"),
            Why::TwoSlashes => ("two slashes in a row", "zwei Schrägstriche hintereinander"),
            Why::WrittenAsDate => ("expected: YYYY-MM-DD", "erwartet: JJJJ-MM-TT"),
            Why::WrittenAsTime => (
                "expected: YYYY-MM-DDThh:mm:ss, then perhaps .sss, then perhaps Z or +hh:mm",
                "erwartet: JJJJ-MM-TTThh:mm:ss, danach eventuell .sss, dann eventuell Z oder +hh:mm",
            ),
            Why::WrittenAsRecorded => (
                "expected: YYYY-MM-DDThh:mm:ss+hh:mm, with the offset, without a fraction",
                "erwartet: JJJJ-MM-TTThh:mm:ss+hh:mm, mit Zeitverschiebung, ohne Sekundenbruchteile",
            ),
            Why::NoLineEnd => (
                "expected: a line feed (LF) as the 64th byte",
                "erwartet: ein Zeilenvorschub (LF) als 64. Byte",
            ),
            Why::NoSuchDay => ("there is no such day", "diesen Tag gibt es nicht"),
            Why::NoSuchTime => ("there is no such time", "diese Uhrzeit gibt es nicht"),
            Why::NoLetterOrDigit => (
                "no letter or digit after character 7",
                "kein Buchstabe und keine Ziffer nach dem 7. Zeichen",
            ),
            Why::TwoPoints => ("more than one point", "mehr als ein Punkt"),
            Why::NoDigitBefore => ("no digit before the point", "keine Ziffer vor dem Punkt"),
            Why::NoDigitBehind => ("no digit after the point", "keine Ziffer nach dem Punkt"),
            Why::ByteOrderMark => ("a byte order mark (BOM)", "eine Byte Order Mark (BOM)"),
            _ => ("", ""),
        }
    }
}

#[cfg(test)]
mod tests {
    use super::*;

    const KINDS: [(Kind, &[&str]); 13] = [
        (Kind::Iban, &["DE87200500001234567890", "NL96TULP0417164300", "AA111111111111"]),
        (Kind::CreditorId, &["DE98ZZZ09999999999", "DE98ZZZ-", "DE98ZZZ(+)"]),
        (Kind::Bic, &["BANKDEFF", "BANKDEFFXXX", "BANKDEFFXX"]),
        (Kind::Bicfi, &["BANKDEFF", "1BNKDE0OXXX", "BANKDEFFXX"]),
        (Kind::Count, &["5", "000000000000007", "0000000000000007"]),
        (Kind::ItemAmount, &["5.3", "12.65", "1000000000", "0.00", "0000000000000005.1"]),
        (Kind::HeaderAmount, &["2024.90", "0", "999999999999999.99", "."]),
        (Kind::Date, &["2000-02-29", "0000-01-01", "1900-02-29", "31.12.2026"]),
        (
            Kind::Time,
            &["2026-10-28T18:42:07+01:00", "2026-10-28T18:42:07.123Z", "2026-02-30T00:00:00"],
        ),
        (Kind::Reference, &["A", "A/B", "0123456789012345678901234567890123A"]),
        (
            Kind::EndToEnd,
            &["RENT 2023 04", "\tRENT \r\n 2023/04 ", "/ /", "0123456789012345 78901234567890123A"],
        ),
        (Kind::Text70, &["Anna Gluehbirne", "B ", " \t"]),
        (Kind::Text140, &["Rent November 2026, flat 4B, Kabelweg 12"]),
    ];

    /// A reason is told exactly when the library answers 7.
    fn agrees(kind: Kind, value: &[u8]) {
        let refused = face::check(kind, value)[0] == 7;
        let told = why(kind, value);
        assert_eq!(told.is_some(), refused, "{kind:?} {}: {told:?}", shown(value));
        for language in [Language::English, Language::German] {
            assert!(told.iter().all(|why| why.words(language).len() > 5), "{told:?}");
        }
    }

    #[test]
    fn a_reason_for_every_7_and_for_nothing_else() {
        for (kind, values) in KINDS {
            for value in values.iter().map(|value| value.as_bytes()) {
                agrees(kind, value);
                for at in 0..=value.len() {
                    // Cut, lengthened, and every byte at every position.
                    agrees(kind, &value[..at]);
                    agrees(kind, &value[at..]);
                    for byte in 0..=255 {
                        agrees(kind, &[&value[..at], &[byte], &value[at..]].concat());
                        if at < value.len() {
                            agrees(kind, &[&value[..at], &[byte], &value[at + 1..]].concat());
                        }
                    }
                }
            }
            for length in 0..150 {
                agrees(kind, "A".repeat(length).as_bytes());
                agrees(kind, "7".repeat(length).as_bytes());
                agrees(kind, &[b"DE00ZZZ", "7".repeat(length).as_bytes()].concat());
            }
        }
    }

    /// Of every pair of capitals: the length that is due, by the library; every other one is told.
    #[test]
    fn a_length_for_every_country_of_the_list() {
        let mut listed = 0;
        for pair in (b'A'..=b'Z').flat_map(|one| (b'A'..=b'Z').map(move |other| [one, other])) {
            let of = |length: usize| [&pair[..], b"02", &vec![b'1'; length - 4]].concat();
            let right = (15..=34).filter(|&length| face::check(Kind::Iban, &of(length))[0] != 19);
            let right: Vec<usize> = right.collect();
            listed += right.len();
            for length in 15..=34 {
                let told = match right[..] {
                    [] => Why::NoCountry(&pair),
                    [due] => Why::CountryLength { country: &pair, length, due },
                    _ => panic!("{} has {right:?}", shown(&pair)),
                };
                assert_eq!(country(&of(length)), told);
            }
        }
        assert_eq!(listed, 37);
    }

    #[test]
    fn lengths_by_country_in_words() {
        let told = |value: &str, language| country(value.as_bytes()).words(language);
        let (long, unlisted) = ("DE342005000012345678901", "US86200500001234567890");
        assert_eq!(
            told(long, Language::English),
            "an IBAN from DE has 22 characters, this one has 23"
        );
        assert_eq!(told(long, Language::German), "eine IBAN aus DE hat 22 Stellen, diese hat 23");
        assert_eq!(told(unlisted, Language::English), "US is not on the list of countries");
        assert_eq!(told(unlisted, Language::German), "US steht nicht auf der Länderliste");
    }

    #[test]
    fn reasons_in_words() {
        let told =
            |kind, value: &str| why(kind, value.as_bytes()).unwrap().words(Language::English);
        assert_eq!(told(Kind::Text70, "Anna Glühbirne"), "character 8, “ü”, is not allowed");
        assert_eq!(told(Kind::Text140, &"A".repeat(141)), "141 characters, at most 140");
        assert_eq!(told(Kind::Iban, "DE87 2005"), "character 5, “ ”, is not allowed");
        assert_eq!(told(Kind::Bic, "BANKDEFFXX"), "10 characters, 8 or 11 are allowed");
        assert_eq!(told(Kind::Bic, "B1NKDEFF"), "character 2, “1”, is not allowed");
        assert_eq!(told(Kind::Bicfi, "B1NKD1FF"), "character 6, “1”, is not allowed");
        assert_eq!(told(Kind::Bicfi, "1BNKDEFFX"), "9 characters, 8 or 11 are allowed");
        assert_eq!(told(Kind::ItemAmount, "12.345"), "3 digits after the point, at most 2");
        assert_eq!(told(Kind::Date, "31.12.2026"), "expected: YYYY-MM-DD");
        assert_eq!(told(Kind::Reference, "RENT 2023 04"), "character 5, “ ”, is not allowed");
        assert_eq!(told(Kind::EndToEnd, "\tRENT_2023 04"), "character 6, “_”, is not allowed");
        assert_eq!(told(Kind::EndToEnd, "RENT 2023/ "), "it ends with a slash");
        assert_eq!(told(Kind::EndToEnd, " / A"), "it begins with a slash");
        assert_eq!(told(Kind::EndToEnd, &"A".repeat(36)), "36 characters, at most 35");
        let wide = format!("{}  {}", "A".repeat(18), "B".repeat(17));
        assert_eq!(
            told(Kind::EndToEnd, &wide),
            "36 characters without needless white space, at most 35"
        );
        assert_eq!(told(Kind::Text70, " \t\r\n"), "nothing but white space");
        let german = |kind, value: &[u8]| why(kind, value).unwrap().words(Language::German);
        assert_eq!(
            german(Kind::Text70, b"M\xfcller"),
            "das 2. Zeichen, „\\xfc“, ist nicht zulässig"
        );
        assert_eq!(german(Kind::Count, &[b'1'; 16]), "16 Zeichen, höchstens 15");
        assert_eq!(german(Kind::Text140, b"\n"), "nur Leerraum");
        assert_eq!(
            german(Kind::EndToEnd, format!("{wide}\n").as_bytes()),
            "36 Zeichen ohne überflüssigen Leerraum, höchstens 35"
        );
        assert_eq!(german(Kind::Date, b"2026-02-29"), "diesen Tag gibt es nicht");
    }
}
