//! Values of each kind.

use crate::collapse;
use crate::handmade::{handmade, EXAMPLES, UNLISTED};
use crate::kind::{Kind, CHECKED};
use crate::letters;
use crate::random::Random;

pub const CAPITALS: &[u8] = b"ABCDEFGHIJKLMNOPQRSTUVWXYZ";
pub const DIGITS: &[u8] = b"0123456789";
pub const CAPITALS_DIGITS: &[u8] = b"ABCDEFGHIJKLMNOPQRSTUVWXYZ0123456789";
pub const LETTERS_DIGITS: &[u8] = b"ABCDEFGHIJKLMNOPQRSTUVWXYZabcdefghijklmnopqrstuvwxyz0123456789";
pub const REFERENCE_SET: &[u8] =
    b"ABCDEFGHIJKLMNOPQRSTUVWXYZabcdefghijklmnopqrstuvwxyz0123456789/-?:().,'+";
/// The set without the slash.
const PLAIN_SET: &[u8] = b"ABCDEFGHIJKLMNOPQRSTUVWXYZabcdefghijklmnopqrstuvwxyz0123456789-?:().,'+";
pub const WHITE: &[u8] = b" \t\r\n";

pub const ITEM_MOST: u64 = 99_999_999_999;
pub const HEADER_MOST: u64 = 99_999_999_999_999_999;

/// A value, what it means, and what its checker answers: the number, the cents, or 0.
#[derive(Clone)]
pub struct Valid {
    pub bytes: Vec<u8>,
    /// The collapsed value, of a kind that collapses; else the same bytes.
    pub meant: Vec<u8>,
    pub worth: u64,
}

impl Valid {
    /// A value that stands for its own bytes.
    pub fn new(bytes: Vec<u8>, worth: u64) -> Valid {
        Valid { meant: bytes.clone(), bytes, worth }
    }
}

/// A valid value that is worth no number.
fn yes(bytes: Vec<u8>) -> Valid {
    Valid::new(bytes, 0)
}

/// A valid value of this kind.
pub fn valid(kind: Kind, random: &mut Random) -> Valid {
    match kind {
        Kind::Iban => yes(iban(random)),
        Kind::CreditorId => yes(creditor_id(random)),
        Kind::Bic => yes(bic(random)),
        Kind::Bicfi => yes(bicfi(random)),
        Kind::Date => yes(date(random)),
        Kind::Time => yes(time(random)),
        Kind::Reference => yes(reference(random)),
        Kind::EndToEnd | Kind::Text70 | Kind::Text140 => collapse::valid(kind, random),
        Kind::Count => {
            let worth = random.worth(0, 999_999_999_999_999);
            Valid::new(with_zeros(worth, random), worth)
        }
        Kind::ItemAmount => {
            let worth = item_cents(random);
            Valid::new(amount(worth, random), worth)
        }
        Kind::HeaderAmount => {
            let worth = match random.below(8) {
                0 => 1,
                1 => HEADER_MOST,
                2 => HEADER_MOST / 100 * 100,
                _ => random.worth(1, HEADER_MOST),
            };
            Valid::new(amount(worth, random), worth)
        }
        Kind::Code(list) => yes(random.pick(list).as_bytes().to_vec()),
    }
}

/// Cents of an item.
pub fn item_cents(random: &mut Random) -> u64 {
    match random.below(12) {
        0 => 1,
        1 => ITEM_MOST,
        2 => 99,
        3 => 100,
        4 => ITEM_MOST / 100 * 100,
        5 => 10 * random.worth(1, 1000),
        _ => random.worth(1, ITEM_MOST),
    }
}

/// A number in at most 15 digits, with or without leading zeros.
pub fn with_zeros(number: u64, random: &mut Random) -> Vec<u8> {
    let digits = number.to_string();
    let zeros = match random.below(4) {
        0 => random.between(0, 15 - digits.len()),
        1 => 15 - digits.len(),
        _ => 0,
    };
    format!("{}{digits}", "0".repeat(zeros)).into_bytes()
}

/// Cents written as an amount: 0, 1 or 2 decimals where that can be, with or without leading zeros.
pub fn amount(cents: u64, random: &mut Random) -> Vec<u8> {
    let mut bytes = with_zeros(cents / 100, random);
    let fraction = cents % 100;
    let least = match fraction {
        0 => 0,
        _ if fraction % 10 == 0 => 1,
        _ => 2,
    };
    match random.between(least, 2) {
        0 => {}
        1 => bytes.extend(format!(".{}", fraction / 10).bytes()),
        _ => bytes.extend(format!(".{fraction:02}").bytes()),
    }
    bytes
}

/// Every way to write cents as an amount: each number of decimals that can be, each number of
/// leading zeros.
pub fn amounts(cents: u64) -> Vec<Vec<u8>> {
    let (whole, fraction) = ((cents / 100).to_string(), format!("{:02}", cents % 100));
    let mut ends = vec![format!(".{fraction}")];
    if let Some(tens) = fraction.strip_suffix('0') {
        ends.push(format!(".{tens}"));
        ends.extend((tens == "0").then(String::new));
    }
    let mut all = Vec::new();
    for zeros in (0..=15 - whole.len()).map(|zeros| "0".repeat(zeros)) {
        all.extend(ends.iter().map(|end| format!("{zeros}{whole}{end}").into_bytes()));
    }
    all
}

/// Cents as an amount with two decimals and no needless zeros.
pub fn euros(cents: u64) -> String {
    format!("{}.{:02}", cents / 100, cents % 100)
}

/// The cents of an amount that is of the form. By text, to be of another make than the judges.
pub fn cents_of(amount: &[u8]) -> u64 {
    let text = std::str::from_utf8(amount).expect("an amount is of digits and a point");
    let (whole, fraction) = text.split_once('.').unwrap_or((text, ""));
    format!("{whole}{fraction:0<2}").parse().expect("at most 17 digits")
}

/// The rest by 97 of the number that the letters and digits write, digit by digit.
pub fn rest97(characters: &[u8]) -> u32 {
    let mut written = String::new();
    for &c in characters {
        if let Some(worth) = (c as char).to_digit(36) {
            written.push_str(&worth.to_string());
        }
    }
    written.bytes().fold(0, |rest, digit| (rest * 10 + u32::from(digit - b'0')) % 97)
}

/// The check digits (02 to 98) for a country and what the number starts with.
pub fn check_digits(country: &[u8], body: &[u8]) -> Vec<u8> {
    let rest = rest97(&[body, country, b"00"].concat());
    format!("{:02}", 98 - rest).into_bytes()
}

/// An example IBAN, or one of its country and length, made with its check digits.
fn iban(random: &mut Random) -> Vec<u8> {
    let example = random.pick(&EXAMPLES).as_bytes();
    if random.once_in(8) {
        return example.to_vec();
    }
    let set = random.pick(&[DIGITS, CAPITALS, CAPITALS_DIGITS, DIGITS]);
    let body = random.bytes(set, example.len() - 4);
    with_digits(&example[..2], &body)
}

/// A country, what stands behind the check digits, and these, which are right.
pub fn with_digits(country: &[u8], body: &[u8]) -> Vec<u8> {
    [country, &check_digits(country, body), body].concat()
}

/// The length of the IBANs of a country, if it is one of those that the request lists.
fn length_of(country: &[u8]) -> Option<usize> {
    EXAMPLES.iter().find(|iban| iban.as_bytes().starts_with(country)).map(|iban| iban.len())
}

/// What the checker answers to an IBAN of the form whose check digits are right, or are not.
pub fn known_iban(value: &[u8], right: bool) -> Result<u64, u8> {
    match (length_of(&value[..2]), right) {
        _ if !(15..=34).contains(&value.len()) => Err(7),
        (due, _) if due != Some(value.len()) => Err(19),
        (_, true) => Ok(0),
        (_, false) => Err(8),
    }
}

/// An IBAN of the form that is 19: too long or too short for its country, by one or by more, or of
/// no country that is listed; its check digits are right, or any.
pub fn other_length(random: &mut Random) -> Vec<u8> {
    loop {
        let example = random.pick(&EXAMPLES).as_bytes();
        let (country, length) = match random.below(5) {
            0 => (example[..2].to_vec(), example.len() - 1),
            1 => (example[..2].to_vec(), example.len() + 1),
            2 => (example[..2].to_vec(), random.length(15, 34)),
            3 => (random.bytes(CAPITALS, 2), example.len()),
            _ => return random.pick(&UNLISTED).as_bytes().to_vec(),
        };
        let body = random.bytes(CAPITALS_DIGITS, length - 4);
        let mut value = with_digits(&country, &body);
        if random.once_in(2) {
            value[2..4].copy_from_slice(&random.bytes(DIGITS, 2));
        }
        if known_iban(&value, true) == Err(19) {
            return value;
        }
    }
}

/// An IBAN or an identifier whose check digits are 00, 01 or 99 and whose rest by 97 is 1.
pub fn alias(kind: Kind, random: &mut Random) -> Vec<u8> {
    loop {
        let mut value = valid(kind, random).bytes;
        let alias: &[u8] = match &value[2..4] {
            b"97" => b"00",
            b"98" => b"01",
            b"02" => b"99",
            _ => continue,
        };
        value[2..4].copy_from_slice(alias);
        return value;
    }
}

/// A published identifier, or one made with its check digits.
fn creditor_id(random: &mut Random) -> Vec<u8> {
    if random.once_in(8) {
        return random.pick(&["DE98ZZZ09999999999", "DE98ABC09999999999"]).as_bytes().to_vec();
    }
    let country = random.bytes(CAPITALS, 2);
    let business = match random.below(2) {
        0 => b"ZZZ".to_vec(),
        _ => random.bytes(LETTERS_DIGITS, 3),
    };
    let length = random.length(1, 28);
    let set = random.pick(&[DIGITS, LETTERS_DIGITS, REFERENCE_SET, b"/-+aZ09".as_slice()]);
    let mut national = random.bytes(set, length);
    if !national.iter().any(u8::is_ascii_alphanumeric) {
        let at = random.below(length);
        national[at] = random.of(LETTERS_DIGITS);
    }
    let check = check_digits(&country, &national);
    [country, check, business, national].concat()
}

/// A BIC of eight or eleven.
fn bic(random: &mut Random) -> Vec<u8> {
    let mut bytes = random.bytes(CAPITALS, 6);
    bytes.push(random.of(b"ABCDEFGHIJKLMNOPQRSTUVWXYZ23456789"));
    bytes.push(random.of(b"ABCDEFGHIJKLMNPQRSTUVWXYZ0123456789"));
    if random.once_in(2) {
        bytes.extend(random.bytes(CAPITALS_DIGITS, 3));
    }
    bytes
}

/// A BIC of version .08: every third time one of version .02, which is one too.
fn bicfi(random: &mut Random) -> Vec<u8> {
    if random.once_in(3) {
        return bic(random);
    }
    let mut bytes = random.bytes(CAPITALS_DIGITS, 4);
    bytes.extend(random.bytes(CAPITALS, 2));
    let more = if random.once_in(2) { 2 } else { 5 };
    bytes.extend(random.bytes(CAPITALS_DIGITS, more));
    bytes
}

/// The days of a month.
fn days(year: usize, month: usize) -> usize {
    let leap = year % 400 == 0 || (year % 4 == 0 && year % 100 != 0);
    [31, if leap { 29 } else { 28 }, 31, 30, 31, 30, 31, 31, 30, 31, 30, 31][month - 1]
}

/// A day of any year, often at an edge.
fn date(random: &mut Random) -> Vec<u8> {
    let year = match random.below(8) {
        0 => 1,
        1 => 9999,
        2 => 100 * random.between(1, 99),
        3 => 400 * random.between(1, 24),
        4 => 4 * random.between(1, 2499),
        _ => random.between(1, 9999),
    };
    let month = if random.once_in(4) { 2 } else { random.between(1, 12) };
    let day = random.length(1, days(year, month));
    format!("{year:04}-{month:02}-{day:02}").into_bytes()
}

/// A time, with and without parts of a second and a zone.
fn time(random: &mut Random) -> Vec<u8> {
    let (hour, minute, second) = (random.length(0, 23), random.length(0, 59), random.length(0, 59));
    let mut bytes = date(random);
    bytes.extend(format!("T{hour:02}:{minute:02}:{second:02}").bytes());
    if random.once_in(2) {
        bytes.push(b'.');
        bytes.extend(random.bytes(DIGITS, 3));
    }
    match random.below(3) {
        0 => {}
        1 => bytes.push(b'Z'),
        _ => {
            let offset = random.length(0, 14 * 60);
            bytes.push(random.of(b"+-"));
            bytes.extend(format!("{:02}:{:02}", offset / 60, offset % 60).bytes());
        }
    }
    bytes
}

/// A reference, often full of signs and slashes.
pub fn reference(random: &mut Random) -> Vec<u8> {
    let length = random.length(1, 35);
    let set =
        random.pick(&[REFERENCE_SET, CAPITALS_DIGITS, b"/-?:().,'+".as_slice(), b"A/".as_slice()]);
    let mut bytes = random.bytes(set, length);
    alone_and_inside(&mut bytes, b'/', random);
    bytes
}

/// A legal reference nearly like this one: shorter, longer, of another case, or with another end. A new
/// end is a letter or a digit, and so it is legal.
pub fn near_reference(reference: &[u8], random: &mut Random) -> Vec<u8> {
    let mut bytes = reference.to_vec();
    match (random.below(4), bytes.len()) {
        (0, 2..) => drop(bytes.pop()),
        (1, ..35) => bytes.push(b'0'),
        (2, length) => {
            let at = random.below(length);
            bytes[at] ^= if bytes[at].is_ascii_alphabetic() { 0x20 } else { 0 };
            return bytes;
        }
        _ => {}
    }
    *bytes.last_mut().expect("no reference is empty") = random.of(LETTERS_DIGITS);
    bytes
}

/// Replaces this byte where it stands first, last or behind itself.
pub fn alone_and_inside(bytes: &mut [u8], byte: u8, random: &mut Random) {
    for at in 0..bytes.len() {
        let is_end = at == 0 || at + 1 == bytes.len();
        if bytes[at] == byte && (is_end || bytes[at - 1] == byte) {
            bytes[at] = random.of(PLAIN_SET);
        }
    }
}

/// A value that is nearly of its kind, or just so.
pub fn near(kind: Kind, random: &mut Random) -> Vec<u8> {
    match (kind, random.below(5)) {
        (_, 0 | 1) => random.pick(handmade(kind)).as_bytes().to_vec(),
        (Kind::Iban, 2) if random.once_in(2) => other_length(random),
        (Kind::Iban | Kind::CreditorId, 2) => near_length(kind, random),
        (Kind::Iban | Kind::CreditorId, 3) => near_letters(kind, random),
        (Kind::Iban | Kind::CreditorId, 4) => alias(kind, random),
        (Kind::Reference, 2) => edge(random, b"A/", 33, 37),
        (Kind::EndToEnd | Kind::Text70 | Kind::Text140, 2) => collapse::near(kind, random),
        (Kind::Count, 2) => edge(random, b"019", 13, 17),
        (Kind::ItemAmount, 2) => {
            let cents = ITEM_MOST - 2 + random.below(5) as u64;
            amount(cents, random)
        }
        (Kind::ItemAmount | Kind::HeaderAmount, 3) => {
            let mut bytes = edge(random, b"019", 13, 17);
            match random.below(3) {
                0 => bytes.extend(b".9"),
                1 => bytes.extend(b".99"),
                _ => {}
            }
            bytes
        }
        _ => damaged(kind, random),
    }
}

/// An IBAN or an identifier too long or too short by one or so, or just not; the rest is right.
fn near_length(kind: Kind, random: &mut Random) -> Vec<u8> {
    let country = match random.below(2) {
        0 => random.pick(&EXAMPLES).as_bytes()[..2].to_vec(),
        _ => random.bytes(CAPITALS, 2),
    };
    let (set, lengths, business): (_, [&usize; 6], &[u8]) = match kind {
        Kind::Iban => (CAPITALS_DIGITS, [&9, &10, &11, &30, &31, &32], b""),
        _ => (REFERENCE_SET, [&0, &1, &2, &27, &28, &29], b"ZZZ"),
    };
    let length = *random.pick(&lengths);
    let body = random.bytes(set, length);
    let check = check_digits(&country, &body);
    [&country, &check, business, &body].concat()
}

/// An IBAN or an identifier that is right but for a letter of the body that is small, or the country
/// that is none, or a place of the business code that is no letter or digit.
fn near_letters(kind: Kind, random: &mut Random) -> Vec<u8> {
    let published = random.pick(&EXAMPLES).as_bytes();
    let country = match random.below(3) {
        0 => random.bytes(LETTERS_DIGITS, 2),
        _ => published[..2].to_vec(),
    };
    let (set, length, business) = match kind {
        Kind::Iban => (LETTERS_DIGITS, published.len() - 4, Vec::new()),
        _ => (REFERENCE_SET, random.between(1, 28), random.bytes(REFERENCE_SET, 3)),
    };
    let body = random.bytes(set, length);
    let check = check_digits(&country, &body);
    [country, check, business, body].concat()
}

/// Bytes of a set, of a length within these.
pub fn edge(random: &mut Random, set: &[u8], least: usize, most: usize) -> Vec<u8> {
    let length = random.between(least, most);
    random.bytes(set, length)
}

/// Bytes that a damage sets or puts in.
pub fn foreign(random: &mut Random) -> u8 {
    match random.below(6) {
        0 => random.bits() as u8,
        1 => random.of(WHITE),
        2 => random.of(b"\0\x01\x1f\x7f\x80\xa0\xbf\xc3\xe9\xff"),
        3 => random.of(b"<>/=\"'&;!?-_.,:+[]@`{}^"),
        _ => random.of(REFERENCE_SET),
    }
}

/// One edit of bytes: changed, deleted, inserted, doubled, exchanged, case turned, one more or less,
/// cut, longer.
pub fn edit(bytes: &mut Vec<u8>, random: &mut Random) {
    let length = bytes.len();
    if length == 0 {
        bytes.push(foreign(random));
        return;
    }
    let at = random.below(length);
    match random.below(13) {
        0 | 1 => bytes[at] = foreign(random),
        2 => drop(bytes.remove(at)),
        3 => bytes.insert(random.between(0, length), foreign(random)),
        4 => bytes.insert(at, bytes[at]),
        5 if length > 1 => bytes.swap(at, if at + 1 == length { at - 1 } else { at + 1 }),
        6 => bytes[at] ^= 0x20,
        7 => bytes[at] = bytes[at].wrapping_add(1),
        8 => bytes[at] = bytes[at].wrapping_sub(1),
        9 => bytes.truncate(at),
        10 => bytes.push(random.of(LETTERS_DIGITS)),
        11 => bytes.insert(0, random.of(LETTERS_DIGITS)),
        12 => bytes[at] = random.of(DIGITS),
        _ => bytes[at] ^= 1 << random.below(8),
    }
}

/// A valid value with one to three edits.
pub fn damaged(kind: Kind, random: &mut Random) -> Vec<u8> {
    let mut bytes = valid(kind, random).bytes;
    for _ in 0..random.pick(&[&1, &1, &1, &2, &3]).to_owned() {
        edit(&mut bytes, random);
    }
    bytes
}

/// A random value over a small alphabet of its kind, often of the right shape.
pub fn random(kind: Kind, random: &mut Random) -> Vec<u8> {
    if random.once_in(20) {
        let length = random.between(0, 40);
        return (0..length).map(|_| random.bits() as u8).collect();
    }
    if random.once_in(200) {
        let byte = random.of(b"A0 ./9");
        return vec![byte; random.between(100, 5000)];
    }
    match kind {
        Kind::Iban | Kind::CreditorId => random_account(kind, random),
        Kind::Bic | Kind::Bicfi => {
            let length = random.between(7, 12);
            random.bytes(random_set(&[b"ABNOPZ0129", CAPITALS], length), length)
        }
        Kind::Date => template("####-##-##", random),
        Kind::Time => {
            let fraction = random.pick(&["", ".###", ".##"]);
            let zone = random.pick(&["", "Z", "+##:##", "-##:##", "+1#:##", "-1#:00"]);
            let start = random.pick(&["20##-0#-1#T1#:2#:3#", "####-##-##T##:##:##"]);
            template(&format!("{start}{fraction}{zone}"), random)
        }
        Kind::Reference => edge(random, b"A/-", 0, 37),
        Kind::EndToEnd => edge(random, b"AAAAAAA-/ \t\r\n", 0, 45),
        Kind::Text70 => edge(random, b"AAAAAAAAA/ \t\r\n", 0, 90),
        Kind::Text140 => edge(random, b"AAAAAAAAA/ \t\r\n", 0, 180),
        Kind::Count => edge(random, b"0123456789", 0, 17),
        Kind::ItemAmount | Kind::HeaderAmount => edge(random, b"0019.", 0, 18),
        Kind::Code(_) => edge(random, b"CORE2BSPA", 0, 5),
    }
}

/// Two capitals, two digits, and more of the shape of an IBAN or of an identifier; an IBAN's country
/// is listed and its length due, every other time.
fn random_account(kind: Kind, random: &mut Random) -> Vec<u8> {
    let published = random.pick(&EXAMPLES).as_bytes();
    let is_due = kind == Kind::Iban && random.once_in(2);
    let country = if is_due { published[..2].to_vec() } else { random.bytes(CAPITALS, 2) };
    let head = [country, random.bytes(DIGITS, 2)].concat();
    let (least, most, business, sets): (_, _, _, [&[u8]; 3]) = match kind {
        Kind::Iban => (9, 32, Vec::new(), [DIGITS, CAPITALS_DIGITS, b"01A"]),
        _ => (0, 30, random.bytes(LETTERS_DIGITS, 3), [DIGITS, REFERENCE_SET, b"/-1a"]),
    };
    let length = if is_due { published.len() - 4 } else { random.between(least, most) };
    let set = random.pick(&sets);
    [head, business, random.bytes(set, length)].concat()
}

/// One of the sets, by the length.
fn random_set<'a>(sets: &[&'a [u8]], length: usize) -> &'a [u8] {
    sets[length % sets.len()]
}

/// Digits for `#`, often small ones.
fn template(template: &str, random: &mut Random) -> Vec<u8> {
    let small = random.once_in(2);
    let digits = if small { b"0012".as_slice() } else { DIGITS };
    template.bytes().map(|b| if b == b'#' { random.of(digits) } else { b }).collect()
}

/// A value to ask one checker for, and its right answer where it is known.
pub struct Case {
    pub kind: Kind,
    pub bytes: Vec<u8>,
    pub sort: &'static str,
    pub known: Option<Result<u64, u8>>,
}

/// One value of the run with this seed.
pub fn case(seed: u64, case: u64) -> Case {
    let mut random = Random::new(seed, case);
    let random = &mut random;
    let kind = CHECKED[random.below(CHECKED.len())];
    let (sort, bytes, known) = match random.below(12) {
        0..=2 => {
            let valid = valid(kind, random);
            ("valid", valid.bytes, Some(Ok(valid.worth)))
        }
        3..=5 => ("damaged", damaged(kind, random), None),
        6 | 7 => ("near", near(kind, random), None),
        8 | 9 => ("random", self::random(kind, random), None),
        10 => {
            let (bytes, known) = collapse::with_white(kind, random);
            ("white space put in", bytes, Some(known))
        }
        _ => {
            let mut bytes = valid(kind, random).bytes;
            match kind {
                Kind::Iban if random.once_in(2) => {
                    ("other length", other_length(random), Some(Err(19)))
                }
                Kind::Iban | Kind::CreditorId => {
                    slip(kind, &mut bytes, random);
                    ("slip", bytes, Some(Err(8)))
                }
                _ => ("empty", Vec::new(), Some(Err(7))),
            }
        }
    };
    Case { kind, bytes, sort, known }
}

/// Values beside each other, for every kind: each place of a valid value set to each byte, each byte
/// put in at each place, each place left out; each length of one byte; IBANs of every pair of
/// capitals and every length; every slip in their letters; every byte of a few BICs, of both kinds;
/// white space at each place; the days of many months, all hours, minutes, seconds and zones. `each`
/// gets the number of the case too.
pub fn sweep(seed: u64, mut each: impl FnMut(u64, Case)) {
    let mut number = 0;
    let mut give_known = |kind: Kind, bytes: Vec<u8>, sort: &'static str, known| {
        each(number, Case { kind, bytes, sort, known });
        number += 1;
    };
    sweep_countries(&mut Random::new(seed, 0x1BA4), |bytes, known| {
        give_known(Kind::Iban, bytes, "sweep: countries", Some(known));
    });
    letters::sweep(&mut Random::new(seed, 0x1E77), &mut |kind, bytes, sort, known| {
        give_known(kind, bytes, sort, Some(known));
    });
    collapse::sweep(&mut Random::new(seed, 0x517E), &mut |kind, bytes, sort, known| {
        give_known(kind, bytes, sort, Some(known));
    });
    sweep_bics(&mut |kind, bytes, known| give_known(kind, bytes, "sweep: BICs", Some(known)));
    let mut give = |kind: Kind, bytes: Vec<u8>, sort: &'static str| {
        give_known(kind, bytes, sort, None);
    };
    for (at, kind) in CHECKED.into_iter().enumerate() {
        let random = &mut Random::new(seed, u64::MAX - at as u64);
        for _ in 0..3 {
            let value = valid(kind, random).bytes;
            sweep_places(&value, |bytes, sort| give(kind, bytes, sort));
        }
        for byte in 0..=255 {
            for length in 0..150 {
                give(kind, vec![byte; length], "sweep: one byte many times");
            }
        }
        for value in handmade(kind) {
            give(kind, value.as_bytes().to_vec(), "sweep: handmade");
        }
    }
    sweep_days(&mut give);
    sweep_times(|bytes| give(Kind::Time, bytes, "sweep: times"));
}

/// Every pair of capitals, AA to ZZ, with every length from 14 to 35, once with the right check digits
/// and once with others; and the published IBANs. What the checker answers is known of each.
fn sweep_countries(random: &mut Random, mut give: impl FnMut(Vec<u8>, Result<u64, u8>)) {
    for &first in CAPITALS {
        for &second in CAPITALS {
            for length in 14..=35 {
                let body = random.bytes(CAPITALS_DIGITS, length - 4);
                let right = with_digits(&[first, second], &body);
                give(right.clone(), known_iban(&right, true));
                let wrong = digits_off(&right);
                give(wrong.clone(), known_iban(&wrong, false));
            }
        }
    }
    for published in EXAMPLES {
        give(published.into(), Ok(0));
        give(digits_off(published.as_bytes()), Err(8));
    }
    for unlisted in UNLISTED {
        give(unlisted.into(), Err(19));
        give(digits_off(unlisted.as_bytes()), Err(19));
    }
}

/// The bytes that may stand at a place of a BIC, by the paper's lists.
fn bic_set(kind: Kind, at: usize) -> &'static [u8] {
    match (kind, at) {
        (Kind::Bic, 0..=5) | (_, 4 | 5) => CAPITALS,
        (Kind::Bic, 6) => b"ABCDEFGHIJKLMNOPQRSTUVWXYZ23456789",
        (Kind::Bic, 7) => b"ABCDEFGHIJKLMNPQRSTUVWXYZ0123456789",
        _ => CAPITALS_DIGITS,
    }
}

/// What the checker of a kind of BIC answers, by those sets.
pub fn known_bic(kind: Kind, value: &[u8]) -> Result<u64, u8> {
    let is_in_set = |(at, byte): (usize, &u8)| bic_set(kind, at).contains(byte);
    let holds = [8, 11].contains(&value.len()) && value.iter().enumerate().all(is_in_set);
    holds.then_some(0).ok_or(7)
}

/// A few values, good in both versions, in one or in none: each place of each set to each byte, and
/// each length from 0 to 13. Both checkers are asked.
fn sweep_bics(give: &mut dyn FnMut(Kind, Vec<u8>, Result<u64, u8>)) {
    let mut ask = |value: &[u8]| {
        for kind in [Kind::Bic, Kind::Bicfi] {
            give(kind, value.to_vec(), known_bic(kind, value));
        }
    };
    for value in ["BANKDEFF", "BANKDEFFXXX", "1BNKDEFF999", "BANKDE1O", "0000AA00", "BANK0EFFXXX"] {
        for at in 0..value.len() {
            for byte in 0..=255 {
                let mut other = value.as_bytes().to_vec();
                other[at] = byte;
                ask(&other);
            }
        }
        for length in 0..=13 {
            let long = [value.as_bytes(), b"A0B1C"].concat();
            ask(&long[..length]);
        }
    }
}

/// The value with its right check digits one off, so that they are wrong.
pub fn digits_off(value: &[u8]) -> Vec<u8> {
    let mut other = value.to_vec();
    other[3] = if value[3] == b'0' { b'1' } else { value[3] - 1 };
    other
}

/// Each place of a value set to each byte, preceded by each byte, left out, and the end.
fn sweep_places(value: &[u8], mut give: impl FnMut(Vec<u8>, &'static str)) {
    for at in 0..=value.len() {
        let (before, after) = value.split_at(at);
        for byte in 0..=255 {
            give([before, &[byte], after].concat(), "sweep: byte inserted");
            if let [_, after @ ..] = after {
                give([before, &[byte], after].concat(), "sweep: byte set");
            }
        }
        if let [_, after @ ..] = after {
            give([before, after].concat(), "sweep: byte left out");
        }
        give(before.to_vec(), "sweep: cut");
    }
}

/// The end of February of all years, and all months and days of two digits in some.
fn sweep_days(give: &mut impl FnMut(Kind, Vec<u8>, &'static str)) {
    let mut day = |year: usize, month: usize, day: usize| {
        let text = format!("{year:04}-{month:02}-{day:02}");
        give(Kind::Time, format!("{text}T00:00:00").into_bytes(), "sweep: days");
        give(Kind::Date, text.into_bytes(), "sweep: days");
    };
    for year in 0..=9999 {
        day(year, 1, 1);
        day(year, 2, 28);
        day(year, 2, 29);
        day(year, 2, 30);
    }
    for year in [0, 1, 4, 1900, 2000, 2010, 2012, 9999] {
        (0..100).for_each(|month| (0..100).for_each(|d| day(year, month, d)));
    }
}

/// Every hour, minute and second of two digits, and every zone.
fn sweep_times(mut give: impl FnMut(Vec<u8>)) {
    for two in 0..100 {
        give(format!("2010-12-01T{two:02}:00:00").into_bytes());
        give(format!("2010-12-01T00:{two:02}:00").into_bytes());
        give(format!("2010-12-01T00:00:{two:02}").into_bytes());
        for minutes in 0..100 {
            for sign in ["+", "-", ".000+", ".999-"] {
                give(format!("2010-12-01T12:00:00{sign}{two:02}:{minutes:02}").into_bytes());
            }
        }
    }
}

/// The places of a value where a slip must be caught by the check digits: another country may be 19.
fn slip_places(kind: Kind, length: usize) -> Vec<usize> {
    match kind {
        Kind::Iban => (2..length).collect(),
        Kind::CreditorId => (0..4).chain(7..length).collect(),
        _ => (0..length).collect(),
    }
}

/// A slip: one digit replaced by another, two neighbouring digits exchanged, and for IBAN and
/// identifier a letter by another, two neighbouring letters exchanged. Each changes the value's
/// worth, or its rest by 97. Answers false where the value has no such place.
pub fn slip(kind: Kind, bytes: &mut [u8], random: &mut Random) -> bool {
    let places = slip_places(kind, bytes.len());
    if random.once_in(2) && exchange(bytes, &places, random) {
        return true;
    }
    let singles: Vec<usize> =
        places.into_iter().filter(|&at| bytes[at].is_ascii_alphanumeric()).collect();
    if singles.is_empty() {
        return false;
    }
    let at = singles[random.below(singles.len())];
    let old = bytes[at];
    let set = if old.is_ascii_digit() {
        DIGITS
    } else if old.is_ascii_uppercase() {
        CAPITALS
    } else {
        b"abcdefghijklmnopqrstuvwxyz"
    };
    while bytes[at] == old {
        bytes[at] = random.of(set);
    }
    true
}

/// Two unequal neighbours of one sort exchanged, both at these places; behind position 7 of an
/// identifier they lie beside each other.
fn exchange(bytes: &mut [u8], places: &[usize], random: &mut Random) -> bool {
    let pairs: Vec<usize> = places
        .iter()
        .copied()
        .filter(|&at| places.contains(&(at + 1)))
        .filter(|&at| {
            let (one, other) = (bytes[at], bytes[at + 1]);
            let digits = one.is_ascii_digit() && other.is_ascii_digit();
            let letters = one.is_ascii_alphabetic() && other.is_ascii_alphabetic();
            (digits || letters) && !one.eq_ignore_ascii_case(&other)
        })
        .collect();
    if pairs.is_empty() {
        return false;
    }
    let at = pairs[random.below(pairs.len())];
    bytes.swap(at, at + 1);
    true
}
