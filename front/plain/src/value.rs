//! The value kinds. Each checker is asked for the bytes of one value, as they lie in the message.
//! Since request 4 three of them (EndToEndId, Nm, Ustrd) judge the collapsed value.
//!
//! "Accepting, the amount's answers the cents and the count's the number, the others yes" (here 0).
//! "A single checker asked alone answers with 7 to 9"; since request 1 that of an IBAN with 19 too.

/// The refusal numbers of the paper's table. "Number 5 is not used", and request 8 leaves one more
/// unused.
pub mod number {
    /// over 16,777,216 bytes, the message or its plain form
    pub const TOO_LONG: u8 = 1;
    /// starts `<?` but not the declaration, or root tag wrong
    pub const ROOT: u8 = 2;
    /// ends where more is due
    pub const ENDS: u8 = 3;
    /// not a tag that may come here
    pub const TAG: u8 = 4;
    /// currency, three capitals, not EUR
    pub const CURRENCY: u8 = 6;
    /// value not of its kind's form
    pub const FORM: u8 = 7;
    /// check digits
    pub const CHECK_DIGITS: u8 = 8;
    /// amount outside its range
    pub const RANGE: u8 = 9;
    /// code not listed
    pub const CODE: u8 = 10;
    /// LclInstrm differs from the first item's
    pub const INSTRUMENT: u8 = 11;
    /// item 10,001 begins
    pub const TOO_MANY: u8 = 12;
    /// NbOfTxs is not the item count
    pub const COUNT: u8 = 14;
    /// total is not the sum
    pub const TOTAL: u8 = 15;
    /// bytes after `</Document>` and white space
    pub const AFTER: u8 = 16;
    /// record area under 320 times the count, or a plain form longer than its area
    pub const AREA_TOO_SMALL: u8 = 17;
    /// asked for an item not there
    pub const NO_SUCH_ITEM: u8 = 18;
    /// IBAN of a wrong length for its country, or of no such country
    pub const COUNTRY_LENGTH: u8 = 19;
    /// an item's PmtTpInf though the header has one
    pub const TYPE_AGAIN: u8 = 23;
    /// a TxId that an earlier item has
    pub const TRANSACTION_AGAIN: u8 = 24;
}

use number::{CHECK_DIGITS, CODE, COUNTRY_LENGTH, FORM, RANGE};

/// "Header total: 1 to 99,999,999,999,999,999 cents."
pub const HEADER_MOST: u64 = 99_999_999_999_999_999;
/// "Item: 1 to 99,999,999,999 cents."
pub const ITEM_MOST: u64 = 99_999_999_999;

/// Yes, or not of the form.
#[inline]
fn form(holds: bool) -> Result<u64, u8> {
    if holds {
        Ok(0)
    } else {
        Err(FORM)
    }
}

/// `A-Z a-z 0-9 / - ? : ( ) . , ' +`
#[inline]
fn in_reference_set(byte: u8) -> bool {
    matches!(
        byte,
        b'A'..=b'Z' | b'a'..=b'z' | b'0'..=b'9'
            | b'/' | b'-' | b'?' | b':' | b'(' | b')' | b'.' | b',' | b'\'' | b'+'
    )
}

/// That set and space.
#[inline]
fn in_text_set(byte: u8) -> bool {
    in_reference_set(byte) || byte == b' '
}

/// One byte of `A-Z 0-9`.
#[inline]
fn is_capital_or_digit(byte: &u8) -> bool {
    byte.is_ascii_uppercase() || byte.is_ascii_digit()
}

/// The number that two digits write, if they are digits.
#[inline]
fn two_digits(tens: u8, units: u8) -> Option<u32> {
    (tens.is_ascii_digit() && units.is_ascii_digit())
        .then(|| u32::from(tens - b'0') * 10 + u32::from(units - b'0'))
}

/// The collapsed value, byte by byte: "Tab, CR and LF count as space; runs become one; ends are
/// stripped".
#[inline]
pub fn collapsed(value: &[u8]) -> impl Iterator<Item = u8> + '_ {
    let mut last = None;
    stripped(value).iter().filter_map(move |&byte| {
        let byte = if matches!(byte, b'\t' | b'\r' | b'\n') { b' ' } else { byte };
        let is_more_of_run = byte == b' ' && last == Some(b' ');
        last = Some(byte);
        (!is_more_of_run).then_some(byte)
    })
}

/// The value without the white space at its ends.
#[inline]
fn stripped(mut value: &[u8]) -> &[u8] {
    while let [b' ' | b'\t' | b'\r' | b'\n', rest @ ..] = value {
        value = rest;
    }
    while let [rest @ .., b' ' | b'\t' | b'\r' | b'\n'] = value {
        value = rest;
    }
    value
}

/// Reference: "1 to 35 of `A-Z a-z 0-9 / - ? : ( ) . , ' +`. No `/` first or last, no `//`."
#[inline]
pub fn reference(value: &[u8]) -> Result<u64, u8> {
    if value.len() > 35 {
        return Err(FORM);
    }
    slash_rule(value.iter().copied(), in_reference_set)
}

/// EndToEndId: collapsed, "then the reference set with space, length 1 to 35 and the slash rule
/// apply".
#[inline]
pub fn end_to_end(value: &[u8]) -> Result<u64, u8> {
    // The quick way: a reference has no white space, so it is collapsed as it lies.
    reference(value).or_else(|_| collapsed_end_to_end(value))
}

/// The same, by collapsing.
#[cold]
fn collapsed_end_to_end(value: &[u8]) -> Result<u64, u8> {
    if collapsed(value).nth(35).is_some() {
        return Err(FORM);
    }
    slash_rule(collapsed(value), in_text_set)
}

/// One or more bytes of a set. "No `/` first or last, no `//`."
#[inline]
fn slash_rule(bytes: impl Iterator<Item = u8>, in_set: fn(u8) -> bool) -> Result<u64, u8> {
    // A slash that is taken to stand before the value makes a first slash the second of two, and
    // an empty value one that ends in a slash.
    let mut last = b'/';
    for byte in bytes {
        if !in_set(byte) || (byte == b'/' && last == b'/') {
            return Err(FORM);
        }
        last = byte;
    }
    form(last != b'/')
}

/// Text: "that set and space. No slash rule." Nm and Ustrd "collapse likewise before their lengths",
/// so none begins with a space.
#[inline]
fn text(value: &[u8], longest: usize) -> Result<u64, u8> {
    // The quick way: collapsing only shortens, and makes no byte that is not of the set.
    if value.len() <= longest
        && value.first().is_some_and(|&first| first != b' ')
        && value.iter().all(|&byte| in_text_set(byte))
    {
        return Ok(0);
    }
    collapsed_text(value, longest)
}

/// The same, by collapsing.
#[cold]
fn collapsed_text(value: &[u8], longest: usize) -> Result<u64, u8> {
    form(
        collapsed(value).next().is_some()
            && collapsed(value).nth(longest).is_none()
            && collapsed(value).all(in_text_set),
    )
}

/// Text of a name: "Nm 1 to 70".
#[inline]
pub fn text70(value: &[u8]) -> Result<u64, u8> {
    text(value, 70)
}

/// Text of a remittance: "Ustrd 1 to 140".
#[inline]
pub fn text140(value: &[u8]) -> Result<u64, u8> {
    text(value, 140)
}

/// Date: "`YYYY-MM-DD`, year 0001 to 9999, a real Gregorian day."
#[inline]
pub fn date(value: &[u8]) -> Result<u64, u8> {
    form(is_date(value).unwrap_or(false))
}

/// Whether it is a date; nothing where a digit or a `-` is missing.
#[inline]
fn is_date(value: &[u8]) -> Option<bool> {
    let &[y1, y2, y3, y4, b'-', m1, m2, b'-', d1, d2] = value else {
        return None;
    };
    let year = two_digits(y1, y2)? * 100 + two_digits(y3, y4)?;
    let month = two_digits(m1, m2)?;
    let day = two_digits(d1, d2)?;
    Some(year >= 1 && day >= 1 && day <= days_in(year, month))
}

/// The days of a month, 0 for a month that is none.
#[inline]
pub(crate) fn days_in(year: u32, month: u32) -> u32 {
    match month {
        1 | 3 | 5 | 7 | 8 | 10 | 12 => 31,
        4 | 6 | 9 | 11 => 30,
        2 if year % 4 == 0 && (year % 100 != 0 || year % 400 == 0) => 29,
        2 => 28,
        _ => 0,
    }
}

/// Time: "date, `T`, `hh:mm:ss` (00-23, 00-59, 00-59), then optionally `.` and three digits, then
/// nothing, `Z`, or a sign and `hh:mm` from 00:00 to 14:00."
#[inline]
pub fn time(value: &[u8]) -> Result<u64, u8> {
    form(is_time(value).unwrap_or(false))
}

/// Whether it is a time; nothing where a part is missing.
#[inline]
fn is_time(value: &[u8]) -> Option<bool> {
    let (day, after) = value.split_first_chunk::<10>()?;
    let &[b'T', h1, h2, b':', m1, m2, b':', s1, s2, ref after @ ..] = after else {
        return None;
    };
    let after = match after {
        [b'.', f1, f2, f3, zone @ ..] if [f1, f2, f3].iter().all(|f| f.is_ascii_digit()) => zone,
        zone => zone,
    };
    let zone_holds = match *after {
        [] | [b'Z'] => true,
        [b'+' | b'-', h1, h2, b':', m1, m2] => {
            let (hours, minutes) = (two_digits(h1, h2)?, two_digits(m1, m2)?);
            minutes <= 59 && hours * 60 + minutes <= 14 * 60
        }
        _ => false,
    };
    Some(
        is_date(day)?
            && two_digits(h1, h2)? <= 23
            && two_digits(m1, m2)? <= 59
            && two_digits(s1, s2)? <= 59
            && zone_holds,
    )
}

/// The digits at the start of a value as a number, and what follows them; "1 to 15 digits".
#[inline]
fn up_to_15_digits(value: &[u8]) -> Result<(u64, &[u8]), u8> {
    let mut number = 0;
    let mut length = 0;
    while length < value.len() && value[length].is_ascii_digit() {
        if length == 15 {
            return Err(FORM);
        }
        number = number * 10 + u64::from(value[length] - b'0');
        length += 1;
    }
    if length == 0 {
        return Err(FORM);
    }
    Ok((number, &value[length..]))
}

/// Count: "1 to 15 digits". Answers the number.
#[inline]
pub fn count(value: &[u8]) -> Result<u64, u8> {
    match up_to_15_digits(value)? {
        (number, []) => Ok(number),
        _ => Err(FORM),
    }
}

/// Amount: "1 to 15 digits, optionally `.` and one or two digits. Its worth in cents is the digits
/// before the point times 100, plus the fraction as two digits. Leading zeros change nothing."
#[inline]
fn amount(value: &[u8], most: u64) -> Result<u64, u8> {
    let (whole, after) = up_to_15_digits(value)?;
    let fraction = match *after {
        [] => Some(0),
        [b'.', tens] => two_digits(tens, b'0'),
        [b'.', tens, units] => two_digits(tens, units),
        _ => None,
    };
    let cents = whole * 100 + u64::from(fraction.ok_or(FORM)?);
    if cents == 0 || cents > most {
        return Err(RANGE);
    }
    Ok(cents)
}

/// An item's amount: "Item: 1 to 99,999,999,999 cents." Answers the cents.
#[inline]
pub fn item_amount(value: &[u8]) -> Result<u64, u8> {
    amount(value, ITEM_MOST)
}

/// The header's amount: "Header total: 1 to 99,999,999,999,999,999 cents." Answers the cents.
#[inline]
pub fn header_amount(value: &[u8]) -> Result<u64, u8> {
    amount(value, HEADER_MOST)
}

/// BIC: "six capitals; one of `A-Z 2-9`; one of `A-N P-Z 0-9`; then nothing or three of `A-Z 0-9`."
#[inline]
pub fn bic(value: &[u8]) -> Result<u64, u8> {
    let Some((&[ref party @ .., seventh, eighth], branch)) = value.split_first_chunk::<8>() else {
        return Err(FORM);
    };
    form(
        party.iter().all(u8::is_ascii_uppercase)
            && matches!(seventh, b'A'..=b'Z' | b'2'..=b'9')
            && matches!(eighth, b'A'..=b'N' | b'P'..=b'Z' | b'0'..=b'9')
            && matches!(branch.len(), 0 | 3)
            && branch.iter().all(is_capital_or_digit),
    )
}

/// BICFI, in version .08: "four of `A-Z 0-9`, two capitals, two of `A-Z 0-9`, then nothing or three
/// of `A-Z 0-9`."
#[inline]
pub fn bicfi(value: &[u8]) -> Result<u64, u8> {
    form(
        matches!(value.len(), 8 | 11)
            && value.iter().all(is_capital_or_digit)
            && value[4..6].iter().all(u8::is_ascii_uppercase),
    )
}

/// IBAN: "two capitals, two digits, then capitals or digits; 15 to 34 in all", then its country's
/// length: "19, wrong length or no such country, after 7 and before 8", and its check digits: "move
/// the first four characters to the end".
#[inline]
pub fn iban(value: &[u8]) -> Result<u64, u8> {
    if !(15..=34).contains(&value.len()) || !value[4..].iter().all(is_capital_or_digit) {
        return Err(FORM);
    }
    let head = country_and_digits(value)?;
    if value.len() != length_of([head[0], head[1]]) {
        return Err(COUNTRY_LENGTH);
    }
    check_digits(head, &value[4..])
}

/// How long an IBAN of this country is, in the order of the request: "the length or 0 for none".
#[inline]
pub(crate) fn length_of(country: [u8; 2]) -> usize {
    match &country {
        b"NO" => 15,
        b"BE" => 16,
        b"DK" | b"FI" | b"NL" => 18,
        b"SI" => 19,
        b"AT" | b"EE" | b"LT" | b"LU" => 20,
        b"CH" | b"HR" | b"LI" | b"LV" => 21,
        b"BG" | b"DE" | b"GB" | b"IE" | b"VA" => 22,
        b"GI" => 23,
        b"AD" | b"CZ" | b"ES" | b"RO" | b"SE" | b"SK" => 24,
        b"PT" => 25,
        b"IS" => 26,
        b"FR" | b"GR" | b"IT" | b"MC" | b"SM" => 27,
        b"CY" | b"HU" | b"PL" => 28,
        b"MT" => 31,
        _ => 0,
    }
}

/// Creditor identifier: "8 to 35; two capitals, two digits, three letters or digits, then the
/// reference set (no slash rule) with at least one letter or digit", and its check digits: "drop
/// positions 5 to 7, drop what is no letter or digit, move the first four to the end".
#[inline]
pub fn creditor_id(value: &[u8]) -> Result<u64, u8> {
    if !(8..=35).contains(&value.len()) {
        return Err(FORM);
    }
    let head = country_and_digits(value)?;
    let (business, national) = value[4..].split_at(3);
    if !business.iter().all(u8::is_ascii_alphanumeric)
        || !national.iter().all(|&byte| in_reference_set(byte))
        || !national.iter().any(u8::is_ascii_alphanumeric)
    {
        return Err(FORM);
    }
    check_digits(head, national)
}

/// "two capitals, two digits": the first four characters of an IBAN and of an identifier.
#[inline]
fn country_and_digits(value: &[u8]) -> Result<&[u8; 4], u8> {
    match value.first_chunk() {
        Some(head @ [b'A'..=b'Z', b'A'..=b'Z', b'0'..=b'9', b'0'..=b'9']) => Ok(head),
        _ => Err(FORM),
    }
}

/// Check digits (ISO 7064 MOD 97-10): the letters and digits of `body`, then `head`. "Write A to Z
/// (either case) as 10 to 35. The number leaves 1 when divided by 97, and the check digits are 02
/// to 98."
#[inline]
fn check_digits(head: &[u8; 4], body: &[u8]) -> Result<u64, u8> {
    let check = (head[2] - b'0') * 10 + (head[3] - b'0');
    let rest = head.iter().fold(body.iter().fold(0, append), append);
    if (2..=98).contains(&check) && rest % 97 == 1 {
        Ok(0)
    } else {
        Err(CHECK_DIGITS)
    }
}

/// A number that leaves the same rest by 97 as the one that is written when `byte` is written behind
/// `number`: two digits for a letter, one for a digit, none for another byte.
#[inline]
fn append(number: u64, byte: &u8) -> u64 {
    // 100 times this and 35 more is still a u64.
    const LARGEST: u64 = 100_000_000_000_000_000;
    let number = if number > LARGEST { number % 97 } else { number };
    match byte {
        b'0'..=b'9' => number * 10 + u64::from(byte - b'0'),
        b'A'..=b'Z' => number * 100 + u64::from(byte - b'A' + 10),
        b'a'..=b'z' => number * 100 + u64::from(byte - b'a' + 10),
        _ => number,
    }
}

/// The codes: one function for each element that has one.
pub mod code {
    use super::CODE;

    /// 10 for a code that is not on the list.
    #[inline]
    fn listed(is: bool) -> Result<u64, u8> {
        if is {
            Ok(0)
        } else {
            Err(CODE)
        }
    }

    /// "SttlmMtd `CLRG`"
    #[inline]
    pub fn settlement_method(value: &[u8]) -> Result<u64, u8> {
        listed(value == b"CLRG")
    }

    /// "SvcLvl `SEPA`"; "Prtry `SEPA`"
    #[inline]
    pub fn sepa(value: &[u8]) -> Result<u64, u8> {
        listed(value == b"SEPA")
    }

    /// "LclInstrm `CORE` or `B2B`"
    #[inline]
    pub fn local_instrument(value: &[u8]) -> Result<u64, u8> {
        listed(value == b"CORE" || value == b"B2B")
    }

    /// "SeqTp `FRST RCUR FNAL OOFF`"
    #[inline]
    pub fn sequence_type(value: &[u8]) -> Result<u64, u8> {
        listed(value == b"FRST" || value == b"RCUR" || value == b"FNAL" || value == b"OOFF")
    }

    /// "ChrgBr `SLEV`"
    #[inline]
    pub fn charge_bearer(value: &[u8]) -> Result<u64, u8> {
        listed(value == b"SLEV")
    }
}
