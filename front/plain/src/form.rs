//! The plain form (document 02, request 2): "declaration, no white space between tags, count without
//! leading zeros, amounts with two decimals and no needless zeros, all other values as read". Since
//! request 4 it holds the collapsed EndToEndId, Nm and Ustrd.
//!
//! The message is accepted, so nothing is judged here. Between a start tag and the end tag that
//! follows it next stands a value, since no group is empty; between all other tags stands white
//! space or nothing.

use crate::message::DECLARATION;
use crate::value::collapsed;

/// Hands the plain form of an accepted message to `put`, part by part.
pub fn write(message: &[u8], mut put: impl FnMut(&[u8])) {
    put(DECLARATION);
    let mut rest = message.strip_prefix(DECLARATION).unwrap_or(message);
    while let Some(tag) = next_tag(&mut rest) {
        put(tag);
        let between = up_to_tag(rest);
        if !tag.starts_with(b"</") && rest[between.len()..].starts_with(b"</") {
            write_value(tag, between, &mut put);
        }
    }
}

/// The bytes up to the next `<`, or all.
fn up_to_tag(rest: &[u8]) -> &[u8] {
    &rest[..rest.iter().position(|&byte| byte == b'<').unwrap_or(rest.len())]
}

/// The next tag, from its `<` to its `>`. What stands before it is gone over.
fn next_tag<'m>(rest: &mut &'m [u8]) -> Option<&'m [u8]> {
    let from = &rest[up_to_tag(rest).len()..];
    let end = from.iter().position(|&byte| byte == b'>')? + 1;
    *rest = &from[end..];
    Some(&from[..end])
}

/// A value, as the plain form has it: the two amounts are those whose tag has a currency.
fn write_value(tag: &[u8], value: &[u8], put: &mut impl FnMut(&[u8])) {
    match tag {
        b"<NbOfTxs>" => put(without_zeros(value)),
        b"<EndToEndId>" | b"<Nm>" | b"<Ustrd>" => collapsed(value).for_each(|byte| put(&[byte])),
        _ if tag.ends_with(b" Ccy=\"EUR\">") => write_amount(value, put),
        _ => put(value),
    }
}

/// "count without leading zeros": the last digit stays, also where it is a zero.
fn without_zeros(digits: &[u8]) -> &[u8] {
    let zeros = digits.iter().take_while(|&&digit| digit == b'0').count();
    &digits[zeros.min(digits.len() - 1)..]
}

/// "amounts with two decimals and no needless zeros": `0.01` for a cent, `5.30` for `5.3`, `5.00`
/// for `0005`.
fn write_amount(value: &[u8], put: &mut impl FnMut(&[u8])) {
    let point = value.iter().position(|&byte| byte == b'.').unwrap_or(value.len());
    let decimals = value.get(point + 1..).unwrap_or(b"");
    put(without_zeros(&value[..point]));
    put(b".");
    put(decimals);
    put(&b"00"[decimals.len()..]);
}
