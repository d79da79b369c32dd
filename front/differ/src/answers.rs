//! Messages with the library's own answers, as bytes: for a test that asks the same of the library as it is
//! compiled for another machine (page/test).

use crate::face;
use std::io::{self, Write};

/// Writes one message and its answers. Numbers are little-endian: lengths of 32 bits, words of 64.
///
/// Its length and bytes; the words of the judge; how many items are asked for, and the words of each: all
/// of them, at most 20, and one that is not there; the length and the bytes of the records, and of the plain
/// form, none where it is refused.
pub fn write(out: &mut impl Write, message: &[u8]) -> io::Result<()> {
    let words = face::judge(message);
    bytes(out, message)?;
    answer(out, words)?;
    let count = if words[0] == 0 { words[1] } else { 0 };
    let asked: Vec<u64> = (0..count.min(20)).chain([count]).collect();
    out.write_all(&(asked.len() as u32).to_le_bytes())?;
    for i in asked {
        out.write_all(&i.to_le_bytes())?;
        answer(out, face::item(message, i))?;
    }
    let mut area = vec![0; face::RECORD * count as usize];
    face::records(message, &mut area);
    bytes(out, &area)?;
    let mut area = vec![0; message.len() + 38 + 3 * (count as usize + 1)];
    let length = match face::plain(message, &mut area) {
        [0, length, _] => length as usize,
        _ => 0,
    };
    bytes(out, &area[..length])
}

/// Some bytes, behind their length.
fn bytes(out: &mut impl Write, bytes: &[u8]) -> io::Result<()> {
    out.write_all(&(bytes.len() as u32).to_le_bytes())?;
    out.write_all(bytes)
}

/// The three words of an answer.
fn answer(out: &mut impl Write, words: face::Words) -> io::Result<()> {
    words.iter().try_for_each(|word| out.write_all(&word.to_le_bytes()))
}
