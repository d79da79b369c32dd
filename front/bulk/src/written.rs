//! The posting records and the plain form of an accepted message.

use crate::Disagreement;

/// The records of an accepted message with so many items.
pub fn records(message: &[u8], count: u64) -> Result<Vec<u8>, Disagreement> {
    let mut area = vec![0; face::RECORD * count as usize];
    match face::records(message, &mut area) {
        [0, written, _] if written == count => Ok(area),
        _ => Err(Disagreement),
    }
}

/// The plain form of an accepted message with so many items. It is longer than the message by a
/// declaration at most, and by `.00` for each amount.
pub fn plain(message: &[u8], count: u64) -> Result<Vec<u8>, Disagreement> {
    let mut area = vec![0; message.len() + DECLARATION + 3 * (count as usize + 1)];
    match face::plain(message, &mut area) {
        [0, length, _] if length <= area.len() as u64 => {
            area.truncate(length as usize);
            Ok(area)
        }
        _ => Err(Disagreement),
    }
}

/// The bytes of the declaration.
const DECLARATION: usize = 38;
