//! The posting record: "no file header, every unused byte a space"; since request 9 "a record has 320
//! bytes".

use crate::message::Item;
use crate::value::collapsed;

/// The bytes of one record. The other crates have it from `face`; this one takes nothing from there.
pub const LENGTH: usize = 320;

/// Writes one record: "TxId 35, EndToEndId 35, MndtId 35, debtor IBAN 34, creditor IBAN 34, debtor
/// agent BIC 11, item cents as 11 digits, ReqdColltnDt 10, SeqTp 4, creditor identifier 35, creditor
/// agent BIC 11". Since request 4 "the record and the plain form hold the collapsed value"; since
/// request 9 come behind these "bytes 0 to 254" the "InstrId 35 (spaces if absent), LclInstrm 4 (from
/// wherever it stands), DtOfSgntr 10, 15 spaces, LF".
#[inline]
pub fn write(record: &mut [u8], item: &Item) {
    record.fill(b' ');
    put(record, 0, item.transaction);
    put_collapsed(record, 35, item.end_to_end);
    put(record, 70, item.mandate);
    put(record, 105, item.debtor_iban);
    put(record, 139, item.creditor_iban);
    put(record, 173, item.debtor_bic);
    put_cents(&mut record[184..195], item.cents);
    put(record, 195, item.collection_date);
    put(record, 205, item.sequence_type);
    put(record, 209, item.creditor_id);
    put(record, 244, item.creditor_bic);
    put(record, 255, item.instruction.unwrap_or(b""));
    put(record, 290, item.instrument);
    put(record, 294, item.signature_date);
    record[319] = b'\n';
}

/// A field, from its offset on.
#[inline]
fn put(record: &mut [u8], at: usize, value: &[u8]) {
    record[at..at + value.len()].copy_from_slice(value);
}

/// A field that collapses, from its offset on.
#[inline]
fn put_collapsed(record: &mut [u8], at: usize, value: &[u8]) {
    for (place, byte) in record[at..].iter_mut().zip(collapsed(value)) {
        *place = byte;
    }
}

/// "item cents as 11 digits"
#[inline]
fn put_cents(field: &mut [u8], mut cents: u64) {
    for digit in field.iter_mut().rev() {
        *digit = b'0' + (cents % 10) as u8;
        cents /= 10;
    }
}
