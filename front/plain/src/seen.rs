//! The TxIds of the items read so far: request 11, "no TxId twice in a bulk".
//!
//! An open table: a TxId is looked for from the slot that its mixed bytes name, slot by slot, until
//! it is found or a slot is empty. At least half of the slots stay empty.

use std::collections::hash_map::RandomState;
use std::hash::{BuildHasher, Hasher};

/// No item is shorter: its tags alone are longer.
pub const SHORTEST_ITEM: usize = 512;
/// An odd number with bits in all places.
const ODD: u64 = 0x9E37_79B9_7F4A_7C15;

/// The TxIds, each at most once. All its bytes decide.
pub struct Seen<'m> {
    /// In the order of the items.
    values: Vec<&'m [u8]>,
    /// 0, or the number of a value, from 1.
    slots: Vec<u32>,
    /// Nobody knows it beforehand, so nobody can choose TxIds that share a slot.
    seed: u64,
}

impl<'m> Seen<'m> {
    /// None yet, and room for those of a message of this length, which has at most so many items.
    pub fn of_message(length: usize, most_items: usize) -> Self {
        let items = most_items.min(length / SHORTEST_ITEM) + 1;
        Seen {
            values: Vec::with_capacity(items),
            slots: vec![0; (2 * items).next_power_of_two()],
            seed: RandomState::new().build_hasher().finish(),
        }
    }

    /// Takes a value in. Answers whether it is a new one.
    #[inline]
    pub fn insert(&mut self, value: &'m [u8]) -> bool {
        let last = self.slots.len() - 1;
        let mut slot = self.mixed(value) as usize & last;
        while let Some(number) = self.slots[slot].checked_sub(1) {
            if self.values[number as usize] == value {
                return false;
            }
            slot = (slot + 1) & last;
        }
        self.values.push(value);
        self.slots[slot] = self.values.len() as u32;
        true
    }

    /// All bytes of a value, mixed by words of eight; the last word may overlap the one before it.
    #[inline]
    fn mixed(&self, value: &[u8]) -> u64 {
        let mut mixed = self.seed ^ value.len() as u64;
        let mut words = value.chunks_exact(8);
        for word in &mut words {
            mixed = stirred(mixed ^ from_bytes(word));
        }
        let rest = words.remainder();
        if !rest.is_empty() {
            mixed = stirred(mixed ^ from_bytes(value.last_chunk::<8>().map_or(rest, |w| w)));
        }
        mixed
    }
}

/// At most eight bytes as a number.
#[inline]
fn from_bytes(bytes: &[u8]) -> u64 {
    match bytes.try_into() {
        Ok(word) => u64::from_le_bytes(word),
        Err(_) => bytes.iter().fold(0, |number, &byte| number << 8 | u64::from(byte)),
    }
}

/// Both halves of a product of 128 bits, so that every bit counts in all of them.
#[inline]
fn stirred(number: u64) -> u64 {
    let product = u128::from(number) * u128::from(ODD);
    product as u64 ^ (product >> 64) as u64
}
