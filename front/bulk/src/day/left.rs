//! What a call that was cut off leaves: a torn record, a message without its record, a message that
//! is not whole. None of them was answered.

use super::messages::{self, Others};
use super::record::RECORD;
use crate::language::Language;

#[derive(Clone, Debug, Default, PartialEq, Eq)]
pub struct Left {
    /// The bytes of a torn record.
    pub torn: Vec<u8>,
    /// The numbers of messages that no record has, in order.
    pub messages: Vec<u64>,
    /// The names of files that were being written.
    pub beside: Vec<String>,
    /// How many entries the whole records have.
    entries: u64,
}

impl Left {
    /// How many bytes at the end of a recording are those of a torn record: fewer than a record, or
    /// a record with a NUL in it. So a disk shows what it had made room for and not yet written.
    pub fn torn(recording: &[u8]) -> usize {
        match recording.len() % RECORD {
            0 => recording
                .last_chunk::<RECORD>()
                .filter(|last| last.contains(&0))
                .map_or(0, |_| RECORD),
            short => short,
        }
    }

    /// All that is left, beside so many entries.
    pub fn of(torn: Vec<u8>, entries: usize, others: Others) -> Left {
        let Others { messages, beside } = others;
        Left { torn, messages, beside, entries: entries as u64 }
    }

    /// Whether nothing is.
    pub fn is_empty(&self) -> bool {
        self.torn.is_empty() && self.messages.is_empty() && self.beside.is_empty()
    }

    /// Whether it is more than one cut-off call can leave: then records are missing.
    pub fn is_damage(&self) -> bool {
        self.messages.iter().any(|number| *number != self.entries)
    }

    /// In words, each thing by itself.
    pub fn words(&self, language: Language) -> Vec<String> {
        let mut words = Vec::new();
        if !self.torn.is_empty() {
            let (bytes, more) = (self.torn.len(), if self.torn.len() == 1 { "" } else { "s" });
            words.push(language.say(
                format!("a torn record of {bytes} byte{more} at the end of the recording"),
                format!("ein unvollständiger Satz von {bytes} Byte{more} am Ende der Aufzeichnung"),
            ));
        }
        for number in &self.messages {
            let name = messages::name(*number);
            words.push(language.say(
                format!("a message without its record, messages/{name}"),
                format!("eine Nachricht ohne ihren Satz, messages/{name}"),
            ));
        }
        for name in &self.beside {
            words.push(language.say(
                format!("a message that was being written, messages/{name}"),
                format!("eine nicht fertig geschriebene Nachricht, messages/{name}"),
            ));
        }
        words
    }
}

#[cfg(test)]
mod tests {
    use super::*;

    #[test]
    fn a_torn_record_is_short_or_has_a_nul() {
        for length in 0..200 {
            assert_eq!(Left::torn(&vec![b'E'; length]), length % RECORD);
        }
        for at in 64..128 {
            let mut two = [b'E'; 128];
            two[at] = 0;
            assert_eq!(Left::torn(&two), RECORD, "{at}");
        }
        let mut two = [b'E'; 128];
        two[63] = 0;
        assert_eq!(Left::torn(&two), 0);
    }
}
