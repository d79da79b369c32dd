//! What several files come to, and which of them have one MsgId.

use crate::language::Language;
use crate::verdict::{Judged, Verdict};
use std::collections::HashMap;
use std::ffi::OsString;

/// What all files of a call come to.
#[derive(Default)]
pub struct Tally {
    pub files: u128,
    pub accepted: u128,
    pub refused: u128,
    pub items: u128,
    /// Wide enough for the totals of any number of files.
    pub cents: u128,
    /// The first file of each MsgId.
    msg_ids: HashMap<Vec<u8>, OsString>,
}

impl Tally {
    /// Counts a file, and tells it which earlier file has its MsgId.
    pub fn add(&mut self, judged: &mut Judged) {
        self.files += 1;
        match judged.verdict {
            Verdict::Accepted { count, cents } => {
                self.accepted += 1;
                self.items += u128::from(count);
                self.cents += u128::from(cents);
            }
            Verdict::Refused { .. } => self.refused += 1,
        }
        let msg_id = judged.contents.header.msg_id;
        if !msg_id.is_empty() {
            judged.same_msg_id = self.msg_ids.get(msg_id).cloned();
            self.msg_ids.entry(msg_id.to_vec()).or_insert_with(|| judged.name.to_owned());
        }
    }

    /// `3 files: 1 accepted (5 items, 2,024.90 EUR), 1 refused, 1 not read`.
    pub fn closing(&self, language: Language) -> String {
        let (items, euros) = (language.items(self.items), language.euros(self.cents));
        let Tally { files, accepted, refused, .. } = self;
        let unread = files - accepted - refused;
        let word = if *files == 1 { ("file", "Datei") } else { ("files", "Dateien") };
        let sum = if *accepted == 0 { String::new() } else { format!(" ({items}, {euros})") };
        let mut text = language.say(
            format!("{files} {}: {accepted} accepted{sum}, {refused} refused", word.0),
            format!("{files} {}: {accepted} angenommen{sum}, {refused} abgelehnt", word.1),
        );
        if unread > 0 {
            let not_read = language.say("not read", "nicht gelesen");
            text.push_str(&format!(", {unread} {not_read}"));
        }
        text.push('\n');
        text
    }
}
