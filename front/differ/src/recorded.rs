//! The question about records that are equal (request 9): "Two accepted items with equal records agree
//! in every field recorded, amounts as cents and EndToEndId as collapsed, an absent InstrId only with
//! an absent one."

use crate::ask::Asker;
use crate::damage::Case;
use crate::face::RECORD;
use crate::tally::Name;

/// So many items of each message are asked about.
const FEW: usize = 6;

impl Asker {
    /// Each item of a message beside each one of its twin: the library's records are equal exactly
    /// where the slow judge reads the same in every field recorded.
    pub fn equal_records(&mut self, name: &Name, case: &Case) {
        let Some(twin) = &case.twin else { return };
        let (bytes, other) = (&case.bytes, &twin.bytes);
        let (Ok(one), Ok(two)) = (self.slow.judge(bytes), self.slow.judge(other)) else { return };
        let fields = (self.slow.recorded(&one.said), self.slow.recorded(&two.said));
        let areas = (
            self.records_by_both(name, bytes, one.count).1,
            self.records_by_both(name, other, two.count).1,
        );
        for (i, record) in areas.0.chunks(RECORD).enumerate().take(FEW) {
            for (j, other) in areas.1.chunks(RECORD).enumerate().take(FEW) {
                let (is_equal, agree) = (record == other, fields.0[i] == fields.1[j]);
                let question = || format!("has item {i} the record of item {j} of its twin?");
                let (library, slow) = (("library", &is_equal), ("slow", &agree));
                self.tally.hold(name, &question, bytes, library, slow);
            }
        }
    }
}
