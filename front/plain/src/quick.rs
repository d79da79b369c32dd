//! A quick reader of one item, before the exact one of `message`.
//!
//! It answers an item or nothing, never a refusal. Where it answers nothing, the exact reader reads
//! the item again from its start, so every number and every place comes from that one. What is left to
//! see here is that all it takes would be taken there too:
//!
//! - Between two values stands a run: an end tag, right behind the value, and further tags, each after
//!   any white space. A run with the bytes of one that was read before at the same place of an item is
//!   read the same way again. Any other is read tag by tag.
//! - A value is everything up to the next `<`, and `usual` judges it.
//! - Codes with one word are tags of their runs. LclInstrm is one of them: the first item, which the
//!   exact reader reads, or the header says which word it must be.

use crate::message::{Identification, Item, PaymentType, Version};
use crate::usual::{Figures, Text};

/// The tags of a run. The first one stands right here, the others after any white space.
type Tags = &'static [&'static str];

/// The runs of an item, in their order, each named by the element whose value follows.
mod run {
    pub const INSTRUCTION: usize = 0;
    pub const END_TO_END_FIRST: usize = 1;
    pub const END_TO_END: usize = 2;
    pub const TRANSACTION: usize = 3;
    pub const SEQUENCE_TYPE: usize = 4;
    pub const AMOUNT: usize = 5;
    pub const COLLECTION_DATE: usize = 6;
    pub const MANDATE: usize = 7;
    pub const SIGNATURE_DATE: usize = 8;
    pub const CREDITOR_ID: usize = 9;
    pub const CREDITOR_NAME: usize = 10;
    pub const CREDITOR_IBAN: usize = 11;
    pub const CREDITOR_BIC: usize = 12;
    pub const DEBTOR_NAME: usize = 13;
    pub const DEBTOR_IBAN: usize = 14;
    pub const DEBTOR_BIC: usize = 15;
    pub const REMITTANCE: usize = 16;
    /// To the item's end, behind a remittance text.
    pub const END: usize = 17;
    /// To the item's end, where there is no such text.
    pub const END_AT_ONCE: usize = 18;
    pub const COUNT: usize = 19;
}

/// The runs of version .02, where each item has a PmtTpInf with LclInstrm CORE.
const RUNS: [Tags; run::COUNT] = [
    &["", "<PmtId>", "<InstrId>"],
    &["", "<PmtId>", "<EndToEndId>"],
    &["</InstrId>", "<EndToEndId>"],
    &["</EndToEndId>", "<TxId>"],
    TYPE_CORE,
    &["</SeqTp>", "</PmtTpInf>", AMOUNT],
    &["</IntrBkSttlmAmt>", "<ChrgBr>SLEV</ChrgBr>", "<ReqdColltnDt>"],
    &["</ReqdColltnDt>", "<DrctDbtTx>", "<MndtRltdInf>", "<MndtId>"],
    &["</MndtId>", "<DtOfSgntr>"],
    &["</DtOfSgntr>", "</MndtRltdInf>", "<CdtrSchmeId>", "<Id>", "<PrvtId>", "<Othr>", "<Id>"],
    &[
        "</Id>",
        "<SchmeNm>",
        "<Prtry>SEPA</Prtry>",
        "</SchmeNm>",
        "</Othr>",
        "</PrvtId>",
        "</Id>",
        "</CdtrSchmeId>",
        "</DrctDbtTx>",
        "<Cdtr>",
        "<Nm>",
    ],
    &["</Nm>", "</Cdtr>", "<CdtrAcct>", "<Id>", "<IBAN>"],
    &["</IBAN>", "</Id>", "</CdtrAcct>", "<CdtrAgt>", "<FinInstnId>", "<BIC>"],
    &["</BIC>", "</FinInstnId>", "</CdtrAgt>", "<Dbtr>", "<Nm>"],
    &["</Nm>", "</Dbtr>", "<DbtrAcct>", "<Id>", "<IBAN>"],
    &["</IBAN>", "</Id>", "</DbtrAcct>", "<DbtrAgt>", "<FinInstnId>", "<BIC>"],
    &["</BIC>", "</FinInstnId>", "</DbtrAgt>", "<RmtInf>", "<Ustrd>"],
    &["</Ustrd>", "</RmtInf>", "</DrctDbtTxInf>"],
    &["</BIC>", "</FinInstnId>", "</DbtrAgt>", "</DrctDbtTxInf>"],
];

/// Those of them that have a BIC, as version .08 has them.
const RUNS_08: [(usize, Tags); 5] = [
    (
        run::CREDITOR_BIC,
        &["</IBAN>", "</Id>", "</CdtrAcct>", "<CdtrAgt>", "<FinInstnId>", "<BICFI>"],
    ),
    (run::DEBTOR_NAME, &["</BICFI>", "</FinInstnId>", "</CdtrAgt>", "<Dbtr>", "<Nm>"]),
    (run::DEBTOR_BIC, &["</IBAN>", "</Id>", "</DbtrAcct>", "<DbtrAgt>", "<FinInstnId>", "<BICFI>"]),
    (run::REMITTANCE, &["</BICFI>", "</FinInstnId>", "</DbtrAgt>", "<RmtInf>", "<Ustrd>"]),
    (run::END_AT_ONCE, &["</BICFI>", "</FinInstnId>", "</DbtrAgt>", "</DrctDbtTxInf>"]),
];

const AMOUNT: &str = "<IntrBkSttlmAmt Ccy=\"EUR\">";
const TYPE_CORE: Tags = &[
    "</TxId>",
    "</PmtId>",
    "<PmtTpInf>",
    "<SvcLvl>",
    "<Cd>SEPA</Cd>",
    "</SvcLvl>",
    "<LclInstrm>",
    "<Cd>CORE</Cd>",
    "</LclInstrm>",
    "<SeqTp>",
];
const TYPE_B2B: Tags = &[
    "</TxId>",
    "</PmtId>",
    "<PmtTpInf>",
    "<SvcLvl>",
    "<Cd>SEPA</Cd>",
    "</SvcLvl>",
    "<LclInstrm>",
    "<Cd>B2B</Cd>",
    "</LclInstrm>",
    "<SeqTp>",
];
/// With PmtTpInf in the header, the amount follows the TxId.
const NO_TYPE: Tags = &["</TxId>", "</PmtId>", AMOUNT];

/// What the items of a message have in common, and the runs as they were last read.
pub struct Quick<'m, const ACCEPTED: bool> {
    version: Version,
    /// PmtTpInf, where it stands in the header.
    payment_type: Option<PaymentType<'m>>,
    /// The items' LclInstrm.
    instrument: &'m [u8],
    tags: [Tags; run::COUNT],
    known: [Option<&'m [u8]>; run::COUNT],
    /// What of the message is to be read.
    rest: &'m [u8],
}

/// Runs and values.
impl<'m, const ACCEPTED: bool> Quick<'m, ACCEPTED> {
    /// The reader of the items behind the first one, whose LclInstrm this is.
    pub fn new(
        version: Version,
        payment_type: Option<PaymentType<'m>>,
        instrument: &'m [u8],
    ) -> Self {
        let mut tags = RUNS;
        if let Version::V08 = version {
            RUNS_08.iter().for_each(|&(run, of_08)| tags[run] = of_08);
        }
        match payment_type {
            Some(_) => tags[run::AMOUNT] = NO_TYPE,
            None if instrument == b"B2B" => tags[run::SEQUENCE_TYPE] = TYPE_B2B,
            None => {}
        }
        Quick { version, payment_type, instrument, tags, known: [None; run::COUNT], rest: &[] }
    }

    /// A run that must come here.
    #[inline]
    fn run(&mut self, run: usize) -> Option<()> {
        self.known_run(run).or_else(|| self.tag_by_tag(run))
    }

    /// The one run or the other. Answers whether it is the one.
    #[inline]
    fn either(&mut self, one: usize, other: usize) -> Option<bool> {
        if self.known_run(one).is_some() {
            return Some(true);
        }
        if self.known_run(other).is_some() {
            return Some(false);
        }
        if self.tag_by_tag(one).is_some() {
            return Some(true);
        }
        self.tag_by_tag(other).map(|()| false)
    }

    /// A run with the bytes that it had last.
    #[inline]
    fn known_run(&mut self, run: usize) -> Option<()> {
        self.rest = self.rest.strip_prefix(self.known[run]?)?;
        Some(())
    }

    /// A run by its tags, which is known from now on.
    #[inline(never)]
    fn tag_by_tag(&mut self, run: usize) -> Option<()> {
        let (first, others) = self.tags[run].split_first()?;
        let mut rest = self.rest.strip_prefix(first.as_bytes())?;
        for tag in others {
            while let [b' ' | b'\t' | b'\r' | b'\n', after @ ..] = rest {
                rest = after;
            }
            rest = rest.strip_prefix(tag.as_bytes())?;
        }
        self.known[run] = Some(&self.rest[..self.rest.len() - rest.len()]);
        self.rest = rest;
        Some(())
    }

    /// A text of this kind; of an accepted message it is taken as it lies.
    #[inline]
    fn text(&mut self, kind: impl Fn(&Text<'m>) -> bool) -> Option<&'m [u8]> {
        let (value, rest) = Text::first_of(self.rest)?;
        self.rest = rest;
        (ACCEPTED || kind(&value)).then_some(value.bytes)
    }

    /// Figures of this kind; of an accepted message they are taken as they lie.
    #[inline]
    fn figures(&mut self, kind: impl Fn(&Figures<'m>) -> bool) -> Option<&'m [u8]> {
        let (value, rest) = Figures::first_of(self.rest)?;
        self.rest = rest;
        (ACCEPTED || kind(&value)).then_some(value.bytes)
    }
}

/// The elements.
impl<'m, const ACCEPTED: bool> Quick<'m, ACCEPTED> {
    /// The item from behind its start tag, and what follows it.
    #[inline]
    pub fn item(&mut self, start: usize, rest: &'m [u8]) -> Option<(Item<'m>, &'m [u8])> {
        self.rest = rest;
        let (instruction, end_to_end, transaction) = self.identification()?;
        let payment_type = self.type_of_item()?;
        let (amount, rest) = Figures::first_of(self.rest)?;
        self.rest = rest;
        let cents = amount.cents()?;
        self.run(run::COLLECTION_DATE)?;
        let collection_date = self.figures(Figures::is_date)?;
        let [mandate, signature_date, creditor_id] = self.direct_debit()?;
        let (creditor_iban, creditor_bic) = self.creditor()?;
        let (debtor_iban, debtor_bic) = self.debtor()?;
        let item = Item {
            start,
            end: start,
            transaction,
            end_to_end,
            mandate,
            debtor_iban,
            creditor_iban,
            debtor_bic,
            cents,
            collection_date,
            sequence_type: payment_type.sequence,
            creditor_id,
            creditor_bic,
            instruction,
            instrument: payment_type.instrument,
            signature_date,
        };
        Some((item, self.rest))
    }

    /// "PmtId: InstrId (0 or 1), EndToEndId, TxId". That the TxId is a new one is not looked at here.
    #[inline]
    fn identification(&mut self) -> Option<Identification<'m>> {
        let mut instruction = None;
        if self.either(run::INSTRUCTION, run::END_TO_END_FIRST)? {
            instruction = Some(self.text(Text::is_reference)?);
            self.run(run::END_TO_END)?;
        }
        let end_to_end = self.text(Text::is_end_to_end)?;
        self.run(run::TRANSACTION)?;
        let transaction = self.text(Text::is_reference)?;
        Some((instruction, end_to_end, transaction))
    }

    /// PmtTpInf of an item, or the header's, up to the amount.
    #[inline]
    fn type_of_item(&mut self) -> Option<PaymentType<'m>> {
        let payment_type = match self.payment_type {
            Some(payment_type) => payment_type,
            None => {
                self.run(run::SEQUENCE_TYPE)?;
                let sequence = self.figures(Figures::is_sequence_type)?;
                PaymentType { instrument: self.instrument, sequence }
            }
        };
        self.run(run::AMOUNT)?;
        Some(payment_type)
    }

    /// "DrctDbtTx: MndtRltdInf (MndtId, DtOfSgntr), then CdtrSchmeId/Id/PrvtId/Othr (Id, ..". Answers
    /// the three.
    #[inline]
    fn direct_debit(&mut self) -> Option<[&'m [u8]; 3]> {
        self.run(run::MANDATE)?;
        let mandate = self.text(Text::is_reference)?;
        self.run(run::SIGNATURE_DATE)?;
        let signature_date = self.figures(Figures::is_date)?;
        self.run(run::CREDITOR_ID)?;
        let identifier = self.figures(Figures::is_creditor_id)?;
        Some([mandate, signature_date, identifier])
    }

    /// "Cdtr/Nm, CdtrAcct/Id/IBAN, CdtrAgt/FinInstnId/BIC". Answers the last two.
    #[inline]
    fn creditor(&mut self) -> Option<(&'m [u8], &'m [u8])> {
        self.run(run::CREDITOR_NAME)?;
        self.text(Text::is_text70)?;
        self.run(run::CREDITOR_IBAN)?;
        let account = self.figures(Figures::is_iban)?;
        self.run(run::CREDITOR_BIC)?;
        let agent = self.agent()?;
        Some((account, agent))
    }

    /// "Dbtr/Nm, DbtrAcct/Id/IBAN, DbtrAgt/FinInstnId/BIC", answers the last two; then "RmtInf/Ustrd (0
    /// or 1)", and the item's end.
    #[inline]
    fn debtor(&mut self) -> Option<(&'m [u8], &'m [u8])> {
        self.run(run::DEBTOR_NAME)?;
        self.text(Text::is_text70)?;
        self.run(run::DEBTOR_IBAN)?;
        let account = self.figures(Figures::is_iban)?;
        self.run(run::DEBTOR_BIC)?;
        let agent = self.agent()?;
        if self.either(run::REMITTANCE, run::END_AT_ONCE)? {
            self.text(Text::is_text140)?;
            self.run(run::END)?;
        }
        Some((account, agent))
    }

    /// The BIC of an agent, by the version.
    #[inline]
    fn agent(&mut self) -> Option<&'m [u8]> {
        match self.version {
            Version::V02 => self.figures(Figures::is_bic),
            Version::V08 => self.figures(Figures::is_bicfi),
        }
    }
}
