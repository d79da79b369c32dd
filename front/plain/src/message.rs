//! The message as bytes: a cursor that takes tags and values, and the elements in their order.

use crate::quick::Quick;
use crate::seen::Seen;
use crate::value::{
    bic, bicfi, code, count, creditor_id, date, end_to_end, header_amount, iban, item_amount,
    number, reference, text140, text70, time,
};

/// A refusal: "Each gives its number and a place".
pub type Refusal = (u8, usize);

/// "1: over 16,777,216 bytes"
pub const LONGEST: usize = 16_777_216;
/// "12: item 10,001 begins"
const MOST_ITEMS: usize = 10_000;

pub const DECLARATION: &[u8; 38] = br#"<?xml version="1.0" encoding="UTF-8"?>"#;
const ROOT_02: &[u8; 65] = br#"<Document xmlns="urn:iso:std:iso:20022:tech:xsd:pacs.003.001.02">"#;
const ROOT_08: &[u8; 65] = br#"<Document xmlns="urn:iso:std:iso:20022:tech:xsd:pacs.003.001.08">"#;
const ITEM: &[u8; 14] = b"<DrctDbtTxInf>";
const ITEM_END: &[u8; 15] = b"</DrctDbtTxInf>";
const PAYMENT_TYPE: &[u8; 10] = b"<PmtTpInf>";

/// "A message is read as the version its root names". It decides the BIC elements alone.
#[derive(Clone, Copy)]
pub enum Version {
    /// pacs.003.001.02
    V02,
    /// pacs.003.001.08
    V08,
}

/// What the end of the message is held against, and what its items are.
struct Header<'m> {
    count: u64,
    count_place: usize,
    total: u64,
    total_place: usize,
    /// PmtTpInf, where it stands in the header.
    payment_type: Option<PaymentType<'m>>,
}

/// What a record takes of PmtTpInf.
#[derive(Clone, Copy)]
pub struct PaymentType<'m> {
    /// LclInstrm.
    pub instrument: &'m [u8],
    /// SeqTp.
    pub sequence: &'m [u8],
}

/// What the items read so far leave for those that follow.
struct Before<'m> {
    /// The first item's LclInstrm.
    instrument: Option<&'m [u8]>,
    /// The TxIds. Each is looked up by all its bytes.
    transactions: Seen<'m>,
    /// The running sum.
    sum: u64,
}

/// InstrId, where there is one, EndToEndId and TxId.
pub type Identification<'m> = (Option<&'m [u8]>, &'m [u8], &'m [u8]);

/// One item: where it lies, and what its record takes of it.
#[derive(Debug, PartialEq)]
pub struct Item<'m> {
    /// The place of the `<` of its start tag.
    pub start: usize,
    /// The place after the `>` of its end tag.
    pub end: usize,
    pub transaction: &'m [u8],
    /// As it lies in the message: not collapsed.
    pub end_to_end: &'m [u8],
    pub mandate: &'m [u8],
    pub debtor_iban: &'m [u8],
    pub creditor_iban: &'m [u8],
    pub debtor_bic: &'m [u8],
    pub cents: u64,
    pub collection_date: &'m [u8],
    /// The item's own, or the header's.
    pub sequence_type: &'m [u8],
    pub creditor_id: &'m [u8],
    pub creditor_bic: &'m [u8],
    /// Nothing where it is absent.
    pub instruction: Option<&'m [u8]>,
    /// The item's own, or the header's.
    pub instrument: &'m [u8],
    pub signature_date: &'m [u8],
}

/// A value that was judged: its bytes, the place of its first byte, and its worth (a number, cents,
/// or 0).
struct Value<'m> {
    bytes: &'m [u8],
    place: usize,
    worth: u64,
}

/// Reads a whole message, hands on each item with its number (from 0) as soon as it is read, and
/// answers the count and the cents. "Rule 1 comes first. Then reading goes left to right and the
/// first fault met ends it."
///
/// `ACCEPTED` says that this message was read before and accepted: its values are then taken without
/// being judged again (the amounts, whose worth is wanted, are).
///
/// `QUICK` says that each item but the first is given to the quick reader before the exact one. The
/// answer is the same.
pub fn read<'m, const ACCEPTED: bool, const QUICK: bool>(
    message: &'m [u8],
    mut each: impl FnMut(usize, &Item<'m>),
) -> Result<(u64, u64), Refusal> {
    if message.len() > LONGEST {
        return Err((number::TOO_LONG, 0));
    }
    let mut cursor =
        Cursor::<ACCEPTED> { length: message.len(), rest: message, version: Version::V02 };
    cursor.version = cursor.opening()?;
    cursor.tag(b"<FIToFICstmrDrctDbt>")?;
    let header = cursor.group_header()?;

    let mut items = 0;
    let transactions = Seen::of_message(message.len(), MOST_ITEMS);
    let mut before = Before { instrument: None, transactions, sum: 0 };
    let mut quick = None;
    let mut next = Some(cursor.tag(ITEM)?);
    while let Some(start) = next {
        if items == MOST_ITEMS {
            return Err((number::TOO_MANY, start));
        }
        let item = match cursor.quick_item(start, &mut quick, &mut before) {
            Some(item) => item,
            None => cursor.item(start, &header, &mut before)?,
        };
        if QUICK && quick.is_none() {
            quick = Some(Quick::new(cursor.version, header.payment_type, item.instrument));
        }
        each(items, &item);
        items += 1;
        next = cursor.first_of(ITEM, b"</FIToFICstmrDrctDbt>")?;
    }

    cursor.ending(&header, items as u64, before.sum)?;
    Ok((items as u64, before.sum))
}

/// The message from the place where reading stands.
struct Cursor<'m, const ACCEPTED: bool> {
    length: usize,
    rest: &'m [u8],
    /// Once the root is read.
    version: Version,
}

/// Bytes, tags and values.
impl<'m, const ACCEPTED: bool> Cursor<'m, ACCEPTED> {
    /// The place where reading stands.
    #[inline]
    fn place(&self) -> usize {
        self.length - self.rest.len()
    }

    /// "White space is space, tab, CR and LF."
    #[inline]
    fn white_space(&mut self) {
        while let [b' ' | b'\t' | b'\r' | b'\n', rest @ ..] = self.rest {
            self.rest = rest;
        }
    }

    /// Fixed bytes, here and now; `else_number` where they are other ones.
    #[inline]
    fn fixed<const N: usize>(&mut self, due: &[u8; N], else_number: u8) -> Result<(), Refusal> {
        match self.rest.strip_prefix(due) {
            Some(rest) => {
                self.rest = rest;
                Ok(())
            }
            None => Err(self.not_due(&[due], else_number)),
        }
    }

    /// "Where fixed bytes are due and the message ends after matching the beginning of any allowed
    /// choice, it is 3, also with no byte left."
    #[cold]
    fn not_due(&self, choices: &[&[u8]], else_number: u8) -> Refusal {
        if choices.iter().any(|choice| choice.starts_with(self.rest)) {
            (number::ENDS, self.length)
        } else {
            (else_number, self.place())
        }
    }

    /// The tag of a group's child or end, "after any white space allowed there". Answers the place
    /// of its `<`.
    #[inline]
    fn tag<const N: usize>(&mut self, tag: &[u8; N]) -> Result<usize, Refusal> {
        self.white_space();
        let place = self.place();
        self.fixed(tag, number::TAG)?;
        Ok(place)
    }

    /// The one tag or the other. Answers the place of the one's `<`, nothing for the other.
    #[inline]
    fn first_of<const N: usize, const M: usize>(
        &mut self,
        one: &[u8; N],
        other: &[u8; M],
    ) -> Result<Option<usize>, Refusal> {
        self.white_space();
        let place = self.place();
        if let Some(rest) = self.rest.strip_prefix(one) {
            self.rest = rest;
            Ok(Some(place))
        } else if let Some(rest) = self.rest.strip_prefix(other) {
            self.rest = rest;
            Ok(None)
        } else {
            Err(self.not_due(&[one, other], number::TAG))
        }
    }

    /// "An amount's start tag is `<Name Ccy="`, three capitals, `">`; 6 comes when the tag is
    /// complete."
    #[inline]
    fn amount_tag<const N: usize>(&mut self, name_and_ccy: &[u8; N]) -> Result<(), Refusal> {
        let place = self.tag(name_and_ccy)?;
        match self.rest.strip_prefix(b"EUR\">") {
            Some(rest) => {
                self.rest = rest;
                Ok(())
            }
            None => Err(self.not_euro(place)),
        }
    }

    /// Why the bytes after `Ccy="` of the tag at `place` are not `EUR">`.
    #[cold]
    fn not_euro(&self, place: usize) -> Refusal {
        for at in 0..5 {
            let holds = match (at, self.rest.get(at)) {
                (_, None) => return (number::ENDS, self.length),
                (0..=2, Some(byte)) => byte.is_ascii_uppercase(),
                (3, Some(byte)) => *byte == b'"',
                (_, Some(byte)) => *byte == b'>',
            };
            if !holds {
                return (number::TAG, place);
            }
        }
        (number::CURRENCY, self.place())
    }

    /// "A value is everything up to the next `<`; no such byte gives 3. Then its kind is judged".
    #[inline]
    fn value(&mut self, kind: impl Fn(&[u8]) -> Result<u64, u8>) -> Result<Value<'m>, Refusal> {
        let place = self.place();
        let Some(end) = self.rest.iter().position(|&byte| byte == b'<') else {
            return Err((number::ENDS, self.length));
        };
        let (bytes, rest) = self.rest.split_at(end);
        let worth = match kind(bytes) {
            Ok(worth) => worth,
            Err(number) => return Err((number, place)),
        };
        self.rest = rest;
        Ok(Value { bytes, place, worth })
    }

    /// The value's end tag (3 or 4): "beside a value [white space] counts as part of that value".
    #[inline]
    fn end_tag<const N: usize>(&mut self, tag: &[u8; N]) -> Result<(), Refusal> {
        self.fixed(tag, number::TAG)
    }

    /// A value whose worth is not wanted: of an accepted message it is taken as it lies.
    #[inline]
    fn judged(&mut self, kind: impl Fn(&[u8]) -> Result<u64, u8>) -> Result<Value<'m>, Refusal> {
        self.value(|bytes| if ACCEPTED { Ok(0) } else { kind(bytes) })
    }

    /// What stands between a value's start tag, already taken, and the end of its end tag.
    #[inline]
    fn value_and_end<const N: usize>(
        &mut self,
        kind: impl Fn(&[u8]) -> Result<u64, u8>,
        end: &[u8; N],
    ) -> Result<Value<'m>, Refusal> {
        let value = self.judged(kind)?;
        self.end_tag(end)?;
        Ok(value)
    }

    /// An element with a value: start tag, value, end tag.
    #[inline]
    fn element<const N: usize, const M: usize>(
        &mut self,
        start: &[u8; N],
        kind: impl Fn(&[u8]) -> Result<u64, u8>,
        end: &[u8; M],
    ) -> Result<Value<'m>, Refusal> {
        self.tag(start)?;
        self.value_and_end(kind, end)
    }
}

/// The elements, in the paper's "indented order, 1 each unless marked".
impl<'m, const ACCEPTED: bool> Cursor<'m, ACCEPTED> {
    /// "A message may start with exactly `<?xml version="1.0" encoding="UTF-8"?>`. Then comes
    /// `<Document ..>`"; white space "may stand after the declaration"; "without a declaration it may
    /// stand before the root". Answers the version; "a root of neither is 2".
    fn opening(&mut self) -> Result<Version, Refusal> {
        if self.rest.starts_with(b"<?") {
            self.fixed(DECLARATION, number::ROOT)?;
        }
        self.white_space();
        for (root, version) in [(ROOT_02, Version::V02), (ROOT_08, Version::V08)] {
            if let Some(rest) = self.rest.strip_prefix(root) {
                self.rest = rest;
                return Ok(version);
            }
        }
        Err(self.not_due(&[ROOT_02, ROOT_08], number::ROOT))
    }

    /// "After `</Document>`: 16, 14, 15", for a message of so many items and this sum.
    fn ending(&mut self, header: &Header<'m>, items: u64, sum: u64) -> Result<(), Refusal> {
        self.tag(b"</Document>")?;
        self.white_space();
        if !self.rest.is_empty() {
            return Err((number::AFTER, self.place()));
        }
        if header.count != items {
            return Err((number::COUNT, header.count_place));
        }
        if header.total != sum {
            return Err((number::TOTAL, header.total_place));
        }
        Ok(())
    }

    /// "GrpHdr: MsgId, CreDtTm, NbOfTxs, TtlIntrBkSttlmAmt, IntrBkSttlmDt, SttlmInf/SttlmMtd,
    /// InstgAgt/FinInstnId/BIC". Since request 6 PmtTpInf "may stand there after SttlmInf".
    fn group_header(&mut self) -> Result<Header<'m>, Refusal> {
        self.tag(b"<GrpHdr>")?;
        self.element(b"<MsgId>", reference, b"</MsgId>")?;
        self.element(b"<CreDtTm>", time, b"</CreDtTm>")?;

        self.tag(b"<NbOfTxs>")?;
        let count = self.value(count)?;
        self.end_tag(b"</NbOfTxs>")?;

        self.amount_tag(b"<TtlIntrBkSttlmAmt Ccy=\"")?;
        let total = self.value(header_amount)?;
        self.end_tag(b"</TtlIntrBkSttlmAmt>")?;

        self.element(b"<IntrBkSttlmDt>", date, b"</IntrBkSttlmDt>")?;

        self.tag(b"<SttlmInf>")?;
        self.element(b"<SttlmMtd>", code::settlement_method, b"</SttlmMtd>")?;
        self.tag(b"</SttlmInf>")?;

        let mut payment_type = None;
        if self.first_of(PAYMENT_TYPE, b"<InstgAgt>")?.is_some() {
            // "With it in the header, rule 11 has nothing to compare".
            payment_type = Some(self.payment_type(&mut None)?);
            self.tag(b"<InstgAgt>")?;
        }
        self.financial_institution()?;
        self.tag(b"</InstgAgt>")?;

        self.tag(b"</GrpHdr>")?;
        Ok(Header {
            count: count.worth,
            count_place: count.place,
            total: total.worth,
            total_place: total.place,
            payment_type,
        })
    }

    /// An item by the quick reader, if there is one and it can tell. Nothing is changed where not.
    #[inline]
    fn quick_item(
        &mut self,
        start: usize,
        quick: &mut Option<Quick<'m, ACCEPTED>>,
        before: &mut Before<'m>,
    ) -> Option<Item<'m>> {
        let (item, rest) = quick.as_mut()?.item(start, self.rest)?;
        // A TxId that stands twice is left to the exact reader, which gives 24.
        if !ACCEPTED && !before.transactions.insert(item.transaction) {
            return None;
        }
        before.sum += item.cents;
        self.rest = rest;
        Some(Item { end: self.place(), ..item })
    }

    /// "DrctDbtTxInf (1 or more)", from behind its start tag at `start`, with what the items before it
    /// left.
    #[inline]
    fn item(
        &mut self,
        start: usize,
        header: &Header<'m>,
        before: &mut Before<'m>,
    ) -> Result<Item<'m>, Refusal> {
        let (instruction, end_to_end, transaction) =
            self.payment_identification(&mut before.transactions)?;
        let payment_type = self.type_of_item(header, &mut before.instrument)?;
        let cents = self.amount(&mut before.sum)?;
        self.element(b"<ChrgBr>", code::charge_bearer, b"</ChrgBr>")?;
        let collection_date = self.element(b"<ReqdColltnDt>", date, b"</ReqdColltnDt>")?.bytes;
        let [mandate, signature_date, creditor_id] = self.direct_debit()?;
        let (creditor_iban, creditor_bic) = self.creditor()?;
        let (debtor_iban, debtor_bic) = self.debtor()?;
        self.remittance_and_end()?;
        Ok(Item {
            start,
            end: self.place(),
            transaction,
            end_to_end,
            mandate,
            debtor_iban,
            creditor_iban,
            debtor_bic,
            cents,
            collection_date,
            sequence_type: payment_type.sequence,
            creditor_id,
            creditor_bic,
            instruction,
            instrument: payment_type.instrument,
            signature_date,
        })
    }

    /// "PmtId: InstrId (0 or 1), EndToEndId, TxId". Answers the three. Since request 11 it is 24 "if two
    /// items have equal TxId bytes .., at the earliest second one", "after 7 of that TxId, place its first
    /// byte".
    #[inline]
    fn payment_identification(
        &mut self,
        transactions: &mut Seen<'m>,
    ) -> Result<Identification<'m>, Refusal> {
        self.tag(b"<PmtId>")?;
        let mut instruction = None;
        if self.first_of(b"<InstrId>", b"<EndToEndId>")?.is_some() {
            instruction = Some(self.value_and_end(reference, b"</InstrId>")?.bytes);
            self.tag(b"<EndToEndId>")?;
        }
        let end_to_end = self.value_and_end(end_to_end, b"</EndToEndId>")?.bytes;
        self.tag(b"<TxId>")?;
        let transaction = self.judged(reference)?;
        if !ACCEPTED && !transactions.insert(transaction.bytes) {
            return Err((number::TRANSACTION_AGAIN, transaction.place));
        }
        self.end_tag(b"</TxId>")?;
        self.tag(b"</PmtId>")?;
        Ok((instruction, end_to_end, transaction.bytes))
    }

    /// PmtTpInf of an item, or nothing where the header has one: "and then no item has it; otherwise
    /// every item has it". Answers it "from wherever it stands".
    #[inline]
    fn type_of_item(
        &mut self,
        header: &Header<'m>,
        instrument: &mut Option<&'m [u8]>,
    ) -> Result<PaymentType<'m>, Refusal> {
        let Some(payment_type) = header.payment_type else {
            self.tag(PAYMENT_TYPE)?;
            return self.payment_type(instrument);
        };
        // "23, an item's complete PmtTpInf tag though the header has one, at its `<` (cut short, 3)".
        self.white_space();
        if self.rest.starts_with(PAYMENT_TYPE) {
            return Err((number::TYPE_AGAIN, self.place()));
        }
        if PAYMENT_TYPE.starts_with(self.rest) {
            return Err((number::ENDS, self.length));
        }
        Ok(payment_type)
    }

    /// "PmtTpInf: SvcLvl/Cd, LclInstrm/Cd, SeqTp", from behind its start tag. Answers the last two.
    #[inline]
    fn payment_type(
        &mut self,
        instrument: &mut Option<&'m [u8]>,
    ) -> Result<PaymentType<'m>, Refusal> {
        self.tag(b"<SvcLvl>")?;
        self.element(b"<Cd>", code::sepa, b"</Cd>")?;
        self.tag(b"</SvcLvl>")?;

        // "11: LclInstrm differs from the first item's"
        self.tag(b"<LclInstrm>")?;
        self.tag(b"<Cd>")?;
        let local = self.value(code::local_instrument)?;
        if *instrument.get_or_insert(local.bytes) != local.bytes {
            return Err((number::INSTRUMENT, local.place));
        }
        self.end_tag(b"</Cd>")?;
        self.tag(b"</LclInstrm>")?;

        let sequence = self.element(b"<SeqTp>", code::sequence_type, b"</SeqTp>")?.bytes;
        self.tag(b"</PmtTpInf>")?;
        Ok(PaymentType { instrument: local.bytes, sequence })
    }

    /// "IntrBkSttlmAmt". Answers the cents and adds them to the running sum.
    #[inline]
    fn amount(&mut self, sum: &mut u64) -> Result<u64, Refusal> {
        self.amount_tag(b"<IntrBkSttlmAmt Ccy=\"")?;
        let amount = self.value(item_amount)?;
        // "Ten thousand items of at most 99,999,999,999 cents stay below the header's upper range."
        *sum += amount.worth;
        self.end_tag(b"</IntrBkSttlmAmt>")?;
        Ok(amount.worth)
    }

    /// "DrctDbtTx: MndtRltdInf (MndtId, DtOfSgntr), then CdtrSchmeId/Id/PrvtId/Othr (Id,
    /// SchmeNm/Prtry)". Answers the mandate, its date and the creditor identifier.
    #[inline]
    fn direct_debit(&mut self) -> Result<[&'m [u8]; 3], Refusal> {
        self.tag(b"<DrctDbtTx>")?;
        self.tag(b"<MndtRltdInf>")?;
        let mandate = self.element(b"<MndtId>", reference, b"</MndtId>")?.bytes;
        let signature_date = self.element(b"<DtOfSgntr>", date, b"</DtOfSgntr>")?.bytes;
        self.tag(b"</MndtRltdInf>")?;

        self.tag(b"<CdtrSchmeId>")?;
        self.tag(b"<Id>")?;
        self.tag(b"<PrvtId>")?;
        self.tag(b"<Othr>")?;
        let identifier = self.element(b"<Id>", creditor_id, b"</Id>")?.bytes;
        self.tag(b"<SchmeNm>")?;
        self.element(b"<Prtry>", code::sepa, b"</Prtry>")?;
        self.tag(b"</SchmeNm>")?;
        self.tag(b"</Othr>")?;
        self.tag(b"</PrvtId>")?;
        self.tag(b"</Id>")?;
        self.tag(b"</CdtrSchmeId>")?;
        self.tag(b"</DrctDbtTx>")?;
        Ok([mandate, signature_date, identifier])
    }

    /// "Cdtr/Nm, CdtrAcct/Id/IBAN, CdtrAgt/FinInstnId/BIC". Answers the last two.
    #[inline]
    fn creditor(&mut self) -> Result<(&'m [u8], &'m [u8]), Refusal> {
        self.tag(b"<Cdtr>")?;
        self.element(b"<Nm>", text70, b"</Nm>")?;
        self.tag(b"</Cdtr>")?;
        self.tag(b"<CdtrAcct>")?;
        let account = self.account()?;
        self.tag(b"</CdtrAcct>")?;
        self.tag(b"<CdtrAgt>")?;
        let agent = self.financial_institution()?;
        self.tag(b"</CdtrAgt>")?;
        Ok((account, agent))
    }

    /// "Dbtr/Nm, DbtrAcct/Id/IBAN, DbtrAgt/FinInstnId/BIC". Answers the last two.
    #[inline]
    fn debtor(&mut self) -> Result<(&'m [u8], &'m [u8]), Refusal> {
        self.tag(b"<Dbtr>")?;
        self.element(b"<Nm>", text70, b"</Nm>")?;
        self.tag(b"</Dbtr>")?;
        self.tag(b"<DbtrAcct>")?;
        let account = self.account()?;
        self.tag(b"</DbtrAcct>")?;
        self.tag(b"<DbtrAgt>")?;
        let agent = self.financial_institution()?;
        self.tag(b"</DbtrAgt>")?;
        Ok((account, agent))
    }

    /// "RmtInf/Ustrd (0 or 1)", and the item's end.
    #[inline]
    fn remittance_and_end(&mut self) -> Result<(), Refusal> {
        if self.first_of(b"<RmtInf>", ITEM_END)?.is_some() {
            self.element(b"<Ustrd>", text140, b"</Ustrd>")?;
            self.tag(b"</RmtInf>")?;
            self.tag(ITEM_END)?;
        }
        Ok(())
    }

    /// "Id/IBAN" of CdtrAcct and DbtrAcct.
    #[inline]
    fn account(&mut self) -> Result<&'m [u8], Refusal> {
        self.tag(b"<Id>")?;
        let account = self.element(b"<IBAN>", iban, b"</IBAN>")?.bytes;
        self.tag(b"</Id>")?;
        Ok(account)
    }

    /// "FinInstnId/BIC" of InstgAgt, CdtrAgt and DbtrAgt. In version .08 "each `BIC` element is
    /// `BICFI`".
    #[inline]
    fn financial_institution(&mut self) -> Result<&'m [u8], Refusal> {
        self.tag(b"<FinInstnId>")?;
        let code = match self.version {
            Version::V02 => self.element(b"<BIC>", bic, b"</BIC>")?.bytes,
            Version::V08 => self.element(b"<BICFI>", bicfi, b"</BICFI>")?.bytes,
        };
        self.tag(b"</FinInstnId>")?;
        Ok(code)
    }
}
