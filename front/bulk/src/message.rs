//! What the header and the items of a message say, found by their tags. Nothing is judged here: it is
//! asked for as far as the judge found the message in order.

use crate::collapsed::collapsed;
use crate::tags::{until, Open, Tags, ITEM};
use crate::version::Version;
use face::Kind;
use std::borrow::Cow;

/// What the header says. A value that was not read is empty; no legal one is.
#[derive(Clone, Debug, Default, PartialEq, Eq)]
pub struct Header<'a> {
    pub msg_id: &'a [u8],
    pub settlement_date: &'a [u8],
    /// The instructing agent's.
    pub bic: &'a [u8],
    /// LclInstrm and SeqTp, where PmtTpInf stands in the header.
    pub instrument: &'a [u8],
    pub sequence: &'a [u8],
}

/// What an item says: its EndToEndId and the debtor's name collapsed; LclInstrm and SeqTp its own or
/// the header's. A value that was not read is empty.
#[derive(Clone, Debug, Default, PartialEq, Eq)]
pub struct Item<'a> {
    /// Where its `<` stands.
    pub place: usize,
    pub tx_id: &'a [u8],
    pub end_to_end_id: Cow<'a, [u8]>,
    pub instrument: &'a [u8],
    pub sequence: &'a [u8],
    pub cents: Option<u64>,
    pub collection_date: &'a [u8],
    pub mandate: &'a [u8],
    pub mandate_date: &'a [u8],
    pub debtor: Cow<'a, [u8]>,
    pub debtor_iban: &'a [u8],
}

/// The header and the items of a message, and its version.
#[derive(Debug, Default)]
pub struct Contents<'a> {
    pub header: Header<'a>,
    pub items: Vec<Item<'a>>,
    /// That of the root, if it was read.
    pub version: Option<Version>,
}

/// Reads the values that begin before a place. At a refused value that place is its first byte, so
/// every value that is read here was in order.
pub fn read(message: &[u8], place: usize) -> Contents<'_> {
    let mut contents = Contents::default();
    let mut open = Open::default();
    for tag in Tags::of(message).take_while(|tag| tag.place < place) {
        if !open.step(&tag) {
            continue;
        }
        let value = until(&message[tag.end..], b'<');
        let is_closed = tag.end + value.len() < message.len();
        if open.name(0) == ITEM {
            let Header { instrument, sequence, .. } = contents.header;
            let place = tag.place;
            contents.items.push(Item { place, instrument, sequence, ..Item::default() });
        } else if tag.end < place && is_closed {
            contents.note(&open, value);
        }
    }
    contents.version = open.version;
    contents
}

impl<'a> Contents<'a> {
    /// Notes the value of the innermost element, if it is one of those that are asked for.
    fn note(&mut self, open: &Open, value: &'a [u8]) {
        match (open.name(1), open.name(0), self.items.last_mut()) {
            (b"GrpHdr", b"MsgId", None) => self.header.msg_id = value,
            (b"GrpHdr", b"IntrBkSttlmDt", None) => self.header.settlement_date = value,
            (b"FinInstnId", name, None) if Version::is_bic(name) => self.header.bic = value,
            (b"LclInstrm", b"Cd", None) => self.header.instrument = value,
            (b"PmtTpInf", b"SeqTp", None) => self.header.sequence = value,
            (_, _, None) => {}
            (_, name, Some(item)) => item.note(open, name, value),
        }
    }

    /// The cents of the items added up; none if an amount was not read.
    pub fn cents(&self) -> Option<u64> {
        self.items.iter().try_fold(0_u64, |sum, item| sum.checked_add(item.cents?))
    }

    /// CORE or B2B: the header's, or every item has that of the first.
    pub fn instrument(&self) -> &'a [u8] {
        self.items.first().map_or(self.header.instrument, |item| item.instrument)
    }
}

impl<'a> Item<'a> {
    /// Notes a value of the item by the name of its element.
    fn note(&mut self, open: &Open, name: &[u8], value: &'a [u8]) {
        match name {
            b"TxId" => self.tx_id = value,
            b"EndToEndId" => self.end_to_end_id = collapsed(value),
            b"Cd" if open.name(1) == b"LclInstrm" => self.instrument = value,
            b"SeqTp" => self.sequence = value,
            b"IntrBkSttlmAmt" => self.cents = worth(Kind::ItemAmount, value),
            b"ReqdColltnDt" => self.collection_date = value,
            b"MndtId" => self.mandate = value,
            b"DtOfSgntr" => self.mandate_date = value,
            b"Nm" if open.name(1) == b"Dbtr" => self.debtor = collapsed(value),
            b"IBAN" if open.name(2) == b"DbtrAcct" => self.debtor_iban = value,
            _ => {}
        }
    }
}

/// What a count or an amount is worth, by the library's own checker.
pub fn worth(kind: Kind, value: &[u8]) -> Option<u64> {
    match face::check(kind, value) {
        [0, worth, _] => Some(worth),
        _ => None,
    }
}

#[cfg(test)]
mod tests {
    use super::*;

    const EVENING: &[u8] = include_bytes!("../../../samples/evening-indented.xml");
    const WRAPPED: &[u8] = include_bytes!("../../../samples/rents-wrapped.xml");
    const LATER: &[u8] = include_bytes!("../../../samples/evening08.xml");
    const PARTNER: &[u8] = include_bytes!("../../../samples/partner.xml");

    /// Where this text stands in the evening.
    fn at(text: &str) -> usize {
        (0..EVENING.len()).find(|&at| EVENING[at..].starts_with(text.as_bytes())).unwrap()
    }

    #[test]
    fn what_the_evening_says() {
        let evening = read(EVENING, EVENING.len());
        assert_eq!(evening.header.msg_id, b"BULK-2026-10-28-EVENING");
        assert_eq!(evening.header.settlement_date, b"2026-10-30");
        assert_eq!(evening.header.bic, b"HAFNDEHHXXX");
        assert_eq!((evening.items.len(), evening.cents()), (5, Some(202_490)));
        let item = &evening.items[1];
        assert_eq!(item.tx_id, b"TX-20261028-0002");
        assert_eq!(*item.end_to_end_id, *b"BUSY-2026-10-LP017");
        assert_eq!((item.instrument, item.sequence), (&b"CORE"[..], &b"FRST"[..]));
        assert_eq!((item.cents, item.collection_date), (Some(3780), &b"2026-10-30"[..]));
        assert_eq!(item.mandate, b"CHARGE-2026-0342");
        assert_eq!(item.mandate_date, b"2026-09-30");
        assert_eq!(*item.debtor, *b"Kurierdienst Blitz und Sohn");
        assert_eq!(item.debtor_iban, b"DE11700997001203344556");
        assert!(EVENING[item.place..].starts_with(b"<DrctDbtTxInf>"));
    }

    /// The evening in version .08: its items are the same, and so is the header's BIC.
    #[test]
    fn what_the_evening_says_in_version_08() {
        let (evening, other) = (read(EVENING, EVENING.len()), read(LATER, LATER.len()));
        assert_eq!((evening.version, other.version), (Some(Version::V02), Some(Version::V08)));
        assert_eq!(other.header, evening.header);
        for (item, later) in evening.items.iter().zip(&other.items) {
            assert_eq!(*later, Item { place: later.place, ..item.clone() });
        }
    }

    /// Each item of these samples is what the library writes into its record.
    #[test]
    fn the_items_are_those_of_the_records() {
        for (sample, count) in [(EVENING, 5), (LATER, 5), (WRAPPED, 3), (PARTNER, 2)] {
            let items = read(sample, sample.len()).items;
            assert_eq!(items.len(), count);
            let mut area = vec![0; face::RECORD * count];
            assert_eq!(face::records(sample, &mut area)[..2], [0, count as u64]);
            let text = |bytes: &[u8]| String::from_utf8(bytes.to_vec()).unwrap();
            for (item, record) in items.iter().zip(area.chunks(face::RECORD)) {
                let cents = format!("{:011}", item.cents.unwrap());
                let [tx_id, end_to_end_id, mandate, iban, date, sequence] = [
                    item.tx_id,
                    &item.end_to_end_id,
                    item.mandate,
                    item.debtor_iban,
                    item.collection_date,
                    item.sequence,
                ]
                .map(text);
                let front = format!("{tx_id:35}{end_to_end_id:35}{mandate:35}{iban:34}");
                let back = format!("{cents}{date}{sequence}");
                assert_eq!((text(&record[..139]), text(&record[184..209])), (front, back));
                let [instrument, mandate_date] = [item.instrument, item.mandate_date].map(text);
                assert_eq!(text(&record[290..304]), format!("{instrument:4}{mandate_date}"));
            }
        }
    }

    /// What collapses is shown collapsed.
    #[test]
    fn what_the_wrapped_rents_say() {
        let rents = read(WRAPPED, WRAPPED.len());
        let ids = rents.items.iter().map(|item| &*item.end_to_end_id);
        assert!(ids.eq([&b"RENT 2023 04"[..], b"RENT 2023 04", b"BUSY 2023 03 LP017"]));
        let debtors = rents.items.iter().map(|item| &*item.debtor);
        let due = [&b"Anna Gluehbirne"[..], b"Sanne de Stekker", b"Kurierdienst Blitz und Sohn"];
        assert!(debtors.eq(due));
    }

    /// LclInstrm and SeqTp of the header are those of every item, as soon as they are read.
    #[test]
    fn what_the_partner_s_header_says() {
        let partner = read(PARTNER, PARTNER.len());
        let types = partner.items.iter().map(|item| (item.instrument, item.sequence));
        assert_eq!(types.collect::<Vec<_>>(), [(&b"CORE"[..], &b"RCUR"[..]); 2]);
        assert_eq!(
            (partner.header.instrument, partner.header.sequence),
            (&b"CORE"[..], &b"RCUR"[..])
        );
        assert_eq!(partner.header.bic, b"HAFNDEHHXXX");
        assert_eq!(partner.instrument(), b"CORE");
        let place = (0..).find(|&at| PARTNER[at..].starts_with(b"<SeqTp>")).unwrap();
        let upto = read(PARTNER, place);
        assert_eq!((upto.instrument(), upto.header.sequence), (&b"CORE"[..], &b""[..]));
        // In a message with the type in its items the header has none.
        assert_eq!(read(EVENING, EVENING.len()).header.instrument, b"");
        assert_eq!(read(EVENING, EVENING.len()).instrument(), b"CORE");
    }

    #[test]
    fn only_what_lies_before_the_place() {
        let upto = |text: &str| read(EVENING, at(text));
        assert_eq!(upto("BULK-").header, Header::default());
        assert_eq!(upto("<Document").version, None);
        assert_eq!(upto("<FIToFICstmrDrctDbt>").version, Some(Version::V02));
        assert_eq!(upto("</MsgId>").header.msg_id, b"BULK-2026-10-28-EVENING");
        assert_eq!(upto("1120.50").items[2].cents, None);
        assert_eq!(upto("</IntrBkSttlmAmt>").items[0].cents, Some(84500));
        assert_eq!(*upto("DE36370998000008812345").items[0].debtor, *b"Anna Gluehbirne");
        assert_eq!(upto("DE36370998000008812345").items[0].debtor_iban, b"");
        // A value that the message cuts was not read.
        let cut = &EVENING[..at("TX-20261028-0001") + 3];
        assert_eq!(read(cut, cut.len()).items[0].tx_id, b"");
        assert_eq!(read(b"", 0).items.len(), 0);
    }
}
