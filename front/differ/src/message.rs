//! Accepted messages, in parts that a damage can take hold of, with what is known of them.

use crate::edges;
use crate::face::RECORD;
use crate::kind::Kind;
use crate::random::Random;
use crate::value::{self, Valid, WHITE};
use std::collections::{HashMap, HashSet};

#[derive(Clone, Copy, Debug, PartialEq, Eq)]
pub enum What {
    Declaration,
    White,
    Start,
    End,
    Value(Kind),
}

/// A run of bytes: the declaration, white space, one tag, or one value.
#[derive(Clone, Debug)]
pub struct Part {
    pub what: What,
    /// The element's name, for a tag and for a value.
    pub name: &'static str,
    pub bytes: Vec<u8>,
    /// Of a value that collapses, the collapsed one; else the same bytes. A damage leaves it.
    pub meant: Vec<u8>,
}

impl Part {
    /// A part that stands for its own bytes.
    pub fn new(what: What, name: &'static str, bytes: Vec<u8>) -> Part {
        Part { what, name, meant: bytes.clone(), bytes }
    }

    /// Gives it another value.
    pub fn say(&mut self, value: Valid) {
        (self.bytes, self.meant) = (value.bytes, value.meant);
    }
}

/// An accepted message.
#[derive(Clone)]
pub struct Message {
    pub parts: Vec<Part>,
    pub count: u64,
    pub cents: u64,
    /// Each item: its first part and the part after its last.
    pub items: Vec<(usize, usize)>,
    /// Each item's record, made from its values beside the message.
    pub records: Vec<Vec<u8>>,
    pub version: Version,
}

/// The version that a message's root names. It decides the BIC elements alone.
#[derive(Clone, Copy, Debug, PartialEq, Eq, PartialOrd, Ord)]
pub enum Version {
    V02,
    V08,
}

impl Version {
    pub const ALL: [Version; 2] = [Version::V02, Version::V08];

    /// The root's start tag.
    pub fn root(self) -> &'static str {
        match self {
            Version::V02 => r#"<Document xmlns="urn:iso:std:iso:20022:tech:xsd:pacs.003.001.02">"#,
            Version::V08 => r#"<Document xmlns="urn:iso:std:iso:20022:tech:xsd:pacs.003.001.08">"#,
        }
    }

    /// What a BIC element is called, and the kind of its value.
    pub fn bic(self) -> (&'static str, Kind) {
        match self {
            Version::V02 => ("BIC", Kind::Bic),
            Version::V08 => ("BICFI", Kind::Bicfi),
        }
    }

    /// The other of the two.
    pub fn other(self) -> Version {
        match self {
            Version::V02 => Version::V08,
            Version::V08 => Version::V02,
        }
    }
}

/// How white space stands between tags.
#[derive(Clone, Copy, PartialEq, Eq)]
pub enum Spacing {
    None,
    /// Now and then, some bytes of the four kinds.
    Some,
    /// Wherever it may stand.
    Everywhere,
    /// A new line and the depth.
    Indented,
    /// These two: once, and then for each level.
    Lines(&'static str, &'static str),
}

/// What a message is to be made like.
pub struct Plan {
    pub items: usize,
    pub spacing: Spacing,
    /// Short values, for a small message.
    pub small: bool,
    pub declaration: bool,
    /// InstrId and RmtInf: always, never, or by chance.
    pub optional: Option<bool>,
    /// PmtTpInf: once in the header, or in every item.
    pub type_in_header: bool,
    pub version: Version,
}

impl Plan {
    /// A plan by chance, with at most so many items.
    pub fn by_chance(random: &mut Random, most_items: usize) -> Plan {
        let items = match random.below(16) {
            0..=6 => 1,
            7..=10 => 2,
            11..=14 => random.between(1, most_items.min(6)),
            _ => random.between(1, most_items),
        };
        let spacing = match random.below(6) {
            0 => Spacing::Some,
            1 => Spacing::Everywhere,
            2 => Spacing::Indented,
            _ => Spacing::None,
        };
        let (declaration, type_in_header) = (random.once_in(2), random.once_in(3));
        let version = Version::ALL[random.below(2)];
        Plan { items, spacing, small: false, declaration, optional: None, type_in_header, version }
    }
}

pub const DECLARATION: &str = r#"<?xml version="1.0" encoding="UTF-8"?>"#;

/// The element that no two items have alike.
const TRANSACTION: &str = "TxId";
const METHODS: Kind = Kind::Code(&["CLRG"]);
const SEPA: Kind = Kind::Code(&["SEPA"]);
pub const INSTRUMENTS: Kind = Kind::Code(&["CORE", "B2B"]);
const SEQUENCES: Kind = Kind::Code(&["FRST", "RCUR", "FNAL", "OOFF"]);
const BEARERS: Kind = Kind::Code(&["SLEV"]);

struct Writer<'r> {
    random: &'r mut Random,
    spacing: Spacing,
    small: bool,
    /// Every other value at the edges of what is read at once.
    at_edges: bool,
    version: Version,
    depth: usize,
    parts: Vec<Part>,
    /// The TxIds so far: all differ.
    transactions: HashSet<Vec<u8>>,
    /// Items mostly repeat the payment type, the terms and the creditor's side of the item before: these
    /// values of it.
    repeats: bool,
    before: HashMap<&'static str, Valid>,
}

impl<'r> Writer<'r> {
    /// One that has written nothing yet.
    fn new(plan: &Plan, at_edges: bool, random: &'r mut Random) -> Writer<'r> {
        let &Plan { spacing, small, version, .. } = plan;
        let repeats = at_edges && random.once_in(2);
        Writer {
            random,
            spacing,
            small,
            at_edges,
            version,
            depth: 0,
            parts: Vec::new(),
            transactions: HashSet::new(),
            repeats,
            before: HashMap::new(),
        }
    }
}

impl Writer<'_> {
    /// Adds a part.
    fn part(&mut self, what: What, name: &'static str, bytes: Vec<u8>) {
        self.parts.push(Part::new(what, name, bytes));
    }

    /// White space, as the plan has it.
    fn white(&mut self) {
        let bytes = match self.spacing {
            Spacing::None => return,
            Spacing::Some if !self.random.once_in(6) => return,
            Spacing::Some | Spacing::Everywhere => {
                let length = self.random.length(1, 5);
                self.random.bytes(WHITE, length)
            }
            Spacing::Indented => format!("\n{}", "  ".repeat(self.depth)).into_bytes(),
            Spacing::Lines(end, level) => format!("{end}{}", level.repeat(self.depth)).into_bytes(),
        };
        self.part(What::White, "", bytes);
    }

    /// A group's start tag.
    fn open(&mut self, name: &'static str) {
        self.white();
        self.depth += 1;
        self.part(What::Start, name, format!("<{name}>").into_bytes());
    }

    /// A group's end tag.
    fn close(&mut self, name: &'static str) {
        self.depth -= 1;
        self.white();
        self.part(What::End, name, format!("</{name}>").into_bytes());
    }

    /// A group with what is written inside.
    fn group(&mut self, name: &'static str, inside: impl FnOnce(&mut Self)) {
        self.open(name);
        inside(self);
        self.close(name);
    }

    /// An element with these bytes as its value, for which they stand.
    fn given(&mut self, name: &'static str, kind: Kind, bytes: &[u8]) {
        self.valued(name, kind, Valid::new(bytes.to_vec(), 0));
    }

    /// An element with this value.
    fn valued(&mut self, name: &'static str, kind: Kind, value: Valid) {
        self.white();
        let start = match kind {
            Kind::ItemAmount | Kind::HeaderAmount => format!("<{name} Ccy=\"EUR\">"),
            _ => format!("<{name}>"),
        };
        self.part(What::Start, name, start.into_bytes());
        let mut part = Part::new(What::Value(kind), name, Vec::new());
        part.say(value);
        self.parts.push(part);
        self.part(What::End, name, format!("</{name}>").into_bytes());
    }

    /// A value of this kind, as long as the plan has it.
    fn value(&mut self, kind: Kind) -> Valid {
        if self.at_edges && self.random.once_in(2) {
            return edges::valid(kind, self.random);
        }
        let mut value = value::valid(kind, self.random);
        while self.small && value.bytes.len() > short(kind) {
            value = value::valid(kind, self.random);
        }
        value
    }

    /// An element with a value of this kind; answers what it means.
    fn element(&mut self, name: &'static str, kind: Kind) -> Vec<u8> {
        let value = self.value(kind);
        let meant = value.meant.clone();
        self.valued(name, kind, value);
        meant
    }

    /// An element of the payment type, the terms or the creditor's side: where items are to repeat these,
    /// mostly with the value of the item before; answers what it means.
    fn repeated(&mut self, of: &'static str, name: &'static str, kind: Kind) -> Vec<u8> {
        let before = self.before.get(of).filter(|_| self.repeats).cloned();
        let value = match before {
            Some(value) if !self.random.once_in(12) => value,
            _ => self.value(kind),
        };
        self.before.insert(of, value.clone());
        let meant = value.meant.clone();
        self.valued(name, kind, value);
        meant
    }

    /// A TxId that no item before this one has; answers it.
    fn transaction(&mut self) -> Vec<u8> {
        let mut value = self.value(Kind::Reference);
        while !self.transactions.insert(value.bytes.clone()) {
            value = self.value(Kind::Reference);
        }
        let bytes = value.bytes.clone();
        self.valued(TRANSACTION, Kind::Reference, value);
        bytes
    }

    /// An agent; answers its BIC.
    fn agent(&mut self, name: &'static str) -> Vec<u8> {
        self.open(name);
        self.open("FinInstnId");
        let (element, kind) = self.version.bic();
        let bic = match name {
            "CdtrAgt" => self.repeated(name, element, kind),
            _ => self.element(element, kind),
        };
        self.close("FinInstnId");
        self.close(name);
        bic
    }

    /// An account; answers its IBAN.
    fn account(&mut self, name: &'static str) -> Vec<u8> {
        self.open(name);
        self.open("Id");
        let iban = match name {
            "CdtrAcct" => self.repeated(name, "IBAN", Kind::Iban),
            _ => self.element("IBAN", Kind::Iban),
        };
        self.close("Id");
        self.close(name);
        iban
    }

    /// A group with one code.
    fn code(&mut self, name: &'static str, kind: Kind, bytes: &[u8]) {
        self.group(name, |w| w.given("Cd", kind, bytes));
    }

    /// One item; answers its record. SeqTp is the header's, or the item has a PmtTpInf of its own.
    fn item(
        &mut self,
        cents: u64,
        instrument: &[u8],
        of_header: Option<&[u8]>,
        optional: (bool, bool),
    ) -> Vec<u8> {
        self.open("DrctDbtTxInf");
        let (instruction, end_to_end, transaction) = self.identification(optional.0);
        let sequence = of_header.map_or_else(|| self.payment_type(instrument), <[u8]>::to_vec);
        let amount = value::amount(cents, self.random);
        self.given("IntrBkSttlmAmt", Kind::ItemAmount, &amount);
        self.element("ChrgBr", BEARERS);
        let date = self.repeated("ReqdColltnDt", "ReqdColltnDt", Kind::Date);
        let (mandate, signature_date, identifier) = self.direct_debit();
        let (creditor_iban, creditor_bic) = self.party(["Cdtr", "CdtrAcct", "CdtrAgt"]);
        let (debtor_iban, debtor_bic) = self.party(["Dbtr", "DbtrAcct", "DbtrAgt"]);
        if optional.1 {
            self.group("RmtInf", |w| drop(w.element("Ustrd", Kind::Text140)));
        }
        self.close("DrctDbtTxInf");

        record(&[
            (transaction, 35),
            (end_to_end, 35),
            (mandate, 35),
            (debtor_iban, 34),
            (creditor_iban, 34),
            (debtor_bic, 11),
            (format!("{cents:011}").into_bytes(), 11),
            (date, 10),
            (sequence, 4),
            (identifier, 35),
            (creditor_bic, 11),
            (instruction, 35),
            (instrument.to_vec(), 4),
            (signature_date, 10),
            (Vec::new(), 15),
        ])
    }

    /// A creditor or a debtor: name, account, agent; answers IBAN and BIC.
    fn party(&mut self, [name, account, agent]: [&'static str; 3]) -> (Vec<u8>, Vec<u8>) {
        self.group(name, |w| {
            drop(match name {
                "Cdtr" => w.repeated(name, "Nm", Kind::Text70),
                _ => w.element("Nm", Kind::Text70),
            });
        });
        (self.account(account), self.agent(agent))
    }

    /// PmtId; answers InstrId, nothing where it is left out, EndToEndId and TxId.
    fn identification(&mut self, has_instruction: bool) -> (Vec<u8>, Vec<u8>, Vec<u8>) {
        self.open("PmtId");
        let instruction = match has_instruction {
            true => self.element("InstrId", Kind::Reference),
            false => Vec::new(),
        };
        let end_to_end = self.element("EndToEndId", Kind::EndToEnd);
        let transaction = self.transaction();
        self.close("PmtId");
        (instruction, end_to_end, transaction)
    }

    /// PmtTpInf; answers SeqTp.
    fn payment_type(&mut self, instrument: &[u8]) -> Vec<u8> {
        self.open("PmtTpInf");
        self.code("SvcLvl", SEPA, b"SEPA");
        self.code("LclInstrm", INSTRUMENTS, instrument);
        let sequence = self.repeated("SeqTp", "SeqTp", SEQUENCES);
        self.close("PmtTpInf");
        sequence
    }

    /// DrctDbtTx; answers the mandate, its date and the creditor identifier.
    fn direct_debit(&mut self) -> (Vec<u8>, Vec<u8>, Vec<u8>) {
        self.open("DrctDbtTx");
        self.open("MndtRltdInf");
        let mandate = self.element("MndtId", Kind::Reference);
        let signature_date = self.element("DtOfSgntr", Kind::Date);
        self.close("MndtRltdInf");
        for name in ["CdtrSchmeId", "Id", "PrvtId", "Othr"] {
            self.open(name);
        }
        let identifier = self.repeated("CdtrSchmeId", "Id", Kind::CreditorId);
        self.group("SchmeNm", |w| drop(w.element("Prtry", SEPA)));
        for name in ["Othr", "PrvtId", "Id", "CdtrSchmeId"] {
            self.close(name);
        }
        self.close("DrctDbtTx");
        (mandate, signature_date, identifier)
    }

    /// GrpHdr of so many items and cents, with PmtTpInf where an instrument is given; answers its
    /// SeqTp.
    fn header(&mut self, items: usize, cents: u64, instrument: Option<&[u8]>) -> Option<Vec<u8>> {
        self.open("GrpHdr");
        self.element("MsgId", Kind::Reference);
        self.element("CreDtTm", Kind::Time);
        let number = match self.small {
            true => items.to_string().into_bytes(),
            false => value::with_zeros(items as u64, self.random),
        };
        self.given("NbOfTxs", Kind::Count, &number);
        let total = value::amount(cents, self.random);
        self.given("TtlIntrBkSttlmAmt", Kind::HeaderAmount, &total);
        self.element("IntrBkSttlmDt", Kind::Date);
        self.group("SttlmInf", |w| drop(w.element("SttlmMtd", METHODS)));
        let sequence = instrument.map(|instrument| self.payment_type(instrument));
        self.agent("InstgAgt");
        self.close("GrpHdr");
        sequence
    }
}

/// A record: each field filled with spaces to its width, and LF.
fn record(fields: &[(Vec<u8>, usize)]) -> Vec<u8> {
    let mut record = Vec::with_capacity(RECORD);
    for (field, width) in fields {
        let end = record.len() + width;
        record.extend(field);
        record.resize(end, b' ');
    }
    record.push(b'\n');
    record
}

/// The length of a short value.
fn short(kind: Kind) -> usize {
    match kind {
        Kind::Iban => 22,
        Kind::CreditorId => 18,
        Kind::Time => 29,
        Kind::Date | Kind::Bic | Kind::Bicfi | Kind::Code(_) => 11,
        _ => 4,
    }
}

/// An accepted message by this plan.
pub fn accepted(plan: &Plan, random: &mut Random) -> Message {
    written(plan, &[], random)
}

/// The same, with each item in one of these layouts, and every other value at the edges of what is read
/// at once; in every other message the items mostly have one creditor.
pub fn laid_out(plan: &Plan, layouts: &[Spacing], random: &mut Random) -> Message {
    written(plan, layouts, random)
}

/// An accepted message: its items in these layouts, or all as the plan has it.
fn written(plan: &Plan, layouts: &[Spacing], random: &mut Random) -> Message {
    let version = plan.version;
    let mut writer = Writer::new(plan, !layouts.is_empty(), random);
    let w = &mut writer;
    let amounts: Vec<u64> = (0..plan.items)
        .map(|_| if plan.small { w.random.worth(1, 9999) } else { value::item_cents(w.random) })
        .collect();
    let cents = amounts.iter().sum();

    if plan.declaration {
        w.part(What::Declaration, "", DECLARATION.into());
    }
    w.white();
    w.depth += 1;
    w.part(What::Start, "Document", version.root().into());
    w.open("FIToFICstmrDrctDbt");

    let instrument = value::valid(INSTRUMENTS, w.random).bytes;
    let sequence = w.header(plan.items, cents, plan.type_in_header.then_some(&instrument));
    let mut items = Vec::new();
    let mut records = Vec::new();
    for cents in amounts {
        let first = w.parts.len();
        if !layouts.is_empty() {
            w.spacing = layouts[w.random.below(layouts.len())];
        }
        let mut by_chance = || plan.optional.unwrap_or_else(|| w.random.once_in(2));
        let optional = (by_chance(), by_chance());
        records.push(w.item(cents, &instrument, sequence.as_deref(), optional));
        let start = first + usize::from(w.parts[first].what == What::White);
        items.push((start, w.parts.len()));
    }
    w.close("FIToFICstmrDrctDbt");
    w.close("Document");
    w.white();
    Message { parts: writer.parts, count: plan.items as u64, cents, items, records, version }
}

impl Message {
    /// The whole message.
    pub fn bytes(&self) -> Vec<u8> {
        concat(&self.parts)
    }

    /// The plain form, made from the parts: "declaration, no white space between tags, count without
    /// leading zeros, amounts with two decimals and no needless zeros, all other values as read", or
    /// collapsed.
    pub fn plain(&self) -> Vec<u8> {
        let mut form = DECLARATION.as_bytes().to_vec();
        for part in &self.parts {
            match part.what {
                What::Declaration | What::White => {}
                What::Value(Kind::Count) => form.extend(self.count.to_string().bytes()),
                What::Value(Kind::HeaderAmount) => form.extend(value::euros(self.cents).bytes()),
                What::Value(Kind::ItemAmount) => {
                    form.extend(value::euros(value::cents_of(&part.bytes)).bytes());
                }
                What::Value(_) => form.extend(&part.meant),
                What::Start | What::End => form.extend(&part.bytes),
            }
        }
        form
    }

    /// The same message without white space in its values that does not count.
    pub fn as_meant(mut self) -> Message {
        self.parts.iter_mut().for_each(|part| part.bytes = part.meant.clone());
        self
    }

    /// The place of a part's first byte.
    pub fn place(&self, part: usize) -> usize {
        self.parts[..part].iter().map(|part| part.bytes.len()).sum()
    }

    /// Where each item lies.
    pub fn item_places(&self) -> Vec<(usize, usize)> {
        let mut places = vec![0];
        for part in &self.parts {
            places.push(places.last().unwrap() + part.bytes.len());
        }
        self.items.iter().map(|&(first, after)| (places[first], places[after])).collect()
    }

    /// The parts that are so.
    pub fn parts_that(&self, are: impl Fn(&Part) -> bool) -> Vec<usize> {
        (0..self.parts.len()).filter(|&at| are(&self.parts[at])).collect()
    }

    /// The parts that are the items' TxIds.
    pub fn transactions(&self) -> Vec<usize> {
        self.parts_that(|part| part.name == TRANSACTION && matches!(part.what, What::Value(_)))
    }

    /// Gives an item this TxId, in its record too.
    pub fn set_transaction(&mut self, item: usize, bytes: &[u8]) {
        let part = self.transactions()[item];
        self.parts[part].say(Valid::new(bytes.to_vec(), 0));
        let field = &mut self.records[item][..35];
        field.fill(b' ');
        field[..bytes.len().min(35)].copy_from_slice(&bytes[..bytes.len().min(35)]);
    }

    /// The first TxId that an earlier item has, if there is one: each compared with each.
    pub fn second_transaction(&self) -> Option<usize> {
        let parts = self.transactions();
        let is_second = |at: &usize| {
            parts[..*at].iter().any(|one| self.parts[*one].bytes == self.parts[parts[*at]].bytes)
        };
        (0..parts.len()).find(is_second).map(|at| parts[at])
    }

    /// The part that is the instructing agent's BIC.
    pub fn header_bic(&self) -> usize {
        self.header_value(self.version.bic().0)
    }

    /// The part that is the value of the header's element of this name.
    pub fn header_value(&self, name: &str) -> usize {
        self.parts_that(|part| matches!(part.what, What::Value(_)) && part.name == name)[0]
    }
}

/// The bytes of parts.
pub fn concat(parts: &[Part]) -> Vec<u8> {
    parts.iter().flat_map(|part| part.bytes.iter().copied()).collect()
}
