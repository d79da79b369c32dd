//! Messages like those that are sent, for the stopwatch: version .02, one creditor, many debtors, values of usual
//! length, each item with its own references, amount and account. And messages that are otherwise, in which
//! whoever guesses an item from those before it guesses badly.

use crate::kind::Kind;
use crate::message::{Version, DECLARATION};
use crate::random::Random;
use crate::value::{self, check_digits, euros, DIGITS};

/// A bar stands where white space may stand.
const ITEM: &str = "<DrctDbtTxInf>|<PmtId>|@INSTRUCTION\
    <EndToEndId>INVOICE-@INVOICE</EndToEndId>|<TxId>TX-2010-12-@NUMBER</TxId>|</PmtId>|<PmtTpInf>|\
    <SvcLvl>|<Cd>SEPA</Cd>|</SvcLvl>|<LclInstrm>|<Cd>CORE</Cd>|</LclInstrm>|<SeqTp>RCUR</SeqTp>|\
    </PmtTpInf>|<IntrBkSttlmAmt Ccy=\"EUR\">@AMOUNT</IntrBkSttlmAmt>|<ChrgBr>SLEV</ChrgBr>|\
    <ReqdColltnDt>2010-12-03</ReqdColltnDt>|<DrctDbtTx>|<MndtRltdInf>|\
    <MndtId>MANDATE-2009-@INVOICE</MndtId>|<DtOfSgntr>2009-11-20</DtOfSgntr>|</MndtRltdInf>|\
    <CdtrSchmeId>|<Id>|<PrvtId>|<Othr>|<Id>@SCHEME</Id>|<SchmeNm>|<Prtry>SEPA</Prtry>|\
    </SchmeNm>|</Othr>|</PrvtId>|</Id>|</CdtrSchmeId>|</DrctDbtTx>|<Cdtr>|\
    <Nm>@CREDITOR</Nm>|</Cdtr>|<CdtrAcct>|<Id>|\
    <IBAN>@ACCOUNT</IBAN>|</Id>|</CdtrAcct>|<CdtrAgt>|<FinInstnId>|\
    <BIC>@AGENT</BIC>|</FinInstnId>|</CdtrAgt>|<Dbtr>|<Nm>@NAME</Nm>|</Dbtr>|<DbtrAcct>|<Id>|\
    <IBAN>@IBAN</IBAN>|</Id>|</DbtrAcct>|<DbtrAgt>|<FinInstnId>|<BIC>@BIC</BIC>|</FinInstnId>|\
    </DbtrAgt>|@REMITTANCE</DrctDbtTxInf>|";

/// The elements that an item may have.
const INSTRUCTION: &str = "<InstrId>INSTR-2010-12-@NUMBER</InstrId>|";
const REMITTANCE: &str = "<RmtInf>|<Ustrd>Invoice @INVOICE, December 2010</Ustrd>|</RmtInf>|";

const HEADER: &str = "<FIToFICstmrDrctDbt>|<GrpHdr>|<MsgId>MSG-2010-12-01</MsgId>|\
    <CreDtTm>2010-12-01T09:30:00</CreDtTm>|<NbOfTxs>@COUNT</NbOfTxs>|\
    <TtlIntrBkSttlmAmt Ccy=\"EUR\">@TOTAL</TtlIntrBkSttlmAmt>|\
    <IntrBkSttlmDt>2010-12-03</IntrBkSttlmDt>|<SttlmInf>|<SttlmMtd>CLRG</SttlmMtd>|</SttlmInf>|\
    <InstgAgt>|<FinInstnId>|<BIC>BANKDEFF</BIC>|</FinInstnId>|</InstgAgt>|</GrpHdr>|";

const NAMES: [&str; 5] =
    ["Erika Mustermann", "Max Mustermann", "J. van der Berg", "Hafenkontor Nord KG", "A. Schmidt"];
const BICS: [&str; 4] = ["SPUEDE2UXXX", "BANKDEFFXXX", "COBADEHH", "ABNANL2AXXX"];

/// How a message is laid out.
#[derive(Clone, Copy, PartialEq, Eq)]
pub enum Layout {
    Compact,
    /// Each tag in a line, two spaces for each level.
    Indented,
    /// Each item in another layout than the one before it.
    Changing,
    /// A new line or nothing before each tag of an item.
    ByChance,
}

/// In what a message is otherwise than usual, beside its layout.
#[derive(Clone, Copy, Default)]
pub struct Otherwise {
    /// InstrId and RmtInf by chance.
    pub optional: bool,
    /// Debtors' IBANs of every country, often with letters.
    pub countries: bool,
    /// Another creditor in each item: name, identifier, account, agent.
    pub creditors: bool,
}

/// The creditor of all items.
const CREDITOR: [(&str, &str); 4] = [
    ("@CREDITOR", "Stadtwerke Musterstadt GmbH"),
    ("@SCHEME", "DE98ZZZ09999999999"),
    ("@ACCOUNT", "DE87200500001234567890"),
    ("@AGENT", "BANKDEFFXXX"),
];

/// A value of a kind, as text.
fn any(kind: Kind, random: &mut Random) -> String {
    String::from_utf8_lossy(&value::valid(kind, random).meant).into_owned()
}

/// An account in Germany.
fn account(random: &mut Random) -> String {
    let body = random.bytes(DIGITS, 18);
    let account = [b"DE".to_vec(), check_digits(b"DE", &body), body].concat();
    String::from_utf8_lossy(&account).into_owned()
}

/// One item as banks write it, or otherwise.
fn item(number: usize, cents: u64, other: Otherwise, random: &mut Random) -> String {
    let iban = account(random);
    let invoice = random.below(100_000);
    let (name, bic) = (random.pick(&NAMES), random.pick(&BICS));
    let iban = if other.countries { any(Kind::Iban, random) } else { iban };
    let mut has = || !other.optional || random.once_in(2);
    let (instruction, remittance) = (has(), has());
    let mut item = ITEM.to_string();
    for (mark, value) in CREDITOR {
        let value = match (mark, other.creditors) {
            (_, false) => value.to_string(),
            ("@CREDITOR", _) => format!("Stadtwerke {}", random.below(1_000_000)),
            ("@SCHEME", _) => any(Kind::CreditorId, random),
            ("@ACCOUNT", _) => account(random),
            _ => random.pick(&BICS).to_string(),
        };
        item = item.replace(mark, &value);
    }
    item.replace("@INSTRUCTION", if instruction { INSTRUCTION } else { "" })
        .replace("@REMITTANCE", if remittance { REMITTANCE } else { "" })
        .replace("@NUMBER", &format!("{number:06}"))
        .replace("@INVOICE", &format!("{invoice:05}"))
        .replace("@AMOUNT", &euros(cents))
        .replace("@NAME", name)
        .replace("@BIC", bic)
        .replace("@IBAN", &iban)
}

/// A message of so many items, compact or indented.
pub fn usual(items: usize, indented: bool) -> Vec<u8> {
    let layout = if indented { Layout::Indented } else { Layout::Compact };
    unusual(items, layout, Otherwise::default())
}

/// A message of so many items, laid out so, and otherwise in this.
pub fn unusual(items: usize, layout: Layout, other: Otherwise) -> Vec<u8> {
    let random = &mut Random::new(2010, 12);
    let amounts: Vec<u64> = (0..items).map(|_| random.between(100, 99_999) as u64).collect();
    let header = HEADER
        .replace("@COUNT", &items.to_string())
        .replace("@TOTAL", &euros(amounts.iter().sum()));
    let mut page = Page { out: Vec::new(), depth: 0, white: Page::frame(layout) };
    page.lay(&format!("{DECLARATION}|{}|{header}", Version::V02.root()), None);
    // Another generator for the layouts: the values are those of the usual message.
    let by_chance = &mut Random::new(2010, 13);
    let mut last = 0;
    for (number, cents) in amounts.into_iter().enumerate() {
        if layout == Layout::Changing {
            last = (last + by_chance.between(1, LINES.len() - 1)) % LINES.len();
            page.white = LINES[last];
        }
        let text = item(number + 1, cents, other, random);
        page.lay(&text, (layout == Layout::ByChance).then_some(&mut *by_chance));
    }
    page.white = Page::frame(layout);
    page.lay("</FIToFICstmrDrctDbt>|</Document>|", None);
    page.out
}

/// White space: what stands behind a tag or a value's end tag, and before the next for each level.
type White = (&'static str, &'static str);

/// The layouts that change.
const LINES: [White; 7] =
    [("", ""), ("\n", "  "), ("\n", "\t"), ("\r\n", "\t"), ("\n", ""), (" ", ""), ("\r\n", " ")];

/// What is written so far.
struct Page {
    out: Vec<u8>,
    depth: usize,
    white: White,
}

impl Page {
    /// The white space of all that is no item.
    fn frame(layout: Layout) -> White {
        match layout {
            Layout::Indented => ("\n", "  "),
            _ => ("", ""),
        }
    }

    /// Writes parts, which `|` ends; with numbers, a new line by chance behind each.
    fn lay(&mut self, text: &str, mut by_chance: Option<&mut Random>) {
        for line in text.split_terminator('|') {
            if line.starts_with("</") {
                self.depth -= 1;
            }
            let (end, level) = match &mut by_chance {
                Some(random) => (if random.once_in(2) { "\n" } else { "" }, ""),
                None => self.white,
            };
            self.out.extend(level.repeat(self.depth).bytes());
            self.out.extend(line.bytes());
            self.out.extend(end.bytes());
            if !line.starts_with("<?") && !line.contains("</") {
                self.depth += 1;
            }
        }
    }
}
