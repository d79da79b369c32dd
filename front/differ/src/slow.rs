//! A second judge of the profile, slow and made in another way: the elements are a table that is
//! read as text, every tag is a pattern, and every kind is judged by templates and wide numbers.
//! `plain` is held against it.

use crate::kind::Kind;
use std::borrow::Cow;
use std::collections::BTreeSet;

const DECLARATION: &str = "<?xml version=\"1.0\" encoding=\"UTF-8\"?>";

/// What a version has of its own: the name and the kind of what the table calls `BIC`, and behind which
/// number its root's namespace ends.
struct Version {
    number: &'static str,
    name: &'static str,
    kind: &'static str,
}

const VERSIONS: [Version; 2] = [
    Version { number: "02", name: "BIC", kind: "bic" },
    Version { number: "08", name: "BICFI", kind: "bicfi" },
];

impl Version {
    /// The root's start tag.
    fn root(&self) -> String {
        format!("<Document xmlns=\"urn:iso:std:iso:20022:tech:xsd:pacs.003.001.{}\">", self.number)
    }
}

/// The paper's indented order. `?` 0 or 1, `+` 1 or more, `!` 1 unless the header has one, and then
/// none; `=` and the kind for a value, which is the version's for a BIC.
const TABLE: &str = "
FIToFICstmrDrctDbt
  GrpHdr
    MsgId = reference
    CreDtTm = time
    NbOfTxs = count
    TtlIntrBkSttlmAmt = header-amount
    IntrBkSttlmDt = date
    SttlmInf
      SttlmMtd = CLRG
    PmtTpInf ?
      SvcLvl
        Cd = SEPA
      LclInstrm
        Cd = CORE B2B
      SeqTp = FRST RCUR FNAL OOFF
    InstgAgt
      FinInstnId
        BIC =
  DrctDbtTxInf +
    PmtId
      InstrId ? = reference
      EndToEndId = end-to-end
      TxId = reference
    PmtTpInf !
      SvcLvl
        Cd = SEPA
      LclInstrm
        Cd = CORE B2B
      SeqTp = FRST RCUR FNAL OOFF
    IntrBkSttlmAmt = item-amount
    ChrgBr = SLEV
    ReqdColltnDt = date
    DrctDbtTx
      MndtRltdInf
        MndtId = reference
        DtOfSgntr = date
      CdtrSchmeId
        Id
          PrvtId
            Othr
              Id = creditor-id
              SchmeNm
                Prtry = SEPA
    Cdtr
      Nm = text70
    CdtrAcct
      Id
        IBAN = iban
    CdtrAgt
      FinInstnId
        BIC =
    Dbtr
      Nm = text70
    DbtrAcct
      Id
        IBAN = iban
    DbtrAgt
      FinInstnId
        BIC =
    RmtInf ?
      Ustrd = text140
";

struct Node {
    /// As the table has it; the tags of a BIC are the version's.
    name: &'static str,
    least: usize,
    most: usize,
    /// Whether it may stand in the header instead.
    unless_in_header: bool,
    /// Of a value: its kind, or the codes listed.
    value: Option<&'static str>,
    children: Vec<Node>,
    /// Its tags as patterns.
    start: String,
    end: String,
}

impl Node {
    /// Whether a value is its own, or that of an element below it.
    fn has(&self, value: &Said) -> bool {
        match self.value {
            Some(_) => self.name == value.name,
            None => self.children.iter().any(|child| child.has(value)),
        }
    }
}

/// The table as a tree, for each version.
pub struct Slow {
    tops: [Vec<Node>; 2],
}

type Lines = std::iter::Peekable<std::str::Lines<'static>>;

/// The elements of the table from here on that stand at this depth.
fn nodes(lines: &mut Lines, depth: usize, version: &Version) -> Vec<Node> {
    let mut nodes = Vec::new();
    while let Some(line) = lines.peek() {
        let text = line.trim_start();
        if line.len() - text.len() != 2 * depth {
            break;
        }
        lines.next();
        let (name, value) = match text.split_once(" =") {
            Some((name, "")) => (name, Some(version.kind)),
            Some((name, value)) => (name, Some(value.trim_start())),
            None => (text, None),
        };
        let (name, mark) = name.split_once(' ').unwrap_or((name, ""));
        let (least, most) = match mark {
            "?" | "!" => (0, 1),
            "+" => (1, usize::MAX),
            _ => (1, 1),
        };
        let children = match value {
            Some(_) => Vec::new(),
            None => self::nodes(lines, depth + 1, version),
        };
        let tag = if name == "BIC" { version.name } else { name };
        let (start, end) = (start_tag(tag, value), format!("</{tag}>"));
        let unless_in_header = mark == "!";
        nodes.push(Node { name, least, most, unless_in_header, value, children, start, end });
    }
    nodes
}

type Refusal = (u8, usize);

/// A tag as a pattern: `^` stands for any capital (no tag has that byte).
fn fits(pattern: &str, byte: u8, at: usize) -> bool {
    match pattern.as_bytes()[at] {
        b'^' => (65..=90).contains(&byte),
        fixed => fixed == byte,
    }
}

/// What a value means: "count and amounts as numbers, others by bytes"; since request 4 "two values
/// are equal when their collapsed bytes are", of the kinds that collapse.
#[derive(Clone, Debug, PartialEq, Eq)]
pub enum Meaning<'m> {
    Count(u64),
    Cents(u64),
    Bytes(Cow<'m, [u8]>),
}

/// A value that was read: the element's name, the items that were closed before it, what it means.
#[derive(Clone, Debug, PartialEq, Eq)]
pub struct Said<'m> {
    name: &'static str,
    items: usize,
    meaning: Meaning<'m>,
}

struct Run<'m> {
    message: &'m [u8],
    at: usize,
    count: (u64, usize),
    total: (u64, usize),
    items: Vec<(usize, usize)>,
    sum: u128,
    instrument: Option<Vec<u8>>,
    /// The TxIds, in the order of their bytes.
    transactions: BTreeSet<&'m [u8]>,
    /// The names of the groups that are open.
    path: Vec<&'static str>,
    /// The names of the groups that the header has had.
    in_header: Vec<&'static str>,
    said: Vec<Said<'m>>,
}

impl<'m> Run<'m> {
    /// Which of the patterns stands here; `number` where none does.
    fn choose(&mut self, patterns: &[&str], number: u8) -> Result<usize, Refusal> {
        let left = &self.message[self.at..];
        let mut ends = false;
        for (which, pattern) in patterns.iter().enumerate() {
            let shared = (0..pattern.len().min(left.len())).all(|at| fits(pattern, left[at], at));
            if shared && left.len() >= pattern.len() {
                self.at += pattern.len();
                return Ok(which);
            }
            ends |= shared;
        }
        Err(if ends { (3, self.message.len()) } else { (number, self.at) })
    }

    /// Goes past white space.
    fn white(&mut self) {
        while self.at < self.message.len() && b" \t\r\n".contains(&self.message[self.at]) {
            self.at += 1;
        }
    }

    /// Whether the header has had what must otherwise stand in every item.
    fn is_in_header(&self, node: &Node) -> bool {
        node.unless_in_header && self.in_header.contains(&node.name)
    }

    /// How often an element must stand here.
    fn least(&self, node: &Node) -> usize {
        match node.unless_in_header && !self.is_in_header(node) {
            true => 1,
            false => node.least,
        }
    }

    /// The children of a group and its end tag, in the order of the table.
    fn children(&mut self, children: &[Node], end_tag: &str) -> Result<(), Refusal> {
        let mut had = vec![0usize; children.len()];
        let mut child = 0;
        loop {
            // Every tag that may come: this child again, a later one when those between may be
            // left out, the end when all that must have come have.
            let mut patterns = Vec::new();
            let mut which = Vec::new();
            let mut may_end = true;
            for at in child..children.len() {
                if had[at] < children[at].most {
                    patterns.push(children[at].start.as_str());
                    which.push(at);
                }
                if had[at] < self.least(&children[at]) {
                    may_end = false;
                    break;
                }
            }
            if may_end {
                patterns.push(end_tag);
            }
            self.white();
            let place = self.at;
            let chosen = self.choose(&patterns, 4)?;
            if chosen == which.len() {
                return Ok(());
            }
            child = which[chosen];
            had[child] += 1;
            self.element(&children[child], place)?;
        }
    }

    /// An element, its start tag at `place` just taken.
    fn element(&mut self, node: &Node, place: usize) -> Result<(), Refusal> {
        if matches!(node.value, Some("item-amount" | "header-amount")) {
            let currency = self.at - 5;
            if &self.message[currency..currency + 3] != b"EUR" {
                return Err((6, currency));
            }
        }
        if node.name == "DrctDbtTxInf" && self.items.len() == 10_000 {
            return Err((12, place));
        }
        if self.is_in_header(node) {
            return Err((23, place));
        }
        match node.value {
            Some(kind) => self.value(node, kind)?,
            None => {
                self.path.push(node.name);
                self.children(&node.children, &node.end)?;
                self.path.pop();
                if self.path.last() == Some(&"GrpHdr") {
                    self.in_header.push(node.name);
                }
            }
        }
        if node.name == "DrctDbtTxInf" {
            self.items.push((place, self.at));
        }
        Ok(())
    }

    /// A value, by its kind or its codes, and its end tag.
    fn value(&mut self, node: &Node, kind: &str) -> Result<(), Refusal> {
        let place = self.at;
        let Some(length) = self.message[place..].iter().position(|&b| b == b'<') else {
            return Err((3, self.message.len()));
        };
        let bytes = &self.message[place..place + length];
        let worth = match checker(kind) {
            Some(check) => check(bytes).map_err(|number| (number, place))?,
            None if kind.split(' ').any(|code| code.as_bytes() == bytes) => 0,
            None => return Err((10, place)),
        };
        match node.name {
            "NbOfTxs" => self.count = (worth, place),
            "TtlIntrBkSttlmAmt" => self.total = (worth, place),
            "Cd" if self.path.last() == Some(&"LclInstrm") => {
                let first = self.instrument.get_or_insert_with(|| bytes.to_vec());
                if first.as_slice() != bytes {
                    return Err((11, place));
                }
            }
            "IntrBkSttlmAmt" => self.sum += u128::from(worth),
            "TxId" if !self.transactions.insert(bytes) => return Err((24, place)),
            _ => {}
        }
        let meaning = match kind {
            "count" => Meaning::Count(worth),
            "item-amount" | "header-amount" => Meaning::Cents(worth),
            "end-to-end" | "text70" | "text140" => Meaning::Bytes(collapsed(bytes).into()),
            _ => Meaning::Bytes(bytes.into()),
        };
        self.said.push(Said { name: node.name, items: self.items.len(), meaning });
        self.at = place + length;
        self.choose(&[&node.end], 4)?;
        Ok(())
    }
}

/// A start tag as a pattern: that of an amount has any currency.
fn start_tag(name: &str, value: Option<&str>) -> String {
    match value {
        Some("item-amount" | "header-amount") => format!("<{name} Ccy=\"^^^\">"),
        _ => format!("<{name}>"),
    }
}

/// An accepted message: which version it is of, count, cents, the items' places, and all that it says
/// in its order.
pub struct Accepted<'m> {
    pub version: usize,
    pub count: u64,
    pub cents: u64,
    pub items: Vec<(usize, usize)>,
    pub said: Vec<Said<'m>>,
}

impl Default for Slow {
    /// As [`Slow::new`].
    fn default() -> Self {
        Slow::new()
    }
}

impl Slow {
    /// Reads the table.
    pub fn new() -> Slow {
        let tops = VERSIONS.map(|version| {
            let mut lines = TABLE.trim_matches('\n').lines().peekable();
            let top = nodes(&mut lines, 0, &version);
            assert!(lines.next().is_none());
            top
        });
        Slow { tops }
    }

    /// Judges a message.
    pub fn judge<'m>(&self, message: &'m [u8]) -> Result<Accepted<'m>, Refusal> {
        if message.len() > 16 << 20 {
            return Err((1, 0));
        }
        let mut run = Run {
            message,
            at: 0,
            count: (0, 0),
            total: (0, 0),
            items: Vec::new(),
            sum: 0,
            instrument: None,
            transactions: BTreeSet::new(),
            path: Vec::new(),
            in_header: Vec::new(),
            said: Vec::new(),
        };
        if message.len() >= 2 && &message[..2] == b"<?" {
            run.choose(&[DECLARATION], 2)?;
        }
        run.white();
        let roots = VERSIONS.map(|version| version.root());
        let version = run.choose(&roots.each_ref().map(String::as_str), 2)?;
        run.children(&self.tops[version], "</Document>")?;
        run.white();
        if run.at < message.len() {
            return Err((16, run.at));
        }
        if run.count.0 != run.items.len() as u64 {
            return Err((14, run.count.1));
        }
        if u128::from(run.total.0) != run.sum {
            return Err((15, run.total.1));
        }
        let Run { total, items, said, .. } = run;
        Ok(Accepted { version, count: items.len() as u64, cents: total.0, items, said })
    }

    /// What is recorded of each item of a message that says this, field by field; nothing for an
    /// InstrId that is absent.
    pub fn recorded<'s>(&self, said: &'s [Said<'s>]) -> Vec<Recorded<'s>> {
        // The header has no item closed before it, so it stands with the first item.
        let items: Vec<&[Said]> = said.chunk_by(|one, other| one.items == other.items).collect();
        let of_item = |item: &&'s [Said<'s>]| {
            let value = |&(name, which, _, stands): &Field| {
                let above = if stands == Stands::InItemOrHeader { items[0] } else { &[] };
                let all = item.iter().rev().chain(above.iter().rev());
                let value = all.filter(|value| value.name == name).nth(which);
                assert!(value.is_some() || stands == Stands::PerhapsInItem, "{name} is missing");
                value.map(|value| &value.meaning)
            };
            FIELDS.iter().map(value).collect()
        };
        items.iter().map(of_item).collect()
    }

    /// The records of a message that says this, item by item: the fields, 15 spaces and LF.
    pub fn records(&self, said: &[Said]) -> Vec<u8> {
        let record = |values: Recorded| {
            let widths = FIELDS.iter().map(|&(_, _, width, _)| width);
            let fields: String = values.into_iter().zip(widths).map(in_width).collect();
            format!("{fields}{:15}\n", "")
        };
        self.recorded(said).into_iter().map(record).collect::<String>().into_bytes()
    }

    /// The plain form of an accepted message: the table of its version written out, with its values.
    pub fn plain(&self, message: &Accepted) -> Vec<u8> {
        let mut form = [DECLARATION, &VERSIONS[message.version].root()].concat().into_bytes();
        let mut left = message.said.as_slice();
        for node in &self.tops[message.version] {
            write(node, &mut left, &mut form);
        }
        form.extend(b"</Document>");
        form
    }
}

/// What is recorded of an item: for each field its value, if it has one.
pub type Recorded<'s> = Vec<Option<&'s Meaning<'s>>>;

/// Where the value of a field stands.
#[derive(Clone, Copy, PartialEq, Eq)]
enum Stands {
    InItem,
    PerhapsInItem,
    InItemOrHeader,
}

/// A field of a record: the element's name, which of that name it is, the width, where it stands. They
/// are counted back from the end of the item, then of the header. (So a BIC is not the header's, and
/// the first `Cd` is LclInstrm's, since that of SvcLvl stands before it.)
type Field = (&'static str, usize, usize, Stands);

const FIELDS: [Field; 14] = [
    ("TxId", 0, 35, Stands::InItem),
    ("EndToEndId", 0, 35, Stands::InItem),
    ("MndtId", 0, 35, Stands::InItem),
    ("IBAN", 0, 34, Stands::InItem),
    ("IBAN", 1, 34, Stands::InItem),
    ("BIC", 0, 11, Stands::InItem),
    ("IntrBkSttlmAmt", 0, 11, Stands::InItem),
    ("ReqdColltnDt", 0, 10, Stands::InItem),
    ("SeqTp", 0, 4, Stands::InItemOrHeader),
    ("Id", 0, 35, Stands::InItem),
    ("BIC", 1, 11, Stands::InItem),
    ("InstrId", 0, 35, Stands::PerhapsInItem),
    ("Cd", 0, 4, Stands::InItemOrHeader),
    ("DtOfSgntr", 0, 10, Stands::InItem),
];

/// A value in a field of this width.
fn in_width((value, width): (Option<&Meaning>, usize)) -> String {
    match value {
        Some(Meaning::Cents(cents)) => format!("{cents:0width$}"),
        Some(Meaning::Bytes(bytes)) => format!("{:width$}", String::from_utf8_lossy(bytes)),
        Some(Meaning::Count(_)) => panic!("no count is recorded"),
        None => " ".repeat(width),
    }
}

/// Writes an element as often as it stands in what is said, with all that it holds. One that may be
/// left out, or stand again, is there if the next value is one of its own.
fn write(node: &Node, left: &mut &[Said], form: &mut Vec<u8>) {
    let mut times = 0;
    while times < node.least || (times < node.most && left.first().is_some_and(|v| node.has(v))) {
        form.extend(node.start.replace("^^^", "EUR").bytes());
        if node.value.is_some() {
            write_next(left, form);
        }
        for child in &node.children {
            write(child, left, form);
        }
        form.extend(node.end.bytes());
        times += 1;
    }
}

/// Writes the next value that is said as it is meant.
fn write_next(left: &mut &[Said], form: &mut Vec<u8>) {
    let Some((first, rest)) = left.split_first() else { return };
    match &first.meaning {
        Meaning::Count(count) => form.extend(count.to_string().bytes()),
        Meaning::Cents(cents) => {
            form.extend(format!("{}.{:02}", cents / 100, cents % 100).bytes());
        }
        Meaning::Bytes(bytes) => form.extend(bytes.iter()),
    }
    *left = rest;
}

type Checker = fn(&[u8]) -> Result<u64, u8>;

/// The checker of a kind, by its name in the table; a list of codes has none.
fn checker(kind: &str) -> Option<Checker> {
    Some(match kind {
        "reference" => reference,
        "end-to-end" => end_to_end,
        "text70" => |v| text(v, 70),
        "text140" => |v| text(v, 140),
        "date" => |v| date(v).then_some(0).ok_or(7),
        "time" => time,
        "count" => count,
        "item-amount" => |v| amount(v, 99_999_999_999),
        "header-amount" => |v| amount(v, 99_999_999_999_999_999),
        "bic" => bic,
        "bicfi" => bicfi,
        "iban" => iban,
        "creditor-id" => creditor_id,
        _ => return None,
    })
}

/// The single checker of a kind.
pub fn check(kind: Kind, value: &[u8]) -> Result<u64, u8> {
    let name = match kind {
        Kind::Iban => "iban",
        Kind::CreditorId => "creditor-id",
        Kind::Bic => "bic",
        Kind::Bicfi => "bicfi",
        Kind::Date => "date",
        Kind::Time => "time",
        Kind::Reference => "reference",
        Kind::EndToEnd => "end-to-end",
        Kind::Text70 => "text70",
        Kind::Text140 => "text140",
        Kind::Count => "count",
        Kind::ItemAmount => "item-amount",
        Kind::HeaderAmount => "header-amount",
        Kind::Code(_) => panic!("a code has no single checker"),
    };
    checker(name).expect("each kind has one")(value)
}

const SIGNS: &[u8] = b"/-?:().,'+";

/// Whether each byte is of the class that the template's byte names: `A` capital, `9` digit, `X`
/// capital or digit, `x` letter or digit, `r` reference set, `T` A-Z 2-9, `L` A-N P-Z 0-9; after a
/// backslash, and otherwise, the byte itself.
fn like(value: &[u8], template: &str) -> bool {
    let mut at = 0;
    let mut template = template.bytes();
    while let Some(class) = template.next() {
        let Some(&byte) = value.get(at) else { return false };
        let capital = (65..=90).contains(&byte);
        let small = (97..=122).contains(&byte);
        let digit = (48..=57).contains(&byte);
        let is = match class {
            b'A' => capital,
            b'9' => digit,
            b'X' => capital || digit,
            b'x' => capital || small || digit,
            b'r' => capital || small || digit || SIGNS.contains(&byte),
            b'T' => capital || (50..=57).contains(&byte),
            b'L' => (capital && byte != 79) || digit,
            b'\\' => template.next() == Some(byte),
            other => byte == other,
        };
        if !is {
            return false;
        }
        at += 1;
    }
    at == value.len()
}

/// What digits write.
fn number(digits: &[u8]) -> u128 {
    std::str::from_utf8(digits).unwrap().parse().unwrap()
}

/// "Tab, CR and LF count as space; runs become one; ends are stripped", one after the other.
fn collapsed(value: &[u8]) -> Vec<u8> {
    let mut copy = value.to_vec();
    copy.iter_mut().filter(|byte| matches!(byte, 9 | 13 | 10)).for_each(|byte| *byte = 32);
    copy.dedup_by(|one, before| *one == 32 && *before == 32);
    let copy = copy.strip_prefix(b" ").unwrap_or(&copy);
    copy.strip_suffix(b" ").unwrap_or(copy).to_vec()
}

/// No `/` first or last, no `//`.
fn slashes_hold(value: &[u8]) -> bool {
    !value.starts_with(b"/") && !value.ends_with(b"/") && !value.windows(2).any(|two| two == b"//")
}

/// 1 to 35 of the set, and the slash rule.
fn reference(value: &[u8]) -> Result<u64, u8> {
    let holds = (1..=35).contains(&value.len())
        && like(value, &"r".repeat(value.len()))
        && slashes_hold(value);
    holds.then_some(0).ok_or(7)
}

/// Collapsed: a text of up to 35, and the slash rule.
fn end_to_end(value: &[u8]) -> Result<u64, u8> {
    let is_text = text(value, 35).is_ok();
    (is_text && slashes_hold(&collapsed(value))).then_some(0).ok_or(7)
}

/// Collapsed: the set and spaces.
fn text(value: &[u8], longest: usize) -> Result<u64, u8> {
    let value = collapsed(value);
    let without: Vec<u8> = value.iter().copied().filter(|&b| b != 32).collect();
    let holds = (1..=longest).contains(&value.len()) && like(&without, &"r".repeat(without.len()));
    holds.then_some(0).ok_or(7)
}

/// The day's number, and back: only a real day comes back as itself.
fn date(value: &[u8]) -> bool {
    if !like(value, "9999-99-99") {
        return false;
    }
    let (y, m, d) =
        (number(&value[..4]) as i64, number(&value[5..7]) as i64, number(&value[8..]) as i64);
    if y == 0 {
        return false;
    }
    let shifted = if m <= 2 { y - 1 } else { y };
    let era = shifted.div_euclid(400);
    let of_era = shifted - era * 400;
    let of_year = (153 * (if m > 2 { m - 3 } else { m + 9 }) + 2) / 5 + d - 1;
    let day = era * 146_097 + of_era * 365 + of_era / 4 - of_era / 100 + of_year;
    // And back.
    let era = day.div_euclid(146_097);
    let of_cycle = day - era * 146_097;
    let year = (of_cycle - of_cycle / 1460 + of_cycle / 36_524 - of_cycle / 146_096) / 365;
    let of_year = of_cycle - (365 * year + year / 4 - year / 100);
    let month = (5 * of_year + 2) / 153;
    let day = of_year - (153 * month + 2) / 5 + 1;
    let month_back = if month < 10 { month + 3 } else { month - 9 };
    let year_back = year + era * 400 + i64::from(month_back <= 2);
    (year_back, month_back, day) == (y, m, d)
}

/// A date, a time of day and a zone, by all their templates.
fn time(value: &[u8]) -> Result<u64, u8> {
    for fraction in ["", ".999"] {
        for zone in ["", "Z", "+99:99", "-99:99"] {
            let template = format!("9999-99-99\\T99:99:99{fraction}{zone}");
            if !like(value, &template) {
                continue;
            }
            let two = |at: usize| number(&value[at..at + 2]);
            let end = value.len();
            let zone_holds = zone.len() < 6
                || (two(end - 2) < 60
                    && (two(end - 5) < 14 || (two(end - 5) == 14 && two(end - 2) == 0)));
            let holds = date(&value[..10]) && two(11) < 24 && two(14) < 60 && two(17) < 60;
            return (holds && zone_holds).then_some(0).ok_or(7);
        }
    }
    Err(7)
}

/// 1 to 15 digits; answers the number.
fn count(value: &[u8]) -> Result<u64, u8> {
    if value.is_empty() || value.len() > 15 || !like(value, &"9".repeat(value.len())) {
        return Err(7);
    }
    Ok(number(value) as u64)
}

/// Digits before and behind the point, by all their templates; answers the cents.
fn amount(value: &[u8], most: u128) -> Result<u64, u8> {
    for whole in 1..=15 {
        for (fraction, times) in [("", 100), (".9", 10), (".99", 1)] {
            if like(value, &format!("{}{fraction}", "9".repeat(whole))) {
                let digits: Vec<u8> = value.iter().copied().filter(|&b| b != b'.').collect();
                let cents = number(&digits) * times;
                return if (1..=most).contains(&cents) { Ok(cents as u64) } else { Err(9) };
            }
        }
    }
    Err(7)
}

/// Eight or eleven, by the two templates.
fn bic(value: &[u8]) -> Result<u64, u8> {
    (like(value, "AAAAAATL") || like(value, "AAAAAATLXXX")).then_some(0).ok_or(7)
}

/// The same of version .08.
fn bicfi(value: &[u8]) -> Result<u64, u8> {
    (like(value, "XXXXAAXX") || like(value, "XXXXAAXXXXX")).then_some(0).ok_or(7)
}

/// Long division of the written number, character by character.
fn leaves_one(written: &[u8]) -> bool {
    let mut rest = 0;
    for &byte in written {
        let worth = match byte {
            48..=57 => vec![byte - 48],
            65..=90 => vec![(byte - 55) / 10, (byte - 55) % 10],
            97..=122 => vec![(byte - 87) / 10, (byte - 87) % 10],
            _ => vec![],
        };
        for digit in worth {
            rest = (rest * 10 + u32::from(digit)) % 97;
        }
    }
    rest == 1
}

/// Check digits of 02 to 98 that leave 1.
fn checked(start: &[u8], body: &[u8]) -> Result<u64, u8> {
    let two = number(&start[2..4]);
    let written = [body, start].concat();
    ((2..=98).contains(&two) && leaves_one(&written)).then_some(0).ok_or(8)
}

/// The request's list of lengths, word for word.
const LENGTHS: &str = "NO 15; BE 16; DK FI NL 18; SI 19; AT EE LT LU 20; CH HR LI LV 21; \
    BG DE GB IE VA 22; GI 23; AD CZ ES RO SE SK 24; PT 25; IS 26; FR GR IT MC SM 27; CY HU PL 28; \
    MT 31";

/// Whether the list has this country with this length, read as text.
fn listed(country: &[u8], length: usize) -> bool {
    LENGTHS.split("; ").any(|entry| {
        let mut words = entry.split(' ').rev();
        words.next() == Some(length.to_string().as_str())
            && words.any(|word| word.as_bytes() == country)
    })
}

/// 15 to 34 of the template, its country's length, and the check digits.
fn iban(value: &[u8]) -> Result<u64, u8> {
    if !(15..=34).contains(&value.len())
        || !like(value, &format!("AA99{}", "X".repeat(value.len() - 4)))
    {
        return Err(7);
    }
    if !listed(&value[..2], value.len()) {
        return Err(19);
    }
    checked(&value[..4], &value[4..])
}

/// 8 to 35 of the template, not signs alone, and the check digits.
fn creditor_id(value: &[u8]) -> Result<u64, u8> {
    if !(8..=35).contains(&value.len())
        || !like(value, &format!("AA99xxx{}", "r".repeat(value.len() - 7)))
        || value[7..].iter().all(|b| SIGNS.contains(b))
    {
        return Err(7);
    }
    checked(&value[..4], &value[7..])
}
