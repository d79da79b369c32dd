//! The elements of the profile in the paper's order: what may come at a place, what kind of value an
//! element has, which codes. It is one tree for both versions, which differ in the BIC elements alone.
//! Only refusals are put into words with it; the library judges, and the tests hold every line of this
//! tree against it.

use crate::tags::Open;
use crate::version::Version;
use face::Kind;

/// What an element holds.
#[derive(Clone, Copy)]
pub enum Content {
    Group(&'static [Element]),
    Value(Kind),
    Amount(Kind),
    Code(&'static [&'static str]),
    /// A BIC: the version decides the element's name and its kind.
    Bic,
}

/// How often an element stands in its group.
#[derive(Clone, Copy, PartialEq)]
enum Times {
    Once,
    OnceOrNot,
    OnceOrMore,
    /// Once in every item, or in none where it stands in the header.
    OnceUnlessInHeader,
}

#[derive(Clone, Copy)]
pub struct Element {
    name: &'static str,
    times: Times,
    pub content: Content,
}

/// An element that stands once.
const fn once(name: &'static str, content: Content) -> Element {
    Element { name, times: Times::Once, content }
}

/// A group of elements.
const fn group(name: &'static str, children: &'static [Element]) -> Element {
    once(name, Content::Group(children))
}

/// An element with a value.
const fn value(name: &'static str, kind: Kind) -> Element {
    once(name, Content::Value(kind))
}

/// An amount, whose tag has the currency.
const fn amount(name: &'static str, kind: Kind) -> Element {
    once(name, Content::Amount(kind))
}

/// An element with one of some codes.
const fn code(name: &'static str, codes: &'static [&'static str]) -> Element {
    once(name, Content::Code(codes))
}

/// The same, but it may be left out.
const fn or_not(element: Element) -> Element {
    Element { times: Times::OnceOrNot, ..element }
}

/// The same, but it may stand in the header instead.
const fn unless_in_header(element: Element) -> Element {
    Element { times: Times::OnceUnlessInHeader, ..element }
}

/// The same, but it may stand again.
const fn or_more(element: Element) -> Element {
    Element { times: Times::OnceOrMore, ..element }
}

const DOCUMENT: Element = group("Document", &[group("FIToFICstmrDrctDbt", &[HEADER, ITEM])]);

const HEADER: Element = group(
    "GrpHdr",
    &[
        value("MsgId", Kind::Reference),
        value("CreDtTm", Kind::Time),
        value("NbOfTxs", Kind::Count),
        amount("TtlIntrBkSttlmAmt", Kind::HeaderAmount),
        value("IntrBkSttlmDt", Kind::Date),
        group("SttlmInf", &[code("SttlmMtd", &["CLRG"])]),
        or_not(PAYMENT_TYPE),
        group("InstgAgt", AGENT),
    ],
);

const ITEM: Element = or_more(group(
    "DrctDbtTxInf",
    &[
        group(
            "PmtId",
            &[
                or_not(value("InstrId", Kind::Reference)),
                value("EndToEndId", Kind::EndToEnd),
                value("TxId", Kind::Reference),
            ],
        ),
        unless_in_header(PAYMENT_TYPE),
        amount("IntrBkSttlmAmt", Kind::ItemAmount),
        code("ChrgBr", &["SLEV"]),
        value("ReqdColltnDt", Kind::Date),
        group("DrctDbtTx", &[MANDATE, SCHEME]),
        group("Cdtr", NAME),
        group("CdtrAcct", ACCOUNT),
        group("CdtrAgt", AGENT),
        group("Dbtr", NAME),
        group("DbtrAcct", ACCOUNT),
        group("DbtrAgt", AGENT),
        or_not(group("RmtInf", &[value("Ustrd", Kind::Text140)])),
    ],
));

const PAYMENT_TYPE: Element = group(
    "PmtTpInf",
    &[
        group("SvcLvl", &[code("Cd", &["SEPA"])]),
        group("LclInstrm", &[code("Cd", &["CORE", "B2B"])]),
        code("SeqTp", &["FRST", "RCUR", "FNAL", "OOFF"]),
    ],
);

const MANDATE: Element =
    group("MndtRltdInf", &[value("MndtId", Kind::Reference), value("DtOfSgntr", Kind::Date)]);

const SCHEME: Element = group(
    "CdtrSchmeId",
    &[group(
        "Id",
        &[group(
            "PrvtId",
            &[group(
                "Othr",
                &[value("Id", Kind::CreditorId), group("SchmeNm", &[code("Prtry", &["SEPA"])])],
            )],
        )],
    )],
);

const NAME: &[Element] = &[value("Nm", Kind::Text70)];
const ACCOUNT: &[Element] = &[group("Id", &[value("IBAN", Kind::Iban)])];
const AGENT: &[Element] = &[group("FinInstnId", &[once("BIC", Content::Bic)])];

/// The innermost of the open elements; none where the root was not read.
pub fn innermost(open: &Open) -> Option<Element> {
    let version = open.version?;
    let mut names = open.names();
    let mut element = (names.next()? == DOCUMENT.name.as_bytes()).then_some(DOCUMENT)?;
    for name in names {
        let children = match element.content {
            Content::Group(children) => children,
            _ => return None,
        };
        let mut children = children.iter().map(|child| child.in_version(version));
        element = children.find(|child| child.name.as_bytes() == name)?;
    }
    Some(element)
}

/// The tags that may come at a place where a tag is due.
pub fn expected(open: &Open) -> Vec<String> {
    let (element, version) = match (innermost(open), open.version) {
        (Some(element), Some(version)) => (element, version),
        _ => return Vec::new(),
    };
    let end = format!("</{}>", element.name);
    match element.content {
        Content::Group(children) => {
            let children = children.iter().map(|child| child.in_version(version));
            due(&children.collect::<Vec<_>>(), open, end)
        }
        _ => vec![end],
    }
}

/// The tags that may come behind the last child of a group, up to the first one that must.
fn due(children: &[Element], open: &Open, end: String) -> Vec<String> {
    let last = open.last_child();
    let stood = children.iter().position(|child| Some(child.name.as_bytes()) == last);
    let again = stood.filter(|&at| children[at].times == Times::OnceOrMore);
    let next = stood.map_or(0, |at| at + 1);
    let mut tags: Vec<String> = again.iter().map(|&at| children[at].start()).collect();
    for child in &children[next..] {
        if child.times == Times::OnceUnlessInHeader && open.is_typed {
            continue;
        }
        tags.push(child.start());
        if child.times != Times::OnceOrNot {
            return tags;
        }
    }
    tags.push(end);
    tags
}

impl Element {
    /// As a version has it.
    fn in_version(&self, version: Version) -> Element {
        match self.content {
            Content::Bic => {
                let (name, kind) = version.bic();
                value(name, kind)
            }
            _ => *self,
        }
    }

    /// Its start tag.
    fn start(&self) -> String {
        match self.content {
            Content::Amount(_) => format!("<{} Ccy=\"EUR\">", self.name),
            _ => format!("<{}>", self.name),
        }
    }
}

#[cfg(test)]
mod tests {
    use super::*;
    use crate::tags::{Tag, Tags};

    /// PmtTpInf in every item, and in the header; version .08.
    const SAMPLES: [&[u8]; 3] = [
        include_bytes!("../../../samples/evening.xml"),
        include_bytes!("../../../samples/partner.xml"),
        include_bytes!("../../../samples/evening08.xml"),
    ];

    /// Number and place of the library's answer.
    fn judged(message: &[u8]) -> [u64; 2] {
        let words = face::judge(message);
        [words[0], words[1]]
    }

    /// The text of a tag.
    fn text(tag: &Tag) -> String {
        format!("<{}>", String::from_utf8_lossy(tag.inside))
    }

    /// Each tag of a sample below the root, and what stands before it.
    fn tags(sample: &'static [u8]) -> impl Iterator<Item = (Tag<'static>, &'static [u8])> {
        Tags::of(sample).skip(2).map(move |tag| {
            let before = &sample[..tag.place];
            (tag, before)
        })
    }

    /// At each tag of an accepted message: whatever is expected, cut there, is refused 3 at its end,
    /// so the library would have read on; and the tag that stands there is expected.
    #[test]
    fn whatever_is_expected_may_come() {
        for (tag, before) in SAMPLES.into_iter().flat_map(tags) {
            let (stands, expected) = (text(&tag), expected(&Open::behind(before)));
            assert!(expected.contains(&stands), "{stands}: {expected:?}");
            for tag in expected.iter().filter(|tag| *tag != "</Document>") {
                let message = [before, tag.as_bytes()].concat();
                assert_eq!(judged(&message), [3, message.len() as u64], "{tag}");
            }
        }
    }

    /// And nothing else may come: every other tag of the message is refused 4 there, but 23 where an
    /// item's PmtTpInf would stand and the header has one.
    #[test]
    fn whatever_is_not_expected_may_not_come() {
        let both = tags(SAMPLES[0]).chain(tags(SAMPLES[2]));
        let mut all: Vec<String> = both.map(|(tag, _)| text(&tag)).collect();
        all.sort();
        all.dedup();
        let mut again = 0;
        for (tag, before) in SAMPLES.into_iter().flat_map(tags) {
            let open = Open::behind(before);
            let expected = expected(&open);
            let is_behind_id = open.is_typed && open.last_child() == Some(b"PmtId");
            for other in all.iter().filter(|other| !expected.contains(other)) {
                let is_again = is_behind_id && other == "<PmtTpInf>";
                let number = if is_again { 23 } else { 4 };
                let message = [before, other.as_bytes(), b"x"].concat();
                assert_eq!(judged(&message), [number, tag.place as u64], "{other}");
                again += usize::from(is_again);
            }
        }
        assert_eq!(again, 2);
    }

    /// Each value's kind is the one by which the library refuses it, and so are the codes.
    #[test]
    fn kinds_and_codes_are_those_of_the_library() {
        for sample in SAMPLES {
            for tag in Tags::of(sample).filter(|tag| !tag.inside.starts_with(b"/")) {
                agree_behind(&sample[..tag.end]);
            }
        }
    }

    /// What the library says of values behind a start tag, against the tree.
    fn agree_behind(before: &[u8]) {
        let (open, here) = (Open::behind(before), before.len());
        let end = format!("</{}", String::from_utf8_lossy(open.name(0)));
        let after = |value: &str| judged(&[before, value.as_bytes(), end.as_bytes()].concat());
        let read_on = |value: &str| [3, (here + value.len() + end.len()) as u64];
        match innermost(&open).map(|element| element.content) {
            Some(Content::Code(codes)) => {
                // A code that differs from the first item's is listed all the same: 11, not 10.
                codes.iter().for_each(|code| assert_ne!(after(code)[0], 10, "{code}"));
                assert_eq!(after("CORX"), [10, here as u64]);
            }
            Some(Content::Value(kind) | Content::Amount(kind)) => {
                for value in [
                    "7",
                    "A1",
                    "2000-02-29",
                    "2000-02-29T00:00:00",
                    "BANKDEFF",
                    "1BNKDE0O",
                    "A B",
                    "\tA\n",
                    "A /",
                    &"A".repeat(36),
                    &"A".repeat(71),
                ] {
                    match face::check(kind, value.as_bytes()) {
                        [0, ..] => assert_eq!(after(value), read_on(value), "{value}"),
                        [number, ..] => assert_eq!(after(value), [number, here as u64], "{value}"),
                    }
                }
            }
            _ => {}
        }
    }
}
