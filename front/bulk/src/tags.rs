//! The tags of a message one after the other, and the elements that are open behind each. It judges
//! nothing: up to the place of a refusal the judge has told that the tags are in order.

use crate::version::Version;

pub const ITEM: &[u8] = b"DrctDbtTxInf";
pub const HEADER: &[u8] = b"GrpHdr";
pub const PAYMENT_TYPE: &[u8] = b"PmtTpInf";

/// One tag.
pub struct Tag<'a> {
    /// Where its `<` stands.
    pub place: usize,
    /// What stands between its brackets, as far as it goes.
    pub inside: &'a [u8],
    /// Whether its `>` is there.
    pub is_whole: bool,
    /// Where the bytes behind it begin.
    pub end: usize,
}

/// The tags of a message in their order.
pub struct Tags<'a> {
    message: &'a [u8],
    at: usize,
}

impl<'a> Tags<'a> {
    /// All tags, from the first.
    pub fn of(message: &'a [u8]) -> Tags<'a> {
        Tags { message, at: 0 }
    }
}

impl<'a> Iterator for Tags<'a> {
    type Item = Tag<'a>;

    /// The next tag, from its `<` to its `>` or to the end.
    fn next(&mut self) -> Option<Tag<'a>> {
        let place = find(self.message, self.at, b'<')?;
        let close = find(self.message, place, b'>');
        self.at = close.unwrap_or(self.message.len());
        let inside = &self.message[place + 1..self.at];
        let end = (self.at + 1).min(self.message.len());
        Some(Tag { place, inside, is_whole: close.is_some(), end })
    }
}

/// The next place of a byte.
pub fn find(bytes: &[u8], from: usize, byte: u8) -> Option<usize> {
    bytes[from..].iter().position(|&other| other == byte).map(|at| from + at)
}

/// The bytes before the next one of a kind, or all.
pub fn until(bytes: &[u8], byte: u8) -> &[u8] {
    &bytes[..find(bytes, 0, byte).unwrap_or(bytes.len())]
}

/// An element that is open, and the last of its children that was closed.
struct Element<'a> {
    name: &'a [u8],
    child: Option<&'a [u8]>,
}

/// The elements that are open at a place, how many items have begun, whether the header has a
/// PmtTpInf, and which version the root names, once it is read.
#[derive(Default)]
pub struct Open<'a> {
    elements: Vec<Element<'a>>,
    pub items: usize,
    pub is_typed: bool,
    pub version: Option<Version>,
}

impl<'a> Open<'a> {
    /// The elements that are open behind so many bytes.
    pub fn behind(before: &'a [u8]) -> Open<'a> {
        let mut open = Open::default();
        Tags::of(before).for_each(|tag| {
            open.step(&tag);
        });
        open
    }

    /// Goes over one tag and tells whether it opened an element. A tag that is cut counts as soon as
    /// its name is whole, that is when a space follows: the place then lies in that element's tag.
    pub fn step(&mut self, tag: &Tag<'a>) -> bool {
        match tag.inside.first() {
            Some(b'?') => false,
            Some(b'/') => {
                if tag.is_whole {
                    self.close();
                }
                false
            }
            _ => {
                let name = until(tag.inside, b' ');
                let opens = tag.is_whole || name.len() < tag.inside.len();
                if self.elements.is_empty() && tag.is_whole {
                    self.version = Version::of_root(tag.inside);
                }
                if opens {
                    self.enter(name);
                }
                opens
            }
        }
    }

    /// Enters an element.
    pub fn enter(&mut self, name: &'a [u8]) {
        self.elements.push(Element { name, child: None });
        self.items += usize::from(name == ITEM);
    }

    /// Leaves the innermost element.
    fn close(&mut self) {
        let closed = self.elements.pop().map(|element| element.name);
        if let Some(around) = self.elements.last_mut() {
            around.child = closed;
            self.is_typed |= around.name == HEADER && closed == Some(PAYMENT_TYPE);
        }
    }

    /// The names of the open elements, the outermost first.
    pub fn names(&self) -> impl Iterator<Item = &'a [u8]> + '_ {
        self.elements.iter().map(|element| element.name)
    }

    /// The name of the element so many levels around the innermost one; none is empty.
    pub fn name(&self, levels: usize) -> &'a [u8] {
        self.elements.iter().rev().nth(levels).map_or(b"", |element| element.name)
    }

    /// The last child that was closed in the innermost element.
    pub fn last_child(&self) -> Option<&'a [u8]> {
        self.elements.last().and_then(|element| element.child)
    }

    /// Whether an item is open.
    pub fn is_in_item(&self) -> bool {
        self.names().any(|name| name == ITEM)
    }
}

#[cfg(test)]
mod tests {
    use super::*;

    #[test]
    fn open_elements_and_their_last_child() {
        let open = Open::behind(b"<?xml?><A x=\"1\"><B>1</B> <C><D>2</D>");
        assert_eq!(open.names().collect::<Vec<_>>(), [b"A", b"C"]);
        assert_eq!((open.name(0), open.name(1), open.name(2)), (&b"C"[..], &b"A"[..], &b""[..]));
        assert_eq!(open.last_child(), Some(&b"D"[..]));
        let open = Open::behind(b"<A><B>1</B>");
        assert_eq!(open.last_child(), Some(&b"B"[..]));
        assert_eq!(Open::behind(b"<A><B>1</").name(0), b"B");
        assert_eq!(Open::behind(b"<A><B").name(0), b"A");
        assert_eq!(Open::behind(b"<A><B Ccy").name(0), b"B");
    }

    #[test]
    fn a_payment_type_counts_in_the_header_alone() {
        for (before, is_typed) in [
            (&b"<GrpHdr><PmtTpInf><SeqTp>RCUR</SeqTp></PmtTpInf>"[..], true),
            (b"<GrpHdr><PmtTpInf></PmtTpInf></GrpHdr><DrctDbtTxInf>", true),
            (b"<GrpHdr><PmtTpInf>", false),
            (b"<GrpHdr></GrpHdr><DrctDbtTxInf><PmtTpInf></PmtTpInf>", false),
        ] {
            assert_eq!(Open::behind(before).is_typed, is_typed);
        }
    }

    #[test]
    fn any_bytes_are_gone_over() {
        for bytes in [&b""[..], b"<", b">", b"<>", b"</>", b"</a></b>", b"<<<>>>", b"< >", b"\xff<"]
        {
            assert!(Open::behind(bytes).names().count() <= bytes.len());
        }
        let tags: Vec<usize> = Tags::of(b"x<a>y</a").map(|tag| tag.end).collect();
        assert_eq!(tags, [4, 8]);
    }
}
