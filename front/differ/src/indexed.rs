//! Request 11: the lent index. It may hold anything, and has rubbish in it at every call of these
//! tests; here it has every length about the least, between numbers that are not lent, for each
//! function that takes one.

use crate::ask::{is_large, item_words, verdict_words, Asker};
use crate::damage::Case;
use crate::face::{self, Words, INDEX, RECORD};
use crate::tally::Name;
use std::sync::LazyLock;

/// The sorts of rubbish.
const SORTS: usize = 6;

/// A number of a sort of rubbish, at this place of the index: such as an item's own, the first item's
/// everywhere, those about the last item's, the highest, any, and none.
fn rubbish(sort: usize, at: usize) -> u32 {
    match sort {
        0 => at as u32 + 1,
        1 => 1,
        2 => 9_998 + at as u32 % 5,
        3 => u32::MAX,
        4 => (at as u32 ^ 0x9E37).wrapping_mul(0x85EB_CA6B).rotate_left(13),
        _ => 0,
    }
}

/// An index of just the numbers that are due, with each sort of rubbish.
static FILLED: LazyLock<[Vec<u32>; SORTS]> =
    LazyLock::new(|| std::array::from_fn(|sort| (0..INDEX).map(|at| rubbish(sort, at)).collect()));

/// An index with rubbish, by any number: that of a message's bytes, so that it is the same again.
pub fn filled(number: usize) -> Vec<u32> {
    FILLED[number % SORTS].clone()
}

/// So many numbers stand before and behind the lent ones, and must stay.
const BESIDE: usize = 5;

/// An index between numbers that are not lent.
#[derive(Clone)]
pub(crate) struct Index {
    numbers: Vec<u32>,
}

impl Index {
    /// Of this length, with rubbish of this sort.
    pub(crate) fn new(length: usize, sort: usize) -> Index {
        let all = length + 2 * BESIDE;
        Index { numbers: (0..all).map(|at| rubbish(sort % SORTS, at)).collect() }
    }

    /// The lent part.
    pub(crate) fn lent(&mut self) -> &mut [u32] {
        let end = self.numbers.len() - BESIDE;
        &mut self.numbers[BESIDE..end]
    }

    /// As it must be after a call: "all entries are zero on return, but after 25".
    pub(crate) fn afterwards(mut self) -> Index {
        if self.lent().len() >= INDEX {
            self.lent().fill(0);
        }
        self
    }

    /// The first of its numbers, and of those beside it, that is other than in another, with what each
    /// has there.
    pub(crate) fn differs(&self, other: &Index) -> Option<(usize, u32, u32)> {
        let pairs = self.numbers.iter().zip(&other.numbers).enumerate();
        let mut pairs = pairs.map(|(at, (one, other))| (at, *one, *other));
        pairs.find(|(_, one, other)| one != other)
    }
}

/// The records by each engine, with a lent index.
type Records = fn(&[u8], &mut [u8], &mut [u32]) -> Words;
const ENGINES: [(&str, Records); 2] =
    [("records", face::records_with), ("records by the table", face::records_by_table_with)];

/// The lengths that an index is lent with: none, too few, just enough, more.
pub const LENGTHS: [usize; 6] = [0, 1, INDEX - 1, INDEX, INDEX + 1, 4 * INDEX];

impl Asker {
    /// A message with indexes of all lengths: the judge, two items, the records and the plain form; of a
    /// large one the judge alone. The judge and the records by both engines, but that the slower one reads
    /// no large message with a longer index than is due. What is due is the plain judge's own answer, or
    /// 25.
    pub fn indexed(&mut self, name: &Name, case: &Case) {
        let bytes = &case.bytes;
        let due = verdict_words(plain::judge(bytes));
        for (turn, length) in LENGTHS.into_iter().enumerate() {
            let turn = (turn, length, name.number as usize);
            self.lent(name, bytes, turn, ("judge", due), |index| face::judge_with(bytes, index));
            let table = |index: &mut [u32]| face::judge_by_table_with(bytes, index);
            if length <= INDEX || !is_large(bytes) {
                self.lent(name, bytes, turn, ("judge by the table", due), table);
            }
            if is_large(bytes) {
                continue;
            }
            for i in [0, name.number % 3] {
                let due = item_words(plain::item(bytes, i));
                let what = (&*format!("item {i}"), due);
                self.lent(name, bytes, turn, what, |index| face::item_with(bytes, i, index));
            }
            self.areas(name, bytes, turn);
        }
    }

    /// The records and the plain form, each in an area that has room or has not. With too short an index
    /// the area is as lent.
    fn areas(&mut self, name: &Name, bytes: &[u8], turn: (usize, usize, usize)) {
        let is_short = turn.1 < INDEX;
        let count = verdict_words(plain::judge(bytes))[1].min(10_000) as usize;
        for room in [RECORD * count, RECORD / 2] {
            for (what, records) in ENGINES {
                let mut areas = [vec![0xAA; room], vec![0xAA; room]];
                let [library, plain] = &mut areas;
                let due = verdict_words(plain::records(bytes, plain));
                let call = |index: &mut [u32]| records(bytes, library, index);
                self.lent(name, bytes, turn, (what, due), call);
                self.area(name, bytes, what, is_short, &areas);
            }
        }
        for room in [2 * bytes.len() + 38, 40] {
            let mut areas = [vec![0xAA; room], vec![0xAA; room]];
            let [library, plain] = &mut areas;
            let due = match plain::plain_form(bytes, plain) {
                Ok(length) => [0, length as u64, 0],
                Err((number, place)) => [u64::from(number), place as u64, 0],
            };
            let call = |index: &mut [u32]| face::plain_with(bytes, library, index);
            self.lent(name, bytes, turn, ("plain form", due), call);
            self.area(name, bytes, "plain form", is_short, &areas);
        }
    }

    /// One call with an index of a length: the answer, the index, and the numbers beside it.
    fn lent(
        &mut self,
        name: &Name,
        bytes: &[u8],
        (turn, length, seed): (usize, usize, usize),
        (what, words): (&str, Words),
        call: impl FnOnce(&mut [u32]) -> Words,
    ) {
        let lent = Index::new(length, turn + seed);
        let mut index = lent.clone();
        let library = call(index.lent());
        let due = if length < INDEX { [25, 0, 0] } else { words };
        let question = || format!("{what}, index of {length}");
        self.tally.hold(name, &question, bytes, ("library", &library), ("due", &due));
        let question = || format!("the index of {length} after {what}, from {BESIDE} before it");
        let differs = index.differs(&lent.afterwards());
        self.tally.hold(name, &question, bytes, ("library", &differs), ("due", &None));
    }

    /// The area after such a call.
    fn area(
        &mut self,
        name: &Name,
        bytes: &[u8],
        what: &str,
        is_short: bool,
        areas: &[Vec<u8>; 2],
    ) {
        let [library, plain] = areas;
        let lent = vec![0xAA; plain.len()];
        let due = if is_short { &lent } else { plain };
        let question = || format!("the area after {what}, with an index");
        self.tally.hold_areas(name, &question, bytes, ("library", library), ("due", due));
    }

    /// "Leave the plain search in place as a second way .., shown to answer the same on every message
    /// where 25 isn't given."
    pub(crate) fn second_way(&mut self, name: &Name, bytes: &[u8], library: Words) {
        let plainly = face::judge_plainly(bytes);
        let question = || "judge, the two ways".to_string();
        self.tally.hold(name, &question, bytes, ("by the index", &library), ("plainly", &plainly));
    }
}
