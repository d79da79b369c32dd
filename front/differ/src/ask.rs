//! The questions: the library, the plain judge, the slow judge and what is known of a case are held
//! against each other, and the laws that the library's proofs state are tried on the compiled code.

use crate::collapse;
use crate::damage::{Case, Known};
use crate::face::{self, Words, RECORD};
use crate::form;
use crate::kind::Kind;
use crate::random::Random;
use crate::slow::{self, Slow};
use crate::tally::{Name, Tally};
use crate::value;
use plain::Verdict;

/// A verdict as the C face tells it.
pub fn verdict_words(verdict: Verdict) -> Words {
    match verdict {
        Verdict::Accepted { count, cents } => [0, count, cents],
        Verdict::Refused { number, place } => [u64::from(number), place as u64, 0],
    }
}

/// An item's extent as the C face tells it.
pub(crate) fn item_words(extent: Result<(usize, usize), (u8, usize)>) -> Words {
    match extent {
        Ok((start, end)) => [0, start as u64, end as u64],
        Err((number, place)) => [u64::from(number), place as u64, 0],
    }
}

/// The plain judge's single checker of a kind.
pub fn plain_check(kind: Kind, value: &[u8]) -> Result<u64, u8> {
    match kind {
        Kind::Iban => plain::iban(value),
        Kind::CreditorId => plain::creditor_id(value),
        Kind::Bic => plain::bic(value),
        Kind::Bicfi => plain::bicfi(value),
        Kind::Date => plain::date(value),
        Kind::Time => plain::time(value),
        Kind::Reference => plain::reference(value),
        Kind::EndToEnd => plain::end_to_end(value),
        Kind::Text70 => plain::text70(value),
        Kind::Text140 => plain::text140(value),
        Kind::Count => plain::count(value),
        Kind::ItemAmount => plain::item_amount(value),
        Kind::HeaderAmount => plain::header_amount(value),
        Kind::Code(_) => panic!("a code has no single checker"),
    }
}

/// A message of which each question takes long, so that fewer are asked.
pub(crate) fn is_large(bytes: &[u8]) -> bool {
    bytes.len() > 1_000_000
}

/// The records by each engine, which is so named where answers differ.
type Records = fn(&[u8], &mut [u8]) -> Words;
const ENGINES: [(&str, Records); 2] =
    [("library", face::records), ("by the table", face::records_by_table)];

/// The table-led engine is the slower one: where a question asks a message that is made from a case, it
/// is asked of one case in four, by the case's number. The straight one is asked of all.
fn is_shared(name: &Name) -> bool {
    name.number % 4 == 0
}

/// The questions about one case after another. Those about the plain form are in [`crate::form`].
pub struct Asker {
    pub tally: Tally,
    pub(crate) slow: Slow,
}

impl Asker {
    /// Nothing asked yet.
    pub fn new(what: String) -> Asker {
        Asker { tally: Tally::new(what), slow: Slow::new() }
    }

    /// One value: its single checker.
    pub fn value(&mut self, name: &Name, case: &value::Case) {
        let words = |answer: Result<u64, u8>| match answer {
            Ok(worth) => [0, worth, 0],
            Err(refusal) => [u64::from(refusal), 0, 0],
        };
        let (bytes, question) = (&case.bytes, || format!("{:?}", case.kind));
        let library = face::check(case.kind, bytes);
        self.tally.met(library[0]);
        let others = [
            ("plain", Some(plain_check(case.kind, bytes))),
            ("slow", Some(slow::check(case.kind, bytes))),
            ("known", case.known),
        ];
        for (who, answer) in others {
            if let Some(answer) = answer.map(words) {
                self.tally.hold(name, &question, bytes, ("library", &library), (who, &answer));
            }
        }
    }

    /// The judge: the library by its two engines and in its two ways, the plain judge, what is known, and
    /// the law of the first fault.
    pub fn quickly(&mut self, name: &Name, case: &Case) -> Words {
        let library = face::judge(&case.bytes);
        self.second_engine(name, &case.bytes, library);
        self.second_way(name, &case.bytes, library);
        self.judged(name, case, library);
        library
    }

    /// The same by the straight engine's plain search alone, which needs no index.
    pub fn plainly(&mut self, name: &Name, case: &Case) -> Words {
        let library = face::judge_plainly(&case.bytes);
        self.judged(name, case, library);
        library
    }

    /// What the library answered, held against the plain judge, what is known, and the law.
    fn judged(&mut self, name: &Name, case: &Case, library: Words) {
        self.told(name, case, library);
        self.first_fault(name, &case.bytes, library);
    }

    /// What the library answered, held against the plain judge and what is known.
    fn told(&mut self, name: &Name, case: &Case, library: Words) {
        let bytes = &case.bytes;
        let plain = verdict_words(plain::judge(bytes));
        self.tally.met(library[0]);
        let question = || "judge".to_string();
        self.tally.hold(name, &question, bytes, ("library", &library), ("plain", &plain));
        let known = match case.known {
            Known::Accepted { count, cents } => Some([0, count, cents]),
            Known::Refused { number, place } => Some([u64::from(number), place as u64, 0]),
            Known::Bad | Known::Nothing => None,
        };
        if let Some(known) = known {
            self.tally.hold(name, &question, bytes, ("library", &library), ("known", &known));
        }
        if case.known == Known::Bad {
            let refused = library[0] != 0;
            let question = || "is it refused?".to_string();
            self.tally.hold(name, &question, bytes, ("library", &refused), ("known", &true));
        }
    }

    /// "The first fault met ends it": for a refusal 2 to 12, 19, 23 or 24 at place p, the first p bytes
    /// alone are refused with 3 at p, so all before p was still in order. The bytes behind p stay where
    /// they are: whoever read past the end would meet them. The judge gives no number of others.
    fn first_fault(&mut self, name: &Name, bytes: &[u8], [number, place, last]: Words) {
        let may_come = matches!(number, 0..=4 | 6..=12 | 14..=16 | 19 | 23 | 24)
            && (number == 0 || (place <= bytes.len() as u64 && last == 0))
            && (number != 3 || place == bytes.len() as u64);
        let question = || format!("may the judge answer {number} {place} {last}?");
        self.tally.hold(name, &question, bytes, ("library", &may_come), ("law", &true));
        if may_come && matches!(number, 2..=12 | 19 | 23 | 24) {
            let before = &bytes[..place as usize];
            let law = [3, place, 0];
            let question = || format!("judge, the first {place} bytes alone");
            let library = face::judge_plainly(before);
            self.tally.hold(name, &question, bytes, ("library", &library), ("law", &law));
            if is_shared(name) {
                let table = face::judge_by_table(before);
                self.tally.hold(name, &question, bytes, ("by the table", &table), ("law", &law));
            }
            let plain = verdict_words(plain::judge(before));
            self.tally.hold(name, &question, bytes, ("plain", &plain), ("law", &law));
        }
    }

    /// Request 14: "show the two give one answer .. on every input". The index, which has rubbish in it, is
    /// cleared by both, or the face ends the program.
    pub(crate) fn second_engine(&mut self, name: &Name, bytes: &[u8], library: Words) {
        let table = face::judge_by_table(bytes);
        let question = || "judge, the two engines".to_string();
        self.tally.hold(name, &question, bytes, ("straight", &library), ("by the table", &table));
    }

    /// The records of so many items by the straight engine, held against those by the table-led one:
    /// "and one record area".
    pub(crate) fn records_by_both(
        &mut self,
        name: &Name,
        bytes: &[u8],
        count: u64,
    ) -> (Words, Vec<u8>) {
        let [straight, table] = ENGINES.map(|(_, records)| {
            let mut area = vec![0xAA; RECORD * count as usize];
            (records(bytes, &mut area), area)
        });
        let question = || "records, the two engines".to_string();
        let words = (("straight", &straight.0), ("by the table", &table.0));
        self.tally.hold(name, &question, bytes, words.0, words.1);
        let areas = (("straight", &straight.1[..]), ("by the table", &table.1[..]));
        self.tally.hold_areas(name, &question, bytes, areas.0, areas.1);
        straight
    }

    /// The judge and, of what is accepted, the records: both engines, the plain judge and what is known.
    /// In one case of eight the second way and the law of the first fault are tried too, in one of 64 the
    /// slow judge.
    pub fn engines(&mut self, name: &Name, case: &Case) {
        let library = match name.number % 8 {
            0 => self.quickly(name, case),
            _ => self.engines_alone(name, case),
        };
        if library[0] == 0 {
            self.exact_records(name, case, library);
        }
        if name.number % 64 == 0 {
            self.slowly(name, case, library);
        }
    }

    /// The judge by both engines, the plain judge, and what is known.
    fn engines_alone(&mut self, name: &Name, case: &Case) -> Words {
        let library = face::judge(&case.bytes);
        self.second_engine(name, &case.bytes, library);
        self.told(name, case, library);
        library
    }

    /// The records of an accepted message, in an area of just their size: both engines, the plain judge,
    /// and what is known.
    fn exact_records(&mut self, name: &Name, case: &Case, verdict: Words) {
        let bytes = &case.bytes;
        let (words, area) = self.records_by_both(name, bytes, verdict[1]);
        let mut due = vec![0xAA; area.len()];
        let plain = verdict_words(plain::records(bytes, &mut due));
        let question = || "records".to_string();
        self.tally.hold(name, &question, bytes, ("library", &words), ("plain", &plain));
        self.tally.hold_areas(name, &question, bytes, ("library", &area), ("plain", &due));
        if !case.records.is_empty() {
            let known = ("known", &case.records[..]);
            self.tally.hold_areas(name, &question, bytes, ("library", &area), known);
        }
    }

    /// All that is asked of a message but its records and its plain form: the judge, also the slow
    /// one, where the items lie, and the law of the names. Answers the library's verdict.
    pub fn message(&mut self, name: &Name, case: &Case) -> Words {
        let library = self.quickly(name, case);
        self.slowly(name, case, library);
        self.items(name, case, library);
        self.names(name, case, library);
        library
    }

    /// The slow judge: the verdict, and where each item lies.
    pub fn slowly(&mut self, name: &Name, case: &Case, library: Words) {
        let bytes = &case.bytes;
        let answer = self.slow.judge(bytes);
        let words = match &answer {
            Ok(accepted) => [0, accepted.count, accepted.cents],
            Err((number, place)) => [u64::from(*number), *place as u64, 0],
        };
        let question = || "judge".to_string();
        self.tally.hold(name, &question, bytes, ("library", &library), ("slow", &words));
        let Ok(slow::Accepted { items, .. }) = answer else { return };
        if !case.items.is_empty() {
            let question = || "where each item lies".to_string();
            self.tally.hold(name, &question, bytes, ("slow", &items), ("known", &case.items));
        }
        let asked = if is_large(bytes) { 1 } else { 40 };
        for (i, &place) in items.iter().enumerate().take(asked) {
            let (library, slow) = (face::item(bytes, i as u64), item_words(Ok(place)));
            let question = || format!("item {i}");
            self.tally.hold(name, &question, bytes, ("library", &library), ("slow", &slow));
        }
    }

    /// Where the items lie: the first, the last, one between, and those that are not there.
    fn items(&mut self, name: &Name, case: &Case, [number, count, _]: Words) {
        let mut asked = vec![name.number % 3];
        if number == 0 && is_large(&case.bytes) {
            asked = vec![count / 2, count - 1, count];
        } else if number == 0 {
            asked.extend([0, name.number % count, count / 2, count - 1, count, count + 1, 1 << 32]);
            asked.push(u64::MAX);
        }
        asked.sort_unstable();
        asked.dedup();
        for i in asked {
            let (library, plain) =
                (face::item(&case.bytes, i), item_words(plain::item(&case.bytes, i)));
            let question = || format!("item {i}");
            self.tally.hold(name, &question, &case.bytes, ("library", &library), ("plain", &plain));
            if number == 0 && i >= count {
                let known = [18, 0, 0];
                let known = ("known", &known);
                self.tally.hold(name, &question, &case.bytes, ("library", &library), known);
            }
        }
    }

    /// "A legal Nm or Ustrd replaced by another legal one of equal length alters no answer and no
    /// record byte", in refused messages too. Since request 4 it "speaks of raw length and leaves out
    /// the plain form".
    fn names(&mut self, name: &Name, case: &Case, library: Words) {
        let random = &mut Random::new(name.seed ^ 0x4E6D, name.number);
        let Some(other) = other_names(&case.bytes, random) else { return };
        let bytes = &case.bytes;
        let question = || "judge, with other names".to_string();
        let answer = face::judge(&other);
        self.tally.hold(name, &question, bytes, ("as it is", &library), ("other names", &answer));
        if is_shared(name) {
            self.second_engine(name, &other, answer);
        }
        if is_large(bytes) && library[0] != 0 {
            return;
        }
        let question = || "item 0, with other names".to_string();
        let answers = (face::item(bytes, 0), face::item(&other, 0));
        let (one, two) = (("as it is", &answers.0), ("other names", &answers.1));
        self.tally.hold(name, &question, bytes, one, two);
        let count = if library[0] == 0 { library[1] } else { 1 };
        let question = || "records, with other names".to_string();
        let (one, two) = match is_shared(name) {
            true => [bytes, &other].map(|m| self.records_by_both(name, m, count)).into(),
            false => [bytes, &other].map(|m| form::records(m, count)).into(),
        };
        self.tally.hold(name, &question, bytes, ("as it is", &one.0), ("other names", &two.0));
        let areas = (("as it is", one.1.as_slice()), ("other names", two.1.as_slice()));
        self.tally.hold_areas(name, &question, bytes, areas.0, areas.1);
    }

    /// The records into areas of all sizes, each between bytes that must stay.
    pub fn records(&mut self, name: &Name, case: &Case, lengths: &[usize]) {
        let bytes = &case.bytes;
        let verdict = verdict_words(plain::judge(bytes));
        let records = self.known_records(case, verdict);
        let before = bytes.clone();
        for &length in lengths {
            let lent = Area::new(length, name.number);
            let (words, written) = self.expected(name, case, verdict, &records, &lent);
            for (who, records) in ENGINES {
                let mut area = lent.clone();
                let library = records(bytes, area.area());
                let question = || format!("records, area of {length}");
                self.tally.hold(name, &question, bytes, (who, &library), ("expected", &words));
                let question =
                    || format!("the area of {length}, from {} bytes before it", lent.before);
                let areas = ((who, &area.bytes[..]), ("expected", &written.bytes[..]));
                self.tally.hold_areas(name, &question, bytes, areas.0, areas.1);
            }
        }
        let question = || "the message after its records".to_string();
        self.tally.hold_areas(name, &question, bytes, ("after", bytes), ("before", &before));
    }

    /// The records that are known of a message from its making, or else those of the slow judge.
    fn known_records(&self, case: &Case, verdict: Words) -> Vec<u8> {
        if verdict[0] != 0 || !case.records.is_empty() {
            return case.records.clone();
        }
        let read = self.slow.judge(&case.bytes);
        read.map_or(Vec::new(), |message| self.slow.records(&message.said))
    }

    /// What the records must answer and leave in a lent area: by what is known, and the plain judge is
    /// itself held against it.
    fn expected(
        &mut self,
        name: &Name,
        case: &Case,
        verdict: Words,
        records: &[u8],
        lent: &Area,
    ) -> (Words, Area) {
        let (mut area, mut known) = (lent.clone(), lent.clone());
        let length = area.area().len();
        let plain = verdict_words(plain::records(&case.bytes, area.area()));
        let words = match verdict {
            [0, count, _] if (length as u64) < RECORD as u64 * count => [17, 0, 0],
            verdict => verdict,
        };
        if words[0] == 0 {
            // Where the judges differ in the count, the area differs too.
            let written = records.len().min(length);
            known.area()[..written].copy_from_slice(&records[..written]);
        }
        let bytes = &case.bytes;
        let question = || format!("records, area of {length}");
        self.tally.hold(name, &question, bytes, ("plain", &plain), ("known", &words));
        let areas = (("plain", &area.bytes[..]), ("known", &known.bytes[..]));
        self.tally.hold_areas(name, &question, bytes, areas.0, areas.1);
        (words, known)
    }
}

/// The message with each legal Nm and Ustrd replaced by another of equal raw length, if it has one.
pub fn other_names(bytes: &[u8], random: &mut Random) -> Option<Vec<u8>> {
    let mut other = bytes.to_vec();
    for (tag, kind) in [(b"<Nm>".as_slice(), Kind::Text70), (b"<Ustrd>".as_slice(), Kind::Text140)]
    {
        let mut at = 0;
        while let Some(found) = bytes[at..].windows(tag.len()).position(|w| w == tag) {
            at += found + tag.len();
            let Some(length) = bytes[at..].iter().position(|&b| b == b'<') else { break };
            if slow::check(kind, &bytes[at..at + length]).is_ok() {
                let text = collapse::text_of_raw_length(kind, length, random);
                other[at..at + length].copy_from_slice(&text);
            }
        }
    }
    (other != bytes).then_some(other)
}

/// An area to lend, with bytes before and behind it, all of a pattern that no record and no message
/// has.
#[derive(Clone)]
pub(crate) struct Area {
    pub bytes: Vec<u8>,
    pub before: usize,
}

impl Area {
    const BEHIND: usize = 300;

    /// It begins at any place of a word, by the seed.
    pub fn new(length: usize, seed: u64) -> Area {
        let before = 64 + (seed % 16) as usize;
        let bytes = (0..before + length + Area::BEHIND)
            .map(|at| (at as u8).wrapping_mul(37).wrapping_add(seed as u8) | 0x80)
            .collect();
        Area { bytes, before }
    }

    /// The lent part, between the bytes that must stay.
    pub fn area(&mut self) -> &mut [u8] {
        let end = self.bytes.len() - Area::BEHIND;
        &mut self.bytes[self.before..end]
    }
}

/// The lengths of areas that a message of so many items is asked with: none, one record and one byte
/// less or more, the room that is wanted and one byte or one record less or more, any.
pub fn area_lengths(items: usize, random: &mut Random) -> Vec<usize> {
    let exact = RECORD * items;
    let any = random.between(0, 2 * exact);
    let mut lengths =
        vec![0, 1, RECORD - 1, RECORD, RECORD + 1, any, exact + random.between(2, 600)];
    lengths.extend([exact - RECORD, exact - 1, exact, exact + 1]);
    lengths.extend([exact + RECORD - 1, exact + RECORD]);
    lengths.sort_unstable();
    lengths.dedup();
    lengths
}
