//! The questions about the plain form: the library, the plain judge, the slow judge and what is known
//! of a case are held against each other, and what the request says of the form is tried.

use crate::ask::{verdict_words, Area, Asker};
use crate::damage::Case;
use crate::face::{self, Words, RECORD};
use crate::message::DECLARATION;
use crate::random::Random;
use crate::tally::Name;

/// The answer and the plain form of the library, empty where there is none.
pub fn of_library(message: &[u8]) -> (Words, Vec<u8>) {
    let mut area = vec![0xAA; room(message)];
    let answer = face::plain(message, &mut area);
    let length = if answer[0] == 0 { answer[1] as usize } else { 0 };
    area.truncate(length);
    (answer, area)
}

/// Room for the plain form of any message of this length: a declaration more, and three bytes for
/// each amount, whose tags are longer than that.
fn room(message: &[u8]) -> usize {
    DECLARATION.len() + 2 * message.len()
}

/// The answer and the plain form of the plain judge, empty where there is none.
fn of_plain(message: &[u8]) -> (Words, Vec<u8>) {
    let mut area = vec![0xAA; room(message)];
    match plain::plain_form(message, &mut area) {
        Ok(length) => {
            area.truncate(length);
            ([0, length as u64, 0], area)
        }
        Err((number, place)) => ([u64::from(number), place as u64, 0], Vec::new()),
    }
}

impl Asker {
    /// The plain form into areas of all sizes, each between bytes that must stay; then what the
    /// request says of it.
    pub fn plain(&mut self, name: &Name, case: &Case, lengths: &[usize]) {
        let (bytes, before) = (&case.bytes, case.bytes.clone());
        let (words, form) = self.expected_form(name, case);
        for &length in lengths {
            self.one_area(name, bytes, length, (words, &form));
        }
        let question = || "the message after its plain form".to_string();
        self.tally.hold_areas(name, &question, bytes, ("after", bytes), ("before", &before));
        if words[0] == 0 {
            self.laws(name, bytes);
        }
        self.twin(name, case);
    }

    /// What the plain form must be, and its answer where there is room: by the plain judge, which is
    /// itself held against the slow judge and against what is known of the message.
    fn expected_form(&mut self, name: &Name, case: &Case) -> (Words, Vec<u8>) {
        let bytes = &case.bytes;
        let (words, form) = of_plain(bytes);
        let question = || "plain form".to_string();
        // "then 1, place 0, when the plain form would pass 16,777,216 bytes": none is that long.
        let known = match verdict_words(plain::judge(bytes)) {
            [0, ..] => [0, form.len() as u64, 0],
            refused => refused,
        };
        self.tally.hold(name, &question, bytes, ("plain", &words), ("known", &known));
        if words[0] == 0 {
            let read = self.slow.judge(bytes);
            let slow = read.map_or(Vec::new(), |message| self.slow.plain(&message));
            self.tally.hold_areas(name, &question, bytes, ("plain", &form), ("slow", &slow));
        }
        if !case.plain.is_empty() {
            self.tally.hold_areas(name, &question, bytes, ("plain", &form), ("known", &case.plain));
        }
        (words, form)
    }

    /// The library's answer and the area of this length behind it, where the form is due, or the
    /// refusal.
    fn one_area(&mut self, name: &Name, bytes: &[u8], length: usize, due: (Words, &[u8])) {
        let lent = Area::new(length, name.number);
        let (mut area, mut written) = (lent.clone(), lent.clone());
        let words = match due {
            ([0, ..], form) if form.len() > length => [17, 0, 0],
            ([0, ..], form) => {
                written.area()[..form.len()].copy_from_slice(form);
                due.0
            }
            (refused, _) => refused,
        };
        let library = face::plain(bytes, area.area());
        let question = || format!("plain form, area of {length}");
        self.tally.hold(name, &question, bytes, ("library", &library), ("expected", &words));
        let question = || format!("the area of {length}, from {} bytes before it", lent.before);
        let areas = (("library", &area.bytes[..]), ("expected", &written.bytes[..]));
        self.tally.hold_areas(name, &question, bytes, areas.0, areas.1);
    }

    /// "The plain form is accepted, gives the same records, count and total, and its own plain form is
    /// itself."
    fn laws(&mut self, name: &Name, bytes: &[u8]) {
        let (_, form) = of_library(bytes);
        let question = || "judge, of the plain form".to_string();
        let verdict = face::judge(bytes);
        let (own, plain) = (face::judge(&form), verdict_words(plain::judge(&form)));
        self.second_engine(name, &form, own);
        self.tally.hold(name, &question, bytes, ("the form's", &own), ("as it is", &verdict));
        self.tally.hold(name, &question, bytes, ("plain", &plain), ("as it is", &verdict));

        let question = || "records, of the plain form".to_string();
        let one = self.records_by_both(name, &form, verdict[1]);
        let other = self.records_by_both(name, bytes, verdict[1]);
        self.tally.hold(name, &question, bytes, ("the form's", &one.0), ("as it is", &other.0));
        let areas = (("the form's", &one.1[..]), ("as it is", &other.1[..]));
        self.tally.hold_areas(name, &question, bytes, areas.0, areas.1);

        let question = || "plain form, of the plain form".to_string();
        let (answer, again) = of_library(&form);
        let due = [0, form.len() as u64, 0];
        self.tally.hold(name, &question, bytes, ("the form's", &answer), ("law", &due));
        self.tally.hold_areas(name, &question, bytes, ("the form's", &again), ("law", &form));
    }

    /// "Two messages that have one have the same plain form exactly when they have equally many
    /// items, the optional elements agree, and all values in order mean the same"; since request 10
    /// they are of one version too.
    fn twin(&mut self, name: &Name, case: &Case) {
        let Some(twin) = &case.twin else { return };
        let (bytes, other) = (&case.bytes, &twin.bytes);
        let question = || "has it the plain form of its twin?".to_string();
        let is_same = of_library(bytes).1 == of_library(other).1;
        self.tally.hold(name, &question, bytes, ("library", &is_same), ("known", &twin.is_same));
        let (one, two) = (self.slow.judge(bytes), self.slow.judge(other));
        let mean_the_same = match (&one, &two) {
            (Ok(one), Ok(two)) => Some(one.version == two.version && one.said == two.said),
            _ => None,
        };
        let due = Some(is_same);
        self.tally.hold(name, &question, bytes, ("library", &due), ("slow", &mean_the_same));
    }
}

/// The answer and the records of the library, for so many items.
pub(crate) fn records(message: &[u8], count: u64) -> (Words, Vec<u8>) {
    let mut area = vec![0xAA; RECORD * count as usize];
    let answer = face::records(message, &mut area);
    (answer, area)
}

/// The lengths of areas that a message is asked with: none, up to the declaration and the root, the
/// length of the form and one byte less or more, that of the message, any.
pub fn area_lengths(message: &[u8], random: &mut Random) -> Vec<usize> {
    let exact = match of_plain(message) {
        ([0, ..], form) => form.len(),
        _ => random.between(1, 2000),
    };
    let mut lengths = vec![0, 1, 37, 38, 39, 103, exact - 1, exact, exact + 1, message.len()];
    lengths.extend([random.between(0, exact), exact + random.between(2, 600)]);
    lengths.sort_unstable();
    lengths.dedup();
    lengths
}
