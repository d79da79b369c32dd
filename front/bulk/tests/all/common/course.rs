//! A day of calls as it should go, and what is left of it when a call was cut off.

use super::day::*;

/// A day of every kind of call.
pub const CALLS: [Asked; 6] = [
    ["enter", "CORE", "A"],
    ["enter", "B2B", "B"],
    ["withdraw", "CORE", "A"],
    ["enter", "CORE", "C"],
    ["enter", "CORE", "A"],
    ["withdraw", "B2B", "B"],
];

/// The commands that only read.
pub const READING: [&[&str]; 4] =
    [&["total", "--plain"], &["list", "--plain"], &["report", "--plain"], &["play", "--plain"]];

/// What a day holds and what its reading commands say, before the first call and behind each.
pub struct Course {
    pub day: Day,
    pub held: Vec<Held>,
    pub said: Vec<Vec<String>>,
}

/// What the reading commands say, and whether each also told of a cut-off call.
pub fn read(day: &Day) -> (Vec<String>, bool) {
    let mut told = Vec::new();
    let said = READING.map(|words| {
        let said = day.call(words);
        assert_eq!(said.status, 0, "{}", said.err);
        told.push(said.err.contains("A call was cut off before it was answered, and left "));
        assert!(told.ends_with(&[true]) || said.err.is_empty(), "{}", said.err);
        said.out
    });
    assert!(told.iter().all(|one| *one == told[0]));
    let json = day.call(&["total", "--json"]).out;
    assert!(json.contains(&format!("\"needs_repair\":{}", told[0])), "{json}");
    (said.to_vec(), told[0])
}

impl Course {
    /// The day as it should go.
    pub fn new() -> Course {
        let day = Day::new();
        let (mut held, mut said) = (vec![day.held()], vec![read(&day).0]);
        for asked in CALLS {
            day.ask(asked).done(0);
            held.push(day.held());
            said.push(read(&day).0);
        }
        Course { day, held, said }
    }

    /// How many calls the day holds: so many, or one more. Writing is refused where a call was cut
    /// off, and then that is repaired.
    pub fn settle(&self, answered: usize) -> usize {
        let (said, is_cut_off) = read(&self.day);
        if is_cut_off {
            let before = self.day.held();
            let refused = self.day.ask(["enter", "CORE", "X"]).trouble();
            assert!(refused.contains("Nothing is written before that."), "{refused}");
            let refused = self.day.ask(["withdraw", "CORE", "C"]).trouble();
            assert!(refused.contains("bulk day repair sets that aside."), "{refused}");
            assert_eq!(self.day.held(), before);
            self.repair();
        } else {
            assert_eq!(self.day.call(&["repair", "--plain"]).done(0), "repaired 0\n");
        }
        let made = (answered..=answered + 1).find(|made| self.said.get(*made) == Some(&said));
        let made =
            made.unwrap_or_else(|| panic!("neither {answered} calls nor one more: {said:?}"));
        assert_eq!(read(&self.day), (said, false));
        made
    }

    /// Repairs the day. No byte of it is lost: what was there is there still, some of it set aside.
    pub fn repair(&self) {
        let bytes = |held: Held| {
            let mut all: Vec<u8> = held.into_values().flatten().collect();
            all.sort_unstable();
            all
        };
        let before = self.day.held();
        let said = self.day.call(&["repair"]).done(0);
        assert!(said.contains("The call was never answered"), "{said}");
        let after = self.day.held();
        assert!(after.keys().any(|name| name.starts_with("set-aside/")), "{:?}", after.keys());
        assert_eq!(bytes(after), bytes(before));
        assert_eq!(self.day.call(&["repair", "--plain"]).done(0), "repaired 0\n");
    }

    /// Makes the calls that are still to be made: the day ends as it should.
    pub fn finish(&self, made: usize) {
        for asked in &CALLS[made..] {
            self.day.ask(*asked).done(0);
        }
        assert_eq!(read(&self.day), (self.said[CALLS.len()].clone(), false));
        let held = self.day.held();
        let own = held.iter().filter(|(name, _)| !name.starts_with("set-aside/"));
        assert!(own.eq(self.held[CALLS.len()].iter()));
    }
}

/// The folder as a cut-off entry leaves it behind so many calls, in each way.
pub fn cut_off(course: &Course, made: usize) -> Vec<Held> {
    let (before, after) = (&course.held[made], &course.held[made + 1]);
    let message = after.keys().find(|name| !before.contains_key(*name)).unwrap();
    let with = |name: String, bytes: &[u8]| {
        let mut held = before.clone();
        held.insert(name, bytes.to_vec());
        held
    };
    let beside = with(format!("{message}.new"), &after[message][..100]);
    let whole = with(message.clone(), &after[message]);
    let mut torn = whole.clone();
    torn.insert("recording".into(), after["recording"][..made * 64 + 30].to_vec());
    vec![beside, whole, torn]
}
