//! Days of random calls, held against a plain list of the open bulks.

use crate::common::day::*;
use crate::common::*;

/// The sequence types, in the order of a report.
const SEQUENCES: [&str; 4] = ["FRST", "RCUR", "FNAL", "OOFF"];

/// An open bulk: its service, its MsgId, and its cents by sequence type.
#[derive(Clone, Debug, PartialEq, Eq)]
struct Open {
    service: &'static str,
    msg_id: String,
    cents: [u64; 4],
}

impl Open {
    /// A bulk with so many items of the evening, and its message.
    fn of(service: &'static str, number: usize, items: usize) -> (Open, String) {
        let items = &evening_items()[..items];
        let mut cents = [0; 4];
        for item in items {
            let between =
                |start: &str| item.split(start).nth(1).unwrap().split('<').next().unwrap();
            let amount = between("<IntrBkSttlmAmt Ccy=\"EUR\">").replace('.', "");
            let column = SEQUENCES.iter().position(|name| *name == between("<SeqTp>")).unwrap();
            cents[column] += amount.parse::<u64>().unwrap();
        }
        let msg_id = format!("M{number}");
        let message =
            bulk_of(items, cents.iter().sum()).replacen("BULK-2026-10-28-EVENING", &msg_id, 1);
        let message = message.replace("<Cd>CORE</Cd>", &format!("<Cd>{service}</Cd>"));
        (Open { service, msg_id, cents }, message)
    }

    /// Its total.
    fn total(&self) -> u64 {
        self.cents.iter().sum()
    }
}

/// What the reading commands say of these.
fn due(open: &[Open], records: usize) -> [String; 3] {
    let line = |(at, bulk): (usize, &Open)| {
        format!("{at} {} {} {REST} {} {TIME}\n", bulk.service, bulk.msg_id, bulk.total())
    };
    let total: u64 = open.iter().map(Open::total).sum();
    let sum = |service: &str, column: usize| -> u64 {
        open.iter().filter(|bulk| bulk.service == service).map(|bulk| bulk.cents[column]).sum()
    };
    let row = |service: &str| -> String {
        let line = |at: usize| format!("{service} {} {}\n", SEQUENCES[at], sum(service, at));
        (0..4).map(line).collect()
    };
    [
        open.iter().enumerate().map(line).collect(),
        format!("{}{}open {} {total}\n", row("CORE"), row("B2B"), open.len()),
        format!("played {records} {} {total}\n", open.len()),
    ]
}

/// Makes a random call, and follows it on the list. Whether it was accepted, and so recorded.
fn step(day: &Day, open: &mut Vec<Open>, seed: &mut u64) -> bool {
    let service = ["CORE", "B2B"][random(seed, 2)];
    let (bulk, message) = Open::of(service, random(seed, 4), 1 + random(seed, 5));
    let place = open.iter().position(|one| one.service == service && one.msg_id == bulk.msg_id);
    let is_entry = random(seed, 3) < 2;
    let said = match is_entry {
        true => {
            let file = day.folder.put("bulk.xml", &message);
            day.call(&["--plain", "--time", TIME, "enter", text(&file)])
        }
        false => day.ask(["withdraw", service, &bulk.msg_id]),
    };
    let number = match (is_entry, place) {
        (true, Some(_)) => 20,
        (false, None) => 22,
        (true, None) => {
            open.push(bulk);
            0
        }
        (false, Some(at)) => {
            open.remove(at);
            0
        }
    };
    let total: u64 = open.iter().map(Open::total).sum();
    let done = if is_entry { "entered" } else { "withdrawn" };
    match number {
        0 => assert_eq!(said.done(0), format!("{done} {} {total}\n", open.len())),
        _ => assert_eq!(said.done(1), format!("refused {number} 0\n")),
    }
    number == 0
}

/// A key is entered again with another amount, and the order of entry, the totals and the table follow.
#[test]
fn days_at_random() {
    for mut seed in 1..=4 {
        let (day, mut open) = (Day::new(), Vec::new());
        let records = (0..50).filter(|_| step(&day, &mut open, &mut seed)).count();
        let said = ["list", "report", "play"].map(|call| day.call(&[call, "--plain"]).done(0));
        assert_eq!(said, due(&open, records));
    }
}
