//! The runs: the library under test, the plain judge, the slow judge, and what is known of each case
//! from its making, held against each other.

#![forbid(unsafe_code)]

use ::face::book::Numbers;
use differ::ask::{area_lengths, verdict_words, Asker};
use differ::bench::{bench, Machine};
use differ::counted::repeat;
use differ::damage::{self, Case, Known, Twin};
use differ::in_items::{self, Bases};
use differ::random::Random;
use differ::tally::Name;
use differ::{
    answers, days, face, form, layouts, plays, slips, spellings, sweep, twice, twins, typed, value,
    versions,
};
use std::process::ExitCode;

const USAGE: &str = "\
differ all TIMES              every run below from seed 1, with TIMES as many cases
differ values N SEED          N values: the single checkers
differ value-sweep SEED       values beside each other, of every kind
differ messages N SEED        N messages, accepted and damaged: judge, items, laws
differ sweep SEED             every byte and every part of small messages damaged
differ typed SEED             the payment type in the header, in items, in both, in neither; cut
differ versions SEED          both versions, elements and roots of the other and of neither; cut
differ twice SEED             a TxId twice, at every distance, with other faults; indexes
differ slips N SEED           every slip of N messages
differ layouts N SEED         N messages of items in many layouts, damaged behind the first item
differ in-items N SEED        one in N of the values of value-sweep, each in an item
differ engines N SEED         N messages as of `messages`: judge and records alone
differ records N SEED         N messages with record areas of all sizes
differ plain N SEED           N messages with areas of all sizes for the plain form
differ twins N SEED           N pairs of messages, of the same plain form or not: that, records
differ spellings SEED         every spelling of small messages: plain form, records
differ days N SEED            N days of the day book, call by call
differ play N SEED            N days played back from their recordings
differ play-sweep SEED        every byte of a record set to every other
differ limits                 messages at the limits of length and of items
differ one-slot               10,000 TxIds that meet in the index: the judge alone
differ large N SEED           N messages of up to 10,000 items
differ samples FOLDER         the sample messages, and the October day otherwise
differ again RUN SEED NUMBER  one case of a run again, with every question
differ show RUN SEED NUMBER   the bytes of one case to standard output
differ file FILE              every question about the bytes of a file
differ answers N SEED         N messages and 2 large ones with the library's answers, to standard output
differ bench OUT PROCESSOR KERNEL RUST DAY   the stopwatch; the table goes to OUT
differ repeat WHO FILE TIMES  one contender of the stopwatch, to be counted by valgrind
Exit status: 0 no difference, 1 a difference, 2 bad usage.";

/// Runs what the words ask for, or tells the usage.
fn main() -> ExitCode {
    let words: Vec<String> = std::env::args().skip(1).collect();
    let words: Vec<&str> = words.iter().map(String::as_str).collect();
    let told = match words[..] {
        ["again", "days", seed, number] => numbers(seed, number).map(again_day),
        ["show", "days", seed, number] => numbers(seed, number).map(show_day),
        ["again", run @ ("play" | "play-sweep"), seed, number] => {
            numbers(seed, number).and_then(|(seed, number)| again_play(run, seed, number))
        }
        ["show", run @ ("play" | "play-sweep"), seed, number] => {
            let play = numbers(seed, number).and_then(|(seed, number)| one_play(run, seed, number));
            play.map(|play| show(play.text().as_bytes()))
        }
        ["again", run, seed, number] => numbers(seed, number)
            .and_then(|(seed, number)| one(run, seed, number, again_value, again_message)),
        ["show", run, seed, number] => numbers(seed, number)
            .and_then(|(seed, number)| one(run, seed, number, show_value, show_message)),
        ["samples", folder] => Some(samples(folder)),
        ["file", file] => Some(file_asked(file)),
        ["bench", out, processor, kernel, rust, day] => {
            Some(bench(out, &Machine { processor, kernel, rust, day }))
        }
        ["repeat", who, file, rounds] => numbers(who, rounds).map(|of| repeat(file, of)),
        ["all", times] => times.parse().ok().map(all),
        ["limits"] => Some(limits()),
        ["one-slot"] => Some(one_slot()),
        [run, seed] => seed.parse().ok().and_then(|seed| swept(run, seed)),
        [run, n, seed] => numbers(n, seed).and_then(|(n, seed)| counted(run, n, seed)),
        _ => None,
    };
    told.unwrap_or_else(|| {
        match words[..] {
            ["again" | "show", ..] if words.len() == 4 => {
                eprintln!("there is no such case: {}", words[1..].join(" "));
            }
            _ => eprintln!("{USAGE}"),
        }
        ExitCode::from(2)
    })
}

/// Two words as numbers.
fn numbers(one: &str, other: &str) -> Option<(u64, u64)> {
    Some((one.parse().ok()?, other.parse().ok()?))
}

/// The runs of a seed alone.
fn swept(run: &str, seed: u64) -> Option<ExitCode> {
    Some(match run {
        "value-sweep" => value_sweep(seed),
        "sweep" => message_sweep(seed),
        "spellings" => spelled(seed),
        "typed" => type_sweep(seed),
        "versions" => version_sweep(seed),
        "twice" => twice_sweep(seed),
        "play-sweep" => play_sweep(seed),
        _ => return None,
    })
}

/// The runs of so many cases of a seed.
fn counted(run: &str, n: u64, seed: u64) -> Option<ExitCode> {
    Some(match run {
        "values" => values(n, seed),
        "messages" => messages(n, seed),
        "slips" => slipped(n, seed),
        "layouts" => laid_out(n, seed),
        "in-items" => value_items(n, seed),
        "engines" => engines(n, seed),
        "records" => records(n, seed),
        "plain" => plain_forms(n, seed),
        "twins" => twinned(n, seed),
        "large" => large(n, seed),
        "answers" => answered(n, seed),
        "days" => booked(n, seed),
        "play" => played(n, seed),
        _ => return None,
    })
}

/// Everything. The samples lie beside this crate's folder; a long run sweeps more messages.
fn all(times: u64) -> ExitCode {
    let mut runs = vec![samples(concat!(env!("CARGO_MANIFEST_DIR"), "/../../samples"))];
    for seed in 1..=1 + times / 20 {
        runs.push(value_sweep(seed));
        runs.push(message_sweep(seed));
        runs.push(spelled(seed));
        runs.push(type_sweep(seed));
        runs.push(version_sweep(seed));
        runs.push(twice_sweep(seed));
        runs.push(play_sweep(seed));
    }
    runs.push(values(100_000 * times, 1));
    runs.push(messages(20_000 * times, 1));
    runs.push(slipped(100 * times, 1));
    runs.push(laid_out(layouts::GATE * times, 1));
    runs.push(value_items(in_items::SHARE.div_ceil(times).max(1), 1));
    runs.push(engines(10_000 * times, 2));
    runs.push(records(2_000 * times, 1));
    runs.push(plain_forms(2_000 * times, 1));
    runs.push(twinned(10_000 * times, 1));
    runs.push(booked(1_000 * times, 1));
    runs.push(played(3_000 * times, 1));
    runs.push(limits());
    runs.push(one_slot());
    runs.push(large(6 * times, 1));
    let failed = runs.iter().any(|run| *run != ExitCode::SUCCESS);
    println!("{}", if failed { "DIFFERENCES" } else { "no difference" });
    ExitCode::from(u8::from(failed))
}

/// Values beside each other, of every kind.
fn value_sweep(seed: u64) -> ExitCode {
    let mut asker = Asker::new(format!("value-sweep {seed}"));
    value::sweep(seed, |number, case| {
        asker.value(&Name { run: "value-sweep", seed, number, sort: case.sort }, &case);
    });
    asker.tally.end()
}

/// So many values, valid, damaged and random.
fn values(n: u64, seed: u64) -> ExitCode {
    let mut asker = Asker::new(format!("values {n} {seed}"));
    for number in 0..n {
        let case = value::case(seed, number);
        asker.value(&Name { run: "values", seed, number, sort: case.sort }, &case);
    }
    asker.tally.end()
}

/// Every question but the records is asked of one case in sixteen; of the others the judge only, by both
/// engines and in both ways of one in four, and the plain form of those that are accepted. (There are over
/// a million: the straight engine is asked of all.)
fn message_sweep(seed: u64) -> ExitCode {
    let mut asker = Asker::new(format!("sweep {seed}"));
    sweep::sweep(seed, |number, case| {
        let name = Name { run: "sweep", seed, number, sort: case.damage };
        let library = match number % 16 {
            0 => asker.message(&name, &case),
            4 | 8 | 12 => asker.quickly(&name, &case),
            _ => asker.plainly(&name, &case),
        };
        if library[0] == 0 {
            asker.plain(&name, &case, &[case.bytes.len() + 100]);
        }
    });
    asker.tally.end()
}

/// A sweep that hands each of its cases on.
type Sweep = fn(u64, &mut dyn FnMut(u64, Case));

/// The payment type at every place and cut behind every byte.
fn type_sweep(seed: u64) -> ExitCode {
    fully_asked("typed", seed, |seed, each| typed::sweep(seed, each))
}

/// Both versions, mixed in every way and cut behind every byte.
fn version_sweep(seed: u64) -> ExitCode {
    fully_asked("versions", seed, |seed, each| versions::sweep(seed, each))
}

/// TxIds that stand twice, and such as nearly do.
fn twice_sweep(seed: u64) -> ExitCode {
    fully_asked("twice", seed, |seed, each| twice::sweep(seed, each))
}

/// Every so many cases of a run are asked with indexes of all lengths.
const INDEXED: u64 = 64;

/// Each case of a sweep with every question but records and plain form; those too of what is accepted,
/// and now and then all of them with indexes of all lengths.
fn fully_asked(run: &str, seed: u64, sweep: Sweep) -> ExitCode {
    let mut asker = Asker::new(format!("{run} {seed}"));
    sweep(seed, &mut |number, case| {
        let name = Name { run, seed, number, sort: case.damage };
        if asker.message(&name, &case)[0] == 0 {
            asker.records(&name, &case, &areas(seed, number, &case));
            asker.plain(&name, &case, &form_areas(seed, number, &case));
        }
        if number % INDEXED == 0 {
            asker.indexed(&name, &case);
        }
    });
    asker.tally.end()
}

/// So many messages, accepted and damaged, each with every question but records and plain form, which
/// are asked now and then with indexes of all lengths.
fn messages(n: u64, seed: u64) -> ExitCode {
    let mut asker = Asker::new(format!("messages {n} {seed}"));
    for number in 0..n {
        let case = damage::case(seed, number);
        let name = Name { run: "messages", seed, number, sort: case.damage };
        asker.message(&name, &case);
        if number % INDEXED == 0 {
            asker.indexed(&name, &case);
        }
    }
    asker.tally.end()
}

/// Every slip of so many messages.
fn slipped(n: u64, seed: u64) -> ExitCode {
    let mut asker = Asker::new(format!("slips {n} {seed}"));
    for message in 0..n {
        slips::slips(seed, message, |number, case| {
            asker.quickly(&Name { run: "slips", seed, number, sort: case.damage }, &case);
        });
    }
    asker.tally.end()
}

/// So many messages of items in many layouts, each whole and damaged in hundreds of ways.
fn laid_out(n: u64, seed: u64) -> ExitCode {
    let mut asker = Asker::new(format!("layouts {n} {seed}"));
    for base in 0..n {
        layouts::layouts(seed, base, |number, case| {
            asker.engines(&Name { run: "layouts", seed, number, sort: case.damage }, &case);
        });
    }
    asker.tally.end()
}

/// One in so many of the swept values, by its number, in an item.
fn value_items(share: u64, seed: u64) -> ExitCode {
    let mut asker = Asker::new(format!("in-items {share} {seed}"));
    let bases = Bases::new(seed);
    value::sweep(seed, |number, value| {
        if number % share == 0 {
            let case = bases.with(number, &value);
            asker.engines(&Name { run: "in-items", seed, number, sort: case.damage }, &case);
        }
    });
    asker.tally.end()
}

/// So many messages, each with the judge and the records alone.
fn engines(n: u64, seed: u64) -> ExitCode {
    let mut asker = Asker::new(format!("engines {n} {seed}"));
    for number in 0..n {
        let case = damage::case(seed, number);
        asker.engines(&Name { run: "engines", seed, number, sort: case.damage }, &case);
    }
    asker.tally.end()
}

/// The areas that a case is asked with, by its seed and number.
fn areas(seed: u64, number: u64, case: &Case) -> Vec<usize> {
    let random = &mut Random::new(seed ^ 0xA4EA, number);
    let items = match verdict_words(plain::judge(&case.bytes)) {
        [0, count, _] => count as usize,
        _ => random.between(1, 3),
    };
    area_lengths(items, random)
}

/// So many messages, each with areas of all sizes.
fn records(n: u64, seed: u64) -> ExitCode {
    let mut asker = Asker::new(format!("records {n} {seed}"));
    for number in 0..n {
        let case = damage::case(seed, number);
        let name = Name { run: "records", seed, number, sort: case.damage };
        asker.tally.met(face::judge(&case.bytes)[0]);
        asker.records(&name, &case, &areas(seed, number, &case));
    }
    asker.tally.end()
}

/// The areas that a case is asked with for its plain form, by its seed and number.
fn form_areas(seed: u64, number: u64, case: &Case) -> Vec<usize> {
    form::area_lengths(&case.bytes, &mut Random::new(seed ^ 0xF0A4, number))
}

/// So many messages, each with areas of all sizes for its plain form.
fn plain_forms(n: u64, seed: u64) -> ExitCode {
    let mut asker = Asker::new(format!("plain {n} {seed}"));
    for number in 0..n {
        let case = damage::case(seed, number);
        let name = Name { run: "plain", seed, number, sort: case.damage };
        asker.tally.met(face::judge(&case.bytes)[0]);
        asker.plain(&name, &case, &form_areas(seed, number, &case));
    }
    asker.tally.end()
}

/// So many messages, each with another that means the same or does not.
fn twinned(n: u64, seed: u64) -> ExitCode {
    let mut asker = Asker::new(format!("twins {n} {seed}"));
    for number in 0..n {
        let case = twins::case(seed, number);
        let name = Name { run: "twins", seed, number, sort: case.damage };
        asker.quickly(&name, &case);
        asker.plain(&name, &case, &[case.plain.len()]);
        asker.equal_records(&name, &case);
    }
    asker.tally.end()
}

/// Every spelling of small messages; the first of them with areas of every size. The records of those
/// of which they are known.
fn spelled(seed: u64) -> ExitCode {
    let mut asker = Asker::new(format!("spellings {seed}"));
    spellings::spellings(seed, |number, case| {
        let name = Name { run: "spellings", seed, number, sort: case.damage };
        asker.quickly(&name, &case);
        let exact = case.plain.len();
        match number {
            0 => asker.plain(&name, &case, &(0..=exact + 3).collect::<Vec<usize>>()),
            _ => asker.plain(&name, &case, &[exact]),
        }
        if !case.records.is_empty() {
            asker.records(&name, &case, &[case.records.len()]);
        }
    });
    asker.tally.end()
}

/// So many days of the day book.
fn booked(n: u64, seed: u64) -> ExitCode {
    let mut asker = Asker::new(format!("days {n} {seed}"));
    for number in 0..n {
        let day = days::day(seed, number);
        asker.day(&Name { run: "days", seed, number, sort: day.sort }, &day);
    }
    asker.tally.end()
}

/// So many days played back.
fn played(n: u64, seed: u64) -> ExitCode {
    let mut asker = Asker::new(format!("play {n} {seed}"));
    for number in 0..n {
        let play = plays::play(seed, number);
        asker.play(&Name { run: "play", seed, number, sort: play.sort }, &play);
    }
    asker.tally.end()
}

/// Every byte of a record set to every other.
fn play_sweep(seed: u64) -> ExitCode {
    let mut asker = Asker::new(format!("play-sweep {seed}"));
    plays::sweep(seed, |number, play| {
        asker.play(&Name { run: "play-sweep", seed, number, sort: play.sort }, &play);
    });
    asker.tally.end()
}

/// Messages at the limits, with an area of just the room that the most items take.
fn limits() -> ExitCode {
    let mut asker = Asker::new("limits".into());
    sweep::limits(|number, case| {
        let name = Name { run: "limits", seed: 0, number, sort: case.damage };
        asker.message(&name, &case);
        let exact = face::RECORD * damage::MOST_ITEMS;
        let lengths = [exact, exact - 1, exact + 300, 0, face::RECORD];
        let asked = if case.damage == "none" { 5 } else { 1 };
        asker.records(&name, &case, &lengths[..asked]);
        let exact = case.plain.len();
        asker.plain(&name, &case, &[exact.saturating_sub(1), exact, exact + 1]);
        asker.indexed(&name, &case);
    });
    asker.tally.end()
}

/// The largest messages whose TxIds meet in the index: the judge in its two ways.
fn one_slot() -> ExitCode {
    let mut asker = Asker::new("one-slot".into());
    twice::one_slot(|number, case| {
        asker.quickly(&Name { run: "one-slot", seed: 0, number, sort: case.damage }, &case);
    });
    asker.tally.end()
}

/// So many messages of thousands of items, with an area of one byte too few and one too many.
fn large(n: u64, seed: u64) -> ExitCode {
    let mut asker = Asker::new(format!("large {n} {seed}"));
    for number in 0..n {
        let case = damage::large(seed, number);
        let name = Name { run: "large", seed, number, sort: case.damage };
        asker.message(&name, &case);
        let items = face::judge(&case.bytes)[1].min(damage::MOST_ITEMS as u64) as usize;
        let exact = face::RECORD * items;
        asker.records(&name, &case, &[exact.saturating_sub(1), exact + 1]);
        asker.plain(&name, &case, &[case.plain.len(), case.bytes.len() / 2]);
    }
    asker.tally.end()
}

/// A sample, and what its verdict must be.
const SAMPLES: [(&str, Known); 16] = [
    ("evening.xml", Known::Accepted { count: 5, cents: 202_490 }),
    ("evening-indented.xml", Known::Accepted { count: 5, cents: 202_490 }),
    ("evening-padded.xml", Known::Accepted { count: 5, cents: 202_490 }),
    ("evening08.xml", Known::Accepted { count: 5, cents: 202_490 }),
    ("evening08-bic.xml", Known::Refused { number: 4, place: 8431 }),
    ("rents.xml", Known::Accepted { count: 3, cents: 200_330 }),
    ("rents-wrapped.xml", Known::Accepted { count: 3, cents: 200_330 }),
    ("october.xml", Known::Refused { number: 24, place: 3988 }),
    ("doubled.xml", Known::Refused { number: 24, place: 8574 }),
    ("example.xml", Known::Accepted { count: 1, cents: 1234 }),
    ("digit-too-many.xml", Known::Refused { number: 19, place: 1134 }),
    ("partner.xml", Known::Accepted { count: 2, cents: 196_550 }),
    ("partner-both.xml", Known::Refused { number: 23, place: 2321 }),
    ("partner-neither.xml", Known::Refused { number: 4, place: 715 }),
    ("october-night.xml", Known::Accepted { count: 5, cents: 202_490 }),
    ("october-firms.xml", Known::Accepted { count: 2, cents: 196_550 }),
];

/// The sample recordings, and what each must come to: the number, the record, the cents of CORE and of
/// B2B by sequence type; then the number open and the open total.
const RECORDINGS: [(&str, [u64; 10], (u64, u64)); 2] = [
    ("october-day.rec", [0, 5, 3_780, 197_784, 895, 1_265, 0, 196_550, 0, 0], (3, 400_274)),
    ("october-day-back.rec", [27, 2, 0, 0, 0, 0, 0, 0, 0, 0], (2, 399_040)),
];

/// The messages of both, in their order.
const RECORDED: [&str; 4] =
    ["october-night.xml", "october-firms.xml", "october-night.xml", "example.xml"];

/// The first word of a sample's name. Samples of one word have one plain form, and no others have it.
fn word(file: &str) -> &str {
    file.split(['-', '.']).next().unwrap_or(file)
}

/// The October day, refused with 24 at the second of its doubled TxIds; otherwise: with the count of its
/// items it is refused there all the same; with other TxIds in the second ones the count alone is wrong,
/// 14; with both it is accepted.
const OCTOBER: [(&str, Known); 3] = [
    ("the October day with its own count", Known::Refused { number: 24, place: 3988 }),
    ("the October day with other TxIds", Known::Refused { number: 14, place: 252 }),
    ("the October day with both", Known::Accepted { count: 7, cents: 207_535 }),
];

/// The October day with the count of its items, with other TxIds in the items that stand twice, or both.
fn october(bytes: &[u8], has_count: bool, has_ids: bool) -> Vec<u8> {
    let mut text = String::from_utf8_lossy(bytes).into_owned();
    if has_count {
        text = text.replacen("<NbOfTxs>9<", "<NbOfTxs>7<", 1);
    }
    for id in ["TX-20261028-0002", "TX-20261028-0004"].iter().filter(|_| has_ids) {
        let first = text.find(id).expect("it stands twice") + id.len();
        let (before, behind) = text.split_at(first);
        text = format!("{before}{}", behind.replacen(id, &id.replace("-00", "-10"), 1));
    }
    text.into_bytes()
}

/// The samples, and the October day otherwise.
fn samples(folder: &str) -> ExitCode {
    let mut asker = Asker::new("samples".into());
    let mut firsts = Vec::new();
    for file in ["evening.xml", "rents.xml"] {
        let Some(bytes) = read(&format!("{folder}/{file}")) else { return ExitCode::from(2) };
        firsts.push((file, bytes));
    }
    let mut ask = |number: u64, sort: &'static str, bytes: Vec<u8>, known: Known| {
        let name = Name { run: "file", seed: 0, number, sort };
        let is_accepted = matches!(known, Known::Accepted { .. });
        let mut case = Case::new(bytes, sort, known);
        asker.message(&name, &case);
        asker.records(&name, &case, &areas(0, number, &case));
        for (file, bytes) in &firsts {
            let is_same = word(file) == word(sort);
            case.twin = is_accepted.then(|| Twin { bytes: bytes.clone(), is_same });
            asker.plain(&name, &case, &form_areas(0, number, &case));
        }
    };
    for (number, (file, known)) in SAMPLES.into_iter().enumerate() {
        let Some(bytes) = read(&format!("{folder}/{file}")) else { return ExitCode::from(2) };
        if file == "october.xml" {
            for (way, (sort, known)) in OCTOBER.into_iter().enumerate() {
                ask(100 + way as u64, sort, october(&bytes, way != 1, way != 0), known);
            }
        }
        ask(number as u64, file, bytes, known);
    }
    match sample_days(&mut asker, folder) {
        Some(()) => asker.tally.end(),
        None => ExitCode::from(2),
    }
}

/// The sample recordings, played back; nothing where a file cannot be read.
fn sample_days(asker: &mut Asker, folder: &str) -> Option<()> {
    let (mut buffer, mut ends) = (Vec::new(), Vec::new());
    for file in RECORDED {
        buffer.extend(read(&format!("{folder}/{file}"))?);
        ends.push(buffer.len() as u64);
    }
    for (number, (sort, words, (open, total))) in RECORDINGS.into_iter().enumerate() {
        let play = plays::Play {
            sort,
            recording: read(&format!("{folder}/{sort}"))?,
            buffer: buffer.clone(),
            ends: ends.clone(),
            entries: ::face::book::empty(),
            numbers: Numbers { open: 7, total: 7 },
            index: face::INDEX,
            known: Some((words, Numbers { open, total })),
        };
        asker.play(&Name { run: "file", seed: 0, number: 200 + number as u64, sort }, &play);
    }
    Some(())
}

/// The bytes of a file; where it cannot be read that is told.
fn read(file: &str) -> Option<Vec<u8>> {
    match std::fs::read(file) {
        Ok(bytes) => Some(bytes),
        Err(error) => {
            eprintln!("{file} cannot be read: {error}");
            None
        }
    }
}

/// Every question about the bytes of a file.
fn file_asked(file: &str) -> ExitCode {
    let Some(bytes) = read(file) else { return ExitCode::from(2) };
    let name = Name { run: "file", seed: 0, number: 0, sort: file };
    let (straight, table) = (face::judge(&bytes), face::judge_by_table(&bytes));
    println!("library: {straight:?}, by the table: {table:?}, plain: {:?}", plain::judge(&bytes));
    let case = Case::new(bytes, "file", Known::Nothing);
    every_question(&name, &case)
}

/// The judge, the items, the laws, the records and the plain form of one case, and its twin's.
fn every_question(name: &Name, case: &Case) -> ExitCode {
    let mut asker = Asker::new(format!("{} {} {}", name.run, name.seed, name.number));
    asker.message(name, case);
    asker.records(name, case, &areas(name.seed, name.number, case));
    asker.plain(name, case, &form_areas(name.seed, name.number, case));
    asker.equal_records(name, case);
    asker.indexed(name, case);
    asker.tally.end()
}

type OneValue = fn(&Name, &value::Case) -> ExitCode;
type OneMessage = fn(&Name, &Case) -> ExitCode;

/// Finds one case of a run and hands it on.
fn one(
    run: &str,
    seed: u64,
    number: u64,
    of_value: OneValue,
    of_message: OneMessage,
) -> Option<ExitCode> {
    let mut found = None;
    let mut value = |at: u64, case: &value::Case| {
        if at == number {
            found = Some(of_value(&Name { run, seed, number, sort: case.sort }, case));
        }
    };
    match run {
        "values" => value(number, &value::case(seed, number)),
        "value-sweep" => value::sweep(seed, |at, case| value(at, &case)),
        _ => return one_message(run, seed, number, of_message),
    }
    found
}

/// Finds one message of a run and hands it on.
fn one_message(run: &str, seed: u64, number: u64, of_message: OneMessage) -> Option<ExitCode> {
    let mut found = None;
    let mut message = |at: u64, case: Case| {
        if at == number {
            found = Some(of_message(&Name { run, seed, number, sort: case.damage }, &case));
        }
    };
    match run {
        "messages" | "records" | "plain" | "engines" => message(number, damage::case(seed, number)),
        "twins" => message(number, twins::case(seed, number)),
        "spellings" => spellings::spellings(seed, message),
        "large" => message(number, damage::large(seed, number)),
        "sweep" => sweep::sweep(seed, message),
        "typed" => typed::sweep(seed, message),
        "versions" => versions::sweep(seed, message),
        "twice" => twice::sweep(seed, message),
        "slips" => slips::slips(seed, number / slips::NUMBERS, message),
        "layouts" => layouts::layouts(seed, number / layouts::NUMBERS, message),
        "in-items" => {
            let bases = Bases::new(seed);
            value::sweep(seed, |at, value| {
                if at == number {
                    message(at, bases.with(at, &value));
                }
            });
        }
        "limits" => sweep::limits(message),
        "one-slot" => twice::one_slot(message),
        _ => {}
    }
    found
}

/// Asks for a value again, and shows it.
fn again_value(name: &Name, case: &value::Case) -> ExitCode {
    println!("{:?} b\"{}\"", case.kind, case.bytes.escape_ascii());
    let mut asker = Asker::new(format!("{} {} {}", name.run, name.seed, name.number));
    asker.value(name, case);
    asker.tally.end()
}

/// Makes the calls of a day again, and shows it.
fn again_day((seed, number): (u64, u64)) -> ExitCode {
    let day = days::day(seed, number);
    print!("{}", day.text());
    let mut asker = Asker::new(format!("days {seed} {number}"));
    asker.day(&Name { run: "days", seed, number, sort: day.sort }, &day);
    asker.tally.end()
}

/// A day as text.
fn show_day((seed, number): (u64, u64)) -> ExitCode {
    show(days::day(seed, number).text().as_bytes())
}

/// One day of a run that is played back.
fn one_play(run: &str, seed: u64, number: u64) -> Option<plays::Play> {
    let mut found = None;
    match run {
        "play" => found = Some(plays::play(seed, number)),
        _ => plays::sweep(seed, |at, play| {
            if at == number {
                found = Some(play);
            }
        }),
    }
    found
}

/// Plays a day back again, and shows it.
fn again_play(run: &str, seed: u64, number: u64) -> Option<ExitCode> {
    let play = one_play(run, seed, number)?;
    println!("{}", play.text());
    let mut asker = Asker::new(format!("{run} {seed} {number}"));
    asker.play(&Name { run, seed, number, sort: play.sort }, &play);
    Some(asker.tally.end())
}

/// Asks every question about a message again.
fn again_message(name: &Name, case: &Case) -> ExitCode {
    every_question(name, case)
}

/// The bytes of a value.
fn show_value(_: &Name, case: &value::Case) -> ExitCode {
    show(&case.bytes)
}

/// The bytes of a message.
fn show_message(_: &Name, case: &Case) -> ExitCode {
    show(&case.bytes)
}

/// Messages with the library's answers to standard output: those of `messages`, and two of `large`.
fn answered(n: u64, seed: u64) -> ExitCode {
    let mut out = std::io::BufWriter::new(std::io::stdout().lock());
    let small = (0..n).map(|number| damage::case(seed, number));
    let large = (0..2).map(|number| damage::large(seed, number));
    let written = small.chain(large).try_for_each(|case| answers::write(&mut out, &case.bytes));
    match written.and_then(|()| std::io::Write::flush(&mut out)) {
        Ok(()) => ExitCode::SUCCESS,
        Err(_) => ExitCode::from(2),
    }
}

/// Bytes to standard output.
fn show(bytes: &[u8]) -> ExitCode {
    use std::io::Write;
    match std::io::stdout().write_all(bytes) {
        Ok(()) => ExitCode::SUCCESS,
        Err(_) => ExitCode::from(2),
    }
}
