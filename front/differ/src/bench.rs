//! The stopwatch: both engines of the library, the plain judge and other programs on the same messages in
//! one run.

use crate::ask::verdict_words;
use crate::counted::instructions;
use crate::face;
use crate::usual::{unusual, usual, Layout, Otherwise};
use std::fmt::Write;
use std::hint::black_box;
use std::path::{Path, PathBuf};
use std::process::{Command, ExitCode, Stdio};
use std::time::{Duration, Instant};

/// The messages: items, indented.
const MESSAGES: [(usize, bool); 4] = [(1000, false), (10_000, false), (1000, true), (10_000, true)];
/// Rounds that are counted, after those that are not: more of the smaller messages.
const ROUNDS: usize = 41;
const ROUNDS_SMALL: usize = 161;
const ROUNDS_GUESSED: usize = 31;
const WARM_UP: usize = 3;
/// Whoever takes long takes part in one round of so many.
const SELDOM: usize = 6;
/// A string takes all that is written to it.
pub(crate) const TAKEN: &str = "a string takes what is written";
/// The judges, which come first, in this order; the ratios are to the plain one.
const STRAIGHT: usize = 0;
const TABLE: usize = 1;
const BASELINE: usize = 2;
const JUDGES: [Who; 3] = [Who::Judge, Who::JudgeByTable, Who::PlainJudge];
/// Those that read a message in memory and are given an index, or make one.
pub(crate) const QUICK: [Who; 6] = [
    Who::Judge,
    Who::JudgeByTable,
    Who::PlainJudge,
    Who::Records,
    Who::RecordsByTable,
    Who::PlainRecords,
];
/// What request 14 asks for: at most so many times the plain judge's time on 10,000 items.
const ASKED: f64 = 2.0;

/// Who is measured.
#[derive(Clone, Copy, PartialEq, Eq)]
pub(crate) enum Who {
    Judge,
    JudgeByTable,
    PlainJudge,
    Records,
    RecordsByTable,
    PlainRecords,
    /// By the plain search, without an index.
    Plainly,
    /// Another program, with these words before the file.
    Program(&'static str, &'static [&'static str]),
}

impl Who {
    /// As the table has it.
    pub(crate) fn name(&self) -> String {
        match self {
            Who::Judge => "straight engine, judge".into(),
            Who::JudgeByTable => "table-led engine, judge".into(),
            Who::PlainJudge => "plain Rust, judge".into(),
            Who::Records => "straight engine, records".into(),
            Who::RecordsByTable => "table-led engine, records".into(),
            Who::PlainRecords => "plain Rust, records".into(),
            Who::Plainly => "straight engine, judge without an index".into(),
            Who::Program(program, words) => {
                format!("`{}`", [&[*program], *words].concat().join(" "))
            }
        }
    }

    /// Takes part in few rounds.
    fn is_slow(&self) -> bool {
        matches!(self, Who::Plainly | Who::Program(..))
    }

    /// Of an engine's records, where those of the plain judge stand.
    fn beside(&self) -> Option<usize> {
        matches!(self, Who::Records | Who::RecordsByTable).then_some(BASELINE + 3)
    }

    /// One run over a message, which lies in memory and in a file.
    fn run(&self, message: &[u8], file: &Path, area: &mut [u8], index: &mut [u32]) -> Duration {
        let started = Instant::now();
        match self {
            Who::Program(program, words) => {
                let ran =
                    Command::new(program).args(*words).arg(file).stdout(Stdio::null()).status();
                assert!(ran.is_ok_and(|status| status.success()), "{program} failed");
            }
            _ => assert_eq!(black_box(self.ask(black_box(message), area, index))[0], 0),
        }
        started.elapsed()
    }

    /// The answer of one that is no program.
    pub(crate) fn ask(&self, message: &[u8], area: &mut [u8], index: &mut [u32]) -> face::Words {
        match self {
            Who::Judge => face::judge_with(message, index),
            Who::JudgeByTable => face::judge_by_table_with(message, index),
            Who::PlainJudge => verdict_words(plain::judge(message)),
            Who::Records => face::records_with(message, area, index),
            Who::RecordsByTable => face::records_by_table_with(message, area, index),
            Who::PlainRecords => verdict_words(plain::records(message, area)),
            Who::Plainly => face::judge_plainly(message),
            Who::Program(..) => panic!("a program is run"),
        }
    }
}

/// The first words that a program says of its version, if it is installed.
fn version(program: &str, word: &str) -> Option<String> {
    let said = Command::new(program).arg(word).output().ok()?;
    let text = [said.stdout, said.stderr].concat();
    Some(String::from_utf8_lossy(&text).lines().next().unwrap_or("").trim().to_string())
}

/// Seconds of the rounds: the median, and the least.
struct Times {
    median: f64,
    least: f64,
}

impl Times {
    /// The middle and the least of these.
    fn of(mut times: Vec<Duration>) -> Times {
        times.sort_unstable();
        Times { median: times[times.len() / 2].as_secs_f64(), least: times[0].as_secs_f64() }
    }
}

/// The times of each of them, by turns, so that the load of the machine meets all alike.
fn times(all: &[Who], message: &[u8], file: &Path, rounds: usize) -> Vec<Times> {
    let count = face::judge(message)[1] as usize;
    let (mut area, mut index) = (vec![0; face::RECORD * count], vec![0; face::INDEX]);
    let mut times = vec![Vec::new(); all.len()];
    for round in 0..WARM_UP + rounds {
        for (who, times) in all.iter().zip(&mut times) {
            if who.is_slow() && round % SELDOM != 0 {
                continue;
            }
            let time = who.run(message, file, &mut area, &mut index);
            if round >= WARM_UP {
                times.push(time);
            }
        }
    }
    times.into_iter().map(Times::of).collect()
}

/// What is measured on one message.
struct Measured {
    items: usize,
    indented: bool,
    bytes: usize,
    times: Vec<Times>,
}

/// What is measured on a message that is otherwise than usual.
struct Guessed {
    what: &'static str,
    bytes: usize,
    times: Vec<Times>,
}

/// The messages in which an item is badly guessed from those before it, beside the usual one.
pub const GUESSES: [(&str, Layout, [bool; 3]); 8] = [
    ("usual, compact: one creditor, the same in each item", Layout::Compact, [false; 3]),
    ("another layout in each item", Layout::Changing, [false; 3]),
    ("a new line or nothing before each tag, by chance", Layout::ByChance, [false; 3]),
    ("InstrId and RmtInf by chance", Layout::Compact, [true, false, false]),
    ("debtors' IBANs of every country, often with letters", Layout::Compact, [false, true, false]),
    ("another creditor in each item, any identifier", Layout::Compact, [false, false, true]),
    ("these three at once", Layout::Compact, [true; 3]),
    ("these three, and another layout in each item", Layout::Changing, [true; 3]),
];

/// One of those messages, of so many items.
pub fn guessed(
    items: usize,
    layout: Layout,
    [optional, countries, creditors]: [bool; 3],
) -> Vec<u8> {
    unusual(items, layout, Otherwise { optional, countries, creditors })
}

impl Measured {
    /// The word for its layout.
    fn form(&self) -> &'static str {
        if self.indented {
            "indented"
        } else {
            "compact"
        }
    }
}

/// The times of all of them for one message.
fn measure(all: &[Who], folder: &Path, items: usize, indented: bool) -> Measured {
    let message = usual(items, indented);
    let file = folder.join(format!("bench-{items}.xml"));
    std::fs::write(&file, &message).expect("the message can be written");
    let rounds = if items > 1000 { ROUNDS } else { ROUNDS_SMALL };
    let times = times(all, &message, &file, rounds);
    std::fs::remove_file(&file).ok();
    Measured { items, indented, bytes: message.len(), times }
}

/// The machine, as the script tells it.
pub struct Machine<'a> {
    pub processor: &'a str,
    pub kernel: &'a str,
    pub rust: &'a str,
    pub day: &'a str,
}

/// The other programs that are installed, with their versions; and those that are not.
fn programs(all: &mut Vec<Who>) -> (Vec<String>, Vec<&'static str>) {
    let mut tools = Vec::new();
    let mut left_out = Vec::new();
    for (program, words, word) in [
        ("xmllint", ["--stream", "--noout"].as_slice(), "--version"),
        ("xmlwf", [].as_slice(), "-v"),
    ] {
        match version(program, word) {
            Some(version) => {
                tools.push(version);
                all.push(Who::Program(program, words));
            }
            None => left_out.push(program),
        }
    }
    (tools, left_out)
}

/// Measures, and writes the table to a file.
pub fn bench(out: &str, machine: &Machine) -> ExitCode {
    let load = std::fs::read_to_string("/proc/loadavg").unwrap_or_default();
    let load = load.split(' ').next().unwrap_or("not known").to_string();
    let mut all = [QUICK.as_slice(), &[Who::Plainly]].concat();
    let (tools, left_out) = programs(&mut all);
    let folder = PathBuf::from(face::FOLDER).join("bench");
    std::fs::create_dir_all(&folder).expect("the folder of the messages can be made");
    let measured = MESSAGES.map(|(items, indented)| {
        let measured = measure(&all, &folder, items, indented);
        eprintln!("{} items, {}: measured", grouped(measured.items), measured.form());
        measured
    });
    let start = measure(&all, &folder, 1, false);
    let guesses = GUESSES.map(|(what, layout, other)| {
        let message = guessed(10_000, layout, other);
        let times = times(&JUDGES, &message, &folder, ROUNDS_GUESSED);
        eprintln!("{what}: measured");
        Guessed { what, bytes: message.len(), times }
    });
    let mut text = how(machine, &load, &tools, &left_out);
    asked(&mut text, &measured);
    table(&mut text, &all, &measured, "median", |times| times.median);
    text.push_str(
        "\nMB is 1,000,000 bytes; \"times\" is the time divided by that of the plain judge (and, for \
         the records, by that of its records). The \
         least of all rounds, which other work on the machine disturbs least:\n\n",
    );
    table(&mut text, &all, &measured, "least", |times| times.least);
    growth(&mut text, &all, &measured, &start);
    badly_guessed(&mut text, &guesses);
    text.push_str(&instructions(&folder));
    println!("{text}");
    if let Err(error) = std::fs::write(out, text) {
        eprintln!("{out} cannot be written: {error}");
        return ExitCode::from(2);
    }
    ExitCode::SUCCESS
}

/// What the request asks for, and what was measured.
fn asked(text: &mut String, measured: &[Measured]) {
    let ratio = |one: &Measured, seconds: fn(&Times) -> f64| {
        seconds(&one.times[STRAIGHT]) / seconds(&one.times[BASELINE])
    };
    let mut told = Vec::new();
    let mut worst = 0.0_f64;
    for one in measured.iter().filter(|one| one.items == 10_000) {
        let (median, least) = (ratio(one, |t| t.median), ratio(one, |t| t.least));
        told.push(format!("{} {median:.2} times (least of all rounds {least:.2})", one.form()));
        worst = worst.max(median).max(least);
    }
    let met = if worst <= ASKED { "that is met" } else { "that is NOT met" };
    writeln!(
        text,
        "**Asked: on 10,000 items at most {ASKED} times the plain Rust judge's time. Measured, the \
         straight engine's judge: {}: {met}.**\n",
        told.join("; ")
    )
    .expect(TAKEN);
}

/// Messages in which an item is badly guessed from those before it.
fn badly_guessed(text: &mut String, guesses: &[Guessed]) {
    writeln!(
        text,
        "\nBad guesses. The straight engine guesses how an item is spelled from those before it. The \
         judges on 10,000 items in which it cannot, the median of {ROUNDS_GUESSED} rounds by turns; ratios \
         by the medians and (by the least):\n\n\
         | 10,000 items | bytes | straight engine | table-led engine | plain Rust | straight to plain | \
         table-led to plain |\n|---|---|---|---|---|---|---|"
    )
    .expect(TAKEN);
    for Guessed { what, bytes, times } in guesses {
        write!(text, "| {what} | {} |", grouped(*bytes)).expect(TAKEN);
        for time in [STRAIGHT, TABLE, BASELINE].map(|at| times[at].median) {
            let rate = *bytes as f64 / time / 1e6;
            write!(text, " {:.2} ms, {rate:.0} MB/s |", time * 1e3).expect(TAKEN);
        }
        for at in [STRAIGHT, TABLE] {
            let [median, least] = [|t: &Times| t.median, |t: &Times| t.least]
                .map(|seconds: fn(&Times) -> f64| seconds(&times[at]) / seconds(&times[BASELINE]));
            write!(text, " {median:.2} ({least:.2}) |").expect(TAKEN);
        }
        text.push('\n');
    }
}

/// The machine, and the way it was measured.
fn how(machine: &Machine, load: &str, tools: &[String], left_out: &[&str]) -> String {
    let cores = std::thread::available_parallelism().map_or(0, usize::from);
    let library = match std::env::consts::ARCH {
        "x86_64" => "The library is the archive as shipped.".to_string(),
        arch => format!(
            "The library is the archive that the kit makes for this machine ({arch}). Figures for \
             x86-64 as shipped must be taken on x86-64."
        ),
    };
    let outside = match tools.is_empty() {
        true => String::new(),
        false => format!(
            " The other programs ({}) read the same bytes from a file, and **the start of their \
             process is included**.",
            tools.join("; ")
        ),
    };
    let missing = match left_out.is_empty() {
        true => String::new(),
        false => format!(" Not installed, so left out: {}.", left_out.join(", ")),
    };
    format!(
        "# Benchmark\n\nMade by `bench/run`, which measures and writes this page anew.\n\n\
         - Day: {}. Machine: {}, {cores} cores, Linux {}; load when it began: {load} (of {cores}). Where \
         that is near {cores} or above, the medians tell of the other work too: go by the least.\n\
         - {library} The plain Rust judge (`front/plain`) and the test program: {}, for release.\n\
         - Way: one run; the contenders by turns, {WARM_UP} rounds to warm up and then {ROUNDS} \
         ({ROUNDS_SMALL} of 1,000 items) that are counted; the median of those. Other programs, and the judge \
         without an index, take part in every {SELDOM}th round. The message lies in memory, each call is timed whole; \
         the records go into an area of just their size, the index has 16,384 numbers; without it each \
         TxId is compared with all before it.{outside}{missing}\n\
         - Messages: a declaration, usual values, InstrId and RmtInf in each item; each item has its \
         own references, amount and account. Indented is a line for each tag and two spaces \
         for each level; 10,000 such items come close to the 16,777,216 bytes that the judge takes.\n\
         - Two engines: `bulk_judge` and `bulk_records` read by the straight one, `bulk_judge_by_table` and \
         `bulk_records_by_table` by the table-led one. On every input they answer the same.\n\
         - The judges here check every value of the profile; `xmllint` and `xmlwf` only whether the \
         XML is well formed.\n\n",
        machine.day, machine.processor, machine.kernel, machine.rust
    )
}

/// A number with commas.
pub(crate) fn grouped(number: usize) -> String {
    let digits = number.to_string();
    let mut out = String::new();
    for (at, digit) in digits.chars().enumerate() {
        if at > 0 && (digits.len() - at) % 3 == 0 {
            out.push(',');
        }
        out.push(digit);
    }
    out
}

/// For each message and each of them: milliseconds, megabytes a second, times the plain judge.
fn table(
    text: &mut String,
    all: &[Who],
    measured: &[Measured],
    what: &str,
    seconds: fn(&Times) -> f64,
) {
    write!(text, "| {what} |").expect(TAKEN);
    for one in measured {
        let (items, bytes) = (grouped(one.items), grouped(one.bytes));
        write!(text, " {items} items, {} ({bytes} bytes) |", one.form()).expect(TAKEN);
    }
    text.push_str("\n|---|---|---|---|---|\n");
    for (at, who) in all.iter().enumerate() {
        write!(text, "| {} |", who.name()).expect(TAKEN);
        for one in measured {
            let time = seconds(&one.times[at]);
            let rate = one.bytes as f64 / time / 1e6;
            let ratio = time / seconds(&one.times[BASELINE]);
            write!(text, " {:.2} ms, {rate:.0} MB/s, {ratio:.2} times", time * 1e3).expect(TAKEN);
            if let Some(plain) = who.beside() {
                let ratio = time / seconds(&one.times[plain]);
                write!(text, " ({ratio:.2} times its records)").expect(TAKEN);
            }
            text.push_str(" |");
        }
        text.push('\n');
    }
}

/// From 1,000 items to 10,000; and the time for a message of one item, which for
/// another program is the start of its process.
fn growth(text: &mut String, all: &[Who], measured: &[Measured], start: &Measured) {
    text.push_str(
        "\nGrowth from 1,000 to 10,000 items, by the medians and (by the least); and a message of \
         one item alone, which for another program is the start of its process:\n\n\
         | | compact | indented | one item |\n|---|---|---|---|\n",
    );
    let bytes = |at: usize| measured[at + 1].bytes as f64 / measured[at].bytes as f64;
    let one = grouped(start.bytes);
    writeln!(text, "| bytes | {:.2} | {:.2} | {one} bytes |", bytes(0), bytes(2)).expect(TAKEN);
    for (at, who) in all.iter().enumerate() {
        let grown = |from: usize, seconds: fn(&Times) -> f64| {
            seconds(&measured[from + 1].times[at]) / seconds(&measured[from].times[at])
        };
        write!(text, "| {} |", who.name()).expect(TAKEN);
        for from in [0, 2] {
            let (median, least) = (grown(from, |t| t.median), grown(from, |t| t.least));
            write!(text, " {median:.2} ({least:.2}) |").expect(TAKEN);
        }
        writeln!(text, " {:.4} ms |", start.times[at].median * 1e3).expect(TAKEN);
    }
}
