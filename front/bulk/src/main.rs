//! The command `bulk`: its words, its commands, its exit status.

#![deny(unsafe_code)]

mod book;
mod call;
mod check;
mod day;
mod explain;
mod failure;
mod help;
mod items;
mod judge;
mod made;
mod out;
mod play;
mod read;
mod recording;
mod same;
mod script;
#[allow(unsafe_code)]
mod system;
mod target;
mod trouble;
mod unplayed;

use call::{Call, Command};
use language::Language;
use made::Made;
use std::process::ExitCode;
use told::{csv, euro, json, language, pages, show, verdict, why, Status};
use trouble::Trouble;

/// Runs the command, and puts a trouble into words.
fn main() -> ExitCode {
    let locale = Language::of_locale(|name| std::env::var_os(name));
    let call = Call::of(std::env::args_os().skip(1), locale);
    let status = run(&call).unwrap_or_else(|trouble| {
        out::report(&trouble.words(call.language));
        Status::Trouble
    });
    ExitCode::from(status as u8)
}

/// Does what is asked.
fn run(call: &Call) -> Result<Status, Trouble> {
    if call.is_help && call.is_of_day() {
        return told(help::day(call.language));
    }
    if call.is_help {
        return told(help::page(call.language));
    }
    if call.is_version {
        return told(help::VERSION);
    }
    let (command, words) = call.command()?;
    match (command, &words[..]) {
        (Command::Judge, names) => judge::judge(call, names),
        (Command::Items, [name]) => items::items(call, name),
        (Command::Records, [name, out]) => made::made(call, Made::Records, name, out),
        (Command::Plain, [name]) => made::made(call, Made::Plain, name, out::OUTPUT.as_ref()),
        (Command::Plain, [name, out]) => made::made(call, Made::Plain, name, out),
        (Command::Same, [one, other]) => same::same(call, one, other),
        (Command::Play, [recording, messages @ ..]) => play::play(call, recording, messages),
        (Command::Book, [script]) => book::book(call, script),
        (Command::Day, words) => day::day(call, words),
        (Command::Check, [kind, value]) => check::check(call, kind, value),
        (Command::Explain, []) => explain::explain(call, None).map(|()| Status::Accepted),
        (Command::Explain, [number]) => {
            explain::explain(call, Some(number)).map(|()| Status::Accepted)
        }
        (Command::Help, [word]) if *word == "day" => told(help::day(call.language)),
        (Command::Help, _) => told(help::page(call.language)),
        _ => Err(Trouble::Misused(command)),
    }
}

/// Prints a text that was asked for.
fn told(text: &str) -> Result<Status, Trouble> {
    out::put(text).map(|()| Status::Accepted)
}
