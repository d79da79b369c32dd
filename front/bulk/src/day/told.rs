//! What calls on a day tell: in words, for scripts, for programs.

use super::fault::cut_off;
use super::store::Store;
use crate::book::{entry_json, Answer, Made};
use crate::call::{Call, Form};
use crate::json::Object;
use crate::language::Language;
use crate::out;
use crate::trouble::Trouble;
use std::os::unix::ffi::OsStrExt;

/// Prints a text when the day's lock was given back: whoever reads slowly keeps nobody waiting.
pub fn put(store: Store, text: &str) -> Result<(), Trouble> {
    drop(store);
    out::put(text)
}

/// The answer of a call that was made on a day, with the time of its record, if it has one.
pub fn call(call: &Call, store: &Store, made: &Made, time: &[u8]) -> String {
    match (call.form, &made.answer) {
        (Form::Plain, Answer::Total) => format!("open {} {}\n", made.open.len(), made.cents),
        (Form::Plain, _) => made.plain(),
        (Form::Json, _) => json(store, made, time, call.language),
        _ => made.words(call.language),
    }
}

/// One object: as of a call in a script, with what only a day has.
fn json(store: &Store, made: &Made, time: &[u8], language: Language) -> String {
    let listed = if made.answer == Answer::List { made.open } else { &[] };
    let bulks = listed.iter().enumerate().map(|(at, entry)| {
        let time = store.entry(&entry.key).map_or(&b""[..], |(time, _)| time);
        entry_json(at, entry).text_or_null("time", time).end()
    });
    let object = made.json(language).list("bulks", bulks).text_or_null("time", time);
    format!("{}\n", of_day(object, store).end())
}

/// The keys that every object of a day has: its folder, and whether a call was cut off in it.
pub fn of_day(object: Object, store: &Store) -> Object {
    let needs_repair = if store.left.is_empty() { "false" } else { "true" };
    object.text("day", store.folder.as_os_str().as_bytes()).raw("needs_repair", needs_repair)
}

/// Tells on standard error what a cut-off call left, if one did.
pub fn note(store: &Store, language: Language) {
    if !store.left.is_empty() {
        out::report(&cut_off(&store.folder, &store.left, language));
    }
}
