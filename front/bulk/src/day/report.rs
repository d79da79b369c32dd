//! `day report`: the open cents by service and sequence type, as the playback has them.

use super::list::open_told;
use super::played::Played;
use super::store::Store;
use super::told;
use crate::call::{Call, Form};
use crate::json::Object;
use crate::language::Language;
use crate::play::{self, sum_json, sums};
use crate::trouble::Trouble;
use crate::{csv, euro, Status};

/// Tells the table.
pub fn report(call: &Call) -> Result<Status, Trouble> {
    let (store, played) = super::read(call)?;
    let text = match call.form {
        Form::Plain => plain(&played),
        Form::Csv => table(&played, call.language),
        Form::Json => format!("{}\n", json(&store, &played)),
        Form::Words => {
            let table = play::table(played.table, call.language);
            format!("{table}{}\n", open_told(&played, call.language))
        }
    };
    told::put(store, &text).map(|()| Status::Accepted)
}

/// For scripts: a line for each sum, and one for all.
fn plain(played: &Played) -> String {
    let line = |(service, sequence, cents)| format!("{service} {sequence} {cents}\n");
    let all: String = sums(played.table).map(line).collect();
    format!("{all}open {} {}\n", played.open().len(), played.total())
}

/// For a spreadsheet: a line for each sum.
fn table(played: &Played, language: Language) -> String {
    let heading = language.say(
        ["Service", "Sequence type", "Cents", "EUR"],
        ["Verfahren", "Lastschrift-Typ", "Cent", "EUR"],
    );
    let mut text = heading.map(csv::quoted).join(";") + "\n";
    for (service, sequence, cents) in sums(played.table) {
        let euros = euro::euros(cents).replace('.', language.say(".", ","));
        let [service, sequence] = [service, sequence].map(csv::quoted);
        text.push_str(&format!("{service};{sequence};{cents};{euros}\n"));
    }
    text
}

/// One object.
fn json(store: &Store, played: &Played) -> String {
    let object = Object::default()
        .text("call", b"report")
        .number("open", played.open().len() as u64)
        .text("open_euros", euro::euros(played.total()).as_bytes())
        .list("sums", sums(played.table).map(sum_json));
    told::of_day(object, store).end()
}
