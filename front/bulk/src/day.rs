//! `day`: a day as an office keeps it, in a folder whose store is the recording itself. Each call plays the
//! recording back from nothing; a call that changes the day is on the disk before it is answered.

mod against;
mod amount;
mod ask;
mod clearer;
mod clock;
mod columns;
mod damage;
mod disk;
mod fault;
mod kept;
mod left;
mod list;
mod messages;
mod play;
mod played;
mod record;
mod repair;
mod report;
mod store;
mod told;
mod trial;

pub use ask::USAGE;
pub use fault::Fault;

use crate::book::{Answer, Made};
use crate::call::{Call, Form};
use crate::json::Object;
use crate::script::{self, Line};
use crate::trouble::Trouble;
use crate::{out, show, Status};
use ask::Ask;
use played::Played;
use std::ffi::OsStr;
use std::os::unix::ffi::OsStrExt;
use store::{Access, Store};

/// Does what is asked of a day.
pub fn day(call: &Call, words: &[&OsStr]) -> Result<Status, Trouble> {
    match Ask::of(call, words)? {
        Ask::New(folder) => new(call, folder),
        Ask::Enter(file) => kept::enter(call, &ask::folder(call)?, file),
        Ask::Withdraw(named) => kept::withdraw(call, &ask::folder(call)?, named),
        Ask::Total => total(call),
        Ask::List => list::list(call),
        Ask::Report => report::report(call),
        Ask::Play(report) => play::play(call, report),
        Ask::Repair => repair::repair(call, &ask::folder(call)?),
    }
}

/// Makes the folder of a new day.
fn new(call: &Call, folder: &OsStr) -> Result<Status, Trouble> {
    store::make(&ask::named(folder.to_owned())?)?;
    let name = show::name(folder);
    let text = match call.form {
        Form::Plain => "new\n".to_string(),
        Form::Json => {
            let object = Object::default().text("call", b"new").text("verdict", b"new");
            format!("{}\n", object.text("day", folder.as_bytes()).end())
        }
        _ => call.language.say(format!("{name}: a new day\n"), format!("{name}: ein neuer Tag\n")),
    };
    out::put(&text).map(|()| Status::Accepted)
}

/// Opens a day to read it, plays it back, and tells what a cut-off call left in it.
fn read(call: &Call) -> Result<(Store, Played), Trouble> {
    let store = Store::open(&ask::folder(call)?, Access::Reading)?;
    let played = store.play()?;
    told::note(&store, call.language);
    Ok((store, played))
}

/// Tells how many bulks are open, and their total.
fn total(call: &Call) -> Result<Status, Trouble> {
    let (store, played) = read(call)?;
    let line = Line { number: 0, ask: script::Ask::Total };
    let (open, cents) = (played.open(), played.total());
    let made = Made { line: &line, answer: Answer::Total, judged: None, open, cents };
    let text = told::call(call, &store, &made, b"");
    told::put(store, &text).map(|()| Status::Accepted)
}
