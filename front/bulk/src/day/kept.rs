//! `day enter` and `day withdraw`: a call is tried on the played-back day, put on the disk, and
//! only then answered. A refused one writes nothing.

use super::fault::Fault;
use super::record::{self, Kind, Record, Time, MOST_MSG_ID, RECORD};
use super::store::{Access, Store, Tried};
use super::{clock, told};
use crate::book::{key, own_key, Answer, Made};
use crate::call::Call;
use crate::script::{Ask, Line, Named};
use crate::trouble::Trouble;
use crate::verdict::{Judged, Verdict};
use crate::{read, Status};
use std::ffi::OsStr;
use std::path::Path;

/// A call's answer, the day behind it, and the time of its record, where it has one.
struct Answered {
    answer: Answer,
    tried: Tried,
    time: Option<Time>,
}

/// Enters the message of a file.
pub fn enter(call: &Call, folder: &Path, file: &OsStr) -> Result<Status, Trouble> {
    // What may take long comes before the lock.
    let message = read::bytes(file)?;
    let judged = Judged::of(file, &message);
    let msg_id = judged.contents.header.msg_id;
    if judged.verdict.status() == Status::Accepted && msg_id.len() > MOST_MSG_ID {
        return Err(Fault::LongMsgId(file.to_owned(), msg_id.to_vec()).into());
    }
    let mut store = Store::open(folder, Access::Writing)?;
    store.repaired()?;
    let answered = entered(call, &mut store, &judged)?;
    let line = Line { number: 0, ask: Ask::Enter(file.to_owned()) };
    tell(call, store, &line, Some(judged), answered)
}

/// Withdraws the bulk of a key.
pub fn withdraw(call: &Call, folder: &Path, named: Named) -> Result<Status, Trouble> {
    let mut store = Store::open(folder, Access::Writing)?;
    store.repaired()?;
    let answered = withdrawn(call, &mut store, &named)?;
    let line = Line { number: 0, ask: Ask::Withdraw(named) };
    tell(call, store, &line, None, answered)
}

/// Enters a message that was judged. What the day keeps of it must be what the command read of it.
fn entered(call: &Call, store: &mut Store, judged: &Judged) -> Result<Answered, Trouble> {
    let cents = match judged.verdict {
        Verdict::Accepted { cents, .. } => cents,
        Verdict::Refused { number, place } => {
            return unchanged(store, number, place as u64);
        }
    };
    let (own, time) = (own_key(judged), clock::time(call.time.as_deref())?);
    let parts = own.each_ref().map(Vec::as_slice);
    let record = record::made(&time, Kind::Entry, parts).ok_or(Trouble::Disagreement)?;
    let tried = store.tried(&record, Some(judged.message))?;
    match tried.refused {
        None => {}
        Some(27) => return Err(falls(store, &time)),
        Some(number @ (20 | 21)) => return Ok(refused(tried, number, 0)),
        Some(_) => return Err(Trouble::Disagreement),
    }
    match tried.played.open().last() {
        Some(last) if last.key == key(&own) && last.cents == cents => {}
        _ => return Err(Trouble::Disagreement),
    }
    store.write(&record, Some(judged.message))?;
    Ok(Answered { answer: Answer::Entered { cents }, tried, time: Some(time) })
}

/// Withdraws a key. One that no record can have is not open.
fn withdrawn(call: &Call, store: &mut Store, named: &Named) -> Result<Answered, Trouble> {
    let time = clock::time(call.time.as_deref())?;
    let parts = named.each_ref().map(Vec::as_slice);
    let Some(record) = record::made(&time, Kind::Withdrawal, parts) else {
        return unchanged(store, 22, 0);
    };
    let tried = store.tried(&record, None)?;
    match tried.refused {
        None => {}
        Some(27) => return Err(falls(store, &time)),
        Some(22 | 26) => return Ok(refused(tried, 22, 0)),
        Some(_) => return Err(Trouble::Disagreement),
    }
    let cents = cents_of(store, &record).ok_or(Trouble::Disagreement)?;
    store.write(&record, None)?;
    Ok(Answered { answer: Answer::Withdrawn { cents }, tried, time: Some(time) })
}

/// A refusal of what was not tried, and the day as it is.
fn unchanged(store: &Store, number: u64, place: u64) -> Result<Answered, Trouble> {
    Ok(refused(Tried { played: store.play()?, refused: Some(number) }, number, place))
}

/// A refusal, and the day as it was before.
fn refused(tried: Tried, number: u64, place: u64) -> Answered {
    Answered { answer: Answer::Refused { number, place }, tried, time: None }
}

/// The cents of the bulk that a record names: those of the message that was entered last under its
/// key.
fn cents_of(store: &Store, record: &Record) -> Option<u64> {
    let (_, message) = store.entry(&record::key(record)?)?;
    match face::judge(message) {
        [0, _, cents] => Some(cents),
        _ => None,
    }
}

/// The time of a call lies before that of the last record.
fn falls(store: &Store, time: &Time) -> Trouble {
    let last = store.recording.chunks(RECORD).next_back().map_or(&b""[..], record::time);
    Fault::TimeFalls { time: time.to_vec(), last: last.to_vec() }.into()
}

/// Tells the answer. The call is on the disk then.
fn tell(
    call: &Call,
    store: Store,
    line: &Line,
    judged: Option<Judged>,
    answered: Answered,
) -> Result<Status, Trouble> {
    let Answered { answer, tried, time } = answered;
    let (open, cents) = (tried.played.open(), tried.played.total());
    let made = Made { line, answer, judged, open, cents };
    let text = told::call(call, &store, &made, time.as_ref().map_or(b"", |time| time));
    match told::put(store, &text) {
        Err(Trouble::Output(error)) if time.is_some() => Err(Fault::Untold(error).into()),
        put => put.map(|()| made.status()),
    }
}
