//! `day repair`: what a cut-off call left is set aside, where it can be looked at. Nothing is
//! deleted, and nothing is touched unless all that remains plays back.

use super::disk::{self, BESIDE};
use super::fault::Fault;
use super::list::open_told;
use super::messages;
use super::store::{Access, Store};
use super::told;
use crate::call::{Call, Form};
use crate::json::{self, Object};
use crate::trouble::Trouble;
use crate::Status;
use std::os::unix::ffi::OsStrExt;
use std::path::{Path, PathBuf};

/// The folder for what is set aside.
const ASIDE: &str = "set-aside";

/// Sets aside what a cut-off call left, if one did.
pub fn repair(call: &Call, folder: &Path) -> Result<Status, Trouble> {
    let store = Store::open(folder, Access::Writing)?;
    let played = store.play()?;
    let aside = match store.left.is_empty() {
        true => Vec::new(),
        false => set_aside(&store)?,
    };
    let text = told_aside(call, &store, &aside, &open_told(&played, call.language));
    told::put(store, &text).map(|()| Status::Accepted)
}

/// What was set aside, and under which names; then how many bulks are open.
fn told_aside(call: &Call, store: &Store, aside: &[String], open: &str) -> String {
    let language = call.language;
    match call.form {
        Form::Plain => format!("repaired {}\n", aside.len()),
        Form::Json => {
            let object = Object::default().text("call", b"repair").text("verdict", b"repaired");
            let names = aside.iter().map(|name| json::string(name.as_bytes()));
            let folder = store.folder.as_os_str().as_bytes();
            let object = object.list("set_aside", names).text("day", folder);
            format!("{}\n", object.raw("needs_repair", "false").end())
        }
        _ if aside.is_empty() => {
            let nothing = language.say("nothing to repair", "nichts zu reparieren");
            format!("{nothing}; {open}\n")
        }
        _ => {
            let left = store.left.words(language);
            let word = language.say("set aside as", "beiseitegelegt als");
            let line = |(what, name): (&String, &String)| format!("{word} {name}: {what}\n");
            let lines: String = left.iter().zip(aside).map(line).collect();
            let again = language.say(
                "The call was never answered: if it is still meant, make it again.",
                "Der Aufruf wurde nie beantwortet: Ist er noch gewollt, bitte wiederholen.",
            );
            format!("{lines}{again}\n{open}\n")
        }
    }
}

/// Sets all of it aside, and tells under which names, in the order in which it is told what it is.
fn set_aside(store: &Store) -> Result<Vec<String>, Trouble> {
    let folder = store.folder.join(ASIDE);
    disk::make_folder(&folder).map_err(Fault::Unrepairable)?;
    let mut names = Vec::new();
    if !store.left.torn.is_empty() {
        let (name, path) = free(&folder, &format!("record-{:06}", store.records()));
        disk::create(&path, &store.left.torn).map_err(Fault::Unrepairable)?;
        store.cut()?;
        names.push(name);
    }
    let messages = store.left.messages.iter().map(|number| messages::name(*number));
    for file in messages.chain(store.left.beside.iter().cloned()) {
        let (name, path) = free(&folder, &file);
        let from = store.folder.join(messages::FOLDER).join(&file);
        disk::put_aside(&from, &path).map_err(Fault::Unrepairable)?;
        names.push(name);
    }
    Ok(names)
}

/// A name in a folder that nothing has, and that nothing is being written under.
fn free(folder: &Path, name: &str) -> (String, PathBuf) {
    let is_taken = |name: &str| {
        disk::is_there(&folder.join(name))
            || disk::is_there(&folder.join(format!("{name}{BESIDE}")))
    };
    let others = (1_u64..).map(|number| format!("{number}-{name}"));
    let mut names = std::iter::once(name.to_string()).chain(others);
    let name = names.find(|name| !is_taken(name)).unwrap_or_default();
    (format!("{ASIDE}/{name}"), folder.join(name))
}
