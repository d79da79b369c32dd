//! `check`: one single checker.

use crate::call::{Call, Form};
use crate::trouble::Trouble;
use crate::{out, read, Status};
use std::ffi::OsStr;
use std::os::unix::ffi::OsStrExt;
use told::checked::Checked;

/// Checks one value; its kind may be written in any case.
pub fn check(call: &Call, kind: &OsStr, value: &OsStr) -> Result<Status, Trouble> {
    let value = value_of(value)?;
    let name = kind.to_ascii_lowercase();
    let checked = name.to_str().and_then(|name| Checked::of(name, &value));
    let checked = checked.ok_or_else(|| Trouble::UnknownKind(kind.to_owned()))?;
    let line = match call.form {
        Form::Plain => checked.plain(),
        Form::Json => checked.json(call.language),
        _ => checked.told(call.language),
    };
    out::put(&format!("{line}\n"))?;
    Ok(if checked.is_accepted() { Status::Accepted } else { Status::Refused })
}

/// The argument, or standard input without its last line end.
fn value_of(word: &OsStr) -> Result<Vec<u8>, Trouble> {
    if word != read::INPUT {
        return Ok(word.as_bytes().to_vec());
    }
    let value = read::bytes(word)?;
    let line = value.strip_suffix(b"\n").map(|line| line.strip_suffix(b"\r").unwrap_or(line));
    Ok(line.unwrap_or(&value).to_vec())
}
