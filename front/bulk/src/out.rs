//! Standard output and standard error.

use crate::made::Made;
use crate::trouble::Trouble;
use std::io::{self, IsTerminal, Write};

/// The name of standard output.
pub const OUTPUT: &str = "-";

/// To standard output, all of it. A reader that has gone, as `head` does, has what it wanted: the
/// work goes on, so that the exit status is that of the verdict whoever reads.
pub fn put(text: &str) -> Result<(), Trouble> {
    match write(text.as_bytes()) {
        Err(error) if error.kind() == io::ErrorKind::BrokenPipe => Ok(()),
        written => written.map_err(Trouble::Output),
    }
}

/// To standard output, or to standard error where that one is for something else.
pub fn put_unless(is_taken: bool, text: &str) -> Result<(), Trouble> {
    match is_taken {
        true => {
            tell(text);
            Ok(())
        }
        false => put(text),
    }
}

/// What was made to standard output, all of it: here a reader that has gone has not got it.
pub fn put_made(made: Made, bytes: &[u8]) -> Result<(), Trouble> {
    if crate::system::is_closed(&io::stdout()) {
        return Err(Trouble::OutputClosed(made));
    }
    write(bytes).map_err(Trouble::Output)?;
    // A plain form ends without a line end, and on a screen what is told next would follow it directly.
    if made == Made::Plain && io::stdout().is_terminal() {
        tell("\n");
    }
    Ok(())
}

/// Writes all bytes, and waits until they are out.
fn write(bytes: &[u8]) -> io::Result<()> {
    let mut out = io::stdout().lock();
    out.write_all(bytes)?;
    out.flush()
}

/// To standard error. Where that fails too, the exit status still tells.
pub fn tell(text: &str) {
    let _ = io::stderr().write_all(text.as_bytes());
}

/// A trouble or a note to standard error, as a line.
pub fn report(words: &str) {
    tell(&format!("bulk: {words}\n"));
}
