//! What each command does.
pub mod bake;
pub mod check;
pub mod compare;
pub mod degrees;
pub mod info;
pub mod sheet;
pub mod unpack;

use crate::failure::{number, Failure};
use crate::output::{Pending, Rules};
use crate::report::{self, Outcome};
use crate::work;
use std::ffi::OsString;
use std::fs::File;
use std::io::{self, IsTerminal, Write};
use std::os::fd::AsFd;
use std::path::Path;

/// How many threads to work on.
pub fn threads(asked: Option<u16>) -> usize {
    asked.map_or_else(work::processors, usize::from)
}

/// Standard output for bytes: not a terminal.
pub fn standard_output() -> Result<File, Failure> {
    if io::stdout().is_terminal() {
        let sentence = "standard output is a terminal; bytes are not written to one.";
        return Err(Failure::new(number::STANDARD_OUTPUT, sentence));
    }
    let handle = io::stdout().as_fd().try_clone_to_owned();
    handle.map(File::from).map_err(|why| Failure::standard_output(&why))
}

/// Writes bytes that are whole to a file, or to standard output, and then says a line.
pub fn deliver(out: &Path, rules: &Rules, bytes: &[u8], line: &str) -> Result<Outcome, Failure> {
    if out == Path::new("-") {
        let mut file = standard_output()?;
        file.write_all(bytes).map_err(|why| Failure::standard_output(&why))?;
        return Ok(Outcome::Done);
    }
    let (pending, mut file) = Pending::begin(out, rules)?;
    file.write_all(bytes).map_err(|why| pending.cannot(&why))?;
    let placed = pending.place()?;
    if let Err(why) = report::say(line) {
        placed.undo();
        return Err(why);
    }
    Ok(Outcome::Done)
}

/// Does the same with each file; what is refused is said, and the others go on. What cannot be said ends the run.
pub fn for_each(
    files: &[OsString],
    mut work: impl FnMut(&OsString) -> Result<Outcome, Ended>,
) -> Result<Outcome, Failure> {
    let mut outcome = Outcome::Done;
    for file in files {
        match work(file) {
            Ok(one) => outcome = outcome.and(one),
            Err(Ended::File(why)) => {
                report::refuse(file, &why);
                outcome = Outcome::Refused;
            }
            Err(Ended::All(why)) => return Err(why),
        }
    }
    Ok(outcome)
}

/// What a failure ends: the work on one file, or the run.
pub enum Ended {
    File(Failure),
    All(Failure),
}

impl From<Failure> for Ended {
    fn from(failure: Failure) -> Ended {
        Ended::File(failure)
    }
}
