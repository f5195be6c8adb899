//! What is said: results on standard output, refusals on standard error.
use crate::failure::Failure;
use crate::names::shown;
use serde_json::{json, Value};
use std::ffi::OsStr;
use std::io::{self, Write};

/// Writes a line to standard output at once.
pub fn say(line: &str) -> Result<(), Failure> {
    let mut out = io::stdout().lock();
    writeln!(out, "{line}").and_then(|()| out.flush()).map_err(|why| Failure::standard_output(&why))
}

/// Writes bytes to standard output at once.
pub fn put(bytes: &[u8]) -> Result<(), Failure> {
    let mut out = io::stdout().lock();
    out.write_all(bytes).and_then(|()| out.flush()).map_err(|why| Failure::standard_output(&why))
}

/// Writes a line to standard error. Where nobody reads it, it is lost, and the work goes on.
pub fn complain(line: &str) {
    let _ = writeln!(io::stderr().lock(), "{line}");
}

/// Says why a file was refused.
pub fn refuse(name: &OsStr, why: &Failure) {
    complain(&format!("{}: {why}", shown(name)));
}

/// The name of a file as JSON has it.
pub fn json_name(name: &OsStr) -> Value {
    Value::String(name.to_string_lossy().into_owned())
}

/// A refusal as JSON has it.
pub fn json_refusal(name: &OsStr, why: &Failure) -> Value {
    json!({ "file": json_name(name), "refused": { "number": why.number, "sentence": why.sentence } })
}

/// How a run ended.
#[derive(Clone, Copy, Debug, PartialEq, Eq)]
pub enum Outcome {
    /// Everything was done, or every answer was yes.
    Done,
    /// Something was refused, or an answer was no.
    Refused,
}

impl Outcome {
    /// Refused where one of the two is.
    pub fn and(self, other: Outcome) -> Outcome {
        if self == Outcome::Done {
            other
        } else {
            self
        }
    }
}
