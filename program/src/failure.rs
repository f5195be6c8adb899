//! Why something was refused: a number and a sentence.
use std::fmt;
use std::io;
use yalivucu::typed::Refusal;

/// Numbers of the program's own refusals. Those that the library gives are 1 to 26, 37, 38 and 41.
pub mod number {
    pub const NO_OLDER_VIEWER: u32 = 27;
    pub const CANNOT_READ: u32 = 30;
    pub const CANNOT_WRITE: u32 = 31;
    pub const OUT_EXISTS: u32 = 33;
    pub const OUT_IS_FILE: u32 = 34;
    pub const OUT_IS_NO_FILE: u32 = 35;
    pub const STANDARD_OUTPUT: u32 = 36;
    pub const NO_POINT: u32 = 39;
    pub const WRONG_FORMAT: u32 = 40;
    pub const WRONG_PICTURE: u32 = 42;
}

/// A refusal, by the library or by the program.
#[derive(Debug, Clone, PartialEq, Eq)]
pub struct Failure {
    pub number: u32,
    /// The whole sentence, with the number in it.
    pub sentence: String,
}

impl Failure {
    pub fn new(number: u32, sentence: impl fmt::Display) -> Failure {
        Failure { number, sentence: format!("Refusal {number}: {sentence}") }
    }

    /// The same with another sentence behind it.
    pub fn and(mut self, more: &str) -> Failure {
        self.sentence = format!("{} {more}", self.sentence);
        self
    }

    /// Standard output cannot be written.
    pub fn standard_output(why: &io::Error) -> Failure {
        Failure::new(number::STANDARD_OUTPUT, format_args!("standard output cannot be written: {why}."))
    }
}

impl fmt::Display for Failure {
    fn fmt(&self, f: &mut fmt::Formatter<'_>) -> fmt::Result {
        f.write_str(&self.sentence)
    }
}

impl From<Refusal> for Failure {
    fn from(refusal: Refusal) -> Failure {
        Failure { number: refusal.number(), sentence: refusal.to_string() }
    }
}
