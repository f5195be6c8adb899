//! `yalivucu`: unpacks, checks and measures textures by the proved library of this repository.
//!
//! What decides a pixel, a refusal or a verdict is the library's. Here files are opened and written, arguments are read and
//! sentences are said. The exit status is 0 where everything was done, 1 where something was refused or an answer was no,
//! and 2 after a wrong call.
#![forbid(unsafe_code)]

mod args;
mod commands;
mod failure;
mod formats;
mod input;
mod names;
mod npy;
mod output;
mod pages;
mod png_file;
mod progress;
mod reference;
mod report;
mod samples;
mod signals;
mod texture;
mod work;

use args::{Call, Command};
use clap::error::ErrorKind;
use clap::Parser;
use failure::Failure;
use report::Outcome;
use std::process::ExitCode;

const REFUSED: u8 = 1;
const WRONG_CALL: u8 = 2;

fn main() -> ExitCode {
    let call = match Call::try_parse() {
        Ok(call) => call,
        Err(error) => return parsing_ended(&error),
    };
    if let Err(why) = signals::watch() {
        report::complain(&format!("yalivucu: signals cannot be heard: {why}"));
        return ExitCode::from(REFUSED);
    }
    match run(&call.command) {
        Ok(Outcome::Done) => ExitCode::SUCCESS,
        Ok(Outcome::Refused) => ExitCode::from(REFUSED),
        Err(End::Refused(why)) => {
            report::complain(&format!("yalivucu: {why}"));
            ExitCode::from(REFUSED)
        }
        Err(End::WrongCall(why)) => {
            report::complain(&format!("error: {why}\n\nFor more information try '--help'"));
            ExitCode::from(WRONG_CALL)
        }
    }
}

/// Why a run ended before its end.
pub enum End {
    Refused(Failure),
    WrongCall(String),
}

impl From<Failure> for End {
    fn from(failure: Failure) -> End {
        End::Refused(failure)
    }
}

fn run(command: &Command) -> Result<Outcome, End> {
    match command {
        Command::Unpack(asked) => commands::unpack::run(asked),
        Command::Check(asked) => commands::check::run(asked),
        Command::Info(asked) => commands::info::run(asked),
        Command::Sheet(asked) => commands::sheet::run(asked),
        Command::Degrees(asked) => commands::degrees::run(asked),
        Command::Compare(asked) => commands::compare::run(asked),
        Command::Bake(asked) => commands::bake::run(asked),
        Command::Manual => Ok(report::put(&pages::manual()).map(|()| Outcome::Done)?),
        Command::Completions { shell } => Ok(report::put(&pages::completions(*shell)).map(|()| Outcome::Done)?),
    }
}

/// Help and version go to standard output. A wrong call is said with the word that is wrong, in which nothing reaches
/// the terminal but text.
fn parsing_ended(error: &clap::Error) -> ExitCode {
    let text = error.render().to_string();
    if matches!(error.kind(), ErrorKind::DisplayHelp | ErrorKind::DisplayVersion) {
        return match report::put(text.as_bytes()) {
            Ok(()) => ExitCode::SUCCESS,
            Err(why) => {
                report::complain(&format!("yalivucu: {why}"));
                ExitCode::from(REFUSED)
            }
        };
    }
    let lines: Vec<String> = text.trim_end().split('\n').map(names::shown_text).collect();
    report::complain(&lines.join("\n"));
    ExitCode::from(WRONG_CALL)
}
