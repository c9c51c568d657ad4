//! The tool for the desk: what a type book says, asked from the command line, and whether a function block lies in a recipe, with the
//! reason why. Every answer is the proved library's; this crate finds files, walks for the paths that it shows, and prints.
#![forbid(unsafe_code)]

mod args;
mod blocks;
mod commands;
mod desk;
mod help;
mod json;
mod told;
pub mod why;

pub use desk::Desk;

use std::ffi::OsString;
use std::io::{self, Write};
use std::process::ExitCode;
use told::{Failure, Told};

/// Runs the tool: 0 if it answered, 1 after a refusal, whose words are on standard error, 2 if it was called wrongly.
pub fn main(words: Vec<OsString>) -> ExitCode {
    let status = match args::parse(words) {
        Ok(args::Asked::Help(text)) => show(&text, 0),
        Ok(args::Asked::Run(call)) => finish(commands::run(&call), call.json),
        Err(failure) => finish(Err(failure), false),
    };
    ExitCode::from(status)
}

/// Prints what a command told and gives the exit status.
fn finish(answer: Result<Told, Failure>, json: bool) -> u8 {
    match answer {
        Ok(told) => {
            let text = if json { format!("{}\n", told.json) } else { told.text };
            told.refused.iter().for_each(|words| complain(words));
            show(&text, u8::from(told.refused.is_some()))
        }
        Err(Failure::Usage(words)) => {
            complain(&format!("{words}\n`typebook --help` tells how it is called"));
            2
        }
        Err(Failure::Refused { words, json: told }) => {
            complain(&words);
            match json {
                true => show(&format!("{told}\n"), 1),
                false => 1,
            }
        }
    }
}

/// Words for standard error. If nobody reads them there is nobody to tell.
fn complain(words: &str) {
    let _ = writeln!(io::stderr(), "typebook: {words}");
}

/// Text for standard output. A reader that went away, as `head` does, is no fault.
fn show(text: &str, status: u8) -> u8 {
    match io::stdout().write_all(text.as_bytes()) {
        Err(error) if error.kind() != io::ErrorKind::BrokenPipe => {
            complain(&format!("standard output: {error}"));
            1
        }
        _ => status,
    }
}
