//! The commands, a file for each group.

mod ask;
mod book;
mod memory;
mod tree;
mod upload;

use crate::args::{Call, Command, File};
use crate::desk::Desk;
use crate::told::{Failure, Told};
use std::io::{Read, Write};

/// Does what is asked.
pub fn run(call: &Call) -> Result<Told, Failure> {
    match &call.command {
        Command::Check(book) => book::check(&contents(book)?, &shown(book), call),
        Command::Types(book) => book::types(&open(book, call)?),
        Command::Show(book, name) => tree::show(&open(book, call)?, name, call.depth),
        Command::Missing(book, name) => ask::missing(&open(book, call)?, name),
        Command::Plan(book, controller, name) => {
            let (ours, controller) = (open(book, call)?, open(controller, call)?);
            ask::plan(&ours, &controller, name, call)
        }
        Command::Why(book, name) => ask::why(&open(book, call)?, name),
        Command::Read(book, name, memory) => memory::read(&open(book, call)?, name, &contents(memory)?),
        Command::Write(book, name, image, values) => {
            memory::write(&open(book, call)?, name, &contents(image)?, values, call)
        }
        Command::Upload(file) => upload::upload(&contents(file)?, call),
    }
}

/// A file's name for people.
fn shown(file: &File) -> String {
    match file {
        File::Standard => "standard input".into(),
        File::Path(path) => path.display().to_string(),
    }
}

fn contents(file: &File) -> Result<Vec<u8>, Failure> {
    let mut bytes = Vec::new();
    let read = match file {
        File::Standard => std::io::stdin().read_to_end(&mut bytes).map(|_| ()),
        File::Path(path) => std::fs::read(path).map(|read| bytes = read),
    };
    match read {
        Ok(()) => Ok(bytes),
        Err(error) => Err(Failure::told(format!("{}: {error}", shown(file)))),
    }
}

fn open(file: &File, call: &Call) -> Result<Desk, Failure> {
    let bytes = contents(file)?;
    book::opened(bytes, &shown(file), call.width)
}

/// Writes a file, if one is to be written; whether it was standard output, which then has nothing else.
fn put(call: &Call, bytes: &[u8]) -> Result<bool, Failure> {
    let Some(file) = &call.output else { return Ok(false) };
    let written = match file {
        File::Standard => std::io::stdout().write_all(bytes),
        File::Path(path) => std::fs::write(path, bytes),
    };
    match (written, file) {
        (Err(error), _) => Err(Failure::told(format!("{}: {error}", shown(file)))),
        (Ok(()), File::Standard) => Ok(true),
        (Ok(()), File::Path(_)) => Ok(false),
    }
}

/// An answer after bytes were written, or nothing but them.
fn after(call: &Call, bytes: &[u8], mut told: Told) -> Result<Told, Failure> {
    if put(call, bytes)? {
        told.text.clear();
    } else if let Some(file) = &call.output {
        told.text += &format!("written: {}\n", shown(file));
    }
    Ok(told)
}

/// "1 byte", "2 bytes".
fn counted(n: impl Into<u64>, one: &str) -> String {
    match n.into() {
        1 => format!("1 {one}"),
        n => format!("{n} {one}s"),
    }
}
