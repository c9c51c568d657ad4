//! The words of the command line.

use crate::help;
use crate::told::Failure;
use std::ffi::OsString;
use std::path::PathBuf;

/// A file, or standard input.
#[derive(Debug, Clone, PartialEq, Eq)]
pub enum File {
    /// `-`
    Standard,
    /// Any other name.
    Path(PathBuf),
}

/// What is to be done.
#[derive(Debug, PartialEq, Eq)]
#[allow(missing_docs)]
pub enum Command {
    Check(File),
    Types(File),
    Show(File, String),
    Missing(File, String),
    Plan(File, File, String),
    Why(File, String),
    Read(File, String, File),
    Write(File, String, File, Vec<(String, String)>),
    Upload(File),
}

/// A command with its options.
#[derive(Debug, PartialEq, Eq)]
pub struct Call {
    /// The command.
    pub command: Command,
    /// `--json`
    pub json: bool,
    /// `--width`
    pub width: u8,
    /// `--output`
    pub output: Option<File>,
    /// `--fitting`
    pub fitting: bool,
    /// `--depth`
    pub depth: usize,
}

/// What the words ask for.
#[derive(Debug, PartialEq, Eq)]
pub enum Asked {
    /// To be told how it is called.
    Help(String),
    /// A command.
    Run(Call),
}

fn usage(words: impl Into<String>) -> Failure {
    Failure::Usage(words.into())
}

/// Options that were met, and the other words.
#[derive(Default)]
struct Words {
    rest: Vec<OsString>,
    help: bool,
    version: bool,
    json: bool,
    fitting: bool,
    width: Option<u8>,
    depth: Option<usize>,
    output: Option<File>,
}

impl Words {
    fn sorted(words: Vec<OsString>) -> Result<Self, Failure> {
        let mut out = Words::default();
        let mut words = words.into_iter();
        while let Some(word) = words.next() {
            match word.to_str() {
                Some("--") => out.rest.extend(words.by_ref()),
                Some(option) if option.len() > 1 && option.starts_with('-') => out.option(option, &mut words)?,
                _ => out.rest.push(word),
            }
        }
        Ok(out)
    }

    fn option(&mut self, option: &str, words: &mut impl Iterator<Item = OsString>) -> Result<(), Failure> {
        let (name, given) = match option.split_once('=') {
            Some((name, value)) => (name, Some(OsString::from(value))),
            None => (option, None),
        };
        match (name, &given) {
            ("--help" | "-h", None) => self.help = true,
            ("--version", None) => self.version = true,
            ("--json", None) => self.json = true,
            ("--fitting", None) => self.fitting = true,
            ("--width" | "--depth" | "--output", _) => {
                let value = given.or_else(|| words.next());
                self.valued(
                    name,
                    value.ok_or_else(|| usage(format!("{name} wants a word after it")))?,
                )?;
            }
            _ => return Err(usage(format!("there is no option {option}"))),
        }
        Ok(())
    }

    fn valued(&mut self, name: &str, value: OsString) -> Result<(), Failure> {
        let number = value.to_str().and_then(|v| v.parse::<usize>().ok());
        match (name, number) {
            ("--output", _) => self.output = Some(file(value)),
            ("--width", Some(width @ (2 | 4 | 8))) => self.width = Some(width as u8),
            ("--width", _) => return Err(usage("--width is 2, 4 or 8")),
            (_, Some(depth)) => self.depth = Some(depth),
            _ => return Err(usage(format!("{name} wants a number"))),
        }
        Ok(())
    }

    /// Whether a command takes the options that were said.
    fn go_with(&self, command: &str) -> Result<(), Failure> {
        for (said, option, of) in [
            (self.output.is_some(), "--output", &["plan", "write", "upload"][..]),
            (self.fitting, "--fitting", &["upload"]),
            (self.depth.is_some(), "--depth", &["show"]),
        ] {
            if said && !of.contains(&command) {
                return Err(usage(format!("{command} takes no {option}")));
            }
        }
        if self.json && self.output == Some(File::Standard) {
            return Err(usage("--json and --output - both want standard output"));
        }
        Ok(())
    }
}

fn file(word: OsString) -> File {
    match word.to_str() {
        Some("-") => File::Standard,
        _ => File::Path(word.into()),
    }
}

fn name(word: OsString) -> Result<String, Failure> {
    word.into_string()
        .map_err(|word| usage(format!("{word:?} is no name: it isn't UTF-8")))
}

fn value(word: OsString) -> Result<(String, String), Failure> {
    let word = name(word)?;
    match word.split_once('=') {
        Some((path, value)) => Ok((path.into(), value.into())),
        None => Err(usage(format!("{word:?}: PATH=VALUE is due"))),
    }
}

/// What the words ask for.
pub fn parse(words: Vec<OsString>) -> Result<Asked, Failure> {
    let mut words = Words::sorted(words)?;
    if words.version {
        return Ok(Asked::Help(help::version()));
    }
    if words.rest.is_empty() {
        return match words.help {
            true => Ok(Asked::Help(help::whole())),
            false => Err(usage("a command is due")),
        };
    }
    let command = name(words.rest.remove(0))?;
    if command == "help" {
        return Ok(Asked::Help(help::whole()));
    }
    let Some(told) = help::of(&command) else {
        return Err(usage(format!("there is no command {command:?}")));
    };
    if words.help {
        return Ok(Asked::Help(told.to_string()));
    }
    words.go_with(&command)?;
    let command = made(&command, words.rest)?;
    once(&command)?;
    Ok(Asked::Run(Call {
        command,
        json: words.json,
        width: words.width.unwrap_or(8),
        output: words.output,
        fitting: words.fitting,
        depth: words.depth.unwrap_or(usize::MAX),
    }))
}

/// A command of its words.
fn made(command: &str, words: Vec<OsString>) -> Result<Command, Failure> {
    let count = words.len();
    let mut words = words.into_iter();
    let mut next = || words.next().unwrap_or_default();
    let made = match (command, count) {
        ("check", 1) => Command::Check(file(next())),
        ("types", 1) => Command::Types(file(next())),
        ("show", 2) => Command::Show(file(next()), name(next())?),
        ("missing", 2) => Command::Missing(file(next()), name(next())?),
        ("plan", 3) => Command::Plan(file(next()), file(next()), name(next())?),
        ("why", 2) => Command::Why(file(next()), name(next())?),
        ("read", 3) => Command::Read(file(next()), name(next())?, file(next())),
        ("write", 4..) => {
            let (book, name, image) = (file(next()), name(next())?, file(next()));
            Command::Write(book, name, image, words.map(value).collect::<Result<_, _>>()?)
        }
        ("upload", 1) => Command::Upload(file(next())),
        _ => {
            let line = help::of(command)
                .and_then(|told| told.lines().next())
                .unwrap_or_default();
            return Err(usage(format!("{command} is called so: {line}")));
        }
    };
    Ok(made)
}

/// Standard input can be read once.
fn once(command: &Command) -> Result<(), Failure> {
    let files = match command {
        Command::Plan(one, other, _) | Command::Read(one, _, other) | Command::Write(one, _, other, _) => [one, other],
        _ => return Ok(()),
    };
    match files {
        [File::Standard, File::Standard] => Err(usage("only one file can be standard input")),
        _ => Ok(()),
    }
}
