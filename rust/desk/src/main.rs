//! `typebook`: a type book asked from the command line. See `typebook --help`.

use std::process::ExitCode;

fn main() -> ExitCode {
    let words = std::env::args_os().skip(1).collect();
    desk::main(words)
}
