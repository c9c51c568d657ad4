//! The static library asked by line, in the words of the program that answers for the original, so that the two can be held
//! against each other line by line (tools/compare_oracle.py).
//!
//! A request is `cat|alias|indir|rmw|missing|fields|read WIDTH BOOK ROOT [MEMORY [RECORDS [TEXT]]]`; bytes are hex, `-` for none,
//! `=` for the book of the line before. Or `write WIDTH BOOK ROOT IMAGE TAPE TEXT`. Or `plan WIDTH BOOK ROOT CONTROLLER`, with our book and the
//! controller's: `yes`, `no`, or `err NUMBER`, 7 with the missing name. Every call is made in its checked form and in the one for a checked
//! book, and both must agree: else the answer is `differ`.

mod answer;

use answer::{More, answer};
use std::io::{self, BufRead, Write};

fn unhex(text: &str) -> Option<Vec<u8>> {
    if text == "-" {
        return Some(Vec::new());
    }
    let digit = |c: u8| (c as char).to_digit(16).map(|d| d as u8);
    let pairs = text.as_bytes().chunks(2);
    pairs.map(|p| Some(digit(p[0])? << 4 | digit(*p.get(1)?)?)).collect()
}

/// The answer to a line; none if it isn't a request.
fn told(line: &str, book: &mut Vec<u8>) -> Option<String> {
    let words: Vec<&str> = line.split_ascii_whitespace().collect();
    let [request, width, bytes, root, more @ ..] = &words[..] else {
        return None;
    };
    if *bytes != "=" {
        *book = unhex(bytes)?;
    }
    let bytes_at = |at: usize| more.get(at).map_or(Some(Vec::new()), |word| unhex(word));
    let room = |at: usize, most: usize| more.get(at).map_or(Some(most), |n| n.parse().ok());
    let mut given = More {
        memory: bytes_at(0)?,
        room: typebook::Room::default(),
        tape: Vec::new(),
        text: Vec::new(),
    };
    if *request == "write" {
        (given.tape, given.text) = (bytes_at(1)?, bytes_at(2)?);
    } else {
        given.room = typebook::Room {
            records: room(1, 1 << 20)?,
            text: room(2, 1 << 24)?,
        };
    }
    answer(request, width.parse().ok()?, book, root.parse().ok()?, &given)
}

fn main() -> io::Result<()> {
    let (mut input, mut output) = (io::stdin().lock(), io::stdout().lock());
    let (mut line, mut book) = (String::new(), Vec::new());
    while input.read_line(&mut line)? > 0 {
        writeln!(output, "{}", told(&line, &mut book).unwrap_or("bad request".into()))?;
        output.flush()?;
        line.clear();
    }
    Ok(())
}
