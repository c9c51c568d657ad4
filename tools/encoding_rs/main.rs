//! Asks encoding_rs by line: one request a line, one answer a line, bytes in hex, `-` for none.
//!
//! | request | answer |
//! |---|---|
//! | `windows-1252 BYTES`, `utf-16le BYTES`, `utf-8 BYTES` | the text, in UTF-8, of the plain decoder (no byte order mark is looked for) |
//! | `valid BYTES` | 1 if the bytes are well-formed UTF-8, else 0 |
//! | `encode BYTES` | the text of these UTF-8 bytes (ill-formed parts replaced) in Windows-1252 |

use encoding_rs::{UTF_8, UTF_16LE, WINDOWS_1252};
use std::io::{self, BufRead, Write};

fn unhex(text: &str) -> Vec<u8> {
    if text == "-" {
        return Vec::new();
    }
    (0..text.len())
        .step_by(2)
        .map(|i| u8::from_str_radix(&text[i..i + 2], 16).expect("hex"))
        .collect()
}

fn hex(bytes: &[u8]) -> String {
    if bytes.is_empty() {
        return "-".into();
    }
    bytes.iter().map(|b| format!("{b:02x}")).collect()
}

fn answer(request: &str, bytes: &[u8]) -> String {
    match request {
        "windows-1252" => hex(WINDOWS_1252.decode_without_bom_handling(bytes).0.as_bytes()),
        "utf-16le" => hex(UTF_16LE.decode_without_bom_handling(bytes).0.as_bytes()),
        "utf-8" => hex(UTF_8.decode_without_bom_handling(bytes).0.as_bytes()),
        "valid" => {
            let text = UTF_8.decode_without_bom_handling_and_without_replacement(bytes);
            (text.is_some() as u8).to_string()
        }
        "encode" => {
            let text = UTF_8.decode_without_bom_handling(bytes).0;
            hex(&WINDOWS_1252.encode(&text).0)
        }
        _ => "bad request".into(),
    }
}

fn main() {
    let mut out = io::stdout().lock();
    for line in io::stdin().lock().lines() {
        let line = line.expect("a line");
        let (request, bytes) = line.split_once(' ').expect("two words");
        writeln!(out, "{}", answer(request, &unhex(bytes))).expect("written");
        out.flush().expect("written");
    }
}
