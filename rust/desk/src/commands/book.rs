//! `check` and `types`: a book as it is.

use super::counted;
use crate::args::Call;
use crate::blocks::word;
use crate::desk::Desk;
use crate::json::Json;
use crate::told::{Failure, Told};
use std::collections::HashMap;
use std::fmt::Write;
use typebook::{Refusal, TypeBook};

const BLOCK: usize = 512;

/// A book, checked; a refusal says where.
pub fn opened(bytes: Vec<u8>, file: &str, width: u8) -> Result<Desk, Failure> {
    let copy = bytes.clone();
    Desk::new(bytes, width).map_err(|refusal| {
        let words = format!("{file}: {refusal}{}", place(&copy, refusal));
        Failure::numbered(Some(refusal.number()), words)
    })
}

/// Whether a book is sound.
pub fn check(bytes: &[u8], file: &str, call: &Call) -> Result<Told, Failure> {
    let desk = opened(bytes.to_vec(), file, call.width)?;
    let types = desk.book.types().count();
    let text = format!(
        "{file}: sound, {} of {}\n",
        counted(types as u64, "type"),
        counted(desk.book.blocks(), "block")
    );
    let json = Json::object([
        ("blocks", Json::number(desk.book.blocks())),
        ("types", Json::count(types)),
    ]);
    Ok(Told::new(text, json))
}

/// Where a book is wrong, as far as that can be said.
fn place(bytes: &[u8], refusal: Refusal) -> String {
    let found = match refusal {
        Refusal::Sum => {
            let wrong = |block: &[u8]| {
                let sum: u32 = block[..508].iter().map(|&b| u32::from(b)).sum();
                block[508..] != sum.to_le_bytes()
            };
            bytes.chunks_exact(BLOCK).position(wrong).map(|n| format!("block {n}"))
        }
        Refusal::Form => misplaced(bytes),
        Refusal::DoubledName => doubled(bytes),
        _ => return String::new(),
    };
    found.map_or_else(String::new, |place| format!(" ({place})"))
}

/// The first type that isn't of the form by itself.
fn misplaced(bytes: &[u8]) -> Option<String> {
    let blocks = bytes.len() / BLOCK;
    let starts: Vec<usize> = (0..blocks).filter(|&n| n == 0 || bytes[n * BLOCK] == 1).collect();
    let ends = starts.iter().skip(1).copied().chain([blocks]);
    let refused = |&(start, end): &(usize, usize)| {
        let alone = TypeBook::names_only(&bytes[start * BLOCK..end * BLOCK], 8);
        matches!(alone, Err(Refusal::Form))
    };
    let (start, end) = starts.iter().copied().zip(ends).find(refused)?;
    Some(match end - start {
        1 => format!("block {start}"),
        _ => format!("blocks {start} to {}", end - 1),
    })
}

/// The first two types of one name.
fn doubled(bytes: &[u8]) -> Option<String> {
    let mut names = HashMap::new();
    for (n, block) in bytes.chunks_exact(BLOCK).enumerate().filter(|(_, b)| b[0] == 1) {
        let name = &block[54..54 + usize::from(block[52])];
        if let Some(first) = names.insert(name, n) {
            let name = String::from_utf8_lossy(name);
            return Some(format!("blocks {first} and {n}, {name:?}"));
        }
    }
    None
}

/// A table of a book's types.
pub fn types(desk: &Desk) -> Result<Told, Failure> {
    let longest = desk
        .book
        .types()
        .map(|t| t.name().len())
        .max()
        .unwrap_or(0)
        .clamp(4, 60);
    let mut text = format!(
        "{:longest$}  {:14}  {:>10}  {:>6}\n",
        "name", "category", "size", "fields"
    );
    let mut rows = Vec::new();
    for t in desk.book.types() {
        let fields = t.declared_fields().len();
        let category = word(desk.category(t));
        let _ = writeln!(
            text,
            "{:longest$}  {category:14}  {:>10}  {:>6}",
            t.name(),
            t.size(),
            fields
        );
        rows.push(Json::object([
            ("name", Json::text(t.name())),
            ("block", Json::number(t.block())),
            ("category", Json::text(category)),
            ("type_name", Json::text(t.type_name())),
            ("size", Json::number(t.size())),
            ("fields", Json::count(fields)),
            ("entries", Json::count(t.entries().len())),
        ]));
    }
    Ok(Told::new(text, Json::list(rows)))
}
