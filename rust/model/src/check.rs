//! Refusals 1 to 5 and 23, and appending.

use crate::Stop;
use crate::block::{self, BLOCK};
use std::collections::HashSet;

const MOST_BLOCKS: usize = 65_536;

/// The first refusal that the book in the first `len` bytes meets, 1 to 4, or 0: all of 1, then all of 2 and so on.
pub fn check_book(buffer: &[u8], len: usize) -> u8 {
    if !right_size(buffer.len(), len) {
        return 1;
    }
    let book = &buffer[..len];
    if !sums(book) {
        return 2;
    }
    match types_of(book) {
        None => 3,
        Some(types) => u8::from(doubled(book, &types)) * 4,
    }
}

fn right_size(buffer: usize, len: usize) -> bool {
    len.is_multiple_of(BLOCK) && len / BLOCK <= MOST_BLOCKS && len <= buffer
}

/// Whether every block's last four bytes are the sum of the others.
pub fn sums(book: &[u8]) -> bool {
    book.chunks_exact(BLOCK).all(|b| {
        let sum: u32 = b[..508].iter().map(|&x| u32::from(x)).sum();
        b[508..] == sum.to_le_bytes()
    })
}

/// The type blocks, if every block is of the form and in its place.
fn types_of(book: &[u8]) -> Option<Vec<u32>> {
    let blocks: Vec<&[u8]> = book.chunks_exact(BLOCK).collect();
    let (mut types, mut at) = (Vec::new(), 0usize);
    while at < blocks.len() {
        if !is_type_form(blocks[at]) {
            return None;
        }
        types.push(at as u32);
        let fields = block::fields(book, at as u32) as usize;
        let entries = block::entries(book, at as u32) as usize;
        let own = blocks.get(at + 1..at + 1 + fields + entries)?;
        if !own[..fields].iter().all(|b| is_field_form(b)) || !own[fields..].iter().all(|b| is_entry_form(b)) {
            return None;
        }
        at += 1 + fields + entries;
    }
    Some(types)
}

fn zero(bytes: &[u8]) -> bool {
    bytes.iter().all(|&b| b == 0)
}

/// A name of `length` bytes at the head of a place of 200, the rest zero.
fn is_name(place: &[u8], length: u8) -> bool {
    let length = usize::from(length);
    length <= 200 && place[..length].iter().all(|b| (0x20..=0x7E).contains(b)) && zero(&place[length..])
}

fn names(b: &[u8]) -> bool {
    is_name(&b[54..254], b[52]) && is_name(&b[254..454], b[53]) && zero(&b[454..508])
}

fn is_type_form(b: &[u8]) -> bool {
    let counts = usize::from(b[2]);
    // Bit 5 marks a STRING (id 30) as UTF-8.
    let flags = b[1] < if b[4..8] == [30, 0, 0, 0] { 64 } else { 32 };
    b[0] == 1 && flags && counts <= 8 && b[3] == 0 && zero(&b[20 + 4 * counts..52]) && names(b)
}

fn is_field_form(b: &[u8]) -> bool {
    b[0] == 2 && zero(&b[1..4]) && zero(&b[12..52]) && names(b)
}

fn is_entry_form(b: &[u8]) -> bool {
    let value = usize::from(b[1]);
    b[0] == 3 && value <= 8 && zero(&b[2..20]) && zero(&b[20 + value..52]) && b[53] == 0 && names(b)
}

fn doubled(book: &[u8], types: &[u32]) -> bool {
    let mut seen = HashSet::new();
    types.iter().any(|&n| !seen.insert(block::name(book, n)))
}

/// A root as a call is given it: a block's number, or a name.
pub trait Root: Copy {
    /// Its block in a valid book; 5 or 23, or 7 with the number that stands for a name which the book lacks.
    fn in_book(self, book: &[u8]) -> Result<u32, Stop>;
}

/// The number that stands for a root's name which the book lacks.
pub const LACKING: u32 = 4_294_967_295;

impl Root for u64 {
    fn in_book(self, book: &[u8]) -> Result<u32, Stop> {
        match self < (book.len() / BLOCK) as u64 && book[self as usize * BLOCK] == 1 {
            true => Ok(self as u32),
            false => Err(Stop::Number(5)),
        }
    }
}

impl Root for &[u8] {
    fn in_book(self, book: &[u8]) -> Result<u32, Stop> {
        if self.len() > 200 || self.iter().any(|b| !(0x20..=0x7E).contains(b)) {
            return Err(Stop::Number(23));
        }
        let mut types = (0..block::count(book)).filter(|&n| block::kind(book, n) == 1);
        types
            .find(|&n| block::name(book, n) == self)
            .ok_or(Stop::Missing(LACKING))
    }
}

/// The root block of a valid book, or the refusal.
pub fn check_root(buffer: &[u8], len: usize, root: impl Root) -> Result<u32, Stop> {
    match check_book(buffer, len) {
        0 => root.in_book(&buffer[..len]),
        number => Err(Stop::Number(number)),
    }
}

/// Appends one type's blocks to the book in the first `len` bytes; the new length, or the refusal and nothing changed.
pub fn append(buffer: &mut [u8], len: usize, piece: &[u8]) -> Result<usize, u8> {
    match check_book(buffer, len) {
        0 => {}
        number => return Err(number),
    }
    if !right_size(piece.len(), piece.len()) {
        return Err(1);
    }
    if !sums(piece) {
        return Err(2);
    }
    if types_of(piece).is_none_or(|types| types.len() != 1) {
        return Err(3);
    }
    let name = block::name(piece, 0);
    let known =
        (0..block::count(&buffer[..len])).any(|n| block::kind(buffer, n) == 1 && block::name(buffer, n) == name);
    if known {
        return Err(4);
    }
    let end = len + piece.len();
    if end > buffer.len() || end / BLOCK > MOST_BLOCKS {
        return Err(15);
    }
    buffer[len..end].copy_from_slice(piece);
    Ok(end)
}
