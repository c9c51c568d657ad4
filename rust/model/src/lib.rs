//! A plain Rust model of document 01, written from that document and not from the proved code: what the tests compare with and
//! the benchmarks' plain measure. It calls nothing of the static library.
//!
//! The functions of [`calls`] have the library's shape: lent buffers, an answer by number and values.
#![forbid(unsafe_code)]

pub mod block;
pub mod calls;
pub mod category;
pub mod check;
pub mod hostile;
pub mod index;
pub mod make;
pub mod plan;
pub mod random;
pub mod read;
pub mod resolve;
pub mod tapes;
pub mod text;
pub mod time;
pub mod walk;
pub mod write;

use std::collections::HashMap;

/// Why a walk, a read or a write stops: document 01's number, for 7 with its block.
#[derive(Debug, Clone, Copy, PartialEq, Eq)]
pub enum Stop {
    /// 7, with the block whose type name isn't in the book.
    Missing(u32),
    /// Any other refusal.
    Number(u8),
}

/// The type block of each name.
pub type Names<'a> = HashMap<&'a [u8], u32>;

/// How look-ups go.
enum By<'a> {
    Map(Names<'a>),
    Lent(&'a Names<'a>),
    Search,
}

/// A valid book, mostly with a map of its names.
pub struct Book<'a> {
    /// The book's bytes.
    pub bytes: &'a [u8],
    by: By<'a>,
}

impl<'a> Book<'a> {
    /// A map of the names of a book.
    pub fn names_of(bytes: &'a [u8]) -> Names<'a> {
        let types = (0..block::count(bytes)).filter(|&n| block::kind(bytes, n) == 1);
        types.map(|n| (block::name(bytes, n), n)).collect()
    }

    /// The book of bytes that passed the checks.
    pub fn new(bytes: &'a [u8]) -> Self {
        Self {
            bytes,
            by: By::Map(Self::names_of(bytes)),
        }
    }

    /// The same with a map that is there already.
    pub fn lent(bytes: &'a [u8], names: &'a Names<'a>) -> Self {
        Self {
            bytes,
            by: By::Lent(names),
        }
    }

    /// The same without a map: each look-up searches all blocks.
    pub fn without_map(bytes: &'a [u8]) -> Self {
        Self { bytes, by: By::Search }
    }

    /// The type block of a name.
    pub fn find(&self, name: &[u8]) -> Option<u32> {
        match &self.by {
            By::Map(names) => names.get(name).copied(),
            By::Lent(names) => names.get(name).copied(),
            By::Search => calls::find(self.bytes, name),
        }
    }
}
