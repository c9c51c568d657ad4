//! The plan of a save: asks and adds over our book and the controller's until an ask lists none, then read-modify-write.

use crate::block::{self, BLOCK};
use crate::category::{Category, determine};
use crate::check::Root;
use crate::walk::{missing_types, requires_read_modify_write};
use crate::{Book, Names, Stop};

const MOST_BLOCKS: usize = 65_536;
const NAME_TOO_MANY: usize = 4_097;
/// The rounds that sweep the new blocks alone; the next one sweeps our whole book.
const NARROW_ROUNDS: u32 = 16;

/// Our book as it grows, with a map of its names, and the controller's book.
struct Plan<'k, 'b> {
    buffer: &'b mut [u8],
    len: usize,
    names: Names<'k>,
    controller: Book<'k>,
    width: u8,
}

/// The plan for a root of our valid book, by the controller's valid book: the answer, and the length of our book then. A root's name that our
/// book lacks is added before the first round.
pub fn plan(
    buffer: &mut [u8],
    len: usize,
    controller: &[u8],
    width: u8,
    root: impl Root,
) -> (Result<bool, Stop>, usize) {
    // The map borrows its names from what doesn't change: the old book and the controller's.
    let old = buffer[..len].to_vec();
    let mut plan = Plan {
        names: Book::names_of(&old),
        controller: Book::new(controller),
        buffer,
        len,
        width,
    };
    let root = match root.in_book(&old) {
        Ok(root) => root,
        Err(lacking) => match root.in_book(controller).map_err(|_| lacking).and_then(|t| plan.add(t)) {
            Ok(()) => (len / BLOCK) as u32,
            Err(stop) => return (Err(stop), plan.len),
        },
    };
    let mut rounds = 0;
    loop {
        match plan.round(root, rounds < NARROW_ROUNDS) {
            Ok(None) => rounds += 1,
            Ok(Some(yes)) => return (Ok(yes), plan.len),
            Err(stop) => return (Err(stop), plan.len),
        }
    }
}

impl Plan<'_, '_> {
    fn blocks(&self) -> u32 {
        (self.len / BLOCK) as u32
    }

    /// An ask and its adds; the answer where none was listed.
    fn round(&mut self, root: u32, narrow: bool) -> Result<Option<bool>, Stop> {
        let book = Book::lent(&self.buffer[..self.len], &self.names);
        let missing = missing_types(&book, self.width, root);
        if !missing.whole {
            return Err(Stop::Number(if missing.count == NAME_TOO_MANY { 9 } else { 8 }));
        }
        if missing.blocks.is_empty() {
            return requires_read_modify_write(&book, self.width, root).map(Some);
        }
        let from = if narrow { self.blocks() } else { 0 };
        for b in missing.blocks {
            self.fetch(b)?;
        }
        self.sweep(from);
        Ok(None)
    }

    /// Adds the type that block `b` names, unless it is known.
    fn fetch(&mut self, b: u32) -> Result<(), Stop> {
        let found = self.controller.find(block::type_name(self.buffer, b));
        self.add(found.ok_or(Stop::Missing(b))?)
    }

    /// Adds a type of the controller's, unless its name is known.
    fn add(&mut self, t: u32) -> Result<(), Stop> {
        let theirs = self.controller.bytes;
        let name = block::name(theirs, t);
        if self.names.contains_key(name) {
            return Ok(());
        }
        let blocks = 1 + block::fields(theirs, t) + block::entries(theirs, t);
        let piece = &theirs[BLOCK * t as usize..BLOCK * (t + blocks) as usize];
        let end = self.len + piece.len();
        if end > self.buffer.len() || end / BLOCK > MOST_BLOCKS {
            return Err(Stop::Number(15));
        }
        self.buffer[self.len..end].copy_from_slice(piece);
        self.names.insert(name, self.blocks());
        self.len = end;
        Ok(())
    }

    /// Adds what the types from a block on are made of, those added meanwhile included; what the controller lacks, or what doesn't
    /// fit, is passed over.
    fn sweep(&mut self, from: u32) {
        let (mut i, mut due) = (from, 0);
        while i < self.blocks() {
            let names = due > 0 || self.is_due(i, &mut due);
            if names {
                let _passed_over = self.fetch(i);
            }
            due = due.saturating_sub(u32::from(names));
            i += 1;
        }
    }

    /// Whether a block names an alias' target or an array's element type; the fields of a struct are due after it.
    fn is_due(&self, i: u32, due: &mut u32) -> bool {
        if block::kind(self.buffer, i) != 1 {
            return false;
        }
        match determine(&self.buffer[..self.len], self.width, i) {
            Category::Alias | Category::Array => return true,
            Category::Struct | Category::Union | Category::FunctionBlock => *due = block::fields(self.buffer, i),
            _ => {}
        }
        false
    }
}
