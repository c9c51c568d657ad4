//! The index of names that the document's change request 14 asks for, written from the format's description (docs/FORMAT.md).

use crate::block;

/// The numbers of an index, at least.
pub const INDEX: usize = 16_384;

/// How many slots are tried for a name.
const TRIES: usize = 64;

/// Both halves of a number, each by a product of its own.
fn mixed(x: u64) -> u64 {
    ((x & 0xffff_ffff) * 0x9e37_79b1) ^ ((x >> 32) * 0x85eb_ca77)
}

/// Up to eight bytes as a number, the low byte first.
fn number(bytes: &[u8]) -> u64 {
    bytes.iter().rev().fold(0, |n, &b| (n << 8) | u64::from(b))
}

/// The hash of a name, of 32 bits: its length, each whole part of eight bytes, and its last eight bytes.
pub fn hash(name: &[u8]) -> u32 {
    let start = name.len().saturating_sub(8);
    let parts = name.chunks_exact(8).chain([&name[start..]]);
    let h = parts.fold(name.len() as u64, |h, part| mixed(h ^ number(part)));
    (h ^ (h >> 32)) as u32
}

/// Where a book's index of `len` numbers ends to be slots: one number for each block is kept free where it has three for each.
fn slots(blocks: usize, len: usize) -> usize {
    if len / 3 < blocks { len } else { len - blocks }
}

/// Every number of the index of a book's types.
pub fn built(book: &[u8], len: usize) -> Vec<u32> {
    let (mut index, blocks) = (vec![0; len], block::count(book));
    let slots = slots(blocks as usize, len);
    for n in (0..blocks).filter(|&n| block::kind(book, n) == 1) {
        let place = ((u64::from(hash(block::name(book, n))) * slots as u64) >> 32) as usize;
        let free = (0..TRIES).map(|i| (place + i) % slots).find(|&i| index[i] == 0);
        if let Some(slot) = free {
            index[slot] = n + 1;
        }
    }
    index
}

/// Whether the index leads to every type of the book: one of its name is met before an empty slot.
pub fn holds(book: &[u8], index: &[u32]) -> bool {
    let blocks = block::count(book);
    let slots = slots(blocks as usize, index.len());
    let is = |n: u32, name: &[u8]| n < blocks && block::kind(book, n) == 1 && block::name(book, n) == name;
    let led = |name: &[u8]| {
        let place = ((u64::from(hash(name)) * slots as u64) >> 32) as usize;
        let tried = (0..TRIES).map(|i| index.get((place + i) % slots.max(1)).copied().unwrap_or(0));
        tried.take_while(|&n| n > 0).any(|n| is(n - 1, name))
    };
    let mut types = (0..blocks).filter(|&n| block::kind(book, n) == 1);
    types.all(|n| led(block::name(book, n)))
}
