//! Tapes made at random: such as fit a type, such as don't, and such as aren't of the form.

use crate::Book;
use crate::block;
use crate::category::{Category, determine};
use crate::random::{Made, Rng};
use crate::resolve::{look_up, resolve};

/// A tape and its text buffer.
#[derive(Debug, Clone, Default, PartialEq, Eq)]
#[allow(missing_docs)]
pub struct Tape {
    pub records: Vec<u8>,
    pub text: Vec<u8>,
}

impl Tape {
    /// One more record.
    pub fn put(&mut self, kind: u8, width: u8, a: u64, b: u64) {
        self.records.extend([kind, width, 0, 0, 0, 0, 0, 0]);
        self.records.extend(a.to_le_bytes());
        self.records.extend(b.to_le_bytes());
    }

    /// One more text.
    pub fn put_text(&mut self, text: &str) {
        self.put(11, 0, self.text.len() as u64, text.len() as u64);
        self.text.extend_from_slice(text.as_bytes());
    }
}

const CHARS: [char; 14] = [
    'a',
    'Z',
    ' ',
    '\0',
    '\u{7f}',
    '\u{80}',
    '\u{81}',
    '\u{e4}',
    '\u{416}',
    '\u{20ac}',
    '\u{feff}',
    '\u{fffd}',
    '\u{1f600}',
    '\u{10ffff}',
];

struct Maker<'m> {
    rng: &'m mut Rng,
    book: &'m Book<'m>,
    width: u8,
    /// How many of a thousand parts are off.
    odd: usize,
    /// How many values may still be made.
    budget: usize,
    tape: Tape,
}

impl Maker<'_> {
    fn odd(&mut self) -> bool {
        self.rng.chance(self.odd)
    }

    /// Some block of a kind: any number where there is none.
    fn some_block(&mut self, kind: u8) -> u64 {
        let bytes = self.book.bytes;
        let all: Vec<u32> = (0..block::count(bytes))
            .filter(|&n| block::kind(bytes, n) == kind)
            .collect();
        match all.is_empty() {
            true => 0,
            false => u64::from(self.rng.pick(&all)),
        }
    }

    /// A number about the ends of a range of so many bytes.
    fn edge(&mut self, bytes: u32) -> u64 {
        let any = self.rng.number();
        let top = 1u64.checked_shl(8 * bytes).unwrap_or(0);
        self.rng.pick(&[
            0,
            1,
            any,
            any & top.wrapping_sub(1),
            top,
            top.wrapping_sub(1),
            top / 2,
            (top / 2).wrapping_sub(1),
        ])
    }

    fn signed(&mut self, width: u8, value: u64) {
        let shift = 64 - 8 * u32::from(width);
        self.tape.put(7, width, 0, ((value << shift) as i64 >> shift) as u64);
    }

    fn unsigned(&mut self, width: u8, value: u64) {
        let shift = 64 - 8 * u32::from(width);
        self.tape.put(8, width, 0, value << shift >> shift);
    }

    fn integer(&mut self, width: u8) {
        let width = if self.rng.chance(200) {
            self.rng.pick(&[1, 2, 4, 8])
        } else {
            width
        };
        let value = self.edge(u32::from(width));
        match self.rng.chance(500) {
            true => self.signed(width, value),
            false => self.unsigned(width, value),
        }
    }

    fn text(&mut self, most: usize) {
        let len = self.rng.below(most + 2);
        let text: String = (0..len).map(|_| self.rng.pick(&CHARS)).collect();
        self.put_text(&text);
    }

    /// A text, ended or not: no write looks at that.
    fn put_text(&mut self, text: &str) {
        let start = self.tape.records.len();
        self.tape.put_text(text);
        self.tape.records[start + 1] = self.rng.chance(500).into();
    }

    /// A leaf of any kind, by no type.
    fn any_leaf(&mut self) {
        match self.rng.below(9) {
            0 => self.tape.put(6, 0, 0, self.rng.number() & 1),
            1 => self.tape.put(9, 0, 0, self.rng.number() >> 32),
            2 => self.tape.put(10, 0, 0, self.rng.number()),
            3 => self.text(4),
            4 if self.some_block(3) != 0 => {
                let entry = self.some_block(3);
                self.tape.put(12, 0, entry, 0);
            }
            5 => self.tape.put(13, 0, 0, 0),
            6 => {
                self.tape.put(1, 0, 0, 0);
                self.tape.put(2, 0, 0, 0);
            }
            7 => {
                self.tape.put(3, 0, 0, 0);
                self.tape.put(5, 0, 0, 0);
            }
            _ => {
                let width = self.rng.pick(&[1, 2, 4, 8]);
                self.integer(width);
            }
        }
    }

    fn value(&mut self, t: u32, level: u32) {
        let none_left = self.budget == 0 || level > 70;
        self.budget = self.budget.saturating_sub(1);
        if none_left || self.odd() {
            return self.any_leaf();
        }
        let book = self.book.bytes;
        match determine(book, self.width, t) {
            Category::Struct | Category::Union | Category::FunctionBlock => self.map(t, level),
            Category::Array => {
                let counts = block::dimensions(book, t);
                match look_up(self.book, self.width, t) {
                    Ok(element) => self.dimension(&counts, element, level),
                    Err(_) => self.any_leaf(),
                }
            }
            Category::Enum => self.entry(t),
            Category::Pointer | Category::Reference | Category::Interface => {
                let value = self.rng.number() >> self.rng.pick(&[0, 32, 48, 56]);
                self.tape.put(8, 8, 0, value);
            }
            _ => self.plain(block::id(book, t), block::size(book, t)),
        }
    }

    fn plain(&mut self, id: u32, size: u32) {
        match id {
            16 | 17 => self.integer(1),
            2 | 18 => self.integer(2),
            3 | 19 => self.integer(4),
            20 | 21 => self.integer(8),
            4 => self.tape.put(9, 0, 0, self.rng.number() >> 32),
            5 => self.tape.put(10, 0, 0, self.rng.number()),
            33 => self.tape.put(6, 0, 0, self.rng.number() & 1),
            30 => self.text(size.min(40) as usize),
            31 => self.text(size.min(40) as usize / 2),
            _ => self.any_leaf(),
        }
    }

    fn entry(&mut self, t: u32) {
        let book = self.book.bytes;
        let count = block::entries(book, t);
        if count == 0 || self.odd() {
            return self.integer(2);
        }
        let e = t + 1 + block::fields(book, t) + self.rng.below(count as usize) as u32;
        match self.rng.chance(300) {
            true => {
                let name = String::from_utf8_lossy(block::name(book, e)).into_owned();
                self.put_text(&name);
            }
            false => self.tape.put(12, 0, e.into(), 0),
        }
    }

    fn map(&mut self, t: u32, level: u32) {
        let start = self.tape.records.len();
        self.tape.put(3, 0, 0, 0);
        let mut keys: Vec<u32> = (1..=block::fields(self.book.bytes, t)).map(|i| t + i).collect();
        if self.rng.chance(300) {
            // Some fields are left out, some come twice, in any order.
            keys = (0..self.rng.below(keys.len() + 2))
                .filter(|_| !keys.is_empty())
                .map(|_| self.rng.pick(&keys))
                .collect();
        }
        for &f in &keys {
            let off = self.odd();
            let key = if off { self.some_block(2) } else { f.into() };
            self.tape.put(4, 0, key, 0);
            match look_up(self.book, self.width, f) {
                Ok(of) => self.value(of, level + 1),
                Err(_) => self.any_leaf(),
            }
        }
        self.count(start, keys.len());
        self.tape.put(5, 0, 0, 0);
    }

    fn count(&mut self, start: usize, count: usize) {
        self.tape.records[start + 8..start + 16].copy_from_slice(&(count as u64).to_le_bytes());
    }

    fn dimension(&mut self, counts: &[u32], element: u32, level: u32) {
        let start = self.tape.records.len();
        self.tape.put(1, 0, 0, 0);
        let mut count = (counts[0] as usize).min(6);
        if self.odd() {
            count = count.wrapping_add(self.rng.pick(&[1, usize::MAX])).min(9);
        }
        for _ in 0..count {
            match counts.len() == 1 || self.odd() {
                true => self.value(element, level + 1),
                false => self.dimension(&counts[1..], element, level + 1),
            }
        }
        self.count(start, count);
        self.tape.put(2, 0, 0, 0);
    }
}

/// Puts numbers of type blocks into bytes 4 to 7 of some values: no write looks at which.
fn declare(rng: &mut Rng, book: &[u8], tape: &mut Tape) {
    let all: Vec<u32> = (0..block::count(book)).filter(|&n| block::kind(book, n) == 1).collect();
    for record in tape.records.chunks_exact_mut(24) {
        if !matches!(record[0], 2 | 4 | 5) && !all.is_empty() && rng.chance(400) {
            record[4..8].copy_from_slice(&rng.pick(&all).to_le_bytes());
        }
    }
}

/// A tape of the form, mostly one that a write into the root takes.
pub fn tape(rng: &mut Rng, made: &Made) -> Tape {
    let book = Book::new(&made.book);
    let t = resolve(&book, made.width, made.root, false).unwrap_or(made.root);
    let odd = rng.pick(&[0, 0, 0, 5, 20, 80]);
    let mut maker = Maker {
        rng,
        book: &book,
        width: made.width,
        odd,
        budget: 300,
        tape: Tape::default(),
    };
    maker.value(t, 1);
    let mut tape = maker.tape;
    declare(rng, &made.book, &mut tape);
    tape
}

/// Damages a tape: a byte, a record, a count, its length, its text.
pub fn spoil(rng: &mut Rng, tape: &mut Tape) {
    let records = tape.records.len() / 24;
    let at = 24 * rng.below(records);
    match rng.below(11) {
        10 => tape.records[at + 4] = rng.number() as u8,
        0 => tape.records.truncate(rng.below(tape.records.len() + 1)),
        1 => tape.records.extend_from_within(at..at + 24),
        2 => drop(tape.records.drain(at..at + 24)),
        3 => tape.records[at] = rng.pick(&[0, 1, 2, 3, 4, 5, 6, 7, 8, 9, 10, 11, 12, 13, 14, 255]),
        4 => tape.records[at + 1] = rng.pick(&[0, 1, 2, 3, 4, 5, 8, 9, 16, 255]),
        5 => {
            let k = at + 8 + rng.pick(&[0, 8]);
            tape.records[k] = tape.records[k].wrapping_add(rng.pick(&[1, 255, 128]));
        }
        6 => {
            let k = at + rng.below(24);
            tape.records[k] = rng.number() as u8;
        }
        7 => {
            let k = rng.below(tape.text.len());
            match rng.chance(500) {
                true => tape.text.truncate(k),
                false => tape.text.iter_mut().skip(k).take(1).for_each(|b| *b ^= 0x80),
            }
        }
        8 => {
            let other = 24 * rng.below(records);
            for k in 0..24 {
                tape.records.swap(at + k, other + k);
            }
        }
        _ => {
            let fill = rng.pick(&[0, 255, 128]);
            let k = at + rng.pick(&[8, 16]);
            tape.records[k..k + 8].fill(fill);
        }
    }
}
