//! The writer: a tape's values over the bytes of an image.

use crate::category::{Category, determine};
use crate::read::{integer, product};
use crate::resolve::{Field, fields, look_up, resolve};
use crate::{Book, Stop, block, text, time};

const MOST_LEVELS: u32 = 64;
const RECORD: usize = 24;

/// A record's parts; `spare` are its bytes 2 and 3, `declared` is the number in bytes 4 to 7.
#[derive(Clone, Copy)]
struct Record<'t> {
    kind: u8,
    width: u8,
    spare: &'t [u8],
    declared: u64,
    a: u64,
    b: u64,
}

fn records(tape: &[u8]) -> Vec<Record<'_>> {
    let number = |bytes: &[u8]| bytes.iter().rev().fold(0, |sum, &b| sum << 8 | u64::from(b));
    let parts = |r: &'_ [u8]| (number(&r[8..16]), number(&r[16..]));
    tape.chunks_exact(RECORD)
        .map(|r| Record {
            kind: r[0],
            width: r[1],
            spare: &r[2..4],
            declared: number(&r[4..8]),
            a: parts(r).0,
            b: parts(r).1,
        })
        .collect()
}

/// The text of a record of kind 11; none where it lies outside or isn't UTF-8.
fn text_of<'t>(r: &Record, text: &'t [u8]) -> Option<&'t str> {
    let (start, len) = (usize::try_from(r.a).ok()?, usize::try_from(r.b).ok()?);
    std::str::from_utf8(text.get(start..start.checked_add(len)?)?).ok()
}

/// Whether a tape has its form: whole records, exactly one balanced value, every part in its range.
pub fn well_formed(book: &[u8], tape: &[u8], text: &[u8]) -> bool {
    let mut form = Form {
        book,
        text,
        records: records(tape).into_iter(),
    };
    tape.len().is_multiple_of(RECORD) && form.value(1).is_some() && form.records.next().is_none()
}

/// What is left of a tape whose form is looked at; every step gives none where it is wrong.
struct Form<'f> {
    book: &'f [u8],
    text: &'f [u8],
    records: std::vec::IntoIter<Record<'f>>,
}

impl<'f> Form<'f> {
    fn next(&mut self) -> Option<Record<'f>> {
        let r = self.records.next()?;
        let width_fits = match r.kind {
            7 | 8 => matches!(r.width, 1 | 2 | 4 | 8),
            11 => r.width <= 1,
            _ => r.width == 0,
        };
        // A value declares a type, whichever; an end or a key none.
        let declared_fits = match r.kind {
            2 | 4 | 5 => r.declared == 0,
            _ => self.is_kind(r.declared, 1),
        };
        (width_fits && declared_fits && r.spare == [0; 2]).then_some(r)
    }

    fn is_kind(&self, block: u64, kind: u8) -> bool {
        u32::try_from(block).is_ok_and(|n| block::kind(self.book, n) == kind)
    }

    fn value(&mut self, level: u32) -> Option<()> {
        let r = self.next()?;
        let fine = level <= MOST_LEVELS
            && match r.kind {
                1 => r.b == 0 && self.array(r.a, level).is_some(),
                3 => r.b == 0 && self.map(r.a, level).is_some(),
                6 => r.a == 0 && r.b <= 1,
                7 => r.a == 0 && sign_extended(r.b, r.width),
                8 => r.a == 0 && (r.width == 8 || r.b >> (8 * r.width) == 0),
                9 => r.a == 0 && r.b >> 32 == 0,
                10 => r.a == 0,
                11 => text_of(&r, self.text).is_some(),
                12 => r.b == 0 && self.is_kind(r.a, 3),
                13 => r.a == 0 && r.b == 0,
                _ => false,
            };
        fine.then_some(())
    }

    /// The end record of that kind comes next; only then it is taken.
    fn ended(&mut self, kind: u8) -> Option<bool> {
        if self.records.as_slice().first()?.kind != kind {
            return Some(false);
        }
        let r = self.next()?;
        (r.a == 0 && r.b == 0).then_some(true)
    }

    fn array(&mut self, count: u64, level: u32) -> Option<()> {
        let mut met = 0;
        while !self.ended(2)? {
            self.value(level + 1)?;
            met += 1;
        }
        (met == count).then_some(())
    }

    fn map(&mut self, count: u64, level: u32) -> Option<()> {
        let mut met = 0;
        while !self.ended(5)? {
            let key = self.next()?;
            if key.kind != 4 || key.b != 0 || !self.is_kind(key.a, 2) {
                return None;
            }
            self.value(level + 1)?;
            met += 1;
        }
        (met == count).then_some(())
    }
}

/// Whether 64 bits are those of a signed number of so many bytes.
fn sign_extended(b: u64, width: u8) -> bool {
    let shift = 64 - 8 * u32::from(width);
    (b << shift) as i64 >> shift == b as i64
}

/// A tape of the right form over bytes.
pub struct Writer<'w> {
    book: &'w Book<'w>,
    width: u8,
    records: Vec<Record<'w>>,
    text: &'w [u8],
    at: usize,
}

const SIZE: Stop = Stop::Number(10);
const MISMATCH: Stop = Stop::Number(17);

/// A fault where something doesn't hold.
fn holds(fine: bool, fault: Stop) -> Result<(), Stop> {
    if fine { Ok(()) } else { Err(fault) }
}

fn like_a_struct(category: Category) -> bool {
    matches!(category, Category::Struct | Category::Union | Category::FunctionBlock)
}

impl<'w> Writer<'w> {
    /// For a tape that has its form.
    pub fn new(book: &'w Book<'w>, width: u8, tape: &'w [u8], text: &'w [u8]) -> Self {
        Self {
            book,
            width,
            records: records(tape),
            text,
            at: 0,
        }
    }

    /// The root's value over bytes that hold the image.
    pub fn root(&mut self, root: u32, out: &mut [u8]) -> Result<(), Stop> {
        let t = resolve(self.book, self.width, root, false)?;
        self.value(t, out)
    }

    fn next(&mut self) -> Record<'w> {
        self.at += 1;
        self.records[self.at - 1]
    }

    /// Takes the end record, if it comes next.
    fn ended(&mut self) -> bool {
        let end = matches!(self.records[self.at].kind, 2 | 5);
        self.at += usize::from(end);
        end
    }

    fn value(&mut self, t: u32, out: &mut [u8]) -> Result<(), Stop> {
        let r = self.next();
        let id = block::id(self.book.bytes, t);
        let counts = self.count_width(t).is_some();
        match r.kind {
            1 => self.array(t, out),
            3 => self.map(t, out),
            // A count of time takes integers only.
            6 | 9..=12 if counts => Err(MISMATCH),
            6 => bits(r.b, id == 33, 1, out),
            7 => self.integer(t, i128::from(r.b as i64), out),
            8 => self.integer(t, i128::from(r.b), out),
            9 => bits(r.b, id == 4, 4, out),
            10 => bits(r.b, id == 5, 8, out),
            11 => self.text(t, text_of(&r, self.text).unwrap_or_default(), out),
            12 => {
                holds(self.category(t) == Category::Enum, MISMATCH)?;
                self.entry(t, block::name(self.book.bytes, r.a as u32), out)
            }
            _ => Err(MISMATCH),
        }
    }

    /// The bytes of the count of time that the type is.
    fn count_width(&self, t: u32) -> Option<u8> {
        time::count_width(block::name(self.book.bytes, t), self.category(t))
    }

    fn category(&self, t: u32) -> Category {
        determine(self.book.bytes, self.width, t)
    }

    fn size_of(&self, t: u32) -> usize {
        block::size(self.book.bytes, t) as usize
    }

    fn integer(&self, t: u32, value: i128, out: &mut [u8]) -> Result<(), Stop> {
        let pointer = matches!(
            self.category(t),
            Category::Pointer | Category::Reference | Category::Interface
        );
        let (kind, width) = match (self.count_width(t), pointer, self.width) {
            (Some(width), ..) => (8, width),
            (None, true, 2 | 4 | 8) => (8, self.width),
            (None, true, _) => return Err(Stop::Number(13)),
            (None, false, _) => integer(block::id(self.book.bytes, t)).ok_or(MISMATCH)?,
        };
        let all = 1i128 << (8 * width);
        let range = if kind == 7 { -all / 2..all / 2 } else { 0..all };
        holds(range.contains(&value), Stop::Number(19))?;
        bits(value as u64, true, usize::from(width), out)
    }

    fn text(&self, t: u32, text: &str, out: &mut [u8]) -> Result<(), Stop> {
        let id = block::id(self.book.bytes, t);
        let (bytes, zeros) = match id {
            _ if self.category(t) == Category::Enum => return self.entry(t, text.as_bytes(), out),
            30 if block::flag(self.book.bytes, t, 5) => (text.as_bytes().to_vec(), 1),
            30 => (text::windows_1252_encode(text), 1),
            31 => (text::utf_16_encode(text), 2),
            _ => return Err(MISMATCH),
        };
        holds(bytes.len() + zeros <= out.len(), SIZE)?;
        out.fill(0);
        out[..bytes.len()].copy_from_slice(&bytes);
        Ok(())
    }

    fn entry(&self, t: u32, name: &[u8], out: &mut [u8]) -> Result<(), Stop> {
        let book = self.book.bytes;
        holds(self.size_of(t) == out.len(), SIZE)?;
        let first = t + 1 + block::fields(book, t);
        let mut entries = first..first + block::entries(book, t);
        let entry = entries
            .find(|&e| block::name(book, e) == name)
            .ok_or(Stop::Number(18))?;
        let value = block::value(book, entry);
        holds(value.len() == out.len(), SIZE)?;
        out.copy_from_slice(value);
        Ok(())
    }

    fn map(&mut self, t: u32, out: &mut [u8]) -> Result<(), Stop> {
        holds(like_a_struct(self.category(t)), MISMATCH)?;
        holds(self.size_of(t) == out.len(), SIZE)?;
        let all = fields(self.book, self.width, t)?;
        while !self.ended() {
            let name = block::name(self.book.bytes, self.next().a as u32);
            let named = |f: &&Field| block::name(self.book.bytes, f.field) == name;
            let f = *all.iter().find(named).ok_or(Stop::Number(18))?;
            let (start, size) = (f.offset as usize, f.size as usize);
            let part = out.get_mut(start..start + size).ok_or(SIZE)?;
            self.value(f.resolved, part)?;
        }
        Ok(())
    }

    fn array(&mut self, t: u32, out: &mut [u8]) -> Result<(), Stop> {
        holds(self.category(t) == Category::Array, MISMATCH)?;
        holds(self.size_of(t) == out.len(), SIZE)?;
        let element = look_up(self.book, self.width, t)?;
        let counts = block::dimensions(self.book.bytes, t);
        let whole = product(block::size(self.book.bytes, element), &counts);
        holds(whole == Some(out.len() as u128), SIZE)?;
        self.look_at_fields(&counts, element)?;
        self.elements(&counts, element, out)
    }

    /// In the last dimension the fields of an element that has some are looked up.
    fn look_at_fields(&self, counts: &[u32], element: u32) -> Result<(), Stop> {
        if counts.len() == 1 && like_a_struct(self.category(element)) {
            fields(self.book, self.width, element)?;
        }
        Ok(())
    }

    /// The elements of a dimension whose array record was taken.
    fn elements(&mut self, counts: &[u32], element: u32, out: &mut [u8]) -> Result<(), Stop> {
        let count = counts[0] as usize;
        let stride = out.len().checked_div(count).unwrap_or(0);
        let mut i = 0;
        while !self.ended() {
            holds(i < count, MISMATCH)?;
            let part = &mut out[i * stride..(i + 1) * stride];
            if counts.len() == 1 {
                self.value(element, part)?;
            } else {
                self.look_at_fields(&counts[1..], element)?;
                holds(self.next().kind == 1, MISMATCH)?;
                self.elements(&counts[1..], element, part)?;
            }
            i += 1;
        }
        holds(i == count, MISMATCH)
    }
}

/// The low bytes of a value, where the type takes it and there are so many of them.
fn bits(value: u64, goes: bool, width: usize, out: &mut [u8]) -> Result<(), Stop> {
    holds(goes, MISMATCH)?;
    holds(out.len() == width, SIZE)?;
    out.copy_from_slice(&value.to_le_bytes()[..width]);
    Ok(())
}
