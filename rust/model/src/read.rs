//! The reader: the values of a memory as records and texts.

use crate::category::{Category, determine};
use crate::resolve::{Field, fields, look_up, resolve};
use crate::{Book, Stop, block, text, time};

const MOST_LEVELS: u32 = 64;
const RECORD: usize = 24;

/// A tape and a text buffer that are being filled.
pub struct Sink<'t> {
    tape: &'t mut [u8],
    text: &'t mut [u8],
    /// Bytes of the tape that are filled.
    pub filled: usize,
    /// Bytes of text.
    pub texts: usize,
}

impl<'t> Sink<'t> {
    /// Empty buffers.
    pub fn new(tape: &'t mut [u8], text: &'t mut [u8]) -> Self {
        Self {
            tape,
            text,
            filled: 0,
            texts: 0,
        }
    }

    /// A record; `declared` is the block of a value's type as it was named, of an end or a key 0.
    fn record(&mut self, kind: u8, width: u8, declared: u32, a: u64, b: u64) -> Result<(), Stop> {
        let place = self
            .tape
            .get_mut(self.filled..self.filled + RECORD)
            .ok_or(Stop::Number(15))?;
        place.fill(0);
        place[0] = kind;
        place[1] = width;
        place[4..8].copy_from_slice(&declared.to_le_bytes());
        place[8..16].copy_from_slice(&a.to_le_bytes());
        place[16..].copy_from_slice(&b.to_le_bytes());
        self.filled += RECORD;
        Ok(())
    }

    /// A text, and byte 1 of its record: whether its bytes have a terminator.
    fn text(&mut self, declared: u32, text: &str, ended: bool) -> Result<(), Stop> {
        let (start, len) = (self.texts, text.len());
        let place = self.text.get_mut(start..start + len).ok_or(Stop::Number(15))?;
        place.copy_from_slice(text.as_bytes());
        self.texts += len;
        self.record(11, ended.into(), declared, start as u64, len as u64)
    }
}

/// A type: its block as it was named, and the one that its aliases come to.
#[derive(Clone, Copy)]
struct Type {
    named: u32,
    is: u32,
}

/// A book, a pointer width and the buffers.
pub struct Reader<'r, 't> {
    /// The book.
    pub book: &'r Book<'r>,
    /// The pointer width.
    pub width: u8,
    /// What is filled.
    pub sink: Sink<'t>,
}

impl Reader<'_, '_> {
    /// The root's value.
    pub fn root(&mut self, root: u32, memory: &[u8]) -> Result<(), Stop> {
        let t = resolve(self.book, self.width, root, false)?;
        self.value(Type { named: root, is: t }, memory, 1, None)
    }

    /// A value; `known` are its type's fields where an array has looked them up.
    fn value(&mut self, of: Type, bytes: &[u8], level: u32, known: Option<&[Field]>) -> Result<(), Stop> {
        if level > MOST_LEVELS {
            return Err(Stop::Number(14));
        }
        let (book, t, named) = (self.book.bytes, of.is, of.named);
        let category = determine(book, self.width, t);
        if let Some(width) = time::count_width(block::name(book, t), category) {
            return self.unsigned(named, width, bytes);
        }
        match category {
            Category::Primitive | Category::SubRange | Category::Bitset => self.number(of, bytes),
            Category::String => {
                self.same_size(t, bytes)?;
                let (text, ended) = match (block::id(book, t), block::flag(book, t, 5)) {
                    (31, _) => (text::wstring(bytes), text::wstring_ended(bytes)),
                    (_, true) => (text::marked_string(bytes), text::string_ended(bytes)),
                    (_, false) => (text::string(bytes), text::string_ended(bytes)),
                };
                self.sink.text(named, &text, ended)
            }
            Category::Enum => self.entry(of, bytes),
            Category::Pointer | Category::Reference | Category::Interface => self.pointer(named, bytes),
            Category::Struct | Category::Union | Category::FunctionBlock => self.map(of, bytes, level, known),
            Category::Array => self.array(of, bytes, level),
            Category::None => self.sink.record(13, 0, named, 0, 0),
            Category::Alias | Category::Program | Category::Function => Err(Stop::Number(11)),
        }
    }

    fn same_size(&self, t: u32, bytes: &[u8]) -> Result<(), Stop> {
        match block::size(self.book.bytes, t) as usize == bytes.len() {
            true => Ok(()),
            false => Err(Stop::Number(10)),
        }
    }

    fn number(&mut self, of: Type, bytes: &[u8]) -> Result<(), Stop> {
        let id = block::id(self.book.bytes, of.is);
        let (kind, width) = match id {
            33 => (6, 1),
            4 => (9, 4),
            5 => (10, 8),
            _ => integer(id).ok_or(Stop::Number(11))?,
        };
        if bytes.len() != usize::from(width) {
            return Err(Stop::Number(10));
        }
        let value = low_first(bytes);
        match kind {
            6 => self.sink.record(6, 0, of.named, 0, u64::from(value != 0)),
            7 => {
                let shift = 64 - 8 * u32::from(width);
                let signed = (value << shift) as i64 >> shift;
                self.sink.record(7, width, of.named, 0, signed as u64)
            }
            8 => self.sink.record(8, width, of.named, 0, value),
            _ => self.sink.record(kind, 0, of.named, 0, value),
        }
    }

    fn pointer(&mut self, named: u32, bytes: &[u8]) -> Result<(), Stop> {
        if !matches!(self.width, 2 | 4 | 8) {
            return Err(Stop::Number(13));
        }
        self.unsigned(named, self.width, bytes)
    }

    fn unsigned(&mut self, named: u32, width: u8, bytes: &[u8]) -> Result<(), Stop> {
        if bytes.len() != usize::from(width) {
            return Err(Stop::Number(10));
        }
        self.sink.record(8, width, named, 0, low_first(bytes))
    }

    fn entry(&mut self, of: Type, bytes: &[u8]) -> Result<(), Stop> {
        let t = of.is;
        self.same_size(t, bytes)?;
        let book = self.book.bytes;
        let first = t + 1 + block::fields(book, t);
        let mut entries = first..first + block::entries(book, t);
        if let Some(e) = entries.find(|&e| block::value(book, e) == bytes) {
            return self.sink.record(12, 0, of.named, u64::from(e), 0);
        }
        match integer(block::id(book, t)) {
            None => Err(Stop::Number(11)),
            Some((_, width)) if usize::from(width) != bytes.len() => Err(Stop::Number(10)),
            Some(_) => Err(Stop::Number(12)),
        }
    }

    fn map(&mut self, of: Type, bytes: &[u8], level: u32, known: Option<&[Field]>) -> Result<(), Stop> {
        let t = of.is;
        self.same_size(t, bytes)?;
        let looked_up;
        let all = match known {
            Some(known) => known,
            None => {
                looked_up = fields(self.book, self.width, t)?;
                &looked_up
            }
        };
        self.sink.record(3, 0, of.named, all.len() as u64, 0)?;
        for f in all {
            self.sink.record(4, 0, 0, u64::from(f.field), 0)?;
            let (start, size) = (f.offset as usize, f.size as usize);
            let part = bytes.get(start..start + size).ok_or(Stop::Number(10))?;
            let named = self.named(f.field)?;
            let inner = Type { named, is: f.resolved };
            self.value(inner, part, level + 1, None)?;
        }
        self.sink.record(5, 0, 0, 0, 0)
    }

    /// The block that the type name of a field or an array finds, before aliases.
    fn named(&self, b: u32) -> Result<u32, Stop> {
        let name = block::type_name(self.book.bytes, b);
        self.book.find(name).ok_or(Stop::Missing(b))
    }

    fn array(&mut self, of: Type, bytes: &[u8], level: u32) -> Result<(), Stop> {
        let t = of.is;
        self.same_size(t, bytes)?;
        let element = look_up(self.book, self.width, t)?;
        let counts = block::dimensions(self.book.bytes, t);
        if product(block::size(self.book.bytes, element), &counts) != Some(bytes.len() as u128) {
            return Err(Stop::Number(10));
        }
        let element = Type {
            named: self.named(t)?,
            is: element,
        };
        // The first dimension is the array as it was named.
        self.dimension(of, &counts, element, bytes, level)
    }

    fn dimension(&mut self, of: Type, counts: &[u32], element: Type, bytes: &[u8], level: u32) -> Result<(), Stop> {
        let last = counts.len() == 1;
        let category = determine(self.book.bytes, self.width, element.is);
        let like_a_struct = matches!(category, Category::Struct | Category::Union | Category::FunctionBlock);
        let known = match last && like_a_struct {
            true => Some(fields(self.book, self.width, element.is)?),
            false => None,
        };
        self.sink.record(1, 0, of.named, u64::from(counts[0]), 0)?;
        let count = counts[0] as usize;
        // The whole is count times the stride, exactly.
        let stride = bytes.len().checked_div(count).unwrap_or(0);
        for i in 0..count {
            let part = &bytes[i * stride..(i + 1) * stride];
            if last {
                self.value(element, part, level + 1, known.as_deref())?;
            } else if level + 1 > MOST_LEVELS {
                return Err(Stop::Number(14));
            } else {
                // A further one has no name but the resolved array's.
                let further = Type {
                    named: of.is,
                    is: of.is,
                };
                self.dimension(further, &counts[1..], element, part, level + 1)?;
            }
        }
        self.sink.record(2, 0, 0, 0, 0)
    }
}

/// The kind and width of an integer's id.
pub(crate) fn integer(id: u32) -> Option<(u8, u8)> {
    Some(match id {
        16 => (7, 1),
        2 => (7, 2),
        3 => (7, 4),
        20 => (7, 8),
        17 => (8, 1),
        18 => (8, 2),
        19 => (8, 4),
        21 => (8, 8),
        _ => return None,
    })
}

fn low_first(bytes: &[u8]) -> u64 {
    bytes.iter().rev().fold(0, |sum, &b| sum << 8 | u64::from(b))
}

/// Element size times all counts, exactly; none where it passes 128 bits, and so any length.
pub(crate) fn product(size: u32, counts: &[u32]) -> Option<u128> {
    if counts.contains(&0) {
        return Some(0);
    }
    counts
        .iter()
        .try_fold(u128::from(size), |sum, &c| sum.checked_mul(u128::from(c)))
}
