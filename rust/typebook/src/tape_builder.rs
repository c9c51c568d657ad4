//! Tapes made by hand, record by record; what can't be a tape is an error at once.

use crate::TypeBook;
use crate::book::names_of;
use crate::tape::{ENDED, RECORD, Tape, record};
use std::collections::HashMap;
use std::error::Error;
use std::fmt;

const MOST_LEVELS: usize = 64;

/// What can't follow what was put on a tape so far.
#[non_exhaustive]
#[derive(Debug, Clone, PartialEq, Eq)]
pub enum BuildError {
    /// A value stands where a map wants a key or its end, or after the whole value.
    ValueNotDue,
    /// A key stands where no map is open, or where a value is due.
    KeyNotDue,
    /// An end stands where nothing is open, or where a key's value is due.
    EndNotDue,
    /// The tape isn't a whole value yet.
    Unfinished,
    /// A value on level 65.
    TooDeep,
    /// No field of the book has this name.
    UnknownField(String),
    /// No enumeration entry of the book has this name.
    UnknownEntry(String),
}

impl fmt::Display for BuildError {
    fn fmt(&self, f: &mut fmt::Formatter<'_>) -> fmt::Result {
        match self {
            BuildError::ValueNotDue => f.write_str("a value where none is due: a map wants a key or its end"),
            BuildError::KeyNotDue => f.write_str("a key where none is due: it stands in a map, before a value"),
            BuildError::EndNotDue => f.write_str("an end where none is due"),
            BuildError::Unfinished => f.write_str("the tape isn't a whole value yet"),
            BuildError::TooDeep => f.write_str("values lie in one another more than 64 deep"),
            BuildError::UnknownField(name) => write!(f, "no type of the book has a field {name:?}"),
            BuildError::UnknownEntry(name) => write!(f, "no enumeration of the book has an entry {name:?}"),
        }
    }
}

impl Error for BuildError {}

/// What is open: where its record stands, how many elements or keys it has, and whether it is a map.
struct Open {
    at: usize,
    count: u64,
    map: bool,
}

/// Makes a [`Tape`] for [`TypeRef::write`](crate::TypeRef::write), in the order of its records. Keys and entries go by name. Every tape
/// that it finishes has document 01's form, so that a write of it is never refused with 16.
///
/// ```
/// use typebook::{BuildError, TapeBuilder, TypeBook};
/// # let folder = concat!(env!("CARGO_MANIFEST_DIR"), "/../../examples/glue/");
/// # let file = |name: &str| std::fs::read(format!("{folder}{name}"));
/// let book = TypeBook::new(file("book.bin")?, 8)?;
/// let mut tape = TapeBuilder::new(&book);
/// tape.map()?
///     .key("Glue")?.entry("HOTMELT")?
///     .key("Pattern")?.array()?
///         .array()?.int(1)?.int(2)?.int(3)?.end()?
///         .array()?.int(4)?.int(5)?.int(6)?.end()?
///     .end()?
///     .end()?;
/// let image = file("mem.bin")?;
/// let new = book.root(0)?.write(&image, &tape.finish()?)?;
/// assert_ne!(new, image);
///
/// // Wrong nesting is an error at once.
/// assert_eq!(TapeBuilder::new(&book).map()?.int(1).err(), Some(BuildError::ValueNotDue));
/// assert_eq!(TapeBuilder::new(&book).map()?.key("Flaw").err(), Some(BuildError::UnknownField("Flaw".into())));
/// # Ok::<(), Box<dyn std::error::Error>>(())
/// ```
pub struct TapeBuilder<'b> {
    tape: Tape<'b>,
    open: Vec<Open>,
    /// A key's value is due.
    keyed: bool,
    fields: HashMap<&'b str, u32>,
    entries: HashMap<&'b str, u32>,
}

impl<'b> TapeBuilder<'b> {
    /// An empty tape for types of this book.
    pub fn new(book: &'b TypeBook) -> Self {
        let bytes = book.bytes();
        Self {
            tape: Tape::new(book.checked.shared(), false, Vec::new(), Vec::new()),
            open: Vec::new(),
            keyed: false,
            fields: names_of(bytes, 2),
            entries: names_of(bytes, 3),
        }
    }

    /// A value is due here: at the start, in an array, after a key.
    fn value_due(&mut self) -> Result<(), BuildError> {
        if self.open.len() == MOST_LEVELS {
            return Err(BuildError::TooDeep);
        }
        match self.open.last_mut() {
            None if self.tape.is_empty() => {}
            Some(open) if !open.map => open.count += 1,
            Some(_) if self.keyed => {}
            _ => return Err(BuildError::ValueNotDue),
        }
        self.keyed = false;
        Ok(())
    }

    fn put(&mut self, kind: u8, width: u8, a: u64, b: u64) -> &mut Self {
        self.tape.records.extend(record(kind, width, a, b));
        self
    }

    fn leaf(&mut self, kind: u8, width: u8, a: u64, b: u64) -> Result<&mut Self, BuildError> {
        self.value_due()?;
        Ok(self.put(kind, width, a, b))
    }

    fn container(&mut self, map: bool) -> Result<&mut Self, BuildError> {
        self.value_due()?;
        let at = self.tape.records.len();
        self.open.push(Open { at, count: 0, map });
        Ok(self.put(if map { 3 } else { 1 }, 0, 0, 0))
    }

    /// A struct, union or function block: keys with their values follow, then [`end`](Self::end).
    pub fn map(&mut self) -> Result<&mut Self, BuildError> {
        self.container(true)
    }

    /// One dimension of an array: its elements follow, then [`end`](Self::end).
    pub fn array(&mut self) -> Result<&mut Self, BuildError> {
        self.container(false)
    }

    /// The end of the map or array that was opened last.
    pub fn end(&mut self) -> Result<&mut Self, BuildError> {
        if self.keyed {
            return Err(BuildError::EndNotDue);
        }
        let Open { at, count, map } = self.open.pop().ok_or(BuildError::EndNotDue)?;
        self.tape.records[at + 8..at + 16].copy_from_slice(&count.to_le_bytes());
        Ok(self.put(if map { 5 } else { 2 }, 0, 0, 0))
    }

    /// The name of the field whose value follows.
    pub fn key(&mut self, name: &str) -> Result<&mut Self, BuildError> {
        let open = self.open.last_mut().filter(|open| open.map && !self.keyed);
        let open = open.ok_or(BuildError::KeyNotDue)?;
        let block = self
            .fields
            .get(name)
            .ok_or_else(|| BuildError::UnknownField(name.into()))?;
        open.count += 1;
        self.keyed = true;
        let block = u64::from(*block);
        Ok(self.put(4, 0, block, 0))
    }

    /// A signed integer, for an integer of any width that has this value.
    pub fn int(&mut self, value: i64) -> Result<&mut Self, BuildError> {
        self.leaf(7, 8, 0, value as u64)
    }

    /// An unsigned integer, for an integer of any width that has this value, or a pointer.
    pub fn uint(&mut self, value: u64) -> Result<&mut Self, BuildError> {
        self.leaf(8, 8, 0, value)
    }

    /// A real of 4 bytes.
    pub fn real32(&mut self, value: f32) -> Result<&mut Self, BuildError> {
        self.leaf(9, 0, 0, value.to_bits().into())
    }

    /// A real of 8 bytes.
    pub fn real64(&mut self, value: f64) -> Result<&mut Self, BuildError> {
        self.leaf(10, 0, 0, value.to_bits())
    }

    /// A bool.
    pub fn bool(&mut self, value: bool) -> Result<&mut Self, BuildError> {
        self.leaf(6, 0, 0, value.into())
    }

    /// A text, for a STRING or a WSTRING, or an enumeration entry's name.
    pub fn text(&mut self, text: &str) -> Result<&mut Self, BuildError> {
        self.value_due()?;
        let start = self.tape.text.len() as u64;
        self.tape.text.extend_from_slice(text.as_bytes());
        Ok(self.put(11, ENDED, start, text.len() as u64))
    }

    /// An enumeration's entry, by its name.
    pub fn entry(&mut self, name: &str) -> Result<&mut Self, BuildError> {
        let block = self.entries.get(name).copied();
        let block = block.ok_or_else(|| BuildError::UnknownEntry(name.into()))?;
        self.leaf(12, 0, block.into(), 0)
    }

    /// The tape, if it is one whole value.
    pub fn finish(self) -> Result<Tape<'b>, BuildError> {
        match self.open.is_empty() && !self.tape.is_empty() {
            true => Ok(self.tape),
            false => Err(BuildError::Unfinished),
        }
    }
}

impl fmt::Debug for TapeBuilder<'_> {
    fn fmt(&self, f: &mut fmt::Formatter<'_>) -> fmt::Result {
        f.debug_struct("TapeBuilder")
            .field("records", &(self.tape.records.len() / RECORD))
            .field("open", &self.open.len())
            .finish_non_exhaustive()
    }
}

#[cfg(test)]
mod tests {
    use super::*;
    use crate::Refusal;
    use model::make::{Type, book, deep, int};

    #[test]
    fn what_can_not_follow() {
        let bytes = model::make::example();
        let book = TypeBook::new(bytes, 8).expect("valid");
        let new = || TapeBuilder::new(&book);
        let told = |mut b: TapeBuilder, f: fn(&mut TapeBuilder) -> Result<(), BuildError>| f(&mut b).unwrap_err();
        assert_eq!(told(new(), |b| b.key("A").map(drop)), BuildError::KeyNotDue);
        assert_eq!(told(new(), |b| b.end().map(drop)), BuildError::EndNotDue);
        assert_eq!(told(new(), |b| b.int(1)?.int(2).map(drop)), BuildError::ValueNotDue);
        assert_eq!(told(new(), |b| b.array()?.key("A").map(drop)), BuildError::KeyNotDue);
        assert_eq!(
            told(new(), |b| b.map()?.key("A")?.key("B").map(drop)),
            BuildError::KeyNotDue
        );
        assert_eq!(
            told(new(), |b| b.map()?.key("A")?.end().map(drop)),
            BuildError::EndNotDue
        );
        assert_eq!(
            told(new(), |b| b.map()?.end()?.map().map(drop)),
            BuildError::ValueNotDue
        );
        assert_eq!(
            told(new(), |b| b.map()?.entry("A").map(drop)),
            BuildError::UnknownEntry("A".into())
        );
        assert_eq!(new().finish().map(drop), Err(BuildError::Unfinished));
        let mut open = new();
        open.array().expect("due");
        assert_eq!(open.finish().map(drop), Err(BuildError::Unfinished));
    }

    #[test]
    fn level_64_is_the_last() {
        for (level, fine) in [(64, true), (65, false)] {
            let book = TypeBook::new(book(&deep(level)), 8).expect("valid");
            let mut tape = TapeBuilder::new(&book);
            for _ in 1..level {
                tape.map().expect("due").key("x").expect("a field");
            }
            assert_eq!(tape.int(7).err(), (!fine).then_some(BuildError::TooDeep));
            if fine {
                for _ in 1..level {
                    tape.end().expect("open");
                }
                let new = book
                    .root(0)
                    .expect("a type")
                    .write(&[1, 2], &tape.finish().expect("whole"));
                assert_eq!(new, Ok(vec![7, 0]));
            }
        }
    }

    #[test]
    fn keys_of_another_type_go_by_name() {
        let other = Type::new("O").size(2).field("x", "INT", 0, 2).entry("x", &[1]);
        let own = Type::new("S").size(4).field("y", "INT", 0, 2).field("x", "INT", 2, 2);
        let book = TypeBook::new(book(&[own, other, int()]), 8).expect("valid");
        let mut tape = TapeBuilder::new(&book);
        let mut fill = || {
            tape.map()?.key("x")?.uint(5)?.key("x")?.int(6)?.end()?;
            Ok::<(), BuildError>(())
        };
        fill().expect("due");
        let root = book.root(0).expect("a type");
        let tape = tape.finish().expect("whole");
        assert_eq!(root.write(&[1, 1, 1, 1], &tape), Ok(vec![1, 1, 6, 0]));
        assert_eq!(root.write(&[1, 1, 1], &tape), Err(Refusal::Size));
    }
}
