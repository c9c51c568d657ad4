//! What a read gives and a write takes: records, each with its value and, for keys and enumeration entries, its name.

use crate::book::{TypeBook, name_in};
use crate::bytes::Bytes;
use crate::category::Category;
use crate::ffi::total;
use crate::moment::Moment;
use std::collections::BTreeSet;
use std::fmt;

pub(crate) const RECORD: usize = 24;

/// Byte 1 of a text that is put on a tape by hand: a write gives it its zero.
pub(crate) const ENDED: u8 = 1;

/// What one record says.
#[derive(Debug, Clone, Copy, PartialEq)]
pub enum Value<'t> {
    /// An array of so many elements; they follow, then [`End`](Value::End).
    Array(u64),
    /// A struct, union or function block of so many fields; for each follow its key and its value, then [`End`](Value::End).
    Map(u64),
    /// The end of an array or a map.
    End,
    /// The name of the field whose value follows.
    Key(&'t str),
    /// A bool.
    Bool(bool),
    /// A signed integer of 8, 16, 32 or 64 bits.
    Int {
        /// Its width in bits.
        bits: u32,
        /// Its value.
        value: i64,
    },
    /// An unsigned integer of 8, 16, 32 or 64 bits, or a pointer.
    Nat {
        /// Its width in bits.
        bits: u32,
        /// Its value.
        value: u64,
    },
    /// A real of 4 bytes, by its bits: a NaN keeps them.
    Real32(u32),
    /// A real of 8 bytes, by its bits.
    Real64(u64),
    /// A text.
    Text {
        /// The text itself.
        text: &'t str,
        /// No terminator was found in its bytes: the controller may have clipped it. Never so of a text that was put on a tape by hand.
        clipped: bool,
    },
    /// The name of an enumeration's entry.
    Enum(&'t str),
    /// The value of a type that holds nothing readable.
    Unit,
}

impl Value<'_> {
    /// A real as a number; none for other values.
    ///
    /// ```
    /// use typebook::Value;
    /// assert_eq!(Value::Real32(0x3FC0_0000).as_f64(), Some(1.5));
    /// assert_eq!(Value::Unit.as_f64(), None);
    /// ```
    pub fn as_f64(&self) -> Option<f64> {
        match *self {
            Value::Real32(bits) => Some(f64::from(f32::from_bits(bits))),
            Value::Real64(bits) => Some(f64::from_bits(bits)),
            _ => None,
        }
    }
}

/// A value without its name: numbers as they are, a text in quotes, with a word after it where it may have been clipped.
impl fmt::Display for Value<'_> {
    fn fmt(&self, f: &mut fmt::Formatter<'_>) -> fmt::Result {
        match *self {
            Value::Array(count) => write!(f, "array of {count}"),
            Value::Map(count) => write!(f, "{count} fields"),
            Value::End => f.write_str("end"),
            Value::Key(name) => f.write_str(name),
            Value::Bool(value) => write!(f, "{value}"),
            Value::Int { value, .. } => write!(f, "{value}"),
            Value::Nat { value, .. } => write!(f, "{value}"),
            Value::Real32(bits) => write!(f, "{}", f32::from_bits(bits)),
            Value::Real64(bits) => write!(f, "{}", f64::from_bits(bits)),
            Value::Text { text, clipped: false } => write!(f, "{text:?}"),
            Value::Text { text, clipped: true } => write!(f, "{text:?} (clipped)"),
            Value::Enum(name) => f.write_str(name),
            Value::Unit => f.write_str("-"),
        }
    }
}

/// One record of a tape.
#[derive(Debug, Clone, Copy, PartialEq)]
pub struct Record<'t> {
    /// How deep it stands: 1 for the root, one more for each array or map around it. A key stands as deep as its value.
    pub level: u32,
    /// The field's or entry's block, of a key or an enumeration's entry.
    pub block: Option<u32>,
    /// The block of its type as it was named, before aliases, of a value that was read; none of a key and an end.
    pub declared_block: Option<u32>,
    /// What it says.
    pub value: Value<'t>,
    book: &'t [u8],
}

impl<'t> Record<'t> {
    /// The name of the declared type: what a field's or an array's type name finds, before aliases, so that a screen can show
    /// "Celsius" where the memory holds a REAL. A further dimension has the name of its array. None of a key and an end, and of what was
    /// put on a tape by hand.
    ///
    /// ```
    /// use typebook::{TypeBook, Value};
    /// # let folder = concat!(env!("CARGO_MANIFEST_DIR"), "/../../examples/glue/");
    /// # let file = |name: &str| std::fs::read(format!("{folder}{name}"));
    /// let book = TypeBook::new(file("book.bin")?, 8)?;
    /// let tape = book.root(0)?.read(&file("mem.bin")?)?;
    /// let target = tape.iter().find(|r| matches!(r.value, Value::Real32(_))).expect("there is one");
    /// assert_eq!(target.declared(), Some("Celsius"));
    /// # Ok::<(), Box<dyn std::error::Error>>(())
    /// ```
    pub fn declared(&self) -> Option<&'t str> {
        Some(name_in(self.book, self.declared_block?, total::name))
    }

    /// The name of a key or of an enumeration's entry, as [`value`](Record::value) has it, but lent from the book: it lives as long as the
    /// book, so it can be kept where the tape is gone. None of other records, and by a book whose block has another name.
    ///
    /// ```
    /// use std::sync::Arc;
    /// use typebook::{TypeBook, TypeBuilder};
    ///
    /// let types = TypeBook::builder()
    ///     .with(TypeBuilder::new("S").size(2).field("Temp", "INT", 0, 2))
    ///     .with(TypeBuilder::new("INT").id(2).size(2));
    /// let book = Arc::new(types.build(8)?);
    /// let tape = book.root(0)?.read(&[5, 0])?.into_owned();
    /// let (keys, declared): (Vec<&str>, Vec<&str>) = (
    ///     tape.iter().filter_map(|r| r.name_in(&book)).collect(),
    ///     tape.iter().filter_map(|r| r.declared_in(&book)).collect(),
    /// );
    /// drop(tape);
    /// assert_eq!(keys, ["Temp"]);
    /// assert_eq!(declared, ["S", "INT"]);
    /// # Ok::<(), Box<dyn std::error::Error>>(())
    /// ```
    pub fn name_in<'n>(&self, book: &'n TypeBook<'_>) -> Option<&'n str> {
        let name = book.name(self.block?);
        match self.value {
            Value::Key(said) | Value::Enum(said) if said == name => Some(name),
            _ => None,
        }
    }

    /// The declared type's name, as [`declared`](Record::declared) has it, but lent from the book, as with [`name_in`](Record::name_in).
    pub fn declared_in<'n>(&self, book: &'n TypeBook<'_>) -> Option<&'n str> {
        let name = book.name(self.declared_block?);
        (self.declared()? == name).then_some(name)
    }

    /// The moment or the time of day that the value counts; none of a value whose type counts none.
    ///
    /// ```
    /// use typebook::{TypeBook, TypeBuilder, type_id};
    ///
    /// let book = TypeBook::builder()
    ///     .with(TypeBuilder::new("S").size(4).field("Made", "DAY", 0, 4))
    ///     .with(TypeBuilder::new("DAY").type_name("DATE").id(type_id::UINT32).size(4))
    ///     .with(TypeBuilder::new("DATE").id(type_id::UINT32).size(4))
    ///     .build(8)?;
    /// let tape = book.root(0)?.read(&[0x81, 0x51, 0x01, 0x00])?;
    /// let moments: Vec<String> = tape.iter().filter_map(|r| r.moment()).map(|m| m.to_string()).collect();
    /// assert_eq!(moments, ["1970-01-02T00:00:01"]);
    /// # Ok::<(), Box<dyn std::error::Error>>(())
    /// ```
    pub fn moment(&self) -> Option<Moment> {
        match self.value {
            Value::Nat { value, .. } => Moment::of(self.counted_name()?, value).ok(),
            _ => None,
        }
    }

    /// The name of the type that the declared one comes to, if its values can count time.
    fn counted_name(&self) -> Option<&'t str> {
        let mut block = self.declared_block?;
        // What was read has fewer than 32 aliases in a row.
        for _ in 0..32 {
            let mut values = [0; 1];
            // None of the categories here is told by the pointer width.
            total::determine(self.book, 8, block, &mut values);
            match Category::from_number(values[0])? {
                Category::Alias => {
                    let name = name_in(self.book, block, total::type_name);
                    block = total::find(self.book, name.as_bytes())?;
                }
                Category::Pointer | Category::Reference | Category::Enum | Category::SubRange => return None,
                _ => return Some(name_in(self.book, block, total::name)),
            }
        }
        None
    }
}

/// The bytes of a record.
pub(crate) fn record(kind: u8, width: u8, a: u64, b: u64) -> [u8; RECORD] {
    let mut bytes = [0; RECORD];
    bytes[0] = kind;
    bytes[1] = width;
    bytes[8..16].copy_from_slice(&a.to_le_bytes());
    bytes[16..].copy_from_slice(&b.to_le_bytes());
    bytes
}

/// The records of a read or of a [`TapeBuilder`](crate::TapeBuilder), and their texts.
#[derive(Clone)]
pub struct Tape<'b> {
    pub(crate) book: Bytes<'b>,
    pub(crate) records: Vec<u8>,
    pub(crate) text: Vec<u8>,
    /// Whether the records say their declared types: those of a read do, those that were put on a tape by hand don't.
    pub(crate) declares: bool,
    /// Where the records stand that were changed since the read.
    pub(crate) edited: BTreeSet<usize>,
}

impl<'b> Tape<'b> {
    pub(crate) fn new(book: Bytes<'b>, declares: bool, records: Vec<u8>, text: Vec<u8>) -> Self {
        Self {
            book,
            records,
            text,
            declares,
            edited: BTreeSet::new(),
        }
    }

    /// The same tape, needing nobody who lent the book's bytes, so that it can be kept beside an `Arc` of the book, or sent to another
    /// thread. Nothing is copied where the book owns its bytes; lent bytes are.
    ///
    /// ```
    /// use std::sync::Arc;
    /// use typebook::{Tape, TypeBook, TypeBuilder, Value};
    ///
    /// struct Page {
    ///     book: Arc<TypeBook<'static>>,
    ///     values: Tape<'static>,
    /// }
    ///
    /// let book = Arc::new(TypeBook::builder().with(TypeBuilder::new("INT").id(2).size(2)).build(8)?);
    /// let values = book.root(0)?.read(&[5, 0])?.into_owned();
    /// let page = Page { book, values };
    /// assert_eq!(page.values.iter().next().map(|r| r.value), Some(Value::Int { bits: 16, value: 5 }));
    /// assert_eq!(page.book.root(0)?.write(&[0, 0], &page.values)?, [5, 0]);
    /// # Ok::<(), Box<dyn std::error::Error>>(())
    /// ```
    pub fn into_owned(self) -> Tape<'static> {
        Tape {
            book: self.book.into_kept(),
            records: self.records,
            text: self.text,
            declares: self.declares,
            edited: self.edited,
        }
    }

    /// The number of records.
    pub fn len(&self) -> usize {
        self.records.len() / RECORD
    }

    /// No read and no builder gives an empty tape.
    pub fn is_empty(&self) -> bool {
        self.records.is_empty()
    }

    /// Document 01's tape: 24 bytes a record.
    pub fn bytes(&self) -> &[u8] {
        &self.records
    }

    /// Document 01's text buffer: the texts one after the other, UTF-8.
    pub fn text(&self) -> &[u8] {
        &self.text
    }

    /// The records in order.
    ///
    /// ```
    /// # use typebook::{TypeBook, TypeBuilder, Value};
    /// # let types = TypeBook::builder()
    /// #     .with(TypeBuilder::new("S").size(4).field("A", "INT", 0, 2).field("B", "INT", 2, 2))
    /// #     .with(TypeBuilder::new("INT").id(2).size(2));
    /// # let book = types.build(8)?;
    /// let tape = book.root(0)?.read(&[1, 0, 2, 0])?;
    /// let mut sum = 0;
    /// for record in &tape {
    ///     if let Value::Int { value, .. } = record.value {
    ///         sum += value;
    ///     }
    /// }
    /// assert_eq!(sum, 3);
    /// # Ok::<(), Box<dyn std::error::Error>>(())
    /// ```
    pub fn iter(&self) -> Records<'_> {
        Records {
            tape: self,
            at: 0,
            level: 1,
        }
    }

    pub(crate) fn number(&self, at: usize) -> u64 {
        let mut bytes = [0; 8];
        bytes.copy_from_slice(&self.records[at..at + 8]);
        u64::from_le_bytes(bytes)
    }

    pub(crate) fn value(&self, at: usize) -> (Option<u32>, Value<'_>) {
        let width = self.records[at + 1];
        let bits = 8 * u32::from(width);
        let (a, b) = (self.number(at + 8), self.number(at + 16));
        let name = || name_in(&self.book, a as u32, total::name);
        match self.records[at] {
            1 => (None, Value::Array(a)),
            3 => (None, Value::Map(a)),
            2 | 5 => (None, Value::End),
            4 => (Some(a as u32), Value::Key(name())),
            6 => (None, Value::Bool(b == 1)),
            7 => (None, Value::Int { bits, value: b as i64 }),
            8 => (None, Value::Nat { bits, value: b }),
            9 => (None, Value::Real32(b as u32)),
            10 => (None, Value::Real64(b)),
            11 => {
                let (text, clipped) = (self.text_part(a, b), width == 0);
                (None, Value::Text { text, clipped })
            }
            12 => (Some(a as u32), Value::Enum(name())),
            13 => (None, Value::Unit),
            kind => unreachable!("no record has the kind {kind}"),
        }
    }

    /// The declared type's block, in bytes 4 to 7 of the record at a place.
    fn declared(&self, at: usize) -> Option<u32> {
        let mut bytes = [0; 4];
        bytes.copy_from_slice(&self.records[at + 4..at + 8]);
        self.declares.then_some(u32::from_le_bytes(bytes))
    }

    fn text_part(&self, start: u64, len: u64) -> &str {
        let bytes = &self.text[start as usize..(start + len) as usize];
        std::str::from_utf8(bytes).expect("a tape's texts are UTF-8")
    }
}

impl fmt::Debug for Tape<'_> {
    fn fmt(&self, f: &mut fmt::Formatter<'_>) -> fmt::Result {
        f.debug_list().entries(self.iter().map(|r| r.value)).finish()
    }
}

impl<'t> IntoIterator for &'t Tape<'_> {
    type Item = Record<'t>;
    type IntoIter = Records<'t>;

    fn into_iter(self) -> Records<'t> {
        self.iter()
    }
}

/// The records of a [`Tape`], in order.
#[derive(Debug, Clone)]
pub struct Records<'t> {
    tape: &'t Tape<'t>,
    at: usize,
    level: u32,
}

impl<'t> Iterator for Records<'t> {
    type Item = Record<'t>;

    fn next(&mut self) -> Option<Record<'t>> {
        if self.tape.records.len() < self.at + RECORD {
            return None;
        }
        let (block, value) = self.tape.value(self.at);
        let declared_block = match value {
            Value::End | Value::Key(_) => None,
            _ => self.tape.declared(self.at),
        };
        self.at += RECORD;
        let level = match value {
            Value::End => self.level.saturating_sub(1).max(1),
            _ => self.level,
        };
        self.level = match value {
            Value::Array(_) | Value::Map(_) => level + 1,
            _ => level,
        };
        Some(Record {
            level,
            block,
            declared_block,
            value,
            book: &self.tape.book,
        })
    }

    fn size_hint(&self) -> (usize, Option<usize>) {
        let left = (self.tape.records.len() - self.at) / RECORD;
        (left, Some(left))
    }
}

impl ExactSizeIterator for Records<'_> {}
