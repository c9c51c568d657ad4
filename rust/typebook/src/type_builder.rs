//! Types and whole books made by hand, from descriptions such as a controller's type list has; what doesn't fit the book's form is an
//! error that says so.

use crate::book::{BLOCK, TypeBook};
use crate::refusal::Refusal;
use std::collections::HashSet;
use std::error::Error;
use std::fmt;

const NAME: usize = 200;
const DIMENSIONS: usize = 8;
const VALUE: usize = 8;
const MOST_BLOCKS: usize = 65_536;
const UTF_8: u8 = 32;

/// The type ids that have a meaning, for [`TypeBuilder::id`]. Any other number may stand in a book too.
#[allow(missing_docs)]
pub mod type_id {
    pub const VOID: u32 = 0;
    pub const INT16: u32 = 2;
    pub const INT32: u32 = 3;
    pub const REAL32: u32 = 4;
    pub const REAL64: u32 = 5;
    pub const INT8: u32 = 16;
    pub const UINT8: u32 = 17;
    pub const UINT16: u32 = 18;
    pub const UINT32: u32 = 19;
    pub const INT64: u32 = 20;
    pub const UINT64: u32 = 21;
    pub const STRING: u32 = 30;
    pub const WSTRING: u32 = 31;
    pub const REAL80: u32 = 32;
    pub const BIT: u32 = 33;
    pub const MAX_TYPES: u32 = 34;
    /// Structs, unions, function blocks and interfaces.
    pub const BIG_TYPE: u32 = 65;
}

/// What of a type has a name.
#[derive(Debug, Clone, PartialEq, Eq)]
pub enum Part {
    /// The type itself.
    Type,
    /// The field at this place, from 0 on.
    Field(usize),
    /// The enumeration entry at this place, from 0 on.
    Entry(usize),
}

impl fmt::Display for Part {
    fn fmt(&self, f: &mut fmt::Formatter<'_>) -> fmt::Result {
        match self {
            Part::Type => f.write_str("the type"),
            Part::Field(n) => write!(f, "field {n}"),
            Part::Entry(n) => write!(f, "entry {n}"),
        }
    }
}

/// What of a type doesn't fit the form of a type book.
#[non_exhaustive]
#[derive(Debug, Clone, PartialEq, Eq)]
pub enum Misfit {
    /// A name, or a type name, has more than 200 bytes.
    LongName {
        /// Whose name it is.
        of: Part,
        /// The name.
        name: String,
    },
    /// A name, or a type name, has a character outside 20h to 7Eh.
    Character {
        /// Whose name it is.
        of: Part,
        /// The name.
        name: String,
        /// The first such character.
        character: char,
    },
    /// More than 8 dimensions.
    Dimensions(usize),
    /// An entry's value has more than 8 bytes.
    LongValue {
        /// The entry's place, from 0 on.
        entry: usize,
        /// The number of bytes.
        len: usize,
    },
    /// UTF-8 is said of a type with this type id, which isn't STRING's.
    Utf8(u32),
    /// More than 65,536 blocks; the type has one, and one for each field and each entry.
    Blocks(usize),
}

impl fmt::Display for Misfit {
    fn fmt(&self, f: &mut fmt::Formatter<'_>) -> fmt::Result {
        match self {
            Misfit::LongName { of, name } => {
                write!(
                    f,
                    "{of} has a name of {} bytes, and 200 is the most: {name:?}",
                    name.len()
                )
            }
            Misfit::Character { of, name, character } => {
                write!(
                    f,
                    "{of} has {character:?} in its name {name:?}: names are of the bytes 20h to 7Eh"
                )
            }
            Misfit::Dimensions(n) => write!(f, "{n} dimensions, and 8 is the most"),
            Misfit::LongValue { entry, len } => {
                write!(f, "entry {entry} has a value of {len} bytes, and 8 is the most")
            }
            Misfit::Utf8(id) => write!(f, "UTF-8 is said of a type with the id {id}, and STRING has 30"),
            Misfit::Blocks(n) => write!(f, "{n} blocks, and a book has 65,536 at most"),
        }
    }
}

/// Why there are no blocks of a type, or no book of types.
#[non_exhaustive]
#[derive(Debug, Clone, PartialEq, Eq)]
pub enum TypeError {
    /// A type doesn't fit the form.
    Misfit {
        /// The type's name.
        name: String,
        /// What doesn't fit.
        what: Misfit,
    },
    /// Two types of a book have this name.
    Doubled(String),
    /// The types have this many blocks together, and a book has 65,536 at most.
    LongBook(usize),
    /// The book that was made is refused. No book of this builder is.
    Refused(Refusal),
}

impl fmt::Display for TypeError {
    fn fmt(&self, f: &mut fmt::Formatter<'_>) -> fmt::Result {
        match self {
            TypeError::Misfit { name, what } => write!(f, "the type {name:?} doesn't fit a type book: {what}"),
            TypeError::Doubled(name) => write!(f, "two types are named {name:?}"),
            TypeError::LongBook(blocks) => {
                write!(
                    f,
                    "the types have {blocks} blocks together, and a type book has 65,536 at most"
                )
            }
            TypeError::Refused(refusal) => refusal.fmt(f),
        }
    }
}

impl Error for TypeError {}

#[derive(Debug, Clone, PartialEq, Eq)]
struct Field {
    name: String,
    type_name: String,
    offset: u32,
    size: u32,
}

#[derive(Debug, Clone, PartialEq, Eq)]
struct Entry {
    name: String,
    value: Vec<u8>,
}

/// Makes the blocks of one type: its own, then one for each field, then one for each enumeration entry.
///
/// Nothing is tested until [`blocks`](TypeBuilder::blocks) is called; what it gives can be [appended](TypeBook::append) to a book.
/// For a whole book see [`TypeBook::builder`].
///
/// ```
/// use typebook::{TypeBuilder, TypeError, type_id};
///
/// let glue = TypeBuilder::new("E_Glue").id(type_id::INT16).size(2).enumeration()
///     .entry("COLD", &[0, 0])
///     .entry("PUR", &[1, 0]);
/// let recipe = TypeBuilder::new("ST_Glue").size(6)
///     .field("Temp", "REAL", 0, 4)
///     .field("Glue", "E_Glue", 4, 2);
/// assert_eq!(glue.blocks()?.len(), 3 * 512);
/// assert_eq!(recipe.blocks()?.len(), 3 * 512);
///
/// // What doesn't fit is told.
/// let refused = TypeBuilder::new("Klebebr\u{fc}cke").blocks().unwrap_err();
/// assert!(refused.to_string().ends_with("names are of the bytes 20h to 7Eh"));
/// # Ok::<(), TypeError>(())
/// ```
#[derive(Debug, Clone, PartialEq, Eq)]
pub struct TypeBuilder {
    name: String,
    type_name: String,
    id: u32,
    size: u32,
    flags: u8,
    counts: Vec<u32>,
    fields: Vec<Field>,
    entries: Vec<Entry>,
}

impl TypeBuilder {
    /// A type of that name, with the type id 65, without size, fields and entries.
    pub fn new(name: impl Into<String>) -> Self {
        Self {
            name: name.into(),
            type_name: String::new(),
            id: type_id::BIG_TYPE,
            size: 0,
            flags: 0,
            counts: Vec::new(),
            fields: Vec::new(),
            entries: Vec::new(),
        }
    }

    /// Its name.
    pub fn name(&self) -> &str {
        &self.name
    }

    /// With the name of the type that it is an alias, a pointer or an array of.
    pub fn type_name(mut self, name: impl Into<String>) -> Self {
        self.type_name = name.into();
        self
    }

    /// With that type id: one of [`type_id`], or any other number.
    pub fn id(mut self, id: u32) -> Self {
        self.id = id;
        self
    }

    /// With that size in bytes.
    pub fn size(mut self, bytes: u32) -> Self {
        self.size = bytes;
        self
    }

    fn flag(mut self, bit: u8) -> Self {
        self.flags |= bit;
        self
    }

    /// A pointer.
    pub fn pointer(self) -> Self {
        self.flag(1)
    }

    /// A reference.
    pub fn reference(self) -> Self {
        self.flag(2)
    }

    /// An enumeration.
    pub fn enumeration(self) -> Self {
        self.flag(4)
    }

    /// A type with methods.
    pub fn methods(self) -> Self {
        self.flag(8)
    }

    /// A type with the attribute TcImplements: a function block that implements interfaces.
    pub fn tc_implements(self) -> Self {
        self.flag(16)
    }

    /// A STRING in UTF-8; without this one is in Windows-1252. Of the type id [`STRING`](type_id::STRING) only.
    pub fn utf_8(self) -> Self {
        self.flag(UTF_8)
    }

    /// With one more dimension of so many elements; the first one is the outermost.
    pub fn dimension(mut self, elements: u32) -> Self {
        self.counts.push(elements);
        self
    }

    /// With one more field.
    pub fn field(mut self, name: impl Into<String>, type_name: impl Into<String>, offset: u32, size: u32) -> Self {
        self.fields.push(Field {
            name: name.into(),
            type_name: type_name.into(),
            offset,
            size,
        });
        self
    }

    /// With one more enumeration entry; the value's bytes are the memory's, low byte first.
    pub fn entry(mut self, name: impl Into<String>, value: &[u8]) -> Self {
        self.entries.push(Entry {
            name: name.into(),
            value: value.to_vec(),
        });
        self
    }

    /// The number of its blocks.
    pub fn count(&self) -> usize {
        1 + self.fields.len() + self.entries.len()
    }

    /// Its blocks, or what doesn't fit the form.
    pub fn blocks(&self) -> Result<Vec<u8>, TypeError> {
        let mut out = Vec::with_capacity(self.count() * BLOCK);
        match self.put(&mut out) {
            Ok(()) => Ok(out),
            Err(what) => Err(TypeError::Misfit {
                name: self.name.clone(),
                what,
            }),
        }
    }

    fn put(&self, out: &mut Vec<u8>) -> Result<(), Misfit> {
        let (fields, entries) = (self.fields.len(), self.entries.len());
        if MOST_BLOCKS < self.count() {
            return Err(Misfit::Blocks(self.count()));
        }
        if DIMENSIONS < self.counts.len() {
            return Err(Misfit::Dimensions(self.counts.len()));
        }
        if self.flags & UTF_8 != 0 && self.id != type_id::STRING {
            return Err(Misfit::Utf8(self.id));
        }
        let mut own = Block::new(1, self.flags);
        own.0[2] = self.counts.len() as u8;
        let numbers = [self.id, self.size, fields as u32, entries as u32];
        for (i, &n) in numbers.iter().chain(&self.counts).enumerate() {
            own.number(4 + 4 * i, n);
        }
        out.extend(own.finished(Part::Type, &self.name, &self.type_name)?);
        for (i, field) in self.fields.iter().enumerate() {
            let mut block = Block::new(2, 0);
            block.number(4, field.offset);
            block.number(8, field.size);
            out.extend(block.finished(Part::Field(i), &field.name, &field.type_name)?);
        }
        for (i, Entry { name, value }) in self.entries.iter().enumerate() {
            let len = value.len();
            if VALUE < len {
                return Err(Misfit::LongValue { entry: i, len });
            }
            let mut block = Block::new(3, len as u8);
            block.0[20..20 + len].copy_from_slice(value);
            out.extend(block.finished(Part::Entry(i), name, "")?);
        }
        Ok(())
    }
}

/// One block in the making, zero where nothing was put yet.
struct Block([u8; BLOCK]);

impl Block {
    fn new(kind: u8, second: u8) -> Self {
        let mut bytes = [0; BLOCK];
        bytes[0] = kind;
        bytes[1] = second;
        Self(bytes)
    }

    fn number(&mut self, at: usize, n: u32) {
        self.0[at..at + 4].copy_from_slice(&n.to_le_bytes());
    }

    fn text(&mut self, length: usize, at: usize, of: &Part, name: &str) -> Result<(), Misfit> {
        let outside = name.chars().find(|c| !(' '..='~').contains(c));
        if let Some(character) = outside {
            let (of, name) = (of.clone(), name.into());
            return Err(Misfit::Character { of, name, character });
        }
        if NAME < name.len() {
            let (of, name) = (of.clone(), name.into());
            return Err(Misfit::LongName { of, name });
        }
        self.0[length] = name.len() as u8;
        self.0[at..at + name.len()].copy_from_slice(name.as_bytes());
        Ok(())
    }

    /// The block with its names, and the sum of its other bytes at the end.
    fn finished(mut self, of: Part, name: &str, type_name: &str) -> Result<[u8; BLOCK], Misfit> {
        self.text(52, 54, &of, name)?;
        self.text(53, 254, &of, type_name)?;
        let sum = self.0[..508].iter().map(|&b| u32::from(b)).sum();
        self.number(508, sum);
        Ok(self.0)
    }
}

/// Makes a whole book, type by type; see [`TypeBook::builder`].
#[derive(Debug, Clone, Default)]
pub struct BookBuilder {
    types: Vec<TypeBuilder>,
}

impl BookBuilder {
    /// With one more type. Block numbers follow the order: the first type is at block 0, the next one after its fields and entries.
    pub fn with(mut self, one: TypeBuilder) -> Self {
        self.types.push(one);
        self
    }

    /// The book's bytes. Every book that this gives passes the check of [`TypeBook::new`].
    pub fn bytes(&self) -> Result<Vec<u8>, TypeError> {
        let blocks = self.types.iter().map(TypeBuilder::count).sum();
        if blocks > MOST_BLOCKS {
            return Err(TypeError::LongBook(blocks));
        }
        let (mut names, mut bytes) = (HashSet::new(), Vec::with_capacity(blocks * BLOCK));
        for one in &self.types {
            if !names.insert(&one.name) {
                return Err(TypeError::Doubled(one.name.clone()));
            }
            bytes.extend(one.blocks()?);
        }
        Ok(bytes)
    }

    /// The book, checked, for a controller of that pointer width in bytes.
    pub fn build(&self, width: u8) -> Result<TypeBook<'static>, TypeError> {
        TypeBook::new(self.bytes()?, width).map_err(TypeError::Refused)
    }
}

impl Extend<TypeBuilder> for BookBuilder {
    fn extend<I: IntoIterator<Item = TypeBuilder>>(&mut self, types: I) {
        self.types.extend(types);
    }
}

impl FromIterator<TypeBuilder> for BookBuilder {
    fn from_iter<I: IntoIterator<Item = TypeBuilder>>(types: I) -> Self {
        Self {
            types: types.into_iter().collect(),
        }
    }
}

impl TypeBook<'static> {
    /// A book to be made from descriptions of types.
    ///
    /// ```
    /// use typebook::{TypeBook, TypeBuilder, TypeError, type_id};
    ///
    /// let book = TypeBook::builder()
    ///     .with(TypeBuilder::new("ST_Glue").size(4).field("Temp", "INT", 0, 2).field("Flow", "INT", 2, 2))
    ///     .with(TypeBuilder::new("INT").id(type_id::INT16).size(2))
    ///     .build(8)?;
    /// assert_eq!(book.blocks(), 4);
    /// assert_eq!(book.find("ST_Glue").map(|t| t.block()), Some(0));
    ///
    /// let int = TypeBuilder::new("INT").id(type_id::INT16).size(2);
    /// let doubled = TypeBook::builder().with(int.clone()).with(int).build(8);
    /// assert_eq!(doubled.unwrap_err(), TypeError::Doubled("INT".into()));
    /// # Ok::<(), TypeError>(())
    /// ```
    pub fn builder() -> BookBuilder {
        BookBuilder::default()
    }
}

#[cfg(test)]
mod tests {
    use super::*;

    fn misfit(one: TypeBuilder) -> Misfit {
        match one.blocks() {
            Err(TypeError::Misfit { what, .. }) => what,
            other => panic!("a misfit was due: {other:?}"),
        }
    }

    #[test]
    fn each_misfit() {
        let long = "x".repeat(201);
        let new = || TypeBuilder::new("T");
        let told = |of| Misfit::LongName { of, name: long.clone() };
        assert_eq!(misfit(TypeBuilder::new(long.clone())), told(Part::Type));
        assert_eq!(misfit(new().type_name(long.clone())), told(Part::Type));
        assert_eq!(
            misfit(new().field("a", "b", 0, 0).field(long.clone(), "", 0, 0)),
            told(Part::Field(1))
        );
        assert_eq!(misfit(new().field("a", long.clone(), 0, 0)), told(Part::Field(0)));
        assert_eq!(misfit(new().entry(long.clone(), &[])), told(Part::Entry(0)));
        for character in ['\u{1f}', '\u{7f}', '\u{fc}', '\n', '\0'] {
            let name = format!("a{character}");
            let of = Part::Field(0);
            assert_eq!(
                misfit(new().field(&name, "", 0, 0)),
                Misfit::Character { of, name, character }
            );
        }
        assert_eq!(misfit((0..9).fold(new(), |t, n| t.dimension(n))), Misfit::Dimensions(9));
        assert_eq!(
            misfit(new().entry("a", &[0; 9])),
            Misfit::LongValue { entry: 0, len: 9 }
        );
        assert_eq!(misfit(new().utf_8()), Misfit::Utf8(65));
        assert_eq!(misfit(new().utf_8().id(type_id::WSTRING)), Misfit::Utf8(31));
        assert!(new().utf_8().id(type_id::STRING).blocks().is_ok());
        let many = (0..65_536).fold(new(), |t, _| t.entry("e", &[]));
        assert_eq!(misfit(many), Misfit::Blocks(65_537));
    }

    /// The edges pass: 200 bytes of a name, the first and the last character, 8 dimensions, a value of 8 bytes.
    #[test]
    fn the_most_that_fits() {
        let name = " ~".repeat(100);
        let one = (0..8).fold(TypeBuilder::new(&name).type_name(&name), |t, n| {
            t.dimension(u32::MAX - n)
        });
        let one = one
            .id(u32::MAX)
            .size(u32::MAX)
            .pointer()
            .reference()
            .enumeration()
            .methods()
            .tc_implements();
        let one = one
            .field(&name, &name, u32::MAX, u32::MAX)
            .entry(&name, &[255; 8])
            .entry("", &[]);
        let book = TypeBook::builder().with(one).build(8).expect("it fits");
        assert_eq!(
            (book.blocks(), book.name(1), book.type_name(1)),
            (4, &name[..], &name[..])
        );
    }

    #[test]
    fn books_of_no_type_and_of_too_many_blocks() {
        assert_eq!(TypeBook::builder().build(8).expect("a book").blocks(), 0);
        let entries = |name: &str, n| (0..n).fold(TypeBuilder::new(name), |t, _| t.entry("e", &[]));
        let fits = TypeBook::builder()
            .with(entries("A", 40_000))
            .with(entries("B", 25_534));
        assert_eq!(fits.build(8).expect("65,536 blocks").blocks(), 65_536);
        assert_eq!(
            fits.with(TypeBuilder::new("C")).build(8).unwrap_err(),
            TypeError::LongBook(65_537)
        );
    }
}
