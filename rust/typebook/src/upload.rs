//! A controller's type list as ADS uploads it: data type entries one after the other, up to a plain description of each, and the type
//! book made of them.
//!
//! The layout is that of `AdsDatatypeEntry` in Beckhoff's public header TcAdsDef.h. It was written from public knowledge of that header
//! and was not tried on a controller. docs/UPLOAD.md has it part by part, with what a type book takes of each and what it can't hold.
//!
//! Whatever the bytes are, the answer is a description or an [`UploadError`] that says where in the upload what is wrong.

mod book;
mod error;

pub use error::{UploadError, UploadFault, UploadPart};

use crate::text::from_windows_1252;

/// The bytes of an entry before its name.
const HEAD: usize = 42;
/// How deep entries may lie in one another. Those of a controller go one deep: a type and its sub items.
const DEEPEST: usize = 8;
const GUID: usize = 16;

/// The flags of an entry, `ADSDATATYPEFLAG_` of the header.
#[derive(Debug, Clone, Copy, PartialEq, Eq, Default)]
pub struct UploadFlags(pub u32);

impl UploadFlags {
    /// A reference.
    pub const REFERENCE_TO: u32 = 0x4;
    /// Size and offset count bits, not bytes.
    pub const BIT_VALUES: u32 = 0x20;
    /// A property: calls stand for it, no bytes.
    pub const PROP_ITEM: u32 = 0x40;
    /// A GUID follows.
    pub const TYPE_GUID: u32 = 0x80;
    /// A copy mask follows.
    pub const COPY_MASK: u32 = 0x200;
    /// Methods follow.
    pub const METHOD_INFOS: u32 = 0x800;
    /// Attributes follow.
    pub const ATTRIBUTES: u32 = 0x1000;
    /// Enumeration entries follow.
    pub const ENUM_INFOS: u32 = 0x2000;
    /// A static variable: it lies elsewhere, once for all instances.
    pub const STATIC: u32 = 0x2_0000;
    /// A pointer.
    pub const PLC_POINTER_TYPE: u32 = 0x80_0000;

    /// Whether one of the bits is set.
    pub fn has(self, bits: u32) -> bool {
        self.0 & bits != 0
    }
}

/// One dimension of an array.
#[derive(Debug, Clone, Copy, PartialEq, Eq)]
pub struct UploadDimension {
    /// The index of the first element.
    pub lower: i32,
    /// The number of elements.
    pub elements: u32,
}

/// An attribute, as `{attribute 'TcEncoding' := 'UTF-8'}` gives one.
#[derive(Debug, Clone, PartialEq, Eq)]
pub struct UploadAttribute {
    /// Its name.
    pub name: String,
    /// Its value, often empty.
    pub value: String,
}

/// An entry of an enumeration.
#[derive(Debug, Clone, PartialEq, Eq)]
pub struct UploadEnumInfo {
    /// Its name.
    pub name: String,
    /// Its value, low byte first, of as many bytes as the enumeration has.
    pub value: Vec<u8>,
}

/// What one data type entry says: a type, or a sub item of one.
#[derive(Debug, Clone, PartialEq, Eq)]
pub struct UploadEntry {
    /// Where it begins in the upload, in bytes.
    pub at: usize,
    /// The type's name, or the sub item's.
    pub name: String,
    /// The name of the type that it is of.
    pub type_name: String,
    /// What its maker wrote beside it.
    pub comment: String,
    /// Its size, in bits with [`UploadFlags::BIT_VALUES`].
    pub size: u32,
    /// A sub item's place in its type, in bits with [`UploadFlags::BIT_VALUES`].
    pub offset: u32,
    /// The type id.
    pub id: u32,
    /// The flags.
    pub flags: UploadFlags,
    /// The dimensions of an array, the outermost first.
    pub dimensions: Vec<UploadDimension>,
    /// Fields, and whatever else lies in it.
    pub items: Vec<UploadEntry>,
    /// The number of methods.
    pub methods: usize,
    /// The attributes.
    pub attributes: Vec<UploadAttribute>,
    /// The entries of an enumeration.
    pub enum_infos: Vec<UploadEnumInfo>,
}

impl UploadEntry {
    /// Whether it has an attribute of this name, spelt so.
    pub fn has_attribute(&self, name: &str) -> bool {
        self.attributes.iter().any(|a| a.name == name)
    }
}

/// A type list, entry by entry.
///
/// ```
/// use typebook::{TypeBook, Upload};
/// # let file = concat!(env!("CARGO_MANIFEST_DIR"), "/../../examples/upload/station.upload");
/// let bytes = std::fs::read(file)?;
/// let upload = Upload::parse(&bytes)?;
/// let line = &upload.entries()[0];
/// assert_eq!((&line.name[..], line.size), ("Line", 126));
/// assert_eq!((&line.items[3].name[..], line.items[3].offset), ("Stitch", 31));
///
/// // Straight to a book: the entries in their order, all of them.
/// let book = TypeBook::from_upload(&bytes, 8)?;
/// assert_eq!(book.types().count(), upload.entries().len());
/// # Ok::<(), Box<dyn std::error::Error>>(())
/// ```
#[derive(Debug, Clone, PartialEq, Eq)]
pub struct Upload {
    entries: Vec<UploadEntry>,
}

impl Upload {
    /// Reads an upload to its last byte.
    pub fn parse(bytes: &[u8]) -> Result<Self, UploadError> {
        let mut rest = Cursor::new(bytes);
        let mut entries = Vec::new();
        while rest.left() > 0 {
            entries.push(rest.entry(&mut Vec::new())?);
        }
        Ok(Self { entries })
    }

    /// The types, in the order of the upload.
    pub fn entries(&self) -> &[UploadEntry] {
        &self.entries
    }
}

/// The bytes of an upload from a place on, up to the end of the entry that is read.
struct Cursor<'u> {
    bytes: &'u [u8],
    at: usize,
    end: usize,
}

/// Names of the entry that is read and of those around it, for an error.
type Around = Vec<String>;

impl<'u> Cursor<'u> {
    fn new(bytes: &'u [u8]) -> Self {
        let end = bytes.len();
        Self { bytes, at: 0, end }
    }

    fn left(&self) -> usize {
        self.end - self.at
    }

    /// The next so many bytes, which have to lie in the entry.
    fn take(&mut self, wanted: usize, part: UploadPart) -> Result<&'u [u8], UploadFault> {
        let left = self.left();
        if left < wanted {
            return Err(UploadFault::Short { part, wanted, left });
        }
        let taken = &self.bytes[self.at..self.at + wanted];
        self.at += wanted;
        Ok(taken)
    }

    fn number<const N: usize>(&mut self, part: UploadPart) -> Result<u32, UploadFault> {
        let bytes = self.take(N, part)?;
        Ok(bytes.iter().rev().fold(0, |sum, &b| sum << 8 | u32::from(b)))
    }

    /// A length or a count of two bytes.
    fn count(&mut self, part: UploadPart) -> Result<usize, UploadFault> {
        Ok(self.number::<2>(part)? as usize)
    }

    /// A text of that length and the zero after it.
    fn text(&mut self, len: usize, part: UploadPart) -> Result<String, UploadFault> {
        let bytes = self.take(len + 1, part)?;
        match bytes[len] {
            0 => Ok(from_windows_1252(&bytes[..len])),
            _ => Err(UploadFault::NotEnded { part, len }),
        }
    }

    /// An entry of its own length: the bytes of it after the length, and this cursor after it.
    fn part(&mut self, least: usize, part: UploadPart) -> Result<Cursor<'u>, UploadFault> {
        let (at, left) = (self.at, self.left());
        let len = self.number::<4>(part)? as usize;
        if len < least {
            return Err(UploadFault::Length { part, len, least });
        }
        if left < len {
            return Err(UploadFault::Short {
                part,
                wanted: len,
                left,
            });
        }
        self.at = at + len;
        Ok(Cursor {
            bytes: self.bytes,
            at: at + 4,
            end: at + len,
        })
    }

    /// A data type entry; `around` has the names of the entries that it lies in.
    fn entry(&mut self, around: &mut Around) -> Result<UploadEntry, UploadError> {
        let at = self.at;
        let told = |around: &Around, at, fault| UploadError::new(at, around, fault);
        if around.len() == DEEPEST {
            return Err(told(around, at, UploadFault::Nested));
        }
        let mut inner = self
            .part(HEAD, UploadPart::Entry)
            .map_err(|fault| told(around, at, fault))?;
        let (mut entry, items) = inner.head(at).map_err(|fault| told(around, inner.at, fault))?;
        around.push(entry.name.clone());
        for _ in 0..items {
            entry.items.push(inner.entry(around)?);
        }
        inner.tail(&mut entry).map_err(|fault| told(around, inner.at, fault))?;
        around.pop();
        Ok(entry)
    }

    /// What stands before the sub items, and how many of these there are.
    fn head(&mut self, at: usize) -> Result<(UploadEntry, usize), UploadFault> {
        let part = UploadPart::Entry;
        // Version and two hashes say nothing about the memory.
        self.take(12, part)?;
        let [size, offset, id, flags] = [(); 4].map(|()| self.number::<4>(part));
        let [name, type_name, comment, dimensions, items] = [(); 5].map(|()| self.count(part));
        let mut entry = UploadEntry {
            at,
            name: self.text(name?, UploadPart::Name)?,
            type_name: self.text(type_name?, UploadPart::TypeName)?,
            comment: self.text(comment?, UploadPart::Comment)?,
            size: size?,
            offset: offset?,
            id: id?,
            flags: UploadFlags(flags?),
            dimensions: Vec::new(),
            items: Vec::new(),
            methods: 0,
            attributes: Vec::new(),
            enum_infos: Vec::new(),
        };
        for _ in 0..dimensions? {
            entry.dimensions.push(UploadDimension {
                lower: self.number::<4>(UploadPart::Dimensions)? as i32,
                elements: self.number::<4>(UploadPart::Dimensions)?,
            });
        }
        Ok((entry, items?))
    }

    /// What stands after the sub items, each part if its flag is set. Whatever follows in the entry is of newer versions.
    fn tail(&mut self, entry: &mut UploadEntry) -> Result<(), UploadFault> {
        let flags = entry.flags;
        if flags.has(UploadFlags::TYPE_GUID) {
            self.take(GUID, UploadPart::Guid)?;
        }
        if flags.has(UploadFlags::COPY_MASK) {
            self.take(entry.size as usize, UploadPart::CopyMask)?;
        }
        if flags.has(UploadFlags::METHOD_INFOS) {
            entry.methods = self.count(UploadPart::Methods)?;
            for _ in 0..entry.methods {
                self.part(4, UploadPart::Methods)?;
            }
        }
        if flags.has(UploadFlags::ATTRIBUTES) {
            for _ in 0..self.count(UploadPart::Attributes)? {
                entry.attributes.push(self.attribute()?);
            }
        }
        if flags.has(UploadFlags::ENUM_INFOS) {
            for _ in 0..self.count(UploadPart::EnumInfos)? {
                entry.enum_infos.push(self.enum_info(entry.size as usize)?);
            }
        }
        Ok(())
    }

    fn attribute(&mut self) -> Result<UploadAttribute, UploadFault> {
        let part = UploadPart::Attributes;
        let [name, value] = [(); 2].map(|()| self.number::<1>(part));
        Ok(UploadAttribute {
            name: self.text(name? as usize, part)?,
            value: self.text(value? as usize, part)?,
        })
    }

    fn enum_info(&mut self, size: usize) -> Result<UploadEnumInfo, UploadFault> {
        let part = UploadPart::EnumInfos;
        let name = self.number::<1>(part)? as usize;
        Ok(UploadEnumInfo {
            name: self.text(name, part)?,
            value: self.take(size, part)?.to_vec(),
        })
    }
}
