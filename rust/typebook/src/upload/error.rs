//! What is wrong with an upload, and where.

use crate::TypeError;
use std::error::Error;
use std::fmt;

/// A part of a data type entry.
#[derive(Debug, Clone, Copy, PartialEq, Eq)]
#[allow(missing_docs)]
pub enum UploadPart {
    Entry,
    Name,
    TypeName,
    Comment,
    Dimensions,
    Guid,
    CopyMask,
    Methods,
    Attributes,
    EnumInfos,
}

impl fmt::Display for UploadPart {
    fn fmt(&self, f: &mut fmt::Formatter<'_>) -> fmt::Result {
        f.write_str(match self {
            UploadPart::Entry => "the entry",
            UploadPart::Name => "the name",
            UploadPart::TypeName => "the type name",
            UploadPart::Comment => "the comment",
            UploadPart::Dimensions => "the dimensions",
            UploadPart::Guid => "the GUID",
            UploadPart::CopyMask => "the copy mask",
            UploadPart::Methods => "the list of methods",
            UploadPart::Attributes => "the list of attributes",
            UploadPart::EnumInfos => "the list of enumeration entries",
        })
    }
}

/// What is wrong.
#[non_exhaustive]
#[derive(Debug, Clone, PartialEq, Eq)]
pub enum UploadFault {
    /// A part wants more bytes than are left of its entry, or an entry more than are left of the upload: it was cut off, or a length
    /// lies.
    Short {
        /// The part.
        part: UploadPart,
        /// The bytes that it wants.
        wanted: usize,
        /// The bytes that are left.
        left: usize,
    },
    /// A part says that it is shorter than such a part can be.
    Length {
        /// The part.
        part: UploadPart,
        /// The length that it says.
        len: usize,
        /// The least that there is.
        least: usize,
    },
    /// No zero follows a text of this length: the length lies.
    NotEnded {
        /// The part.
        part: UploadPart,
        /// The length that is said of it.
        len: usize,
    },
    /// Entries lie in one another more than eight deep.
    Nested,
    /// A field's bits aren't whole bytes: a type book counts bytes.
    Bits {
        /// The field's name.
        field: String,
    },
    /// Another entry has this name too.
    Doubled,
    /// The type holds itself, or one that does: each of these names is an alias of, an array of or has a field of the next.
    Cycle(Vec<String>),
    /// It doesn't fit the form of a type book.
    Form(TypeError),
}

impl fmt::Display for UploadFault {
    fn fmt(&self, f: &mut fmt::Formatter<'_>) -> fmt::Result {
        match self {
            UploadFault::Short { part, wanted, left } => write!(
                f,
                "{part} wants {wanted} bytes and {left} are left: the upload is cut off, or a length in it is wrong"
            ),
            UploadFault::Length { part, len, least } => {
                write!(f, "{part} says that its length is {len}, and {least} is the least")
            }
            UploadFault::NotEnded { part, len } => write!(
                f,
                "no zero stands after the {len} bytes that a text in {part} is said to have"
            ),
            UploadFault::Nested => f.write_str("entries lie in one another more than eight deep"),
            UploadFault::Bits { field } => write!(
                f,
                "the field {field:?} is a part of a byte, and a type book counts whole bytes"
            ),
            UploadFault::Doubled => f.write_str("another entry has this name too"),
            UploadFault::Cycle(names) => write!(f, "the type holds itself, or one that does: {}", names.join(" -> ")),
            UploadFault::Form(error) => error.fmt(f),
        }
    }
}

/// Why there is no book of an upload, or not all of it.
#[derive(Debug, Clone, PartialEq, Eq)]
pub struct UploadError {
    /// The byte of the upload at which it was seen.
    pub at: usize,
    /// The names of the entry and of those around it, from outside in, parted by dots. Empty if its name wasn't read yet.
    pub entry: String,
    /// What is wrong.
    pub fault: UploadFault,
}

impl UploadError {
    pub(super) fn new(at: usize, names: &[String], fault: UploadFault) -> Self {
        let entry = names.join(".");
        Self { at, entry, fault }
    }
}

impl fmt::Display for UploadError {
    fn fmt(&self, f: &mut fmt::Formatter<'_>) -> fmt::Result {
        match &self.entry[..] {
            "" => write!(f, "byte {} of the upload: {}", self.at, self.fault),
            entry => write!(f, "byte {} of the upload, in {entry}: {}", self.at, self.fault),
        }
    }
}

impl Error for UploadError {}
