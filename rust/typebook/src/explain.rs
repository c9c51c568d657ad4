//! Where in a value a read was refused, found by reading its parts with the same call.

use crate::book::TypeRef;
use crate::category::Category;
use crate::describe::DeclaredField;
use crate::ffi::total;
use crate::refusal::Refusal;
use crate::tape::Tape;
use std::error::Error;
use std::fmt::{self, Write};

/// Values lie in one another this deep at most.
const MOST_LEVELS: usize = 64;

/// A refused read, with its place, in words for a person.
#[non_exhaustive]
#[derive(Debug, Clone, PartialEq, Eq)]
pub struct ReadError {
    /// Why it was refused.
    pub refusal: Refusal,
    /// The path to the value, as [`Tape::edit`] takes it; empty for the whole value.
    pub path: String,
    /// The name of the type that the value was declared as there: an alias isn't resolved, a missing type is named too.
    pub declared: String,
    /// The bytes that there are for the value.
    pub found: usize,
    /// The bytes that a value of the type has, or the field where it passes the end, where the refusal is that there aren't as many.
    pub wanted: Option<u64>,
    /// Whether the value is a field that passes the end of the bytes of the type that it lies in.
    pub past_end: bool,
}

impl fmt::Display for ReadError {
    fn fmt(&self, f: &mut fmt::Formatter<'_>) -> fmt::Result {
        let ReadError { declared, found, .. } = self;
        if !self.path.is_empty() {
            write!(f, "{}: ", self.path)?;
        }
        match (self.refusal, self.wanted) {
            (Refusal::Size, Some(wanted)) if self.past_end => {
                write!(
                    f,
                    "{found} bytes are left where the field, of type {declared}, has {wanted}"
                )
            }
            (Refusal::Size, Some(wanted)) => write!(f, "{found} bytes where {declared} has {wanted}"),
            (Refusal::NotFound { .. }, _) => write!(f, "the type book lacks the type {declared}: fetch it and add it"),
            (refusal, _) => write!(f, "a value of {declared}: {refusal}"),
        }
    }
}

impl Error for ReadError {}

impl<'b> TypeRef<'b> {
    /// Reads as [`read`](TypeRef::read) does, and says of a refusal where it was met.
    ///
    /// ```
    /// use typebook::{TypeBook, TypeBuilder, type_id};
    ///
    /// let book = TypeBook::builder()
    ///     .with(TypeBuilder::new("ST_Glue").size(6).field("Nozzles", "NOZZLES", 0, 6))
    ///     .with(TypeBuilder::new("NOZZLES").type_name("ST_Nozzle").size(6).dimension(2))
    ///     .with(TypeBuilder::new("ST_Nozzle").size(3).field("Flow", "UINT", 0, 3))
    ///     .with(TypeBuilder::new("UINT").id(type_id::UINT16).size(2))
    ///     .build(8)?;
    /// let refused = book.root(0)?.read_or_explain(&[0; 6]).unwrap_err();
    /// assert_eq!(refused.to_string(), "Nozzles[0].Flow: 3 bytes where UINT has 2");
    /// # Ok::<(), Box<dyn std::error::Error>>(())
    /// ```
    pub fn read_or_explain(self, memory: &[u8]) -> Result<Tape<'b>, ReadError> {
        self.read(memory)
            .map_err(|refusal| self.refused_at(memory, refusal, String::new(), 0))
    }

    /// Where and why a read of this memory is refused; none where it isn't. The parts are read with the same call, field by field and
    /// element by element, until the place is found. For nesting past level 64 (14) the place is some value on the way there, and for
    /// want of room (15) the whole.
    pub fn explain(self, memory: &[u8]) -> Option<ReadError> {
        self.read_or_explain(memory).err()
    }

    /// The type of a name in the same book.
    fn named(self, name: &str) -> Option<TypeRef<'b>> {
        let n = total::find_by(self.book_bytes(), self.book_index(), name.as_bytes())?;
        self.other(n)
    }

    /// The place of a refusal that a read of this memory met.
    fn refused_at(self, memory: &[u8], refusal: Refusal, path: String, level: usize) -> ReadError {
        let inner = match self.resolve_alias() {
            Ok(resolved) if refusal != Refusal::NoRoom && level < MOST_LEVELS => {
                resolved.refused_part(memory, refusal, &path, level)
            }
            _ => None,
        };
        inner.unwrap_or_else(|| ReadError {
            refusal,
            path,
            declared: match refusal {
                Refusal::NotFound { block } => self.type_name_at(block).into(),
                _ => self.name().into(),
            },
            found: memory.len(),
            wanted: (refusal == Refusal::Size).then(|| self.bytes_of_value(memory.len())),
            past_end: false,
        })
    }

    /// The place in a part of a resolved type's value, if the refusal was met there.
    fn refused_part(self, memory: &[u8], refusal: Refusal, path: &str, level: usize) -> Option<ReadError> {
        if self.size() as usize != memory.len() {
            return None;
        }
        match self.category() {
            Category::Struct | Category::Union | Category::FunctionBlock => {
                self.refused_field(memory, refusal, path, level)
            }
            Category::Array => self.refused_element(memory, refusal, path, level),
            _ => None,
        }
    }

    fn refused_field(self, memory: &[u8], refusal: Refusal, path: &str, level: usize) -> Option<ReadError> {
        let dot = if path.is_empty() { "" } else { "." };
        for field in self.declared_fields() {
            let path = format!("{path}{dot}{}", field.name);
            let (start, size) = (field.offset as usize, field.size as usize);
            let of = self.named(field.type_name);
            let unresolved = of.and_then(|of| of.resolve_alias().err()) == Some(refusal);
            if unresolved || refusal == (Refusal::NotFound { block: field.block }) {
                return Some(self.at_field(field, refusal, path, size));
            }
            match (memory.get(start..start + size), of) {
                // The fields before this one were read, so that this is where the read stopped.
                (None, _) if refusal == Refusal::Size => {
                    return Some(self.at_field(field, refusal, path, memory.len().saturating_sub(start)));
                }
                (Some(part), Some(of)) if of.read(part).err() == Some(refusal) => {
                    return Some(of.refused_at(part, refusal, path, level + 1));
                }
                _ => {}
            }
        }
        None
    }

    /// A field whose type doesn't resolve, or that passes the end of the bytes, of which there are `found` for it.
    fn at_field(self, field: DeclaredField, refusal: Refusal, path: String, found: usize) -> ReadError {
        ReadError {
            refusal,
            path,
            declared: match refusal {
                Refusal::NotFound { block } => self.type_name_at(block).into(),
                _ => field.type_name.into(),
            },
            found,
            wanted: (refusal == Refusal::Size).then_some(field.size.into()),
            past_end: refusal == Refusal::Size,
        }
    }

    fn refused_element(self, memory: &[u8], refusal: Refusal, path: &str, level: usize) -> Option<ReadError> {
        let element = self.named(self.type_name())?;
        let size = element.resolve_alias().ok()?.size() as usize;
        let counts: Vec<u32> = self.dimensions().collect();
        if size == 0 || product(size as u64, &counts) != Some(memory.len() as u64) {
            return None;
        }
        let refused = |part: &&[u8]| element.read(part).err() == Some(refusal);
        let n = memory.chunks_exact(size).position(|part| refused(&part))?;
        let path = format!("{path}{}", index(n, &counts));
        Some(element.refused_at(&memory[n * size..(n + 1) * size], refusal, path, level + counts.len()))
    }

    /// How many bytes a value of this type has, where a read of `found` bytes was refused with 10.
    fn bytes_of_value(self, found: usize) -> u64 {
        let t = self.resolve_alias().unwrap_or(self);
        let of_type = u64::from(t.size());
        match t.category() {
            // By the product of the counts, where the size is right.
            Category::Array if t.size() as usize == found => {
                let element = t.named(t.type_name()).and_then(|e| e.resolve_alias().ok());
                let counts: Vec<u32> = t.dimensions().collect();
                element
                    .and_then(|e| product(u64::from(e.size()), &counts))
                    .unwrap_or(of_type)
            }
            Category::Struct | Category::Union | Category::FunctionBlock | Category::Array => of_type,
            // By the type id, the name of a count of time, the pointer width or a text's size: the number of bytes that isn't refused so.
            _ => {
                let fits = |len: &usize| t.read(&[0; 8][..*len]).err() != Some(Refusal::Size);
                [1, 2, 4, 8].into_iter().find(fits).map_or(of_type, |len| len as u64)
            }
        }
    }
}

/// The element size times all counts; none past 64 bits.
fn product(size: u64, counts: &[u32]) -> Option<u64> {
    counts.iter().try_fold(size, |sum, &n| sum.checked_mul(n.into()))
}

/// The index of element `n` in each dimension, in brackets.
fn index(n: usize, counts: &[u32]) -> String {
    let (mut rest, mut parts) = (n as u64, Vec::new());
    for &count in counts.iter().rev() {
        parts.push(rest % u64::from(count));
        rest /= u64::from(count);
    }
    let mut out = String::new();
    for (i, part) in parts.iter().rev().enumerate() {
        let comma = if i == 0 { "[" } else { "," };
        write!(out, "{comma}{part}").expect("a string");
    }
    out + "]"
}
