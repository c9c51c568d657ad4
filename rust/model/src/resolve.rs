//! Alias chains and the fields of a type.

use crate::category::{Category, determine};
use crate::{Book, Stop, block};

const MOST_HOPS: usize = 32;

/// The block that a type's aliases come to, with `references` its references too.
pub fn resolve(book: &Book, width: u8, t: u32, references: bool) -> Result<u32, Stop> {
    let mut at = t;
    for _ in 0..MOST_HOPS {
        match determine(book.bytes, width, at) {
            Category::Alias => {}
            Category::Reference if references => {}
            _ => return Ok(at),
        }
        at = book.find(block::type_name(book.bytes, at)).ok_or(Stop::Missing(at))?;
    }
    Err(Stop::Number(8))
}

/// The resolved type that block `b` names, as a field or as an array.
pub fn look_up(book: &Book, width: u8, b: u32) -> Result<u32, Stop> {
    let found = book.find(block::type_name(book.bytes, b)).ok_or(Stop::Missing(b))?;
    resolve(book, width, found, false)
}

/// A field with its resolved type.
#[derive(Debug, Clone, Copy, PartialEq, Eq)]
#[allow(missing_docs)]
pub struct Field {
    pub offset: u32,
    pub size: u32,
    pub resolved: u32,
    pub field: u32,
}

/// Field block `f`.
pub fn field(book: &Book, width: u8, f: u32) -> Result<Field, Stop> {
    let resolved = look_up(book, width, f)?;
    Ok(Field {
        offset: block::offset(book.bytes, f),
        size: block::size(book.bytes, f),
        resolved,
        field: f,
    })
}

/// The fields of type block `t`, in order.
pub fn fields(book: &Book, width: u8, t: u32) -> Result<Vec<Field>, Stop> {
    (1..=block::fields(book.bytes, t))
        .map(|i| field(book, width, t + i))
        .collect()
}

/// The same where `room` records may be given: 15 before the look-up of the field whose record doesn't fit.
pub fn fields_within(book: &Book, width: u8, t: u32, room: usize) -> Result<Vec<Field>, Stop> {
    let mut out = Vec::new();
    for i in 1..=block::fields(book.bytes, t) {
        if out.len() == room {
            return Err(Stop::Number(15));
        }
        out.push(field(book, width, t + i)?);
    }
    Ok(out)
}
