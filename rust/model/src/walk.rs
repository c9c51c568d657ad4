//! The two walks over the types that a type is made of.

use crate::category::{Category, determine};
use crate::resolve::resolve;
use crate::{Book, Stop, block};
use std::collections::HashSet;

const MOST_NAMES: usize = 4_096;

/// A name that is to be visited, and the block that names it.
type Due<'a> = (&'a [u8], u32);

/// Lays the names that type `t` is made of on the stack.
fn push<'a>(book: &Book<'a>, category: Category, t: u32, stack: &mut Vec<Due<'a>>) {
    match category {
        Category::Array => stack.push((block::type_name(book.bytes, t), t)),
        Category::Struct | Category::Union | Category::FunctionBlock => {
            let fields = 1..=block::fields(book.bytes, t);
            stack.extend(fields.map(|i| (block::type_name(book.bytes, t + i), t + i)));
        }
        _ => {}
    }
}

/// The type that a name comes to.
fn come_to(book: &Book, width: u8, (name, by): Due) -> Result<u32, Stop> {
    resolve(book, width, book.find(name).ok_or(Stop::Missing(by))?, false)
}

/// Whether a function block lies anywhere in the type.
pub fn requires_read_modify_write(book: &Book, width: u8, root: u32) -> Result<bool, Stop> {
    let mut stack = vec![(block::name(book.bytes, root), root)];
    let mut met = HashSet::new();
    while let Some(due) = stack.pop() {
        if !met.insert(due.0) {
            continue;
        }
        if met.len() > MOST_NAMES {
            return Err(Stop::Number(9));
        }
        let t = come_to(book, width, due)?;
        match determine(book.bytes, width, t) {
            Category::FunctionBlock | Category::Program => return Ok(true),
            category => push(book, category, t, &mut stack),
        }
    }
    Ok(false)
}

/// What the book lacks for a type.
#[derive(Debug, Clone, PartialEq, Eq)]
pub struct Missing {
    /// The blocks whose type names aren't in the book, in the order found.
    pub blocks: Vec<u32>,
    /// No chain was too long, and no name one too many.
    pub whole: bool,
    /// Distinct names met.
    pub count: usize,
}

/// The types that the book lacks for a type.
pub fn missing_types(book: &Book, width: u8, root: u32) -> Missing {
    let mut out = Missing {
        blocks: Vec::new(),
        whole: true,
        count: 0,
    };
    let mut stack = vec![(block::name(book.bytes, root), root)];
    let mut met = HashSet::new();
    while let Some(due) = stack.pop() {
        if !met.insert(due.0) {
            continue;
        }
        if met.len() > MOST_NAMES {
            out.whole = false;
            break;
        }
        match come_to(book, width, due) {
            Ok(t) => push(book, determine(book.bytes, width, t), t, &mut stack),
            Err(Stop::Missing(by)) => out.blocks.push(by),
            Err(Stop::Number(_)) => out.whole = false,
        }
    }
    out.count = met.len();
    out
}
