//! The category of a type: the first match wins.

use crate::block;

/// In the order of the Rust's list.
#[derive(Debug, Clone, Copy, PartialEq, Eq)]
#[allow(missing_docs)]
pub enum Category {
    None,
    Primitive,
    Alias,
    Enum,
    Array,
    Struct,
    FunctionBlock,
    Program,
    Function,
    SubRange,
    String,
    Bitset,
    Pointer,
    Union,
    Reference,
    Interface,
}

use Category::*;

const NAMED: [&[u8]; 13] = [
    b"TOD",
    b"DT",
    b"TIME",
    b"DATE",
    b"LTIME",
    b"TIME_OF_DAY",
    b"DATE_AND_TIME",
    b"UXINT",
    b"XINT",
    b"XWORD",
    b"__UXINT",
    b"__XINT",
    b"__XWORD",
];

/// The category of block `n`, for pointers of `width` bytes.
pub fn determine(book: &[u8], width: u8, n: u32) -> Category {
    let name = block::name(book, n);
    if block::flag(book, n, 0) || name == b"PVOID" || name == b"PCCH" || name.starts_with(b"POINTER TO") {
        return Pointer;
    }
    if block::flag(book, n, 1) || name.starts_with(b"REFERENCE TO") {
        return Reference;
    }
    if block::byte(book, n, 2) > 0 {
        return Array;
    }
    if block::flag(book, n, 2) {
        return Enum;
    }
    if name.contains(&b'(') && name.contains(&b')') && name.windows(2).any(|w| w == b"..") {
        return SubRange;
    }
    let (fields, methods) = (block::fields(book, n), block::flag(book, n, 3));
    if !block::type_name(book, n).is_empty() && fields == 0 && !methods {
        return if name == b"BOOL" { Primitive } else { Alias };
    }
    match block::id(book, n) {
        2..=5 | 16..=21 | 32 => Primitive,
        33 => Bitset,
        30 | 31 => String,
        _ if NAMED.contains(&name) => Primitive,
        _ => by_parts(book, width, n, fields, methods),
    }
}

/// Unions, function blocks, interfaces and structs.
fn by_parts(book: &[u8], width: u8, n: u32, fields: u32, methods: bool) -> Category {
    let first = block::offset(book, n.saturating_add(1));
    let nameless = block::type_name(book, n).is_empty();
    if fields > 1 && nameless && !methods && first == block::offset(book, n.saturating_add(2)) {
        return Union;
    }
    let implements = block::flag(book, n, 4);
    let size = block::size(book, n);
    if methods {
        return match implements {
            true => FunctionBlock,
            false if fields == 0 || size == u32::from(width) => Interface,
            false => FunctionBlock,
        };
    }
    if fields > 0 {
        return if first > 0 { FunctionBlock } else { Struct };
    }
    if size == 0 && !block::name(book, n).is_empty() {
        return Struct;
    }
    match size {
        _ if implements => FunctionBlock,
        4 | 8 => Interface,
        _ if size.is_multiple_of(4) && size > 8 => FunctionBlock,
        _ => None,
    }
}
