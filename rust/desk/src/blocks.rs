//! What a block's bytes say beside what the crate tells (docs/FORMAT.md, section 1), and words for it.

use typebook::{Category, TypeBook};

const BLOCK: usize = 512;

fn byte(book: &TypeBook, block: u32, at: usize) -> u8 {
    book.bytes()[BLOCK * block as usize + at]
}

/// Whether a block is a field's.
pub fn is_field(book: &TypeBook, block: u32) -> bool {
    byte(book, block, 0) == 2
}

/// Whether a type has methods.
pub fn has_methods(book: &TypeBook, block: u32) -> bool {
    byte(book, block, 1) & 8 != 0
}

/// Whether a type has the attribute TcImplements.
pub fn implements(book: &TypeBook, block: u32) -> bool {
    byte(book, block, 1) & 16 != 0
}

/// The type that a field or entry block stands in: the nearest type block before it.
pub fn holder(book: &TypeBook, block: u32) -> u32 {
    (0..=block).rev().find(|&n| byte(book, n, 0) == 1).unwrap_or(0)
}

/// A category in words.
pub fn word(category: Category) -> &'static str {
    match category {
        Category::None => "none",
        Category::Primitive => "primitive",
        Category::Alias => "alias",
        Category::Enum => "enum",
        Category::Array => "array",
        Category::Struct => "struct",
        Category::FunctionBlock => "function block",
        Category::Program => "program",
        Category::Function => "function",
        Category::SubRange => "subrange",
        Category::String => "string",
        Category::Bitset => "bit",
        Category::Pointer => "pointer",
        Category::Union => "union",
        Category::Reference => "reference",
        Category::Interface => "interface",
    }
}
