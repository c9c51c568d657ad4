//! Document 01's refusals, with words for whoever meets one at night.

use std::error::Error;
use std::fmt;

/// The number that stands for a root's name which the book lacks, in refusal 7 and in a missing list; no block has it.
pub const LACKING_ROOT: u32 = 4_294_967_295;

/// Why a call was refused: document 01's table, number by number, and 23 and 24 of document 02.
#[non_exhaustive]
#[derive(Debug, Clone, Copy, PartialEq, Eq, Hash)]
pub enum Refusal {
    /// 1: the book isn't whole blocks, has over 65,536 of them, or passes its buffer.
    BookSize,
    /// 2: a block's sum differs.
    Sum,
    /// 3: a block isn't of the form, or stands out of its place.
    Form,
    /// 4: two types have one name.
    DoubledName,
    /// 5: the root isn't a type block.
    Root,
    /// 6: index, scratch or list are too short.
    Scratch,
    /// 7: a type name isn't in the book; the block is the one that names it.
    NotFound {
        /// The block whose type name wasn't found, or [`LACKING_ROOT`] for the root's own name.
        block: u32,
    },
    /// 8: an alias chain of 32 hops or more.
    AliasChain,
    /// 9: over 4,096 distinct type names.
    TooManyTypes,
    /// 10: the bytes aren't as many as the type has.
    Size,
    /// 11: the type's id can't be read.
    Unreadable,
    /// 12: no entry of the enumeration has this value.
    UnlistedEnum,
    /// 13: a pointer is to be read, and the pointer width is not 2, 4 or 8.
    PointerWidth,
    /// 14: nested past level 64.
    TooDeep,
    /// 15: no room left in tape, text, records or book buffer, or a book that would pass 65,536 blocks.
    NoRoom,
    /// 16: the tape isn't of the form.
    TapeForm,
    /// 17: the value doesn't go with the type.
    Mismatch,
    /// 18: the type has no field or entry of that name.
    UnknownName,
    /// 19: the integer doesn't fit.
    OutOfRange,
    /// 23: a root's name isn't 0 to 200 bytes from 20h to 7Eh.
    RootName,
    /// 24: the type counts no moments, or a count or parts name none of it.
    NoMoment,
}

impl Refusal {
    /// The refusal of a number that the library answered, for 7 with its block; none for a number that is none of document 01's table.
    pub fn from_number(number: u8, block: u64) -> Option<Refusal> {
        Some(match number {
            1 => Refusal::BookSize,
            2 => Refusal::Sum,
            3 => Refusal::Form,
            4 => Refusal::DoubledName,
            5 => Refusal::Root,
            6 => Refusal::Scratch,
            7 => Refusal::NotFound { block: block as u32 },
            8 => Refusal::AliasChain,
            9 => Refusal::TooManyTypes,
            10 => Refusal::Size,
            11 => Refusal::Unreadable,
            12 => Refusal::UnlistedEnum,
            13 => Refusal::PointerWidth,
            14 => Refusal::TooDeep,
            15 => Refusal::NoRoom,
            16 => Refusal::TapeForm,
            17 => Refusal::Mismatch,
            18 => Refusal::UnknownName,
            19 => Refusal::OutOfRange,
            23 => Refusal::RootName,
            24 => Refusal::NoMoment,
            _ => return None,
        })
    }

    /// The number of the table: document 01's 1 to 19, 23 and 24.
    pub fn number(self) -> u8 {
        match self {
            Refusal::BookSize => 1,
            Refusal::Sum => 2,
            Refusal::Form => 3,
            Refusal::DoubledName => 4,
            Refusal::Root => 5,
            Refusal::Scratch => 6,
            Refusal::NotFound { .. } => 7,
            Refusal::AliasChain => 8,
            Refusal::TooManyTypes => 9,
            Refusal::Size => 10,
            Refusal::Unreadable => 11,
            Refusal::UnlistedEnum => 12,
            Refusal::PointerWidth => 13,
            Refusal::TooDeep => 14,
            Refusal::NoRoom => 15,
            Refusal::TapeForm => 16,
            Refusal::Mismatch => 17,
            Refusal::UnknownName => 18,
            Refusal::OutOfRange => 19,
            Refusal::RootName => 23,
            Refusal::NoMoment => 24,
        }
    }

    /// What is wrong, and where to look.
    fn words(self) -> &'static str {
        match self {
            Refusal::BookSize => {
                "the type book is cut off or too long (it must be whole blocks of 512 bytes, at most 65,536 of them): load it again"
            }
            Refusal::Sum => "the type book is damaged (a block's check sum is wrong): load it again",
            Refusal::Form => {
                "the type book isn't well made (a block is of the wrong form or stands in the wrong place): ask who made it"
            }
            Refusal::DoubledName => {
                "the type book has two types of one name, or already has the type that was to be added"
            }
            Refusal::Root => "there is no type at this block number of the type book",
            Refusal::Scratch => "the caller lent too little working memory (8,192 numbers, and 4,096 for a list)",
            Refusal::NotFound { .. } => "a type is missing in the type book: fetch it from the controller and add it",
            Refusal::AliasChain => {
                "a type is an alias of an alias and so on, 32 times or without end: the type list is corrupt"
            }
            Refusal::TooManyTypes => {
                "the type is made of more than 4,096 types: whether it holds a function block can't be told"
            }
            Refusal::Size => {
                "the number of bytes isn't the size of the type: the program on the controller may be newer than the type book"
            }
            Refusal::Unreadable => "a value of this type can't be read (its type id isn't a number, a bool or a text)",
            Refusal::UnlistedEnum => "the memory holds a number that the enumeration doesn't list",
            Refusal::PointerWidth => "a pointer can't be read: the controller's pointers must have 2, 4 or 8 bytes",
            Refusal::TooDeep => "values lie in one another more than 64 deep: a type may hold itself",
            Refusal::NoRoom => "there is no room for the answer: lend a larger buffer",
            Refusal::TapeForm => {
                "the values to be written are not well made: this is a fault in the program that made them"
            }
            Refusal::Mismatch => "a value doesn't go with the type that it is to be written to",
            Refusal::UnknownName => "the type has no field or enumeration entry of that name",
            Refusal::OutOfRange => "a number is too large or too small for the type that it is to be written to",
            Refusal::RootName => "the root's name can't be a type's: it has over 200 bytes, or others than 20h to 7Eh",
            Refusal::NoMoment => "this is no date or time of day that the type can hold",
        }
    }
}

impl fmt::Display for Refusal {
    fn fmt(&self, f: &mut fmt::Formatter<'_>) -> fmt::Result {
        write!(f, "refusal {}: {}", self.number(), self.words())?;
        match self {
            Refusal::NotFound { block: LACKING_ROOT } => write!(f, " (it is the root itself)"),
            Refusal::NotFound { block } => write!(f, " (block {block} names it)"),
            _ => Ok(()),
        }
    }
}

impl Error for Refusal {}

#[cfg(test)]
mod tests {
    use super::{LACKING_ROOT, Refusal};

    #[test]
    fn numbers_there_and_back() {
        for n in (1..=19).chain([23, 24]) {
            let refusal = Refusal::from_number(n, 5).expect("a refusal");
            assert_eq!(refusal.number(), n);
            assert!(refusal.to_string().starts_with(&format!("refusal {n}: ")));
        }
        assert_eq!(Refusal::from_number(7, 5), Some(Refusal::NotFound { block: 5 }));
        let told = |block| Refusal::NotFound { block }.to_string();
        assert!(told(5).ends_with("(block 5 names it)"));
        assert!(told(LACKING_ROOT).ends_with("(it is the root itself)"));
    }

    #[test]
    fn no_others() {
        for n in (20..=22).chain(25..=255).chain([0]) {
            assert_eq!(Refusal::from_number(n, 0), None);
        }
    }
}
