//! What a type's own blocks say of it, as it was declared: nothing here is resolved.

use crate::book::{BLOCK, TypeRef, name_in};
use crate::ffi::total;

/// A field as it was declared.
#[derive(Debug, Clone, Copy, PartialEq, Eq)]
pub struct DeclaredField<'b> {
    /// The field's block.
    pub block: u32,
    /// The field's name.
    pub name: &'b str,
    /// The name of its type.
    pub type_name: &'b str,
    /// Where it begins in its type.
    pub offset: u32,
    /// How many bytes it has.
    pub size: u32,
}

/// An entry of an enumeration.
#[derive(Debug, Clone, Copy, PartialEq, Eq)]
pub struct EnumEntry<'b> {
    /// The entry's block.
    pub block: u32,
    /// The entry's name.
    pub name: &'b str,
    /// Its value as the memory holds it, low byte first: 0 to 8 bytes.
    pub value: &'b [u8],
}

impl EnumEntry<'_> {
    /// Its value as an unsigned number.
    pub fn unsigned(&self) -> u64 {
        self.value.iter().rev().fold(0, |sum, &b| sum << 8 | u64::from(b))
    }

    /// Its value as a signed number: of an enumeration over SINT, INT, DINT or LINT.
    ///
    /// ```
    /// use typebook::{TypeBook, TypeBuilder, type_id};
    ///
    /// let e = TypeBuilder::new("E").id(type_id::INT16).size(2).enumeration().entry("NONE", &[0xFF, 0xFF]).entry("PUR", &[1, 0]);
    /// let book = TypeBook::builder().with(e).build(8)?;
    /// let entries: Vec<(&str, i64)> = book.root(0)?.entries().map(|e| (e.name, e.signed())).collect();
    /// assert_eq!(entries, [("NONE", -1), ("PUR", 1)]);
    /// # Ok::<(), Box<dyn std::error::Error>>(())
    /// ```
    pub fn signed(&self) -> i64 {
        match self.value.len() {
            0 => 0,
            len => {
                let shift = 64 - 8 * len as u32;
                (self.unsigned() << shift) as i64 >> shift
            }
        }
    }
}

impl<'b> TypeRef<'b> {
    fn own(self) -> &'b [u8] {
        let at = self.block() as usize * BLOCK;
        &self.book_bytes()[at..at + BLOCK]
    }

    fn number(self, at: usize) -> u32 {
        number_in(self.own(), at)
    }

    /// Its blocks: its own, those of its fields, those of its entries. They can be [appended](crate::TypeBook::append) to another book.
    ///
    /// ```
    /// # use typebook::{TypeBook, TypeBuilder};
    /// let recipe = TypeBuilder::new("S").size(2).field("x", "INT", 0, 2);
    /// let int = TypeBuilder::new("INT").id(2).size(2);
    /// let controller = TypeBook::builder().with(int).with(recipe.clone()).build(8)?;
    /// let mut ours = TypeBook::builder().with(recipe).build(8)?;
    /// if let Some(int) = controller.find("INT") {
    ///     ours.append(int.blocks())?;
    /// }
    /// assert!(ours.root(0)?.missing_types()?.is_complete());
    /// # Ok::<(), Box<dyn std::error::Error>>(())
    /// ```
    pub fn blocks(self) -> &'b [u8] {
        let start = self.block() as usize * BLOCK;
        let count = 1 + self.number(12) as usize + self.number(16) as usize;
        &self.book_bytes()[start..start + count * BLOCK]
    }

    /// Its size in bytes.
    ///
    /// ```
    /// # use typebook::{TypeBook, TypeBuilder, type_id};
    /// let book = TypeBook::builder()
    ///     .with(TypeBuilder::new("ARRAY [0..1,0..2] OF INT").type_name("INT").size(12).dimension(2).dimension(3))
    ///     .with(TypeBuilder::new("INT").id(type_id::INT16).size(2))
    ///     .build(8)?;
    /// let array = book.root(0)?;
    /// assert_eq!((array.size(), array.type_id()), (12, type_id::BIG_TYPE));
    /// assert_eq!(array.dimensions().collect::<Vec<_>>(), [2, 3]);
    /// # Ok::<(), Box<dyn std::error::Error>>(())
    /// ```
    pub fn size(self) -> u32 {
        self.number(8)
    }

    /// Its type id: one of [`type_id`](crate::type_id), or any other number.
    pub fn type_id(self) -> u32 {
        self.number(4)
    }

    /// The number of elements in each of its dimensions, the outermost first; none where it is no array.
    pub fn dimensions(self) -> impl ExactSizeIterator<Item = u32> + 'b {
        let own = self.own();
        own[20..20 + 4 * usize::from(own[2])]
            .chunks_exact(4)
            .map(|count| number_in(count, 0))
    }

    /// Its fields in order, as they were declared. [`fields`](TypeRef::fields) has them with their types resolved.
    pub fn declared_fields(self) -> impl ExactSizeIterator<Item = DeclaredField<'b>> {
        let (book, first) = (self.book_bytes(), self.block() + 1);
        (first..first + self.number(12)).map(move |block| {
            let own = &book[block as usize * BLOCK..][..BLOCK];
            DeclaredField {
                block,
                name: name_in(book, block, total::name),
                type_name: name_in(book, block, total::type_name),
                offset: number_in(own, 4),
                size: number_in(own, 8),
            }
        })
    }

    /// Its enumeration entries in order, with their values.
    pub fn entries(self) -> impl ExactSizeIterator<Item = EnumEntry<'b>> {
        let (book, first) = (self.book_bytes(), self.block() + 1 + self.number(12));
        (first..first + self.number(16)).map(move |block| {
            let own = &book[block as usize * BLOCK..][..BLOCK];
            EnumEntry {
                block,
                name: name_in(book, block, total::name),
                value: &own[20..20 + usize::from(own[1])],
            }
        })
    }
}

fn number_in(block: &[u8], at: usize) -> u32 {
    u32::from_le_bytes([block[at], block[at + 1], block[at + 2], block[at + 3]])
}
