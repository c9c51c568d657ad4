//! The type book, checked once, and its types.

use crate::category::Category;
use crate::ffi::{Checked, TypeBlock, total};
use crate::refusal::{LACKING_ROOT, Refusal};
use crate::root::{Given, Root};
use crate::tape::{RECORD, Tape};
use std::borrow::Cow;
use std::collections::{HashMap, HashSet};
use std::fmt;

pub(crate) const BLOCK: usize = 512;
pub(crate) const SCRATCH: usize = 8_192;
const LIST: usize = 4_096;

/// 0 as success, any other number as its refusal.
fn done(number: u8, values: &[u64]) -> Result<(), Refusal> {
    match number {
        0 => Ok(()),
        n => Err(told(n, values[0])),
    }
}

/// The refusal of a number that a call of the library answered.
pub(crate) fn told(number: u8, block: u64) -> Refusal {
    Refusal::from_number(number, block).expect("the library answers the numbers of document 01's table")
}

/// A type book that was checked: document 01's refusals 1 to 4 are behind it.
///
/// It owns its bytes or borrows them, and keeps an index, of its names and of the type that each block names, so that look-ups and
/// walks are quick. Nothing but [`append`](TypeBook::append) and its like changes a checked book, and
/// these only make it longer.
///
/// A book, its types and its tapes are [`Send`] and [`Sync`]: one book serves many threads, by an `Arc` or by a clone, which shares the
/// bytes that the book owns. Its types' names live as long as the book, also those of a tape's records
/// ([`Record::name_in`](crate::Record::name_in), [`Record::declared_in`](crate::Record::declared_in)).
#[derive(Clone)]
pub struct TypeBook<'a> {
    pub(crate) checked: Checked<'a>,
    width: u8,
}

impl<'a> TypeBook<'a> {
    /// Checks a book. `width` is the controller's pointer width in bytes: 8 on a machine of 64 bits, 4 on one of 32. By it an
    /// interface is told from a function block, so a wrong one can give a wrong "no".
    ///
    /// ```
    /// use typebook::{Refusal, TypeBook, TypeBuilder};
    ///
    /// let bytes = TypeBuilder::new("S").size(4).field("A", "INT", 0, 2).field("B", "INT", 2, 2).blocks()?;
    /// let borrowed = TypeBook::new(&bytes[..], 8)?;
    /// assert_eq!(borrowed.blocks(), 3);
    /// let mut damaged = bytes.clone();
    /// damaged[8] += 1;
    /// assert_eq!(TypeBook::new(damaged, 8).unwrap_err(), Refusal::Sum);
    /// # Ok::<(), Box<dyn std::error::Error>>(())
    /// ```
    pub fn new(bytes: impl Into<Cow<'a, [u8]>>, width: u8) -> Result<Self, Refusal> {
        match Checked::new(bytes.into()) {
            Ok(checked) => Ok(Self { checked, width }),
            Err(number) => Err(told(number, 0)),
        }
    }

    /// Checks a book of which only a walk or two are asked, as while it is completed type by type: its index is one of the names
    /// alone, since the part for the blocks costs about what one walk gains by it. Every answer is the same.
    ///
    /// ```
    /// use typebook::{TypeBook, TypeBuilder};
    ///
    /// let bytes = TypeBuilder::new("INT").id(2).size(2).blocks()?;
    /// let book = TypeBook::names_only(&bytes[..], 8)?;
    /// assert!(!book.root(0)?.requires_read_modify_write()?);
    /// # Ok::<(), Box<dyn std::error::Error>>(())
    /// ```
    pub fn names_only(bytes: impl Into<Cow<'a, [u8]>>, width: u8) -> Result<Self, Refusal> {
        match Checked::names_only(bytes.into()) {
            Ok(checked) => Ok(Self { checked, width }),
            Err(number) => Err(told(number, 0)),
        }
    }

    /// The book with nothing in it, to begin with where no type is known yet. `width` is the controller's pointer width, as with
    /// [`new`](TypeBook::new).
    ///
    /// ```
    /// use typebook::{TypeBook, TypeBuilder, type_id};
    ///
    /// let mut book = TypeBook::empty(8);
    /// book.append(&TypeBuilder::new("BYTE").id(type_id::UINT8).size(1).blocks()?)?;
    /// assert_eq!(book.root("BYTE")?.block(), 0);
    /// # Ok::<(), Box<dyn std::error::Error>>(())
    /// ```
    pub fn empty(width: u8) -> TypeBook<'static> {
        TypeBook::new(&[][..], width).expect("a book of no bytes is valid")
    }

    /// The controller's pointer width in bytes, as it was given with the book.
    pub fn width(&self) -> u8 {
        self.width
    }

    /// The same book for a controller of another pointer width.
    pub fn with_width(self, width: u8) -> Self {
        Self { width, ..self }
    }

    /// The book's bytes.
    pub fn bytes(&self) -> &[u8] {
        self.checked.bytes()
    }

    /// The same book, needing nobody who lent its bytes: lent bytes are copied, its own are not.
    pub fn into_owned(self) -> TypeBook<'static> {
        TypeBook {
            checked: self.checked.into_kept(),
            width: self.width,
        }
    }

    /// The book's bytes, given back.
    pub fn into_bytes(self) -> Cow<'a, [u8]> {
        self.checked.into_bytes()
    }

    /// How long an index of the book's names serves well.
    pub(crate) fn slots(&self) -> usize {
        self.checked.slots()
    }

    /// The number of blocks; types, fields and enumeration entries have one each.
    pub fn blocks(&self) -> u32 {
        (self.bytes().len() / BLOCK) as u32
    }

    /// The type at a block number, 5 if there is none; or the type of a name, 7 with [`LACKING_ROOT`] if the book lacks it, 23 if no type
    /// can have it.
    pub fn root(&self, root: impl Root) -> Result<TypeRef<'_>, Refusal> {
        match root.given() {
            Given::Number(block) => {
                let found = u32::try_from(block).ok().and_then(|n| self.type_at(n));
                found.ok_or(Refusal::Root)
            }
            Given::Name(name) => self.find(name).ok_or_else(|| self.not_found(name)),
        }
    }

    /// Why there is no type of a name: 7 or 23.
    fn not_found(&self, name: &str) -> Refusal {
        let (bytes, mut values) = (self.bytes(), [0; 1]);
        let number = total::resolve_alias_named(bytes, bytes.len(), self.width, name.as_bytes(), &mut values);
        told(number, values[0])
    }

    /// The type of a name.
    pub fn find(&self, name: &str) -> Option<TypeRef<'_>> {
        let n = total::find_by(self.bytes(), self.checked.name_index(), name.as_bytes())?;
        self.type_at(n)
    }

    /// The type at a block number, if it is one.
    pub(crate) fn type_at(&self, block: u32) -> Option<TypeRef<'_>> {
        self.checked.type_block(block).map(|block| self.type_ref(block))
    }

    fn type_ref<'b>(&'b self, block: TypeBlock<'b>) -> TypeRef<'b> {
        let width = self.width;
        TypeRef { block, width }
    }

    /// The types that a root is made of and that the book lacks. A root that is given by its name may be lacking itself: then
    /// [`LACKING_ROOT`](crate::LACKING_ROOT) is listed alone. [`Missing::names`] has the names.
    ///
    /// ```
    /// use typebook::{LACKING_ROOT, TypeBook, TypeBuilder};
    ///
    /// let mut book = TypeBook::empty(8);
    /// let missing = book.missing_types("S")?;
    /// assert_eq!((missing.blocks, missing.whole, missing.count), (vec![LACKING_ROOT], true, 1));
    /// book.append(&TypeBuilder::new("S").size(2).field("x", "INT", 0, 2).blocks()?)?;
    /// let missing = book.missing_types("S")?;
    /// assert_eq!(missing.names(&book, "S"), ["INT"]);
    /// # Ok::<(), Box<dyn std::error::Error>>(())
    /// ```
    pub fn missing_types(&self, root: impl Root) -> Result<Missing, Refusal> {
        match (self.root(root), root.given()) {
            (Ok(t), _) => t.missing_types(),
            (Err(Refusal::NotFound { .. }), Given::Name(name)) => self.missing_root(name),
            (Err(refusal), _) => Err(refusal),
        }
    }

    /// What is missing for a name that the book lacks.
    fn missing_root(&self, name: &str) -> Result<Missing, Refusal> {
        let (bytes, index) = (self.bytes(), vec![0; total::INDEX]);
        let (mut scratch, mut values) = (Scratch::new(), [0; 3]);
        let number = total::missing_types_named(
            bytes,
            bytes.len(),
            &index,
            self.width,
            name.as_bytes(),
            &mut scratch.numbers,
            &mut scratch.list,
            &mut values,
        );
        done(number, &values)?;
        Ok(Missing::told(&scratch.list, values))
    }

    /// All types, in the order of the book.
    pub fn types(&self) -> impl Iterator<Item = TypeRef<'_>> {
        self.types_from(0)
    }

    /// The types from a block on.
    pub(crate) fn types_from(&self, block: u32) -> impl Iterator<Item = TypeRef<'_>> {
        (block..self.blocks()).filter_map(|n| self.type_at(n))
    }

    /// The name that a block has: a type's, a field's or an enumeration entry's. Empty past the book.
    pub fn name(&self, block: u32) -> &str {
        name_in(self.bytes(), block, total::name)
    }

    /// The type name that a block has. After a refusal 7 this is the name that is missing.
    ///
    /// ```
    /// use typebook::{Refusal, TypeBook, TypeBuilder};
    ///
    /// let book = TypeBook::builder().with(TypeBuilder::new("S").size(2).field("x", "FOO", 0, 2)).build(8)?;
    /// let refused = book.root(0)?.read(&[1, 2]).unwrap_err();
    /// let Refusal::NotFound { block } = refused else { panic!() };
    /// assert_eq!(book.type_name(block), "FOO");
    /// # Ok::<(), Box<dyn std::error::Error>>(())
    /// ```
    pub fn type_name(&self, block: u32) -> &str {
        name_in(self.bytes(), block, total::type_name)
    }
}

impl fmt::Debug for TypeBook<'_> {
    fn fmt(&self, f: &mut fmt::Formatter<'_>) -> fmt::Result {
        f.debug_struct("TypeBook")
            .field("blocks", &self.blocks())
            .finish_non_exhaustive()
    }
}

/// Working memory of the two walks, to be used again from call to call.
#[derive(Debug, Clone)]
pub struct Scratch {
    numbers: Vec<u32>,
    list: Vec<u32>,
}

impl Scratch {
    /// As much as document 01 asks for.
    pub fn new() -> Self {
        Self {
            numbers: vec![0; SCRATCH],
            list: vec![0; LIST],
        }
    }
}

impl Default for Scratch {
    fn default() -> Self {
        Self::new()
    }
}

/// How much a read may fill before it is refused with 15.
#[derive(Debug, Clone, Copy, PartialEq, Eq)]
pub struct Room {
    /// Records on the tape, 24 bytes each.
    pub records: usize,
    /// Bytes of text.
    pub text: usize,
}

impl Default for Room {
    /// A million records and 16 MB of text.
    fn default() -> Self {
        Self {
            records: 1 << 20,
            text: 1 << 24,
        }
    }
}

/// What the book lacks for a type. An empty list alone doesn't say that it lacks nothing: ask [`is_complete`](Missing::is_complete).
#[must_use = "a book that lacks a type, or a walk that isn't whole, makes a \"no\" worthless"]
#[derive(Debug, Clone, PartialEq, Eq)]
pub struct Missing {
    /// The blocks whose type names aren't in the book, in the order found; a name may be listed more than once. [`LACKING_ROOT`] is no block: it
    /// stands alone, for a root's own name.
    pub blocks: Vec<u32>,
    /// Whether the walk is whole: no alias chain was too long, and there were no more than 4,096 names.
    pub whole: bool,
    /// The number of distinct type names met.
    pub count: usize,
}

impl Missing {
    /// What a walk says by its list and its three values.
    fn told(list: &[u32], [listed, whole, count]: [u64; 3]) -> Self {
        Self {
            blocks: list[..listed as usize].to_vec(),
            whole: whole == 1,
            count: count as usize,
        }
    }

    /// Whether the book lacks nothing: nothing is listed, and the walk is whole. A walk that isn't whole may have stopped before a type
    /// that is missing.
    #[must_use]
    pub fn is_complete(&self) -> bool {
        self.blocks.is_empty() && self.whole
    }

    /// The names that are missing, each once, in the order found: each block's type name in the book that was asked, or, where that is
    /// what is missing, the name of the root that was asked for.
    ///
    /// ```
    /// use typebook::{TypeBook, TypeBuilder};
    ///
    /// let recipe = TypeBuilder::new("S").size(6).field("x", "FOO", 0, 2).field("y", "BAR", 2, 2).field("z", "FOO", 4, 2);
    /// let mut book = TypeBook::empty(8);
    /// let missing = book.missing_types("S")?;
    /// assert_eq!(missing.names(&book, "S"), ["S"]);
    /// book.append(&recipe.blocks()?)?;
    /// let missing = book.missing_types("S")?;
    /// assert_eq!(missing.names(&book, "S"), ["FOO", "BAR"]);
    /// assert!(!missing.is_complete());
    /// # Ok::<(), Box<dyn std::error::Error>>(())
    /// ```
    pub fn names(&self, book: &TypeBook, root: impl Root) -> Vec<String> {
        let mut met = HashSet::new();
        let names = self.blocks.iter().map(|&block| match (block, root.given()) {
            (LACKING_ROOT, Given::Name(name)) => name.to_string(),
            _ => book.type_name(block).to_string(),
        });
        names.filter(|name| met.insert(name.clone())).collect()
    }
}

/// A field of a type, its own type resolved.
#[derive(Debug, Clone, Copy)]
pub struct ResolvedField<'b> {
    /// Where the field begins in its type.
    pub offset: u32,
    /// How many bytes it has.
    pub size: u32,
    /// Its type, aliases resolved.
    pub resolved: TypeRef<'b>,
    /// The field's block.
    pub field: u32,
    /// The field's name.
    pub name: &'b str,
}

/// A type of a checked book.
#[derive(Clone, Copy)]
pub struct TypeRef<'b> {
    block: TypeBlock<'b>,
    width: u8,
}

impl<'b> TypeRef<'b> {
    /// The number of its block.
    pub fn block(self) -> u32 {
        self.block.number()
    }

    /// Its name.
    pub fn name(self) -> &'b str {
        self.part(total::name)
    }

    /// The name of the type that it is an alias or an array of; mostly empty for others.
    pub fn type_name(self) -> &'b str {
        self.part(total::type_name)
    }

    fn part(self, place: fn(&[u8], u32, &mut [u64]) -> u8) -> &'b str {
        name_in(self.book_bytes(), self.block(), place)
    }

    pub(crate) fn book_bytes(self) -> &'b [u8] {
        self.block.book().bytes()
    }

    pub(crate) fn book_index(self) -> &'b [u32] {
        self.block.book().index()
    }

    /// The type at a block number of the same book, if it is one.
    pub(crate) fn other(self, block: u32) -> Option<TypeRef<'b>> {
        let width = self.width;
        let found = self.block.book().type_block(block);
        found.map(|block| TypeRef { block, width })
    }

    /// The type name that a block of the same book has.
    pub(crate) fn type_name_at(self, block: u32) -> &'b str {
        name_in(self.book_bytes(), block, total::type_name)
    }

    /// What kind of type it is; its aliases are not resolved.
    pub fn category(self) -> Category {
        let mut values = [0; 1];
        total::determine(self.block.book().bytes(), self.width, self.block(), &mut values);
        Category::from_number(values[0]).expect("there are 16 categories")
    }

    /// The type at a block number that the library gave for this book: what resolves is a type block.
    fn at(self, block: u64) -> TypeRef<'b> {
        let found = u32::try_from(block).ok().and_then(|n| self.other(n));
        found.expect("a resolved type is a type block")
    }

    /// The type that its aliases come to: itself if it is none.
    pub fn resolve_alias(self) -> Result<TypeRef<'b>, Refusal> {
        let mut values = [0; 1];
        done(self.block.resolve_alias(self.width, &mut values), &values)?;
        Ok(self.at(values[0]))
    }

    /// The type that its aliases and references come to.
    pub fn resolve_indirection(self) -> Result<TypeRef<'b>, Refusal> {
        let mut values = [0; 1];
        done(self.block.resolve_indirection(self.width, &mut values), &values)?;
        Ok(self.at(values[0]))
    }

    /// Its own fields, in order, each with its type resolved. The book is not checked again.
    ///
    /// ```
    /// # use typebook::{TypeBook, TypeBuilder};
    /// # let types = TypeBook::builder()
    /// #     .with(TypeBuilder::new("S").size(4).field("A", "INT", 0, 2).field("B", "INT", 2, 2))
    /// #     .with(TypeBuilder::new("INT").id(2).size(2));
    /// # let book = types.build(8)?;
    /// let fields = book.root(0)?.fields()?;
    /// assert_eq!(fields[1].name, "B");
    /// assert_eq!((fields[1].offset, fields[1].size), (2, 2));
    /// assert_eq!(fields[1].resolved.name(), "INT");
    /// # Ok::<(), Box<dyn std::error::Error>>(())
    /// ```
    pub fn fields(self) -> Result<Vec<ResolvedField<'b>>, Refusal> {
        let mut records = vec![0; 4 * self.declared_fields().len()];
        let mut values = [0; 1];
        done(
            self.block.resolve_fields(self.width, &mut records, &mut values),
            &values,
        )?;
        let filled = records.chunks_exact(4).take(values[0] as usize);
        Ok(filled.map(|r| self.resolved_field([r[0], r[1], r[2], r[3]])).collect())
    }

    fn resolved_field(self, [offset, size, resolved, field]: [u32; 4]) -> ResolvedField<'b> {
        ResolvedField {
            offset,
            size,
            resolved: self.at(u64::from(resolved)),
            field,
            name: name_in(self.block.book().bytes(), field, total::name),
        }
    }

    /// Whether a function block lies anywhere in it: then its memory must be read, altered and written back, since a fresh
    /// image would clear the state that the block holds.
    ///
    /// ```
    /// use typebook::{TypeBook, TypeBuilder};
    ///
    /// let book = TypeBook::builder()
    ///     .with(TypeBuilder::new("S").size(12).field("counter", "FB_Counter", 0, 12))
    ///     .with(TypeBuilder::new("FB_Counter").size(12))
    ///     .build(8)?;
    /// assert!(book.root(0)?.requires_read_modify_write()?);
    /// # Ok::<(), Box<dyn std::error::Error>>(())
    /// ```
    pub fn requires_read_modify_write(self) -> Result<bool, Refusal> {
        self.requires_read_modify_write_with(&mut Scratch::new())
    }

    /// The same with working memory that is there already.
    pub fn requires_read_modify_write_with(self, scratch: &mut Scratch) -> Result<bool, Refusal> {
        let mut values = [0; 1];
        done(
            self.block
                .requires_read_modify_write(self.width, &mut scratch.numbers, &mut values),
            &values,
        )?;
        Ok(values[0] == 1)
    }

    /// The types that it is made of and that the book lacks.
    ///
    /// ```
    /// use typebook::{TypeBook, TypeBuilder};
    ///
    /// let recipe = TypeBuilder::new("S").size(4).field("x", "FOO", 0, 2).field("y", "BAR", 2, 2);
    /// let book = TypeBook::builder().with(recipe).build(8)?;
    /// let missing = book.root(0)?.missing_types()?;
    /// let names: Vec<&str> = missing.blocks.iter().map(|&b| book.type_name(b)).collect();
    /// assert_eq!(names, ["BAR", "FOO"]);
    /// assert!(missing.whole);
    /// # Ok::<(), Box<dyn std::error::Error>>(())
    /// ```
    pub fn missing_types(self) -> Result<Missing, Refusal> {
        self.missing_types_with(&mut Scratch::new())
    }

    /// The same with working memory that is there already.
    pub fn missing_types_with(self, scratch: &mut Scratch) -> Result<Missing, Refusal> {
        let mut values = [0; 3];
        let Scratch { numbers, list } = scratch;
        done(
            self.block.missing_types(self.width, numbers, list, &mut values),
            &values,
        )?;
        Ok(Missing::told(list, values))
    }

    /// Reads a memory of this type, with the default [`Room`].
    pub fn read(self, memory: &[u8]) -> Result<Tape<'b>, Refusal> {
        self.read_within(memory, Room::default())
    }

    /// Reads a memory of this type. Buffers are made larger until the answer fits or the room is used up.
    pub fn read_within(self, memory: &[u8], room: Room) -> Result<Tape<'b>, Refusal> {
        // A text record has at most three bytes for each byte of the memory.
        let most = |records: usize| room.text.min(records.saturating_mul(3).saturating_mul(memory.len()));
        let mut records = (64 + memory.len()).min(room.records);
        let mut bytes = (64 + memory.len()).min(most(records));
        loop {
            let mut tape = zeros(records.saturating_mul(RECORD))?;
            let mut text = zeros(bytes)?;
            match self.read_into(memory, &mut tape, &mut text) {
                Err(Refusal::NoRoom) if records < room.records || bytes < most(records) => {
                    records = records.saturating_mul(8).min(room.records);
                    bytes = bytes.saturating_mul(8).min(most(records));
                }
                Err(refusal) => return Err(refusal),
                Ok((filled, texts)) => {
                    tape.truncate(RECORD * filled);
                    text.truncate(texts);
                    return Ok(Tape::new(self.block.book().shared(), true, tape, text));
                }
            }
        }
    }

    /// Reads into buffers of the caller; answers the records on the tape and the bytes of text. After a refusal both buffers
    /// are zero; after a success what follows is as before.
    pub fn read_into(self, memory: &[u8], tape: &mut [u8], text: &mut [u8]) -> Result<(usize, usize), Refusal> {
        let mut values = [0; 2];
        done(self.block.read(self.width, memory, tape, text, &mut values), &values)?;
        Ok((values[0] as usize, values[1] as usize))
    }

    /// Writes a tape over a memory's image and gives the new bytes: what the tape doesn't name keeps the image's.
    ///
    /// A tape comes from a [`read`](TypeRef::read), changed by [`Tape::edit`], or from a [`TapeBuilder`](crate::TapeBuilder).
    ///
    /// ```
    /// use typebook::TypeBook;
    /// # let folder = concat!(env!("CARGO_MANIFEST_DIR"), "/../../examples/glue/");
    /// # let file = |name: &str| std::fs::read(format!("{folder}{name}"));
    /// let book = TypeBook::new(file("book.bin")?, 8)?;
    /// let image = file("mem.bin")?;
    /// let recipe = book.root(0)?;
    ///
    /// // What was changed is written back; all else keeps its bytes.
    /// let mut tape = recipe.read(&image)?;
    /// assert_eq!(recipe.write(&image, &tape.edits())?, image);
    /// tape.edit("Tank.Heated", false)?;
    /// assert_ne!(recipe.write(&image, &tape.edits())?, image);
    /// # Ok::<(), Box<dyn std::error::Error>>(())
    /// ```
    ///
    /// A refusal gives no bytes at all:
    ///
    /// ```
    /// use typebook::{Refusal, TapeBuilder, TypeBook};
    /// # let folder = concat!(env!("CARGO_MANIFEST_DIR"), "/../../examples/glue/");
    /// # let file = |name: &str| std::fs::read(format!("{folder}{name}"));
    /// # let (book, image) = (TypeBook::new(file("book.bin")?, 8)?, file("mem.bin")?);
    /// let mut tape = TapeBuilder::new(&book);
    /// tape.map()?.key("Pieces")?.int(-1)?.end()?;
    /// let refused = book.root(0)?.write(&image, &tape.finish()?);
    /// assert_eq!(refused, Err(Refusal::OutOfRange));
    /// # Ok::<(), Box<dyn std::error::Error>>(())
    /// ```
    pub fn write(self, image: &[u8], tape: &Tape) -> Result<Vec<u8>, Refusal> {
        let mut output = vec![0; image.len()];
        self.write_into(image, tape.bytes(), tape.text(), &mut output)?;
        Ok(output)
    }

    /// Writes document 01's tape and text over an image into an output of the caller, which must be as long. After a refusal an
    /// output as long as the image equals the image; one of another length is as before.
    pub fn write_into(self, image: &[u8], tape: &[u8], text: &[u8], output: &mut [u8]) -> Result<(), Refusal> {
        let mut values = [0; 1];
        done(
            self.block.write(self.width, image, tape, text, output, &mut values),
            &values,
        )
    }
}

impl fmt::Debug for TypeRef<'_> {
    fn fmt(&self, f: &mut fmt::Formatter<'_>) -> fmt::Result {
        f.debug_struct("TypeRef")
            .field("block", &self.block())
            .field("name", &self.name())
            .finish()
    }
}

/// So many zeros; 15 where there is no memory for them.
fn zeros(len: usize) -> Result<Vec<u8>, Refusal> {
    if len <= 1 << 26 {
        return Ok(vec![0; len]);
    }
    let mut bytes = Vec::new();
    bytes.try_reserve_exact(len).map_err(|_| Refusal::NoRoom)?;
    bytes.resize(len, 0);
    Ok(bytes)
}

/// The fields' or the entries' names of a book, each with its first block.
pub(crate) fn names_of(book: &[u8], kind: u8) -> HashMap<&str, u32> {
    let mut names = HashMap::new();
    for (n, block) in book.chunks_exact(BLOCK).enumerate() {
        if block[0] == kind {
            names.entry(name_in(book, n as u32, total::name)).or_insert(n as u32);
        }
    }
    names
}

/// A name in a checked book, where the call says that it stands.
pub(crate) fn name_in(book: &[u8], block: u32, place: fn(&[u8], u32, &mut [u64]) -> u8) -> &str {
    let mut values = [0; 2];
    place(book, block, &mut values);
    let [at, len] = values.map(|v| v as usize);
    std::str::from_utf8(&book[at..at + len]).expect("a checked book's names are of the bytes 20h to 7Eh")
}

#[cfg(test)]
mod tests {
    use super::zeros;
    use crate::refusal::Refusal;

    #[test]
    fn no_memory_is_no_room() {
        assert_eq!(zeros(usize::MAX), Err(Refusal::NoRoom));
        assert_eq!(zeros(isize::MAX as usize), Err(Refusal::NoRoom));
        assert_eq!(zeros(3), Ok(vec![0; 3]));
    }
}
