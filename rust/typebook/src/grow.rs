//! A book made longer: one type or many appended, or all that a root is made of fetched by name.

use crate::book::{TypeBook, TypeRef, told};
use crate::category::Category;
use crate::refusal::Refusal;
use crate::root::{Given, Root};
use std::collections::{HashMap, HashSet};
use std::error::Error;
use std::fmt;

/// Which of several pieces was refused, and why. The book is then as it was before the first of them.
#[derive(Debug, Clone, PartialEq, Eq)]
pub struct AppendError {
    /// The piece's place, from 0 on.
    pub piece: usize,
    /// Why it was refused.
    pub refusal: Refusal,
}

impl fmt::Display for AppendError {
    fn fmt(&self, f: &mut fmt::Formatter<'_>) -> fmt::Result {
        write!(f, "type {} of those to be added: {}", self.piece, self.refusal)
    }
}

impl Error for AppendError {}

/// Why a book wasn't completed. What was fetched until then stays in the book; it lacks something that the root is made of, so its "no"
/// is no "no".
#[non_exhaustive]
#[derive(Debug, Clone, PartialEq, Eq)]
pub enum CompleteError<E> {
    /// The root is made of a type of this name, and it can't be had.
    Missing {
        /// The name that was asked for.
        name: String,
    },
    /// The type of this name wasn't fetched.
    Fetch {
        /// The name that was asked for.
        name: String,
        /// What the closure gave.
        error: E,
    },
    /// What was fetched for this name isn't the blocks of one type.
    Refused {
        /// The name that was asked for.
        name: String,
        /// Why its blocks were refused.
        refusal: Refusal,
    },
    /// A type of another name was fetched.
    OtherName {
        /// The name that was asked for.
        name: String,
        /// The name that the type has.
        got: String,
    },
    /// The book lacks no type that was met, but the walk isn't whole: a chain of aliases is too long or without end, or the root is made
    /// of more than 4,096 types.
    NotWhole,
    /// The ask itself was refused.
    Ask(Refusal),
}

impl<E: fmt::Display> fmt::Display for CompleteError<E> {
    fn fmt(&self, f: &mut fmt::Formatter<'_>) -> fmt::Result {
        match self {
            CompleteError::Missing { name } => write!(
                f,
                "the recipe is made of a type {name:?}, which the controller doesn't have: fetch the list again; don't save"
            ),
            CompleteError::Fetch { name, error } => write!(f, "the type {name:?} wasn't fetched: {error}"),
            CompleteError::Refused { name, refusal } => write!(f, "the type {name:?} can't be added: {refusal}"),
            CompleteError::OtherName { name, got } => write!(f, "the type {name:?} was asked for, and {got:?} was fetched"),
            CompleteError::NotWhole => f.write_str(
                "not everything that the recipe is made of was met: a chain of aliases is too long, or there are over 4,096 types",
            ),
            CompleteError::Ask(refusal) => refusal.fmt(f),
        }
    }
}

impl<E: fmt::Debug + fmt::Display> Error for CompleteError<E> {}

impl TypeBook<'_> {
    /// Adds one more type: its block, followed by those of its fields and entries, as [`TypeBuilder::blocks`](crate::TypeBuilder::blocks)
    /// gives them. Block numbers stay. A refusal leaves the book as it was.
    ///
    /// The book isn't checked again, and a new name costs no search of it: many types are added in a time that grows as they do.
    ///
    /// ```
    /// use typebook::{Refusal, TypeBook, TypeBuilder, type_id};
    ///
    /// let mut book = TypeBook::builder().with(TypeBuilder::new("INT").id(type_id::INT16).size(2)).build(8)?;
    /// let piece = TypeBuilder::new("BYTE").id(type_id::UINT8).size(1).blocks()?;
    /// assert!(book.find("BYTE").is_none());
    /// book.append(&piece)?;
    /// assert!(book.find("BYTE").is_some());
    /// // A type that is there already is refused.
    /// assert_eq!(book.append(&piece), Err(Refusal::DoubledName));
    /// # Ok::<(), Box<dyn std::error::Error>>(())
    /// ```
    pub fn append(&mut self, piece: &[u8]) -> Result<(), Refusal> {
        self.checked.append(piece).map_err(|number| told(number, 0))
    }

    /// The same as a book of its own; this one stays as it is. Its bytes are copied: for many types [`append`](TypeBook::append) to one
    /// book.
    pub fn appended(&self, piece: &[u8]) -> Result<TypeBook<'static>, Refusal> {
        let mut longer = self.clone().into_owned();
        longer.append(piece)?;
        Ok(longer)
    }

    /// Adds types in order, all or none of them.
    ///
    /// ```
    /// use typebook::{AppendError, Refusal, TypeBook, TypeBuilder};
    ///
    /// let mut book = TypeBook::builder().with(TypeBuilder::new("INT").id(2).size(2)).build(8)?;
    /// let named = |name: &str| TypeBuilder::new(name).size(2).field("x", "INT", 0, 2).blocks();
    /// book.append_all([named("A")?, named("B")?])?;
    /// assert_eq!(book.types().count(), 3);
    /// let refused = book.append_all([named("C")?, named("A")?]);
    /// assert_eq!(refused, Err(AppendError { piece: 1, refusal: Refusal::DoubledName }));
    /// assert!(book.find("C").is_none());
    /// # Ok::<(), Box<dyn std::error::Error>>(())
    /// ```
    pub fn append_all<P: AsRef<[u8]>>(&mut self, pieces: impl IntoIterator<Item = P>) -> Result<(), AppendError> {
        let len = self.bytes().len();
        for (piece, bytes) in pieces.into_iter().enumerate() {
            if let Err(refusal) = self.append(bytes.as_ref()) {
                self.checked.cut_back(len);
                return Err(AppendError { piece, refusal });
            }
        }
        Ok(())
    }

    /// Adds every type that the type `root` is made of and the book lacks. A root that is given by its name may be lacking itself, so
    /// that a book with nothing in it can be completed: then it is asked for first. `fetch` gives the blocks of the type of a name, or
    /// none where there is no such type; it is asked for each name once at most. Answers the names that were added, in order.
    ///
    /// In the end the book itself is asked what it lacks ([`TypeRef::missing_types`]), and the answer is that it lacks nothing and the walk
    /// was whole, or there is an error: only after this is a "no" of
    /// [`requires_read_modify_write`](TypeRef::requires_read_modify_write) one.
    ///
    /// ```
    /// use std::convert::Infallible;
    /// use typebook::{TypeBook, TypeBuilder, type_id};
    ///
    /// // What the controller answers when it is asked for a type.
    /// let fetch = |name: &str| -> Result<Option<Vec<u8>>, Infallible> {
    ///     let recipe = TypeBuilder::new("ST_Glue").size(14).field("Temp", "INT", 0, 2).field("Pieces", "FB_Counter", 2, 12);
    ///     let counter = TypeBuilder::new("FB_Counter").size(12);
    ///     let int = TypeBuilder::new("INT").id(type_id::INT16).size(2);
    ///     Ok(match name {
    ///         "INT" => int.blocks().ok(),
    ///         "ST_Glue" => recipe.blocks().ok(),
    ///         "FB_Counter" => counter.blocks().ok(),
    ///         _ => None,
    ///     })
    /// };
    /// let mut book = TypeBook::empty(8);
    /// assert_eq!(book.complete("ST_Glue", fetch)?, ["ST_Glue", "FB_Counter", "INT"]);
    /// assert!(book.root("ST_Glue")?.requires_read_modify_write()?);
    /// # Ok::<(), Box<dyn std::error::Error>>(())
    /// ```
    pub fn complete<E>(
        &mut self,
        root: impl Root,
        fetch: impl FnMut(&str) -> Result<Option<Vec<u8>>, E>,
    ) -> Result<Vec<String>, CompleteError<E>> {
        let root = self.root_name(root).map_err(CompleteError::Ask)?;
        let mut adding = Adding {
            met: self.types().map(|t| (t.name().to_string(), Some(t.block()))).collect(),
            walked: HashSet::new(),
            added: Vec::new(),
            fetch,
        };
        adding.needed(self, &root)?;
        loop {
            let missing = self.missing_types(&root).map_err(CompleteError::Ask)?;
            if missing.is_complete() {
                return Ok(adding.added);
            }
            let names = missing.names(self, &root);
            if names.is_empty() {
                return Err(CompleteError::NotWhole);
            }
            for name in &names {
                adding.needed(self, name)?;
            }
        }
    }

    /// The name of a root that is in the book or can be added to it.
    fn root_name(&self, root: impl Root) -> Result<String, Refusal> {
        match (self.root(root), root.given()) {
            (Ok(t), _) => Ok(t.name().into()),
            (Err(Refusal::NotFound { .. }), Given::Name(name)) => Ok(name.into()),
            (Err(refusal), _) => Err(refusal),
        }
    }
}

/// Adding by name, while a book is completed.
struct Adding<F> {
    /// The block of each name that the book has; none of those that were asked for in vain.
    met: HashMap<String, Option<u32>>,
    /// The names whose parts were looked at.
    walked: HashSet<String>,
    added: Vec<String>,
    fetch: F,
}

impl<E, F: FnMut(&str) -> Result<Option<Vec<u8>>, E>> Adding<F> {
    /// Adds a type that the root is made of, and what that is made of in turn, so that few asks are needed.
    fn needed(&mut self, book: &mut TypeBook, name: &str) -> Result<(), CompleteError<E>> {
        let mut due = vec![name.to_string()];
        while let Some(name) = due.pop() {
            if self.walked.insert(name.clone())
                && let Some(block) = self.block_of(book, &name)?
            {
                due.extend(book.type_at(block).map_or_else(Vec::new, parts));
            }
        }
        match self.met.get(name) {
            Some(Some(_)) => Ok(()),
            // Of the parts a name that can't be had is passed over: if it is needed, the next ask lists it.
            _ => Err(CompleteError::Missing { name: name.into() }),
        }
    }

    /// The block of a name, whose type is fetched and appended if the book lacks it; none where it can't be had.
    fn block_of(&mut self, book: &mut TypeBook, name: &str) -> Result<Option<u32>, CompleteError<E>> {
        if let Some(&met) = self.met.get(name) {
            return Ok(met);
        }
        let fetched = (self.fetch)(name).map_err(|error| CompleteError::Fetch {
            name: name.into(),
            error,
        })?;
        let block = fetched.map(|piece| append_named(book, name, &piece)).transpose()?;
        self.met.insert(name.into(), block);
        self.added.extend(block.map(|_| name.to_string()));
        Ok(block)
    }
}

/// Appends the blocks of the type of a name; its block's number.
fn append_named<E>(book: &mut TypeBook, name: &str, piece: &[u8]) -> Result<u32, CompleteError<E>> {
    let (block, len) = (book.blocks(), book.bytes().len());
    book.append(piece).map_err(|refusal| CompleteError::Refused {
        name: name.into(),
        refusal,
    })?;
    let got = book.name(block);
    if got != name {
        let (name, got) = (name.into(), got.into());
        book.checked.cut_back(len);
        return Err(CompleteError::OtherName { name, got });
    }
    Ok(block)
}

/// The type names that a type is made of: an alias's target, an array's elements, the fields of what has fields.
fn parts(t: TypeRef) -> Vec<String> {
    match t.category() {
        Category::Alias | Category::Array => vec![t.type_name().into()],
        Category::Struct | Category::Union | Category::FunctionBlock => {
            t.declared_fields().map(|field| field.type_name.into()).collect()
        }
        _ => Vec::new(),
    }
}
