//! A root as a call takes it: a block's number, or a name.

mod sealed {
    pub trait Sealed {}
    impl Sealed for u64 {}
    impl Sealed for &str {}
    impl Sealed for &String {}
}

/// What a root may be given by: the number of its block, or its name.
///
/// ```
/// use typebook::{LACKING_ROOT, Refusal, TypeBook, TypeBuilder};
///
/// let book = TypeBook::builder()
///     .with(TypeBuilder::new("S").size(2).field("x", "INT", 0, 2))
///     .with(TypeBuilder::new("INT").id(2).size(2))
///     .build(8)?;
/// assert_eq!(book.root("INT")?.block(), book.root(2)?.block());
/// // A name that the book lacks, and one that no type can have.
/// assert_eq!(book.root("FOO").unwrap_err(), Refusal::NotFound { block: LACKING_ROOT });
/// assert_eq!(book.root("Größe").unwrap_err(), Refusal::RootName);
/// # Ok::<(), Box<dyn std::error::Error>>(())
/// ```
pub trait Root: Copy + sealed::Sealed {
    /// The root, by number or by name.
    fn given(&self) -> Given<'_>;
}

/// A root by number or by name.
#[derive(Debug, Clone, Copy, PartialEq, Eq)]
pub enum Given<'n> {
    /// The number of its block.
    Number(u64),
    /// Its name.
    Name(&'n str),
}

impl Root for u64 {
    fn given(&self) -> Given<'_> {
        Given::Number(*self)
    }
}

impl Root for &str {
    fn given(&self) -> Given<'_> {
        Given::Name(self)
    }
}

impl Root for &String {
    fn given(&self) -> Given<'_> {
        Given::Name(self)
    }
}
