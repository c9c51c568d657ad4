//! A book with the pointer width that it is asked with.

use crate::told::Failure;
use typebook::{Category, Missing, Plan, PlanError, ReadError, Refusal, Tape, TypeBook, TypeRef};

/// A checked book, which knows the controller's pointer width.
pub struct Desk {
    /// The book.
    pub book: TypeBook<'static>,
}

impl Desk {
    /// Checks a book.
    pub fn new(bytes: Vec<u8>, width: u8) -> Result<Self, Refusal> {
        let book = TypeBook::new(bytes, width)?;
        Ok(Self { book })
    }

    /// The pointer width in bytes.
    pub fn width(&self) -> u8 {
        self.book.width()
    }

    /// The type of a name, or words that say which names there are.
    pub(crate) fn find(&self, name: &str) -> Result<TypeRef<'_>, Failure> {
        self.book.find(name).ok_or_else(|| {
            let near = |t: &TypeRef| t.name().eq_ignore_ascii_case(name) || t.name().starts_with(name);
            let near: Vec<&str> = self.book.types().filter(near).take(5).map(TypeRef::name).collect();
            let hint = match near.is_empty() {
                true => "`typebook types` lists those that there are".to_string(),
                false => format!("is it {}?", near.join(" or ")),
            };
            Failure::numbered(Some(7), format!("the book has no type {name:?}; {hint}"))
        })
    }

    /// A type's category.
    pub fn category(&self, t: TypeRef) -> Category {
        t.category()
    }

    /// The type that a type's aliases come to.
    pub fn resolve<'b>(&self, t: TypeRef<'b>) -> Result<TypeRef<'b>, Refusal> {
        t.resolve_alias()
    }

    /// The question of the ticket, by the proved call.
    pub fn read_modify_write(&self, t: TypeRef) -> Result<bool, Refusal> {
        t.requires_read_modify_write()
    }

    /// What the book lacks for a type, by the proved call.
    pub fn missing(&self, t: TypeRef) -> Result<Missing, Refusal> {
        t.missing_types()
    }

    /// Reads a memory; an error says where.
    pub fn read<'b>(&self, t: TypeRef<'b>, memory: &[u8]) -> Result<Tape<'b>, ReadError> {
        t.read_or_explain(memory)
    }

    /// Writes a tape over an image.
    pub fn write(&self, t: TypeRef, image: &[u8], tape: &Tape) -> Result<Vec<u8>, Refusal> {
        t.write(image, tape)
    }

    /// Plans a save of a value of the type of a name, which this book may lack.
    pub fn plan(&self, controller: &Desk, name: &str) -> Result<Plan, PlanError> {
        self.book.plan(&controller.book, name)
    }
}
