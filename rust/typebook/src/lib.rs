//! TwinCAT memory by its type book: the proved reader, writer, resolvers and type walks, called safely.
//!
//! A [`TypeBook`] is checked once. From it come [`TypeRef`]s, each known to be a type of that book, and these answer:
//! does a function block lie anywhere in it, which types does the book lack, what do these bytes hold, what do they become with
//! these values. Every answer is that of
//! functions proved against document 01 for all bytes; this crate only hands slices over and puts names to numbers.
//!
//! ```
//! use typebook::{TypeBook, TypeBuilder, Value, type_id};
//!
//! // The book of document 01's example: S is a struct of two INTs. The controller's pointers have 8 bytes.
//! let book = TypeBook::builder()
//!     .with(TypeBuilder::new("S").size(4).field("A", "INT", 0, 2).field("B", "INT", 2, 2))
//!     .with(TypeBuilder::new("INT").id(type_id::INT16).size(2))
//!     .build(8)?;
//! let root = book.root(0)?;
//! assert_eq!(root.name(), "S");
//! assert!(!root.requires_read_modify_write()?);
//!
//! let tape = root.read(&[0xFE, 0xFF, 0x05, 0x00])?;
//! let values: Vec<Value> = tape.iter().map(|r| r.value).collect();
//! assert_eq!(values[1], Value::Key("A"));
//! assert_eq!(values[2], Value::Int { bits: 16, value: -2 });
//! # Ok::<(), Box<dyn std::error::Error>>(())
//! ```
//!
//! What was read can be changed by name and written back; what isn't named keeps its bytes:
//!
//! ```
//! use typebook::TypeBook;
//! # let folder = concat!(env!("CARGO_MANIFEST_DIR"), "/../../examples/glue/");
//! # let file = |name: &str| std::fs::read(format!("{folder}{name}"));
//! let book = TypeBook::new(file("book.bin")?, 8)?;
//! let image = file("mem.bin")?;
//! let recipe = book.root(0)?;
//!
//! let mut tape = recipe.read(&image)?;
//! tape.edit("Tank.Target", 131.25)?;
//! tape.edit("Nozzles[1].Flow", 355)?;
//! let new = recipe.write(&image, &tape.edits())?;
//! assert_eq!(new.len(), image.len());
//! # assert_eq!(new.iter().zip(&image).filter(|(a, b)| a != b).count(), 5);
//! # Ok::<(), Box<dyn std::error::Error>>(())
//! ```
//!
//! Before a save, one call completes our book from the controller's type list and says whether the memory must be read first:
//!
//! ```
//! use typebook::TypeBook;
//! # let folder = concat!(env!("CARGO_MANIFEST_DIR"), "/../../examples/pieces/");
//! # let list = std::fs::read(format!("{folder}book.bin"))?;
//! # let root = list[..4 * 512].to_vec();
//! let controller = TypeBook::new(list, 8)?;
//! let ours = TypeBook::new(root, 8)?; // the recipe's own type: nothing of what lies in it is known yet
//! let plan = ours.plan(&controller, 0)?;
//! assert!(plan.read_modify_write && plan.added.contains(&"FB_PieceCounter".to_string()));
//! # Ok::<(), Box<dyn std::error::Error>>(())
//! ```
//!
//! A refusal says which of the table's it is, and what to do about it:
//!
//! ```
//! use typebook::{Refusal, TypeBook};
//!
//! let refused = TypeBook::new(vec![0; 511], 8).unwrap_err();
//! assert_eq!(refused, Refusal::BookSize);
//! assert_eq!(refused.number(), 1);
//! ```
#![deny(unsafe_code)]

mod book;
mod bytes;
mod category;
mod describe;
mod edit;
mod explain;
#[allow(unsafe_code)]
mod ffi;
mod grow;
mod moment;
mod plan;
mod refusal;
mod root;
mod tape;
mod tape_builder;
pub mod text;
mod type_builder;
mod upload;

pub use book::{Missing, ResolvedField, Room, Scratch, TypeBook, TypeRef};
pub use category::Category;
pub use describe::{DeclaredField, EnumEntry};
pub use edit::{EditError, New, Step};
pub use explain::ReadError;
pub use ffi::total as calls;
pub use grow::{AppendError, CompleteError};
pub use moment::Moment;
pub use plan::{Plan, PlanError};
pub use refusal::{LACKING_ROOT, Refusal};
pub use root::{Given, Root};
pub use tape::{Record, Records, Tape, Value};
pub use tape_builder::{BuildError, TapeBuilder};
pub use type_builder::{BookBuilder, Misfit, Part, TypeBuilder, TypeError, type_id};
pub use upload::{
    Upload, UploadAttribute, UploadDimension, UploadEntry, UploadEnumInfo, UploadError, UploadFault, UploadFlags,
    UploadPart,
};

/// The version of the proved library that is linked, in three parts.
///
/// ```
/// assert_eq!(typebook::library_version(), (0, 2, 0));
/// ```
pub fn library_version() -> (u8, u8, u8) {
    let [_, major, minor, patch] = calls::version().to_be_bytes();
    (major, minor, patch)
}
