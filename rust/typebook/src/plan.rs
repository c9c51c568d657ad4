//! The plan of a save: one call completes a book from the controller's and decides how the memory may be written.

use crate::book::{BLOCK, SCRATCH, TypeBook, told};
use crate::ffi::total;
use crate::refusal::{LACKING_ROOT, Refusal};
use crate::root::{Given, Root};
use std::error::Error;
use std::fmt;

/// How a save must be made, and the book that it was decided by.
#[must_use = "a plan says how the memory may be written"]
#[derive(Debug, Clone)]
pub struct Plan {
    /// Whether a function block lies anywhere in the root: then the memory must be read, altered and written back. If not, a fresh
    /// image may be sent.
    pub read_modify_write: bool,
    /// Our book, completed: it lacks no type that the root is made of. Our own blocks stand first, with their numbers.
    pub book: TypeBook<'static>,
    /// The names of the types that were added, in that order.
    pub added: Vec<String>,
}

/// Why there is no plan; never a "no".
#[non_exhaustive]
#[derive(Debug, Clone, PartialEq, Eq)]
pub enum PlanError {
    /// Refusal 7: neither our book nor the controller's has a type of this name.
    Missing {
        /// The name that was looked for.
        name: String,
    },
    /// Any other refusal: 5, 8, 9, 15 or 23.
    Refused(Refusal),
}

impl PlanError {
    /// Document 01's number.
    pub fn number(&self) -> u8 {
        match self {
            PlanError::Missing { .. } => 7,
            PlanError::Refused(refusal) => refusal.number(),
        }
    }
}

impl fmt::Display for PlanError {
    fn fmt(&self, f: &mut fmt::Formatter<'_>) -> fmt::Result {
        match self {
            PlanError::Missing { name } => write!(
                f,
                "refusal 7: the controller's type list has no type \"{name}\", and ours neither: fetch the list again; don't save"
            ),
            PlanError::Refused(refusal) => refusal.fmt(f),
        }
    }
}

impl Error for PlanError {}

impl From<Refusal> for PlanError {
    fn from(refusal: Refusal) -> Self {
        PlanError::Refused(refusal)
    }
}

impl TypeBook<'_> {
    /// Plans the save of a value of the root, a block of this book or a name: adds to a copy of this book, from the controller's, every
    /// type that the root is made of and this book lacks, until an ask lists none, and then decides, by this book's pointer width. This
    /// book stays as it is.
    ///
    /// That a type of ours is the controller's of that name isn't tested: after a new download to the controller start from a
    /// new book.
    ///
    /// ```
    /// use typebook::{PlanError, TypeBook, TypeBuilder};
    /// # let int = TypeBuilder::new("INT").id(2).size(2);
    /// # let recipe = TypeBuilder::new("Recipe").size(14).field("Tank", "Tank", 0, 14);
    /// # let tank = TypeBuilder::new("Tank").size(14).field("Level", "INT", 0, 2).field("Pieces", "FB_Counter", 2, 12);
    /// # let short = TypeBook::builder().with(int.clone()).with(recipe.clone());
    /// # let list = TypeBook::builder().with(int).with(TypeBuilder::new("FB_Counter").size(12)).with(tank);
    /// let ours = TypeBook::builder().with(recipe).build(8)?; // the root's own definition
    /// let controller = list.build(8)?;
    /// let plan = ours.plan(&controller, 0)?;
    /// assert!(plan.read_modify_write);
    /// assert_eq!(plan.added, ["Tank", "INT", "FB_Counter"]);
    /// assert!(plan.book.root(0)?.missing_types()?.blocks.is_empty());
    /// // A type that the controller's list lacks too is named: no answer is made up.
    /// let refused = ours.plan(&short.build(8)?, 0).unwrap_err();
    /// assert_eq!(refused, PlanError::Missing { name: "Tank".into() });
    /// # Ok::<(), Box<dyn std::error::Error>>(())
    /// ```
    ///
    /// A root's name that this book lacks is added first, so that a plan may begin from nothing:
    ///
    /// ```
    /// use typebook::{TypeBook, TypeBuilder};
    /// # let recipe = TypeBuilder::new("Recipe").size(14).field("Pieces", "FB_Counter", 2, 12);
    /// # let counter = TypeBuilder::new("FB_Counter").size(12);
    /// # let list = TypeBook::builder().with(TypeBuilder::new("INT").id(2).size(2)).with(counter).with(recipe);
    /// let controller = list.build(8)?;
    /// let plan = TypeBook::empty(8).plan(&controller, "Recipe")?;
    /// assert!(plan.read_modify_write);
    /// assert_eq!(plan.added, ["Recipe", "FB_Counter"]);
    /// assert_eq!(plan.book.root("Recipe")?.block(), 0);
    /// # Ok::<(), Box<dyn std::error::Error>>(())
    /// ```
    pub fn plan(&self, controller: &TypeBook<'_>, root: impl Root) -> Result<Plan, PlanError> {
        let (old, theirs) = (self.bytes().len(), controller.bytes());
        // Each type of the controller's is added once at most.
        let mut buffer = vec![0; old + theirs.len()];
        buffer[..old].copy_from_slice(self.bytes());
        // Half of it is for the controller's book, and half for ours, which may come to have the types of both.
        let mut index = vec![0; 2 * (self.slots() + controller.slots())];
        let (mut scratch, mut values) = (vec![0; SCRATCH], [0; 2]);
        let (b, s, i, v) = (&mut buffer, &mut scratch, &mut index, &mut values);
        let (all, width) = (theirs.len(), self.width());
        let number = match root.given() {
            Given::Number(n) => total::plan_save(b, old, theirs, all, width, n, s, i, v),
            Given::Name(name) => total::plan_save_named(b, old, theirs, all, width, name.as_bytes(), s, i, v),
        };
        match (number, root.given()) {
            (0, _) => planned(buffer, old, width, values),
            (7, Given::Name(name)) if values[0] == u64::from(LACKING_ROOT) => {
                Err(PlanError::Missing { name: name.into() })
            }
            (7, _) => Err(PlanError::Missing {
                name: crate::book::name_in(&buffer, values[0] as u32, total::type_name).into(),
            }),
            (n, _) => Err(PlanError::Refused(told(n, 0))),
        }
    }
}

/// The plan of an answer: yes or no, and the length of the completed book.
fn planned(mut buffer: Vec<u8>, old: usize, width: u8, [yes, len]: [u64; 2]) -> Result<Plan, PlanError> {
    buffer.truncate(len as usize);
    buffer.shrink_to_fit();
    let book = TypeBook::new(buffer, width)?;
    let first = (old / BLOCK) as u32;
    let added = book.types_from(first).map(|t| t.name().into()).collect();
    Ok(Plan {
        read_modify_write: yes == 1,
        added,
        book,
    })
}
