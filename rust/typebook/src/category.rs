//! The categories of types.

/// What kind of type a type is, in the order of the Rust's list.
#[derive(Debug, Clone, Copy, PartialEq, Eq, Hash)]
pub enum Category {
    /// Nothing that can be read: its value is a unit.
    None,
    /// A number, a time or a bool.
    Primitive,
    /// Another name for a type.
    Alias,
    /// An enumeration.
    Enum,
    /// An array.
    Array,
    /// A structure.
    Struct,
    /// A function block: it holds state of its own, which a fresh image would clear.
    FunctionBlock,
    /// A program; no type of a book comes to it.
    Program,
    /// A function; no type of a book comes to it.
    Function,
    /// A number with bounds in its name.
    SubRange,
    /// STRING or WSTRING.
    String,
    /// A single bit.
    Bitset,
    /// A pointer.
    Pointer,
    /// Fields over the same bytes.
    Union,
    /// A reference.
    Reference,
    /// A pointer to an interface.
    Interface,
}

impl Category {
    /// All of them, each at its number's place.
    pub const ALL: [Category; 16] = [
        Category::None,
        Category::Primitive,
        Category::Alias,
        Category::Enum,
        Category::Array,
        Category::Struct,
        Category::FunctionBlock,
        Category::Program,
        Category::Function,
        Category::SubRange,
        Category::String,
        Category::Bitset,
        Category::Pointer,
        Category::Union,
        Category::Reference,
        Category::Interface,
    ];

    /// The category of a number that the library answers.
    pub fn from_number(number: u64) -> Option<Category> {
        Self::ALL.get(usize::try_from(number).ok()?).copied()
    }
}
