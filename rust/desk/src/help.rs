//! How the tool is called.

const HEAD: &str = "\
typebook COMMAND [OPTIONS] WORDS: asks a type book, by the proved library.

";

/// Each command: how it is called, then what it does.
const COMMANDS: [(&str, &str); 9] = [
    (
        "check",
        "typebook check BOOK
    Whether the book is sound; if not, which block is wrong.
",
    ),
    (
        "types",
        "typebook types BOOK
    A table of its types: name, category, size, fields.
",
    ),
    (
        "show",
        "typebook show BOOK TYPE [--depth N]
    The fields of a type with their places, as a tree; of an array the first element. --depth says how deep.
",
    ),
    (
        "missing",
        "typebook missing BOOK TYPE
    The types that it is made of and that the book lacks, and which field or alias asks for each.
",
    ),
    (
        "plan",
        "typebook plan BOOK CONTROLLER TYPE [--output FILE]
    How a value of the type may be saved: asks what our book lacks, adds it from the controller's, asks again, and then answers.
    Our book may be an empty file, and may lack the type itself. --output writes the completed book.
",
    ),
    (
        "why",
        "typebook why BOOK TYPE
    Does a function block lie anywhere in the type? \"yes\" with the path to each, \"no\" with the number of names met, or a refusal:
    what is lacking, and where. A refusal is never a \"no\".
",
    ),
    (
        "read",
        "typebook read BOOK TYPE MEMORY
    The values of a memory as a tree, each with the type that it was declared with.
",
    ),
    (
        "write",
        "typebook write BOOK TYPE IMAGE PATH=VALUE .. [--output FILE]
    Reads the image, changes the values, writes them over the image, and shows which bytes change. The new image is written only
    with --output. A path is of names parted by dots, with indexes from 0 on in brackets: Nozzles[2].Flow=340
",
    ),
    (
        "upload",
        "typebook upload FILE [--fitting] [--output BOOK]
    Makes a book of a controller's type list as ADS uploads it; --output writes it. --fitting leaves out the types that don't fit a
    book and says why; without it the first of them is a refusal.
",
    ),
];

const TAIL: &str = "
BOOK, CONTROLLER, MEMORY, IMAGE and FILE are files; one of them may be - for standard input, and --output - is standard output.
TYPE is a type's name.

    --json       the answer for other programs, one line
    --width N    the controller's pointer width in bytes: 2, 4 or 8, and 8 if it isn't said
    --help       this, or with a command what that does
    --version    this tool's version and that of the proved library in it
    --           no options follow

Exit status: 0 there is an answer, 1 there is none (a refusal, whose words are on standard error), 2 wrong usage.
";

/// All of it.
pub fn whole() -> String {
    let commands = COMMANDS.iter().map(|(_, told)| *told);
    [HEAD].into_iter().chain(commands).chain([TAIL]).collect()
}

/// What one command does.
pub fn of(command: &str) -> Option<&'static str> {
    COMMANDS
        .iter()
        .find(|(name, _)| *name == command)
        .map(|(_, told)| *told)
}

/// The versions of the tool and of the library.
pub fn version() -> String {
    let (major, minor, patch) = typebook::library_version();
    let own = env!("CARGO_PKG_VERSION");
    format!("typebook {own}, with the proved library {major}.{minor}.{patch}\n")
}
