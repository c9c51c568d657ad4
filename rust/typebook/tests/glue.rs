//! The recipes of examples/ and document 01's own example, read from Rust: the lines that the program `adswalk` prints.

use std::path::Path;
use typebook::{Refusal, TypeBook, Value};

#[path = "../examples/plan_save.rs"]
#[allow(dead_code)]
mod plan_save;

/// The line of a value, as document 01 prints it.
fn line(value: Value) -> String {
    let hex = |text: &str| text.bytes().map(|b| format!("{b:02X}")).collect::<String>();
    match value {
        Value::Array(count) => format!("array {count}"),
        Value::Map(count) => format!("map {count}"),
        Value::End => "end".into(),
        Value::Key(name) => format!("key {name}"),
        Value::Bool(value) => format!("bool {}", u8::from(value)),
        Value::Int { bits, value } => format!("int {bits} {value}"),
        Value::Nat { bits, value } => format!("nat {bits} {value}"),
        Value::Real32(bits) => format!("real 4 {bits:08X}"),
        Value::Real64(bits) => format!("real 8 {bits:016X}"),
        Value::Text { text, clipped } => {
            let word = if clipped { "clipped" } else { "text" };
            match text {
                "" => word.into(),
                _ => format!("{word} {}", hex(text)),
            }
        }
        Value::Enum(name) => format!("enum {name}"),
        Value::Unit => "unit".into(),
    }
}

/// What is read from a folder's book.bin and mem.bin.
fn printed(folder: &Path) -> String {
    let file = |name: &str| std::fs::read(folder.join(name)).expect("a file");
    let (book, memory) = (TypeBook::new(file("book.bin"), 8).expect("valid"), file("mem.bin"));
    let root = book.root(0).expect("a type");
    let tape = root.read(&memory).expect("read");
    let head = format!("walk {} {}\n", root.name(), memory.len());
    tape.iter().fold(head, |out, record| out + &line(record.value) + "\n")
}

#[test]
fn the_glue_recipe() {
    let folder = Path::new(env!("CARGO_MANIFEST_DIR")).join("../../examples/glue");
    let wanted = std::fs::read_to_string(folder.join("stdout")).expect("the lines");
    assert_eq!(printed(&folder), wanted);
}

/// Texts that were ended and texts that fill their bytes; one of no bytes is clipped too.
#[test]
fn the_clipped_texts() {
    let folder = Path::new(env!("CARGO_MANIFEST_DIR")).join("../../examples/clipped");
    let wanted = std::fs::read_to_string(folder.join("stdout")).expect("the lines");
    assert_eq!(printed(&folder), wanted);
    let count = |word| {
        wanted
            .lines()
            .filter(|line| line.split(' ').next() == Some(word))
            .count()
    };
    assert_eq!((count("text"), count("clipped")), (4, 4));
}

/// A temperature changed and written back: its bytes change and no others.
#[test]
fn the_glue_recipe_edited() {
    let folder = Path::new(env!("CARGO_MANIFEST_DIR")).join("../../examples/glue");
    let file = |name: &str| std::fs::read(folder.join(name)).expect("a file");
    let (book, image) = (TypeBook::new(file("book.bin"), 8).expect("valid"), file("mem.bin"));
    let root = book.root(0).expect("a type");
    let mut tape = root.read(&image).expect("read");
    // The operator's name fills its bytes: it is shown as clipped, and has no room for its zero.
    let clipped = Value::Text {
        text: "M. Fische",
        clipped: true,
    };
    assert_eq!(tape.at("Operator"), Ok(clipped));
    assert_eq!(root.write(&image, &tape), Err(Refusal::Size));
    assert_eq!(tape.at("Tank.Target"), Ok(Value::Real32(127.5f32.to_bits())));
    tape.edit("Tank.Target", 131.25).expect("a real");
    let output = root.write(&image, &tape.edits()).expect("written");
    let at = image
        .windows(4)
        .position(|w| w == 127.5f32.to_le_bytes())
        .expect("there");
    let mut wanted = image.clone();
    wanted[at..at + 4].copy_from_slice(&131.25f32.to_le_bytes());
    assert_eq!(output, wanted);
    let again = root.read(&output).expect("read");
    assert_eq!(again.at("Tank.Target"), Ok(Value::Real32(131.25f32.to_bits())));
    // The text buffer may be ordered otherwise, the values are the same.
    assert!(again.iter().zip(&tape).all(|(a, b)| a.value == b.value));
}

#[test]
fn the_example_of_document_01() {
    let program = Path::new(env!("CARGO_MANIFEST_DIR")).join("../../crates/adswalk");
    let wanted = std::fs::read_to_string(program.join("stdout")).expect("the lines");
    assert_eq!(printed(&program.join("data")), wanted);
}

/// The recipe of examples/pieces, whose inner types our book does not know at first: what `tools/run plan` prints.
#[test]
fn the_pieces_of_a_shift() {
    let folder = Path::new(env!("CARGO_MANIFEST_DIR")).join("../../examples/pieces");
    let wanted = std::fs::read_to_string(folder.join("plan.txt")).expect("the lines");
    let told = plan_save::told(&folder, &plan_save::FITTED.map(String::from)).expect("a plan");
    assert_eq!(told, wanted);
}
