//! Changes a value of a recipe: reads the memory `mem.bin` by the type book `book.bin` of a folder, changes one value by its path,
//! writes it over the memory's image, reads the new bytes again and shows the bytes that changed. No file is written.
//!
//!     cargo run --example edit_recipe [FOLDER PATH VALUE]
//!
//! Without words: the tank of examples/glue is heated to 131.25 degrees. Indexes in a path count from 0. The root is the
//! book's first type, pointers have 8 bytes.

use std::error::Error;
use std::path::{Path, PathBuf};
use typebook::{New, TypeBook, Value};

const WIDTH: u8 = 8;

fn main() {
    let words: Vec<String> = std::env::args().skip(1).collect();
    if let Err(error) = edit(&words) {
        eprintln!("{error}");
        std::process::exit(1);
    }
}

fn edit(words: &[String]) -> Result<(), Box<dyn Error>> {
    let (folder, path, value) = match words {
        [] => (
            Path::new(env!("CARGO_MANIFEST_DIR")).join("../../examples/glue"),
            "Tank.Target",
            "131.25",
        ),
        [folder, path, value] => (PathBuf::from(folder), &path[..], &value[..]),
        _ => return Err("edit_recipe [FOLDER PATH VALUE]".into()),
    };
    let file =
        |name: &str| std::fs::read(folder.join(name)).map_err(|e| format!("{}: {e}", folder.join(name).display()));
    let book = TypeBook::new(file("book.bin")?, WIDTH)?;
    let image = file("mem.bin")?;
    let recipe = book.root(0)?;

    let mut tape = recipe.read(&image)?;
    let before = tape.at(path)?.to_string();
    let new = new_value(tape.at(path)?, value)?;
    tape.edit(path, new)?;

    let output = recipe.write(&image, &tape.edits())?;
    let again = recipe.read(&output)?;
    println!("{}: {path} was {before}, is {}", recipe.name(), again.at(path)?);
    for (at, (old, new)) in image.iter().zip(&output).enumerate().filter(|(_, (a, b))| a != b) {
        println!("byte {at}: {old:02X} -> {new:02X}");
    }
    Ok(())
}

/// A word as a value of the old one's kind.
fn new_value<'w>(old: Value, word: &'w str) -> Result<New<'w>, Box<dyn Error>> {
    Ok(match old {
        Value::Bool(_) => New::Bool(word.parse()?),
        Value::Int { .. } | Value::Nat { .. } => New::Int(word.parse()?),
        Value::Real32(_) | Value::Real64(_) => New::Real(word.parse()?),
        _ => New::Text(word),
    })
}
