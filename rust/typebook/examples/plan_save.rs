//! How a recipe may be saved, where our type book doesn't know all types yet: the asks and adds one by one, the one call that makes
//! them all, also from a book with nothing in it, and what a walk that takes an unknown type for empty would have said. Nothing is sent and no file is written.
//!
//!     cargo run --example plan_save [FOLDER NAME..]
//!
//! The folder's `book.bin` is the controller's type list, `mem.bin` the memory; the names are the types that our book lacks at first.
//! Without words: examples/pieces, and what the fitter compiled for the station. The root is the first type, pointers have 8 bytes.

use std::collections::BTreeSet;
use std::error::Error;
use std::fmt::Write;
use std::path::{Path, PathBuf};
use typebook::{Category, Tape, TypeBook, TypeBuilder, Value};

const WIDTH: u8 = 8;
/// What the fitter of examples/pieces compiled.
pub const FITTED: [&str; 4] = ["SpineStation", "StationMode", "ShiftCounter", "FB_PieceCounter"];

fn main() {
    let words: Vec<String> = std::env::args().skip(1).collect();
    let told = match &words[..] {
        [] => told(
            &Path::new(env!("CARGO_MANIFEST_DIR")).join("../../examples/pieces"),
            &FITTED.map(String::from),
        ),
        [folder, names @ ..] => told(&PathBuf::from(folder), names),
    };
    match told {
        Ok(told) => print!("{told}"),
        Err(error) => {
            eprintln!("{error}");
            std::process::exit(1);
        }
    }
}

/// All that is printed.
pub fn told(folder: &Path, unknown: &[String]) -> Result<String, Box<dyn Error>> {
    let file =
        |name: &str| std::fs::read(folder.join(name)).map_err(|e| format!("{}: {e}", folder.join(name).display()));
    let controller = TypeBook::new(file("book.bin")?, WIDTH)?;
    let memory = file("mem.bin")?;
    let ours = without(&controller, unknown)?;
    let root = controller.root(0)?.name();
    let mut out = format!("{root}: our book has {} types,", ours.types().count());
    writeln!(out, " the controller's {}.\n", controller.types().count())?;

    let one_by_one = asks_and_adds(&mut out, &ours, &controller, root)?;
    let plan = ours.plan(&controller, root)?;
    writeln!(out, "answer: {}", answer(plan.read_modify_write))?;
    assert_eq!(one_by_one, plan.read_modify_write);
    writeln!(out, "in one call: plan adds {}; the same answer", plan.added.join(", "))?;
    let from_nothing = asks_and_adds(&mut String::new(), &TypeBook::empty(WIDTH), &controller, root)?;
    let all = TypeBook::empty(WIDTH).plan(&controller, root)?;
    assert_eq!((from_nothing, all.read_modify_write), (one_by_one, one_by_one));
    writeln!(
        out,
        "from nothing: plan adds {root} and {} other types; the same answer\n",
        all.added.len() - 1
    )?;

    let guess = taken_for_empty(&ours, root)?;
    writeln!(out, "A walk that takes an unknown type for empty: {}", answer(guess))?;
    if plan.read_modify_write && !guess {
        let lost = held(&plan.book, &plan.book.root(root)?.read(&memory)?);
        writeln!(
            out,
            "That would have cleared what the function block holds: {}",
            lost.join(", ")
        )?;
    }
    Ok(out)
}

fn answer(yes: bool) -> &'static str {
    match yes {
        true => "yes, a function block lies in it: read the memory, alter it, write it back",
        false => "no, no function block lies in it: send a fresh image",
    }
}

/// The book without the types of some names.
fn without(book: &TypeBook, names: &[String]) -> Result<TypeBook<'static>, Box<dyn Error>> {
    let held = book.types().filter(|t| !names.iter().any(|n| n == t.name()));
    Ok(TypeBook::new(
        held.flat_map(|t| t.blocks()).copied().collect::<Vec<u8>>(),
        WIDTH,
    )?)
}

/// The loop written out: asks what is unknown, adds it, asks again; then the answer.
fn asks_and_adds(out: &mut String, ours: &TypeBook, controller: &TypeBook, root: &str) -> Result<bool, Box<dyn Error>> {
    let mut book = ours.clone();
    for ask in 1.. {
        let names = unknown(&book, root)?;
        if names.is_empty() {
            writeln!(out, "ask {ask}: nothing is unknown")?;
            break;
        }
        let listed: Vec<&str> = names.iter().map(String::as_str).collect();
        writeln!(out, "ask {ask}: unknown: {}", listed.join(", "))?;
        for name in &names {
            let t = controller
                .find(name)
                .ok_or(format!("the controller has no type {name}"))?;
            book.append(t.blocks())?;
            writeln!(out, "  add {name}")?;
        }
    }
    Ok(book.root(root)?.requires_read_modify_write()?)
}

/// The names that an ask lists, the root's own where the book lacks it; one that isn't whole is no answer.
fn unknown(book: &TypeBook, root: &str) -> Result<BTreeSet<String>, Box<dyn Error>> {
    let missing = book.missing_types(root)?;
    match missing.whole {
        true => Ok(missing.names(book, root).into_iter().collect()),
        false => Err("not all types could be walked: don't save".into()),
    }
}

/// What the walk of the ticket did: each unknown type counts as one without parts.
fn taken_for_empty(ours: &TypeBook, root: &str) -> Result<bool, Box<dyn Error>> {
    let mut book = ours.clone();
    for name in unknown(ours, root)? {
        book.append(&TypeBuilder::new(name).blocks()?)?;
    }
    Ok(book.root(root)?.requires_read_modify_write()?)
}

/// The values that lie in a function block, with their names.
fn held(book: &TypeBook, tape: &Tape) -> Vec<String> {
    let (mut key, mut inside, mut out) = ("", None, Vec::new());
    for record in tape {
        match (record.value, inside) {
            (Value::Key(name), _) => {
                key = name;
                if inside.is_none() && record.block.is_some_and(|field| is_function_block(book, field)) {
                    inside = Some(record.level);
                }
            }
            (Value::End, Some(level)) if record.level == level => inside = None,
            (value, Some(level)) if record.level > level => out.push(format!("{key} {value}")),
            _ => {}
        }
    }
    out
}

/// Whether a field's type comes to a function block.
fn is_function_block(book: &TypeBook, field: u32) -> bool {
    let resolved = book.find(book.type_name(field)).map(|t| t.resolve_alias());
    matches!(resolved, Some(Ok(t)) if t.category() == Category::FunctionBlock)
}
