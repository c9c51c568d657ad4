//! A small gateway: from descriptions of types, as a controller gives them, to a completed book, the answer on read-modify-write, a read,
//! an edit and a write. Every error is handled and none is passed over as a "no".
//!
//!     cargo run --offline --example gateway
//!
//! The controller here is a made one, with its memory and its type list in this file; `Controller::describe` and the two calls beside it
//! are where a real one is asked.

use std::collections::BTreeMap;
use std::error::Error;
use std::fmt::{self, Write};
use typebook::{TypeBook, TypeBuilder, type_id};

/// A controller of 64 bits: its type list, and the memory of the recipe.
struct Controller {
    types: BTreeMap<String, TypeBuilder>,
    memory: Vec<u8>,
    /// The asks that it answers before the line is cut; for trying what happens then.
    answers: usize,
}

/// The line to the controller was cut.
#[derive(Debug)]
struct Cut;

impl fmt::Display for Cut {
    fn fmt(&self, f: &mut fmt::Formatter<'_>) -> fmt::Result {
        f.write_str("the line to the controller was cut: try again later")
    }
}

impl Error for Cut {}

impl Controller {
    const POINTER_WIDTH: u8 = 8;

    fn new() -> Self {
        let plain = |name: &str, id, size| TypeBuilder::new(name).id(id).size(size);
        let types = [
            plain("UINT", type_id::UINT16, 2),
            plain("REAL", type_id::REAL32, 4),
            plain("STRING(7)", type_id::STRING, 8),
            TypeBuilder::new("E_Glue")
                .id(type_id::INT16)
                .size(2)
                .enumeration()
                .entry("COLD", &[0, 0])
                .entry("HOTMELT", &[1, 0])
                .entry("PUR", &[2, 0]),
            TypeBuilder::new("ST_Nozzle")
                .size(8)
                .field("Flow", "UINT", 0, 2)
                .field("Temp", "REAL", 4, 4),
            TypeBuilder::new("ARRAY [0..2] OF ST_Nozzle")
                .type_name("ST_Nozzle")
                .size(24)
                .dimension(3),
            TypeBuilder::new("FB_PieceCounter")
                .size(16)
                .field("Count", "UINT", 8, 2)
                .field("Limit", "UINT", 10, 2),
            TypeBuilder::new("ST_Glue")
                .size(52)
                .field("Title", "STRING(7)", 0, 8)
                .field("Glue", "E_Glue", 8, 2)
                .field("Nozzles", "ARRAY [0..2] OF ST_Nozzle", 12, 24)
                .field("Pieces", "FB_PieceCounter", 36, 16),
        ];
        let name = |t: &TypeBuilder| t.name().to_string();
        let mut memory = vec![0; 52];
        memory[..5].copy_from_slice(b"Spine");
        memory[8] = 1;
        memory[44] = 17;
        Self {
            types: types.into_iter().map(|t| (name(&t), t)).collect(),
            memory,
            answers: usize::MAX,
        }
    }

    /// The description of a type by its name; none where it has no such type.
    fn describe(&mut self, name: &str) -> Result<Option<TypeBuilder>, Cut> {
        self.answers = self.answers.checked_sub(1).ok_or(Cut)?;
        Ok(self.types.get(name).cloned())
    }
}

/// What a gateway can't go on with, in words for the log; the recipe isn't saved then.
type Fault = Box<dyn Error>;

/// A recipe's root type, and the book that has all that it is made of.
struct Recipe {
    book: TypeBook<'static>,
    root: String,
    /// Whether a function block lies anywhere in it: then its bytes must be read before they are written.
    keeps_state: bool,
}

impl Recipe {
    /// Fetches all that the root is made of, and only then asks the question that matters.
    fn load(controller: &mut Controller, root: &str) -> Result<Self, Fault> {
        let mut book = TypeBook::empty(Controller::POINTER_WIDTH);
        book.complete(root, |name| -> Result<Option<Vec<u8>>, Fault> {
            let described = controller.describe(name)?;
            Ok(described.map(|t| t.blocks()).transpose()?)
        })?;
        let keeps_state = book.root(root)?.requires_read_modify_write()?;
        Ok(Self {
            root: root.into(),
            keeps_state,
            book,
        })
    }

    /// Changes one setting by its path; the new bytes of the whole recipe.
    fn changed(&self, memory: &[u8], path: &str, value: u16) -> Result<Vec<u8>, Fault> {
        let recipe = self.book.root(&self.root)?;
        let fresh = vec![0; recipe.size() as usize];
        // Without state a fresh image would do; with state it would clear the counter.
        let image = if self.keeps_state { memory } else { &fresh };
        let mut tape = recipe.read_or_explain(image)?;
        tape.edit(path, value)?;
        Ok(recipe.write(image, &tape.edits())?)
    }

    /// The values of a memory, one a line.
    fn shown(&self, memory: &[u8]) -> Result<String, Fault> {
        let recipe = self.book.root(&self.root)?;
        let mut out = String::new();
        for record in &recipe.read_or_explain(memory)? {
            writeln!(out, "{:1$}{2}", "", 2 * record.level as usize, record.value)?;
        }
        Ok(out)
    }
}

/// What the gateway writes to its log for a save.
fn save(controller: &mut Controller, path: &str, value: u16) -> Result<String, Fault> {
    let recipe = Recipe::load(controller, "ST_Glue")?;
    let new = recipe.changed(&controller.memory, path, value)?;
    let differ = new.iter().zip(&controller.memory).filter(|(a, b)| a != b).count();
    controller.memory = new;
    let how = if recipe.keeps_state {
        "read, altered and written back"
    } else {
        "written over a fresh image"
    };
    Ok(format!(
        "{path} := {value}, {how}: {differ} bytes differ\n{}",
        recipe.shown(&controller.memory)?
    ))
}

/// A save, and what is said where something is wrong.
fn log() -> String {
    let mut out = String::new();
    let mut controller = Controller::new();
    let mut say = |told: Result<String, Fault>| match told {
        Ok(text) => out += &format!("{text}\n"),
        Err(fault) => out += &format!("not saved: {fault}\n"),
    };
    say(save(&mut controller, "Nozzles[1].Flow", 355));
    say(save(&mut controller, "Nozzles[3].Flow", 355));
    say(save(&mut controller, "Glue", 2));
    controller.answers = 3;
    say(save(&mut controller, "Nozzles[1].Flow", 1));
    controller.answers = usize::MAX;
    controller.memory.truncate(51);
    say(save(&mut controller, "Nozzles[1].Flow", 1));
    controller.memory.push(0);
    controller.memory[8] = 3;
    say(save(&mut controller, "Nozzles[1].Flow", 1));
    controller.types.remove("REAL");
    say(save(&mut controller, "Nozzles[1].Flow", 1));
    out
}

fn main() {
    print!("{}", log());
}

#[cfg(test)]
mod tests {
    #[test]
    fn what_it_says() {
        let log = super::log();
        let faults: Vec<&str> = log.lines().filter(|line| line.starts_with("not saved")).collect();
        assert!(log.starts_with("Nozzles[1].Flow := 355, read, altered and written back: 2 bytes differ\n"));
        // The shift's pieces are still counted.
        assert!(log.contains("Count\n      17\n"), "{log}");
        assert_eq!(
            faults,
            [
                "not saved: there is no element 3 (the first is 0)",
                "not saved: the new value is of another kind than the old one",
                "not saved: the type \"ARRAY [0..2] OF ST_Nozzle\" wasn't fetched: the line to the controller was cut: try again later",
                "not saved: 51 bytes where ST_Glue has 52",
                "not saved: Glue: a value of E_Glue: refusal 12: the memory holds a number that the enumeration doesn't list",
                "not saved: the recipe is made of a type \"REAL\", which the controller doesn't have: fetch the list again; don't save",
            ]
        );
    }
}
