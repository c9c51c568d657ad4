//! Bytes 4 to 7 of a value's record: its type as it was named, before aliases (change request 8).

use model::make::{Type, book, int};
use std::sync::Arc;
use typebook::{Refusal, Step, TypeBook, TypeBuilder, Value, type_id};

/// A root alias of a struct, with an alias of an array of two dimensions, whose elements are an alias of INT, a plain field and an enum.
fn types() -> Vec<u8> {
    let s = Type::new("S")
        .size(11)
        .field("r", "Rows", 0, 8)
        .field("t", "STRING", 8, 2);
    book(&[
        Type::new("Root").of("S").size(11),
        s.field("u", "N", 10, 1),
        Type::new("Rows").of("Grid").size(8),
        Type::new("Grid").of("Bar").size(8).dimensions(&[2, 2]),
        Type::new("Bar").of("INT").size(2),
        int(),
        Type::new("STRING").id(30).size(2),
        Type::new("N").size(1),
    ])
}

#[test]
fn as_they_are_named() {
    let book = TypeBook::new(types(), 8).expect("valid");
    let tape = book.root(0).expect("a type").read(&[0; 11]).expect("read");
    let told: Vec<Option<&str>> = tape.iter().map(|r| r.declared()).collect();
    let row = [Some("Grid"), Some("Bar"), Some("Bar"), None];
    let mut wanted = vec![Some("Root"), None, Some("Rows")];
    wanted.extend(row.iter().chain(&row).copied());
    wanted.extend([None, None, Some("STRING"), None, Some("N"), None]);
    assert_eq!(told, wanted);
    for (record, bytes) in tape.iter().zip(tape.bytes().chunks_exact(24)) {
        let number = u32::from_le_bytes([bytes[4], bytes[5], bytes[6], bytes[7]]);
        assert_eq!(number, record.declared_block.unwrap_or(0));
        let no_value = matches!(record.value, Value::Key(_) | Value::End);
        assert_eq!(record.declared_block.is_none(), no_value);
    }
    // By its own block the struct is named as such, and by the array's the array.
    let inner = book.root(1).expect("a type").read(&[0; 11]).expect("read");
    assert_eq!(inner.iter().next().and_then(|r| r.declared()), Some("S"));
    let grid = book.find("Grid").expect("there").read(&[0; 8]).expect("read");
    assert_eq!(grid.iter().next().and_then(|r| r.declared()), Some("Grid"));
}

#[test]
fn an_edit_keeps_it() {
    let book = TypeBook::new(types(), 8).expect("valid");
    let mut tape = book.root(0).expect("a type").read(&[0; 11]).expect("read");
    let before: Vec<_> = tape.iter().map(|r| r.declared_block).collect();
    tape.edit("r[1,0]", 7).expect("an integer");
    tape.edit_at(&[Step::Key("t")], "x").expect("a text");
    let after: Vec<_> = tape.iter().map(|r| r.declared_block).collect();
    assert_eq!(before, after);
}

/// Any type block will do and writes the same; a field's number, one past the book, and any but 0 in an end or a key are 16.
#[test]
fn what_a_write_takes() {
    let book = TypeBook::new(types(), 8).expect("valid");
    let root = book.root(0).expect("a type");
    let mut tape = root.read(&[0; 11]).expect("read");
    tape.edit("r[0,1]", 258).expect("an integer");
    let edits = tape.edits();
    let wanted = root.write(&[0; 11], &edits).expect("written");
    let blocks = book.bytes().len() as u32 / 512;
    for at in (0..edits.bytes().len()).step_by(24) {
        let framed = matches!(edits.bytes()[at], 2 | 4 | 5);
        for number in (0..blocks + 2).chain([1 << 16, u32::MAX]) {
            let mut records = edits.bytes().to_vec();
            records[at + 4..at + 8].copy_from_slice(&number.to_le_bytes());
            let mut output = [0; 11];
            let done = root.write_into(&[0; 11], &records, edits.text(), &mut output);
            let is_type = number < blocks && book.bytes()[number as usize * 512] == 1;
            let fine = if framed { number == 0 } else { is_type };
            assert_eq!(done.is_ok(), fine, "record {} with {number}", at / 24);
            match done {
                Ok(()) => assert_eq!(output[..], wanted[..]),
                Err(refused) => assert_eq!(refused, Refusal::TapeForm),
            }
        }
    }
}

/// A name that the book gives for a record's block is kept where the tape is gone, by whoever holds the book.
#[test]
fn names_outlive_the_tape() {
    let colour = TypeBuilder::new("COLOUR")
        .id(type_id::INT8)
        .size(1)
        .enumeration()
        .entry("RED", &[1]);
    let book = TypeBook::builder()
        .with(
            TypeBuilder::new("S")
                .size(2)
                .field("First", "COLOUR", 0, 1)
                .field("Second", "COLOUR", 1, 1),
        )
        .with(colour)
        .build(8);
    let book = Arc::new(book.expect("valid"));
    let tape = book
        .root("S")
        .and_then(|t| t.read(&[1, 1]))
        .expect("it is read")
        .into_owned();
    let names: Vec<&str> = tape.iter().filter_map(|r| r.block).map(|b| book.name(b)).collect();
    let declared: Vec<&str> = tape
        .iter()
        .filter_map(|r| r.declared_block)
        .map(|b| book.name(b))
        .collect();
    let said: Vec<_> = tape.iter().filter_map(|r| r.declared().map(str::to_string)).collect();
    drop(tape);
    assert_eq!(names, ["First", "RED", "Second", "RED"]);
    assert_eq!(declared, said);
    assert_eq!(declared, ["S", "COLOUR", "COLOUR"]);
}

/// Names that are lent from the book outlive the tape; another book's block of another name gives none.
#[test]
fn names_of_the_book() {
    let book = TypeBook::new(types(), 8).expect("valid");
    let tape = book.root(0).expect("a type").read(&[0; 11]).expect("read").into_owned();
    let other = TypeBook::builder().with(TypeBuilder::new("INT").id(type_id::INT16).size(2));
    let other = other.build(8).expect("valid");
    for record in &tape {
        let said = match record.value {
            Value::Key(name) | Value::Enum(name) => Some(name),
            _ => None,
        };
        assert_eq!(record.name_in(&book), said);
        assert_eq!(record.declared_in(&book), record.declared());
        assert_eq!((record.name_in(&other), record.declared_in(&other)), (None, None));
    }
    let kept: Vec<&str> = tape.iter().filter_map(|r| r.name_in(&book)).collect();
    drop(tape);
    assert_eq!(kept, ["r", "t", "u"]);
}
