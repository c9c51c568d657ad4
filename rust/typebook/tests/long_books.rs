//! Reads of books with more types than the index of a short book has slots, and of books on both sides of the length at which the
//! call takes the longer index: against the model.

use model::make::{Type, book};
use typebook::{TypeBook, calls};

const WIDTH: u8 = 8;

/// A struct of so many fields, each of a type of its own, among so many types.
fn long(fields: u32, types: u32) -> Vec<u8> {
    let name = |n: u32| format!("T_{n}");
    let root = (0..fields).fold(Type::new("ROOT").size(2 * fields), |t, i| {
        // The fields' types are spread over the whole book.
        let of = (u64::from(i) * u64::from(types) / u64::from(fields)) as u32;
        t.field(&format!("f{i}"), &name(of), 2 * i, 2)
    });
    let mut all = vec![root];
    all.extend((0..types).map(|n| Type::new(&name(n)).id(2).size(2)));
    book(&all)
}

fn memory(fields: u32) -> Vec<u8> {
    (0..2 * fields).map(|i| (i * 7 + i / 256) as u8).collect()
}

/// The whole call and the read of a checked book, against the model's read.
fn alike(bytes: &[u8], memory: &[u8], records: usize) {
    let room = 24 * records;
    let (mut tape, mut text, mut values) = (vec![0x77; room], vec![0x77; 8], [0; 2]);
    let (mut other, mut others, mut wanted) = (tape.clone(), text.clone(), [0; 2]);
    let n = calls::read(bytes, bytes.len(), WIDTH, 0, memory, &mut tape, &mut text, &mut values);
    let m = model::calls::read(
        bytes,
        bytes.len(),
        WIDTH,
        0,
        memory,
        &mut other,
        &mut others,
        &mut wanted,
    );
    assert_eq!((n, values), (m, wanted));
    assert!(tape == other && text == others);
    if n == 0 {
        let checked = TypeBook::new(bytes, WIDTH).unwrap();
        assert!(checked.root(0).unwrap().read(memory).unwrap().bytes() == tape);
    }
}

#[test]
fn more_types_than_slots() {
    for (fields, types) in [(5_000, 60_000), (300, 20_000), (300, 16_384)] {
        alike(&long(fields, types), &memory(fields), 2 * fields as usize + 2);
    }
}

#[test]
fn a_type_that_is_missing_among_many() {
    let fields = 300;
    let mut bytes = long(fields, 20_000);
    // The last field's type name gets another letter, and the block its new sum.
    let block = &mut bytes[512 * fields as usize..512 * (fields as usize + 1)];
    block[254] = b'U';
    model::make::mend(block);
    alike(&bytes, &memory(fields), 2 * fields as usize + 2);
}

#[test]
fn both_sides_of_a_short_book() {
    for blocks in [8_191, 8_192, 8_193] {
        let fields = 20;
        let bytes = long(fields, blocks - 1 - fields);
        assert_eq!(bytes.len(), 512 * blocks as usize);
        alike(&bytes, &memory(fields), 2 * fields as usize + 2);
        // One record short: 15, and zeros.
        alike(&bytes, &memory(fields), 2 * fields as usize + 1);
    }
}
