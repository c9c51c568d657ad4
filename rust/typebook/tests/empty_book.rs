//! The book with nothing in it, and roots by name (change request 5): the cases of its text, by hand.

use model::make::{Type, example, int};
use typebook::{LACKING_ROOT, Refusal, TypeBook, calls};

const LACKING: u64 = LACKING_ROOT as u64;

/// The answer of a read by name into ample buffers, its values, and whether both buffers are zero.
fn read(book: &[u8], len: usize, name: &[u8], memory: &[u8]) -> (u8, [u64; 2], bool) {
    let (mut tape, mut text, mut values) = (vec![7; 24 * 40], vec![7; 400], [99, 99]);
    let answer = calls::read_named(book, len, 8, name, memory, &mut tape, &mut text, &mut values);
    let zero = tape.iter().chain(&text).all(|&b| b == 0);
    (answer, values, zero)
}

/// The answer of a write by name, its value, and the output.
fn write(book: &[u8], name: &[u8], image: &[u8], tape: &[u8], mut output: Vec<u8>) -> (u8, u64, Vec<u8>) {
    let mut values = [99];
    let answer = calls::write_named(book, book.len(), 8, name, image, tape, &[], &mut output, &mut values);
    (answer, values[0], output)
}

/// A tape of one record.
fn record(kind: u8) -> [u8; 24] {
    let mut bytes = [0; 24];
    bytes[0] = kind;
    bytes
}

#[test]
fn a_book_of_no_bytes_is_valid() {
    assert_eq!(calls::check_book(&[], 0), 0);
    assert_eq!(calls::check_book(&example(), 0), 0);
    assert_eq!(calls::check_book(&[9; 511], 0), 0);
    assert_eq!(calls::check_book(&[9; 511], 511), 1);
    let empty = TypeBook::empty(8);
    assert_eq!((empty.blocks(), empty.bytes().len(), empty.types().count()), (0, 0, 0));
    assert_eq!(empty.root(0).unwrap_err(), Refusal::Root);
    assert_eq!(empty.root("").unwrap_err(), Refusal::NotFound { block: LACKING_ROOT });
    assert!(TypeBook::new(vec![], 8).is_ok() && TypeBook::names_only(vec![], 8).is_ok());
    let (mut tape, mut text, mut values) = ([7; 24], [7; 4], [9; 2]);
    assert_eq!(calls::read(&[], 0, 8, 0, &[], &mut tape, &mut text, &mut values), 5);
    assert_eq!((tape, text, values), ([0; 24], [0; 4], [9; 2]));
}

#[test]
fn an_addition_of_no_bytes_is_3() {
    let mut values = [9];
    assert_eq!(calls::append(&mut [], 0, &[], &mut values), 3);
    // The book's own refusals come first.
    let mut damaged = example();
    damaged[508] ^= 1;
    let len = damaged.len();
    assert_eq!(calls::append(&mut damaged, len, &[], &mut values), 2);
    assert_eq!(calls::append(&mut damaged, 511, &[], &mut values), 1);
    assert_eq!(values, [9]);
    // To the empty book a whole type can be added, if there is room.
    let mut buffer = vec![5; 600];
    assert_eq!(calls::append(&mut buffer[..511], 0, &int().bytes(), &mut values), 15);
    assert_eq!(calls::append(&mut buffer, 0, &int().bytes(), &mut values), 0);
    assert_eq!(
        (values, &buffer[..512], &buffer[512..]),
        ([512], &int().bytes()[..], &[5; 88][..])
    );
}

#[test]
fn a_name_that_no_type_can_have_is_23_in_the_place_of_5() {
    let book = example();
    let long = [b'a'; 201];
    for name in [&b"\x7f"[..], b"\x1f", b"a\0", "ä".as_bytes(), &long] {
        let mut values = [99];
        assert_eq!(calls::resolve_alias_named(&book, book.len(), 8, name, &mut values), 23);
        assert_eq!(
            calls::resolve_indirection_named(&book, book.len(), 8, name, &mut values),
            23
        );
        assert_eq!(
            calls::resolve_fields_named(&book, book.len(), 8, name, &mut [], &mut values),
            23
        );
        assert_eq!(read(&book, book.len(), name, &[0; 4]), (23, [99, 99], true));
        // Before 10 and 16; the output is the image's.
        assert_eq!(write(&book, name, &[1, 2], &[0; 23], vec![3, 4]), (23, 99, vec![1, 2]));
        assert_eq!(write(&book, name, &[1, 2], &[0; 23], vec![3]), (23, 99, vec![3]));
        // After the book's own refusals.
        let mut damaged = book.clone();
        damaged[508] ^= 1;
        assert_eq!(
            calls::resolve_alias_named(&damaged, damaged.len(), 8, name, &mut values),
            2
        );
        assert_eq!(values, [99]);
    }
    let most = [b'~'; 200];
    assert_eq!(read(&book, book.len(), &most, &[]), (7, [LACKING, 99], true));
}

#[test]
fn a_name_that_the_book_has_is_its_block() {
    let book = example();
    let mut values = [99];
    assert_eq!(calls::resolve_alias_named(&book, book.len(), 8, b"INT", &mut values), 0);
    assert_eq!(values, [3]);
    let mut records = [0; 8];
    assert_eq!(
        calls::resolve_fields_named(&book, book.len(), 8, b"S", &mut records, &mut values),
        0
    );
    assert_eq!((values, records), ([2], [0, 2, 3, 1, 2, 2, 3, 2]));
    assert_eq!(read(&book, book.len(), b"S", &[0; 4]), (0, [6, 0], false));
    // A field's name is none of a type, and letters count.
    assert_eq!(read(&book, book.len(), b"A", &[0; 4]), (7, [LACKING, 99], true));
    assert_eq!(read(&book, book.len(), b"int", &[0; 2]), (7, [LACKING, 99], true));
    // The name of no bytes finds an unnamed type.
    let unnamed = Type::new("").id(2).size(2).bytes();
    assert_eq!(read(&unnamed, 512, b"", &[5, 0]), (0, [1, 0], false));
    assert_eq!(TypeBook::new(unnamed, 8).unwrap().root("").unwrap().block(), 0);
}

#[test]
fn a_lacking_name_is_7_where_the_walk_begins() {
    let book = example();
    for (bytes, name) in [(&book[..], &b"FOO"[..]), (&[], b"S"), (&[], b"")] {
        let mut values = [99];
        assert_eq!(calls::resolve_alias_named(bytes, bytes.len(), 8, name, &mut values), 7);
        assert_eq!(values, [LACKING]);
        let mut values = [99];
        assert_eq!(
            calls::resolve_indirection_named(bytes, bytes.len(), 8, name, &mut values),
            7
        );
        assert_eq!(values, [LACKING]);
        // There is no field whose record could be 15.
        let mut values = [99];
        assert_eq!(
            calls::resolve_fields_named(bytes, bytes.len(), 8, name, &mut [], &mut values),
            7
        );
        assert_eq!(values, [LACKING]);
        assert_eq!(read(bytes, bytes.len(), name, &[]), (7, [LACKING, 99], true));
    }
    // In the writer after 10 and 16.
    let int = record(13);
    assert_eq!(write(&book, b"FOO", &[1, 2], &int, vec![3]), (10, 99, vec![3]));
    assert_eq!(
        write(&book, b"FOO", &[1, 2], &int[..23], vec![3, 4]),
        (16, 99, vec![1, 2])
    );
    assert_eq!(
        write(&book, b"FOO", &[1, 2], &int, vec![3, 4]),
        (7, LACKING, vec![1, 2])
    );
}

#[test]
fn the_number_of_a_lacking_root_is_no_block() {
    for bytes in [&example()[..], &[]] {
        let (mut tape, mut text, mut values) = ([7; 24], [7; 4], [99; 2]);
        let len = bytes.len();
        let answer = calls::read(bytes, len, 8, LACKING, &[], &mut tape, &mut text, &mut values);
        assert_eq!((answer, values), (5, [99; 2]));
        assert_eq!(calls::resolve_alias(bytes, len, 8, LACKING, &mut values), 5);
        assert_eq!(calls::resolve_fields(bytes, len, 8, LACKING, &mut [], &mut values), 5);
        assert_eq!(
            TypeBook::new(bytes, 8).unwrap().root(LACKING).unwrap_err(),
            Refusal::Root
        );
    }
}
