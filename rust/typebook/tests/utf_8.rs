//! STRINGs in UTF-8: some texts by hand, the mark in a type block, reads and writes of marked STRINGs. tests/recorded.rs holds the
//! decoder and the reader against encoding_rs.

use model::make::{Type, book};
use typebook::{Refusal, TapeBuilder, TypeBook, Value, text};

const WIDTH: u8 = 8;
const MARK: u8 = 32;

#[test]
fn the_standard_counts_the_parts() {
    for (bytes, decoded) in [
        (&b"\xF0\x80"[..], "\u{fffd}\u{fffd}"),
        (b"\xE2\x82", "\u{fffd}"),
        (b"\xED\xA0\x80", "\u{fffd}\u{fffd}\u{fffd}"),
        (b"\xEF\xBB\xBFA", "\u{feff}A"),
        (b"", ""),
    ] {
        assert_eq!(text::from_utf_8(bytes), decoded);
    }
}

fn string(size: u32) -> Type {
    Type::new("S").id(30).size(size)
}

#[test]
fn the_mark_is_a_strings() {
    let checked = |t: Type| TypeBook::new(t.bytes(), WIDTH).map(|_| ());
    assert_eq!(checked(string(4).flags(MARK)), Ok(()));
    assert_eq!(checked(string(4).flags(MARK + 4)), Ok(()));
    assert_eq!(checked(string(4).dimensions(&[2]).of("S").flags(MARK)), Ok(()));
    assert_eq!(checked(Type::new("P").id(30).size(8).flags(MARK + 1)), Ok(()));
    assert_eq!(checked(Type::new("A").id(30).size(8).of("S").flags(MARK)), Ok(()));
    for other in [2, 31, 32, 33, 65] {
        assert_eq!(
            checked(Type::new("S").id(other).size(2).flags(MARK)),
            Err(Refusal::Form)
        );
    }
    assert_eq!(checked(string(4).flags(64)), Err(Refusal::Form));
    assert_eq!(checked(string(4).flags(128 + MARK)), Err(Refusal::Form));
    // A field at offset 30 is no STRING.
    let mut field = Type::new("R").size(40).field("f", "S", 30, 4).bytes();
    field[512 + 1] = MARK;
    model::make::mend(&mut field[512..1024]);
    assert_eq!(TypeBook::new(field, WIDTH).map(|_| ()), Err(Refusal::Form));
}

/// The texts of a read, in order.
fn texts(types: &[Type], memory: &[u8]) -> Vec<String> {
    let book = TypeBook::new(book(types), WIDTH).expect("a valid book");
    let tape = book.root(0).expect("a type").read(memory).expect("a read");
    tape.iter()
        .filter_map(|record| match record.value {
            Value::Text { text, .. } => Some(text.to_string()),
            _ => None,
        })
        .collect()
}

#[test]
fn a_marked_string_is_read_as_utf_8() {
    let one = &[string(5).flags(MARK)];
    assert_eq!(texts(one, b"\xC3\xA4A\0\xFF"), ["\u{e4}A"]);
    assert_eq!(texts(one, b"A\xE2\x82\0B"), ["A\u{fffd}"]);
    assert_eq!(texts(one, b"ABC\xE2\x82"), ["ABC\u{fffd}"]);
    assert_eq!(texts(one, b"\xEF\xBB\xBFA\0"), ["\u{feff}A"]);
    assert_eq!(texts(&[string(5)], b"\xC3\xA4A\0\xFF"), ["\u{c3}\u{a4}A"]);
    // Only the resolved type's own bit counts: not an alias's, and not an array's.
    let alias = |flags| Type::new("A").id(30).size(2).of("S").flags(flags);
    assert_eq!(texts(&[alias(MARK), string(2)], b"\xC3\xA4"), ["\u{c3}\u{a4}"]);
    assert_eq!(texts(&[alias(0), string(2).flags(MARK)], b"\xC3\xA4"), ["\u{e4}"]);
    let array = |flags| Type::new("A").id(30).size(4).of("S").dimensions(&[2]).flags(flags);
    assert_eq!(texts(&[array(MARK), string(2)], b"\xC3\xA4A\0"), ["\u{c3}\u{a4}", "A"]);
    assert_eq!(
        texts(&[array(0), string(2).flags(MARK)], b"\xC3\xA4A\0"),
        ["\u{e4}", "A"]
    );
}

/// What a write of one text answers over an image of FFh.
fn written(types: &[Type], size: usize, value: &str) -> Result<Vec<u8>, Refusal> {
    let book = TypeBook::new(book(types), WIDTH).expect("a valid book");
    let mut tape = TapeBuilder::new(&book);
    tape.text(value).expect("a text");
    let tape = tape.finish().expect("a tape");
    book.root(0).expect("a type").write(&vec![0xFF; size], &tape)
}

#[test]
fn a_marked_string_is_written_as_the_texts_own_bytes() {
    let marked = |size| string(size).flags(MARK);
    assert_eq!(written(&[marked(3)], 3, "\u{416}"), Ok(vec![0xD0, 0x96, 0]));
    assert_eq!(written(&[marked(2)], 2, "\u{416}").map_err(|r| r.number()), Err(10));
    assert_eq!(
        written(&[marked(6)], 6, "\u{fffd}"),
        Ok(vec![0xEF, 0xBF, 0xBD, 0, 0, 0])
    );
    assert_eq!(written(&[marked(1)], 1, ""), Ok(vec![0]));
    assert_eq!(written(&[string(2)], 2, "\u{e4}"), Ok(vec![0xE4, 0]));
    // A text into an array goes by the array's own id and bit.
    let array = |flags| Type::new("A").id(30).size(4).of("S").dimensions(&[2]).flags(flags);
    assert_eq!(
        written(&[array(MARK), string(2)], 4, "\u{e4}"),
        Ok(vec![0xC3, 0xA4, 0, 0])
    );
    assert_eq!(written(&[array(0), marked(2)], 4, "\u{e4}"), Ok(vec![0xE4, 0, 0, 0]));
}
