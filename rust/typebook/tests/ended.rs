//! Byte 1 of a text's record: whether a terminator was found (change request 2).

use model::make::{Type, book};
use model::tapes::Tape;
use typebook::{Refusal, TypeBook, Value};

/// Byte 1 and the text of what is read of some bytes, as a STRING (30) or a WSTRING (31).
fn read(id: u32, bytes: &[u8]) -> (u8, String) {
    let types = [Type::new("T").id(id).size(bytes.len() as u32)];
    let book = TypeBook::new(book(&types), 8).expect("valid");
    let tape = book.root(0).expect("a type").read(bytes).expect("read");
    let record = tape.iter().next().expect("one record");
    match record.value {
        Value::Text { text, clipped } => {
            assert_eq!(clipped, tape.bytes()[1] == 0);
            (tape.bytes()[1], text.into())
        }
        value => panic!("{value:?}"),
    }
}

#[test]
fn what_a_terminator_is() {
    assert_eq!(read(30, b"AB\0"), (1, "AB".into()));
    assert_eq!(read(30, b"\0AB"), (1, "".into()));
    assert_eq!(read(30, b"ABC"), (0, "ABC".into()));
    assert_eq!(read(30, b""), (0, "".into()));
    assert_eq!(read(31, b"A\0\0\0"), (1, "A".into()));
    assert_eq!(read(31, b"\0\0A"), (1, "".into()));
    assert_eq!(read(31, b""), (0, "".into()));
    // An odd byte is no pair, nor is a pair at an odd place.
    assert_eq!(read(31, b"\0"), (0, "\u{fffd}".into()));
    assert_eq!(read(31, b"A\0\0"), (0, "A\u{fffd}".into()));
    assert_eq!(read(31, b"A\0\0B"), (0, "A\u{4200}".into()));
}

#[test]
fn what_is_shown() {
    let shown = |clipped| Value::Text { text: "a\"b", clipped }.to_string();
    assert_eq!(shown(false), r#""a\"b""#);
    assert_eq!(shown(true), r#""a\"b" (clipped)"#);
}

/// The writer takes both and writes alike, also where it refuses.
#[test]
fn written_alike() {
    let types = [Type::new("T").id(30).size(3)];
    let book = TypeBook::new(book(&types), 8).expect("valid");
    let root = book.root(0).expect("a type");
    let write = |text: &str, byte_1: u8, image: &[u8]| {
        let mut tape = Tape::default();
        tape.put_text(text);
        tape.records[1] = byte_1;
        let mut output = image.to_vec();
        root.write_into(image, &tape.records, &tape.text, &mut output)
            .map(|()| output)
    };
    for ended in [0, 1] {
        assert_eq!(write("ab", ended, b"xyz"), Ok(b"ab\0".to_vec()));
        assert_eq!(write("abc", ended, b"xyz"), Err(Refusal::Size));
    }
    assert_eq!(write("ab", 2, b"xyz"), Err(Refusal::TapeForm));
    // Byte 1 of no other kind but an integer's is used.
    let mut unit = Tape::default();
    unit.put(13, 1, 0, 0);
    let refused = root.write_into(b"xyz", &unit.records, &unit.text, &mut [0; 3]);
    assert_eq!(refused, Err(Refusal::TapeForm));
}
