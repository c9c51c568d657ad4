//! What a type says of itself, against the model's reading of the same blocks; and a book made again of what its types say.

use model::block;
use model::random::{Rng, made};
use typebook::{TypeBook, TypeRef};

fn alike(t: TypeRef, book: &[u8]) {
    let n = t.block();
    assert_eq!((t.size(), t.type_id()), (block::size(book, n), block::id(book, n)));
    assert_eq!(t.dimensions().collect::<Vec<_>>(), block::dimensions(book, n));
    let fields: Vec<_> = t.declared_fields().collect();
    assert_eq!(fields.len(), block::fields(book, n) as usize);
    for (f, b) in fields.iter().zip(n + 1..) {
        assert_eq!(
            (f.block, f.offset, f.size),
            (b, block::offset(book, b), block::size(book, b))
        );
        assert_eq!(
            (f.name.as_bytes(), f.type_name.as_bytes()),
            (block::name(book, b), block::type_name(book, b))
        );
    }
    let entries: Vec<_> = t.entries().collect();
    assert_eq!(entries.len(), block::entries(book, n) as usize);
    for (e, b) in entries.iter().zip(n + 1 + fields.len() as u32..) {
        assert_eq!(
            (e.block, e.name.as_bytes(), e.value),
            (b, block::name(book, b), block::value(book, b))
        );
        let low_first = e.value.iter().rev().fold(0u64, |sum, &x| sum << 8 | u64::from(x));
        assert_eq!(e.unsigned(), low_first);
        let negative = e.value.last().is_some_and(|&x| 127 < x);
        let whole = if negative {
            i128::from(low_first) - (1 << (8 * e.value.len()))
        } else {
            low_first.into()
        };
        assert_eq!(i128::from(e.signed()), whole);
    }
}

#[test]
fn types_say_what_their_blocks_hold() {
    let (mut types, mut entries) = (0, 0);
    for seed in 0..600 {
        let made = made(&mut Rng::new(seed + 31_000_000));
        let book = TypeBook::new(&made.book[..], made.width).expect("valid");
        for t in book.types() {
            alike(t, &made.book);
            types += 1;
            entries += t.entries().len();
        }
        let parts: Vec<&[u8]> = book.types().map(TypeRef::blocks).collect();
        assert_eq!(parts.concat(), made.book);
    }
    assert!(3_000 < types && 500 < entries, "{types} types, {entries} entries");
}
