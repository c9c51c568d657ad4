//! No number makes a public function panic: block numbers past the book, numbers that are no refusal or category, rooms that no machine
//! has, indexes past an array; and the version is the same everywhere.

use model::make::{Type, book, int};
use std::path::Path;
use typebook::{Category, EditError, Refusal, Room, Step, TypeBook, TypeBuilder, Value, calls};

const BLOCKS: [u32; 8] = [4, 5, 6, 65_535, 65_536, 1 << 23, u32::MAX - 1, u32::MAX];

fn made() -> TypeBook<'static> {
    let array = Type::new("A").of("INT").size(4).dimensions(&[2]);
    TypeBook::new(book(&[Type::new("S").size(4).field("x", "A", 0, 4), array, int()]), 8).expect("valid")
}

#[test]
fn blocks_past_the_book() {
    let book = made();
    for block in BLOCKS {
        assert_eq!((book.name(block), book.type_name(block)), ("", ""));
        assert_eq!(book.root(u64::from(block)).err(), Some(Refusal::Root));
        let mut values = [0; 3];
        assert!(!calls::is_type(book.bytes(), block));
        assert_eq!(calls::determine(book.bytes(), 8, block, &mut values), 0);
    }
    for root in [1 << 32, u64::MAX - 1, u64::MAX] {
        assert_eq!(book.root(root).err(), Some(Refusal::Root));
        assert!(book.plan(&book, root).is_err());
    }
}

#[test]
fn numbers_that_stand_for_nothing() {
    let known = (0..=u8::MAX).filter(|&n| Refusal::from_number(n, u64::MAX).is_some());
    assert!(known.eq((1..=19).chain([23, 24])));
    assert_eq!(
        (Category::from_number(16), Category::from_number(u64::MAX)),
        (None, None)
    );
    for width in 0..=u8::MAX {
        let book = made().with_width(width);
        let root = book.root(0).expect("a type");
        assert_eq!(root.category(), Category::Struct);
        assert!(root.read(&[0; 4]).is_ok());
    }
}

#[test]
fn rooms_that_no_machine_has() {
    let book = made();
    let root = book.root(0).expect("a type");
    for records in [7, 1 << 40, usize::MAX / 24, usize::MAX] {
        for text in [0, 1 << 40, usize::MAX] {
            let told = root.read_within(&[1, 0, 2, 0], Room { records, text });
            assert_eq!(told.map(|tape| tape.len()), Ok(7));
        }
    }
    for records in [0, 6] {
        let told = root.read_within(
            &[1, 0, 2, 0],
            Room {
                records,
                text: usize::MAX,
            },
        );
        assert_eq!(told.err(), Some(Refusal::NoRoom));
    }
}

#[test]
fn indexes_past_an_array() {
    let book = made();
    let mut tape = book.root(0).and_then(|t| t.read(&[1, 0, 2, 0])).expect("read");
    for index in [2, 1 << 32, u64::MAX] {
        let steps = [Step::Key("x"), Step::Index(index)];
        assert_eq!(tape.edit_at(&steps, 5), Err(EditError::NoElement(index)));
        assert_eq!(tape.at(&format!("x[{index}]")), Err(EditError::NoElement(index)));
    }
    assert_eq!(tape.at("x[1]"), Ok(Value::Int { bits: 16, value: 2 }));
    assert_eq!(
        tape.at("x[99999999999999999999]").err(),
        Some(EditError::Path("x[99999999999999999999]".into()))
    );
}

#[test]
fn types_of_the_largest_numbers() {
    let most = u32::MAX;
    let t = TypeBuilder::new("T")
        .id(most)
        .size(most)
        .field("x", "T", most, most)
        .dimension(most)
        .dimension(most);
    let book = TypeBook::builder().with(t).build(8).expect("it fits");
    let t = book.root(0).expect("a type");
    assert_eq!((t.size(), t.type_id()), (most, most));
    assert_eq!(t.dimensions().collect::<Vec<_>>(), [most, most]);
    assert_eq!(
        t.explain(&[]).map(|e| e.to_string()),
        Some(format!("0 bytes where T has {most}"))
    );
}

#[test]
fn one_version() {
    let (major, minor, patch) = typebook::library_version();
    assert_eq!(format!("{major}.{minor}.{patch}"), env!("CARGO_PKG_VERSION"));
    let header = Path::new(env!("CARGO_MANIFEST_DIR")).join("../../crates/gateway/gateway.h");
    let header = std::fs::read_to_string(header).expect("the header");
    let define = format!("#define GATEWAY_VERSION {:#08x}\n", calls::version());
    assert!(header.contains(&define), "{define}");
}
