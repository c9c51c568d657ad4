//! Uploads: the example of examples/upload, every fault by hand, and damage at random. Whatever the bytes are, there is a book or an
//! error, never a panic.

use model::category::determine;
use model::random::Rng;
use model::{Book, block};
use std::path::Path;
use typebook::{Category, TypeBook, TypeError, Upload, UploadError, UploadFault, UploadFlags, UploadPart};

fn example(name: &str) -> Vec<u8> {
    let folder = Path::new(env!("CARGO_MANIFEST_DIR")).join("../../examples/upload");
    std::fs::read(folder.join(name)).expect("a file")
}

/// A data type entry in the making.
#[derive(Clone, Default)]
struct Made {
    name: Vec<u8>,
    type_name: String,
    comment: Vec<u8>,
    size: u32,
    offset: u32,
    id: u32,
    flags: u32,
    bounds: Vec<(i32, u32)>,
    items: Vec<Made>,
    /// GUID, copy mask, methods, attributes and enumeration entries, as the flags say.
    tail: Vec<u8>,
}

impl Made {
    fn new(name: &str, size: u32) -> Self {
        let (name, id) = (name.into(), 65);
        let made = Self::default();
        Self { name, size, id, ..made }
    }

    fn of(mut self, type_name: &str) -> Self {
        self.type_name = type_name.into();
        self
    }

    fn id(mut self, id: u32) -> Self {
        self.id = id;
        self
    }

    fn at(mut self, offset: u32) -> Self {
        self.offset = offset;
        self
    }

    fn item(mut self, item: Made) -> Self {
        self.items.push(item);
        self
    }

    fn bounds(mut self, lower: i32, elements: u32) -> Self {
        self.bounds.push((lower, elements));
        self
    }

    fn flags(mut self, flags: u32, tail: &[u8]) -> Self {
        self.flags |= flags;
        self.tail.extend_from_slice(tail);
        self
    }

    fn bytes(&self) -> Vec<u8> {
        let mut body = Vec::new();
        for text in [&self.name[..], self.type_name.as_bytes(), &self.comment] {
            body.extend_from_slice(text);
            body.push(0);
        }
        for (lower, elements) in &self.bounds {
            body.extend(lower.to_le_bytes());
            body.extend(elements.to_le_bytes());
        }
        body.extend(self.items.iter().flat_map(Made::bytes));
        body.extend_from_slice(&self.tail);
        let numbers = [
            42 + body.len() as u32,
            1,
            7,
            8,
            self.size,
            self.offset,
            self.id,
            self.flags,
        ];
        let counts = [
            self.name.len(),
            self.type_name.len(),
            self.comment.len(),
            self.bounds.len(),
            self.items.len(),
        ];
        let mut out: Vec<u8> = numbers.iter().flat_map(|n| n.to_le_bytes()).collect();
        out.extend(counts.iter().flat_map(|&n| (n as u16).to_le_bytes()));
        out.extend(body);
        out
    }
}

fn all(types: &[Made]) -> Vec<u8> {
    types.iter().flat_map(Made::bytes).collect()
}

fn int() -> Made {
    Made::new("INT", 2).id(2)
}

fn refused(types: &[Made]) -> UploadError {
    TypeBook::from_upload(&all(types), 8).expect_err("a fault")
}

/// The book that tools/make_recipe.py makes of the description that tools/make_upload.py made the upload of.
#[test]
fn the_example() {
    let upload = example("station.upload");
    let book = TypeBook::from_upload(&upload, 8).expect("a book");
    assert_eq!(book.bytes(), example("book.bin"));
    // What a book can't hold is in the description.
    let upload = Upload::parse(&upload).expect("entries");
    let find = |name: &str| upload.entries().iter().find(|e| e.name == name).expect("a type");
    assert_eq!(find("Line").comment, "Line, caf\u{e9}");
    assert_eq!(find("ARRAY [1..3] OF ST_Stitch").dimensions[0].lower, 1);
    let watch = find("FB_Watch");
    assert_eq!(watch.methods, 2);
    assert!(watch.has_attribute("TcImplements") && watch.has_attribute("no_check"));
    assert_eq!(watch.items.len(), 3);
    assert!(watch.items[1].flags.has(UploadFlags::STATIC));
    assert_eq!(find("E_Shift").enum_infos[2].value, [2, 0]);
    assert_eq!(find("Line").items[1].attributes[0].value, "1");
}

/// Cut at any byte: whole entries are a book or lack nothing but types, everything else is an error with its place.
#[test]
fn cut_at_every_byte() {
    let upload = example("station.upload");
    let ends: Vec<usize> = Upload::parse(&upload)
        .expect("entries")
        .entries()
        .iter()
        .map(|e| e.at)
        .collect();
    for end in 0..upload.len() {
        let told = Upload::parse(&upload[..end]);
        if ends.contains(&end) {
            assert_eq!(
                told.expect("whole entries").entries().len(),
                ends.iter().filter(|&&e| e < end).count()
            );
        } else {
            let error = told.expect_err("cut off");
            assert!(
                matches!(error.fault, UploadFault::Short { .. }) && error.at <= end,
                "{end}: {error}"
            );
        }
    }
}

#[test]
fn lengths_that_lie() {
    let upload = all(&[int(), Made::new("S", 2).item(Made::new("x", 2).of("INT"))]);
    let second = int().bytes().len();
    let item = second + 42 + 4;
    let with = |at: usize, value: &[u8]| {
        let mut bytes = upload.clone();
        bytes[at..at + value.len()].copy_from_slice(value);
        TypeBook::from_upload(&bytes, 8).expect_err("a fault")
    };
    // An entry shorter than its head, and longer than what is left.
    for len in [0u32, 3, 41] {
        let fault = with(second, &len.to_le_bytes()).fault;
        let (part, len, least) = (UploadPart::Entry, len as usize, 42);
        assert_eq!(fault, UploadFault::Length { part, len, least });
    }
    for len in [(upload.len() - second + 1) as u32, u32::MAX] {
        let error = with(second, &len.to_le_bytes());
        let (part, wanted, left) = (UploadPart::Entry, len as usize, upload.len() - second);
        assert_eq!(
            (error.at, error.fault),
            (second, UploadFault::Short { part, wanted, left })
        );
    }
    // A sub item that passes its type's end, though the upload goes on.
    let both = [upload.clone(), upload.clone()].concat();
    let mut bytes = both[second..].to_vec();
    bytes[item - second..item - second + 4].copy_from_slice(&1000u32.to_le_bytes());
    let error = TypeBook::from_upload(&bytes, 8).expect_err("a fault");
    assert_eq!(error.entry, "S");
    assert!(matches!(error.fault, UploadFault::Short { wanted: 1000, .. }));
    // A name that is said to be shorter or longer than it is; too many dimensions and sub items.
    let (part, len) = (UploadPart::Name, 2);
    assert_eq!(with(32, &[2, 0]).fault, UploadFault::NotEnded { part, len });
    assert!(matches!(
        with(32, &[255, 255]).fault,
        UploadFault::Short {
            part: UploadPart::Name,
            ..
        }
    ));
    assert!(matches!(
        with(38, &[1, 0]).fault,
        UploadFault::Short {
            part: UploadPart::Dimensions,
            ..
        }
    ));
    assert!(matches!(
        with(40, &[1, 0]).fault,
        UploadFault::Short {
            part: UploadPart::Entry,
            ..
        }
    ));
    // A type name of one byte more takes the comment's zero.
    assert!(matches!(
        with(34, &[1, 0]).fault,
        UploadFault::Short {
            part: UploadPart::Comment,
            ..
        }
    ));
}

/// Each part that a flag announces, left out.
#[test]
fn parts_that_are_not_there() {
    for (flag, part) in [
        (UploadFlags::TYPE_GUID, UploadPart::Guid),
        (UploadFlags::COPY_MASK, UploadPart::CopyMask),
        (UploadFlags::METHOD_INFOS, UploadPart::Methods),
        (UploadFlags::ATTRIBUTES, UploadPart::Attributes),
        (UploadFlags::ENUM_INFOS, UploadPart::EnumInfos),
    ] {
        let told = refused(&[int().flags(flag, &[])]);
        assert!(
            matches!(told.fault, UploadFault::Short { part: p, .. } if p == part),
            "{told}"
        );
        assert_eq!(told.entry, "INT");
    }
    // Counts of more than there is, and a method shorter than its own length.
    let methods = |tail: &[u8]| refused(&[int().flags(UploadFlags::METHOD_INFOS, tail)]).fault;
    assert!(matches!(methods(&[1, 0]), UploadFault::Short { .. }));
    let (part, len, least) = (UploadPart::Methods, 3, 4);
    assert_eq!(methods(&[1, 0, 3, 0, 0, 0]), UploadFault::Length { part, len, least });
    // What follows the known parts is of newer versions.
    let newer = int().flags(UploadFlags::TYPE_GUID, &[9; 40]);
    assert!(TypeBook::from_upload(&newer.bytes(), 8).is_ok());
}

#[test]
fn flags_and_their_bits() {
    let methods = [&[1, 0][..], &[4, 0, 0, 0]].concat();
    let implements = [&[1, 0, 12, 0][..], b"TcImplements\0\0"].concat();
    let named = |name: &str, size| Made::new(name, size);
    let types = [
        named("P", 8).of("INT").flags(UploadFlags::PLC_POINTER_TYPE, &[]),
        named("R", 8).of("INT").flags(UploadFlags::REFERENCE_TO, &[]),
        named("E", 2)
            .id(2)
            .of("INT")
            .flags(UploadFlags::ENUM_INFOS, b"\x01\x00\x02on\0\x01\x00"),
        named("M", 16).flags(UploadFlags::METHOD_INFOS, &methods),
        named("F", 16)
            .flags(UploadFlags::METHOD_INFOS, &methods)
            .flags(UploadFlags::ATTRIBUTES, &implements),
        named("T", 6).flags(UploadFlags::ATTRIBUTES, &implements),
        // A list of methods without any is none.
        named("N", 6).flags(UploadFlags::METHOD_INFOS, &[0, 0]),
        named("A", 12).of("INT").id(2).bounds(-3, 2).bounds(1, 3),
        named("C", 2).of("INT").id(2),
        int(),
    ];
    let book = TypeBook::from_upload(&all(&types), 8).expect("a book");
    let category = |name: &str| book.find(name).expect("a type").category();
    assert_eq!(category("P"), Category::Pointer);
    assert_eq!(category("R"), Category::Reference);
    assert_eq!(category("E"), Category::Enum);
    assert_eq!(category("M"), Category::Interface);
    assert_eq!(category("F"), Category::FunctionBlock);
    assert_eq!(category("T"), Category::FunctionBlock);
    assert_eq!(category("N"), Category::None);
    assert_eq!(category("A"), Category::Array);
    assert_eq!(category("C"), Category::Alias);
    let root = book.find("A").expect("a type");
    let tape = root.read(&[1, 0, 2, 0, 3, 0, 4, 0, 5, 0, 6, 0]).expect("read");
    assert_eq!(tape.at("[1,2]").expect("an element").to_string(), "6");
}

/// Statics and properties have no bytes in a value: they are no fields, and don't make a function block look like a struct.
#[test]
fn what_has_no_bytes() {
    let item = |name: &str, at, flags| Made::new(name, 2).id(2).of("INT").at(at).flags(flags, &[]);
    let block = Made::new("FB", 10)
        .item(item("Property", 0, UploadFlags::PROP_ITEM))
        .item(item("Shared", 0, UploadFlags::STATIC))
        .item(item("Own", 8, 0));
    let book = TypeBook::from_upload(&all(&[block, int()]), 8).expect("a book");
    let root = book.root(0).expect("a type");
    assert_eq!(root.category(), Category::FunctionBlock);
    let names: Vec<&str> = root.fields().expect("fields").iter().map(|f| f.name).collect();
    assert_eq!(names, ["Own"]);
}

/// Sizes and offsets in bits are whole bytes, or the type is an error.
#[test]
fn bits() {
    let bit = |at| {
        let item = Made::new("b", 1).id(33).of("BIT").at(at);
        item.flags(UploadFlags::BIT_VALUES, &[])
    };
    let word = Made::new("w", 16).id(18).of("WORD").at(8);
    let fine = Made::new("S", 3).item(word.flags(UploadFlags::BIT_VALUES, &[]));
    let alone = Made::new("BIT", 1).id(33).flags(UploadFlags::BIT_VALUES, &[]);
    let book = TypeBook::from_upload(&all(&[fine, alone.clone(), Made::new("WORD", 2).id(18)]), 8).expect("a book");
    let field = book.root(0).expect("a type").fields().expect("fields")[0];
    assert_eq!((field.offset, field.size), (1, 2));
    assert!(book.find("BIT").expect("a type").read(&[1]).is_ok());
    let told = refused(&[alone.clone(), Made::new("S", 1).item(bit(3))]);
    assert_eq!(
        (&told.entry[..], told.fault),
        ("S", UploadFault::Bits { field: "b".into() })
    );
    // The others are to be had without it, and whoever needs it is told.
    let upload = all(&[
        Made::new("R", 1).item(Made::new("s", 1).of("S")),
        alone,
        Made::new("S", 1).item(bit(3)),
    ]);
    let (book, unfit) = Upload::parse(&upload).expect("entries").fitting(8).expect("a book");
    assert_eq!((book.types().count(), unfit.len()), (2, 1));
    let missing = book.root(0).expect("a type").missing_types().expect("a list");
    assert_eq!(book.type_name(missing.blocks[0]), "S");
}

/// A STRING, or a field, an alias or an array of one, that an attribute marks as UTF-8: the type that it comes to has the mark.
#[test]
fn texts_in_utf_8() {
    let mark = b"\x01\x00\x0a\x05TcEncoding\0UTF-8\0";
    let marked = |made: Made| made.flags(UploadFlags::ATTRIBUTES, mark);
    let string = Made::new("STRING(3)", 4).id(30);
    let field = |name: &str, of: &str, at: u32| Made::new(name, 4).of(of).at(at);
    let root = Made::new("S", 24)
        .item(field("plain", "STRING(3)", 0))
        .item(marked(field("own", "STRING(3)", 4)))
        .item(field("type", "T_Text", 8))
        .item(marked(field("alias", "T_Alias", 12)))
        .item(marked(field("array", "ARRAY [0..0] OF T_Alias", 16)))
        .item(marked(field("number", "DINT", 20)));
    let types = [
        root,
        string,
        marked(Made::new("T_Text", 4).id(30)),
        Made::new("T_Alias", 4).id(30).of("STRING(3)"),
        Made::new("ARRAY [0..0] OF T_Alias", 4)
            .id(30)
            .of("T_Alias")
            .bounds(0, 1),
        Made::new("DINT", 4).id(3),
    ];
    let book = TypeBook::from_upload(&all(&types), 8).expect("a book");
    assert!(book.find("STRING(3) UTF-8").is_some() && book.find("T_Alias UTF-8").is_some());
    let euro = "\u{20ac}\0".as_bytes();
    let memory = [euro, euro, euro, euro, euro, &[5, 0, 0, 0]].concat();
    let tape = book.root(0).expect("a type").read(&memory).expect("read");
    let shown = |path: &str| tape.at(path).expect("a value").to_string();
    assert_eq!(shown("plain"), "\"\u{e2}\u{201a}\u{ac}\"");
    for path in ["own", "type", "alias", "array[0]"] {
        assert_eq!(shown(path), "\"\u{20ac}\"", "{path}");
    }
    assert_eq!(shown("number"), "5");
    // An alias that is marked itself; one of a type that isn't there stays as it is.
    let alias = marked(Made::new("A", 4).id(30).of("STRING(3)"));
    let lost = marked(Made::new("B", 4).id(30).of("GONE"));
    let book = TypeBook::from_upload(&all(&[alias, Made::new("STRING(3)", 4).id(30), lost]), 8).expect("a book");
    let tape = book.root(0).expect("a type").read(euro).expect("read");
    assert!(format!("{tape:?}").contains('\u{20ac}'), "{tape:?}");
    assert_eq!(book.find("B").expect("a type").type_name(), "GONE");
}

#[test]
fn names_that_do_not_fit() {
    let long = "x".repeat(201);
    for made in [
        Made::new(&long, 2),
        Made::new("S", 2).of(&long),
        Made::new("S", 2).item(Made::new(&long, 2)),
        Made {
            name: b"M\xfchle".to_vec(),
            ..Made::new("", 2)
        },
        Made {
            name: b"a\0b".to_vec(),
            ..Made::new("", 2)
        },
        (0..9).fold(Made::new("A", 2), |made, _| made.bounds(0, 1)),
        Made::new("E", 9).flags(UploadFlags::ENUM_INFOS, b"\x01\x00\x01a\x00abcdefghi"),
    ] {
        let told = refused(&[int(), made]);
        let fault = &told.fault;
        assert!(matches!(fault, UploadFault::Form(TypeError::Misfit { .. })), "{told}");
        assert_eq!(told.at, int().bytes().len());
    }
    let edge = "x".repeat(200);
    assert!(TypeBook::from_upload(&Made::new(&edge, 2).bytes(), 8).is_ok());
    // A comment may be as it likes.
    let comment = vec![200; 65_535];
    assert!(TypeBook::from_upload(&Made { comment, ..int() }.bytes(), 8).is_ok());
}

#[test]
fn doubled_names() {
    let (one, other) = (int(), Made::new("INT", 4).id(3));
    let book = TypeBook::from_upload(&all(&[one.clone(), one.clone()]), 8).expect("the same twice");
    assert_eq!(book.types().count(), 1);
    let told = refused(&[one.clone(), other.clone()]);
    assert_eq!((told.at, told.fault), (0, UploadFault::Doubled));
    // Of two that differ none is taken.
    let upload = all(&[one, Made::new("S", 2).item(Made::new("x", 2).of("INT")), other]);
    let (book, unfit) = Upload::parse(&upload).expect("entries").fitting(8).expect("a book");
    assert_eq!((book.types().count(), unfit.len()), (1, 2));
}

#[test]
fn types_that_hold_themselves() {
    let field = |of: &str| Made::new("x", 4).of(of);
    let alias = |name: &str, of: &str| Made::new(name, 4).of(of).id(3);
    for (types, wanted) in [
        (vec![alias("A", "A")], "A -> A"),
        (vec![alias("A", "B"), alias("B", "A")], "A -> B -> A"),
        (vec![Made::new("S", 4).item(field("S"))], "S -> S"),
        (
            vec![
                Made::new("S", 4).item(field("V")),
                Made::new("V", 4).of("S").bounds(1, 1),
            ],
            "S -> V -> S",
        ),
        (
            vec![
                Made::new("T", 4).item(field("INT")).item(field("S").at(4)),
                int(),
                alias("S", "S"),
            ],
            "T -> S -> S",
        ),
    ] {
        let told = refused(&types);
        let UploadFault::Cycle(names) = &told.fault else {
            panic!("{told}")
        };
        assert_eq!(names.join(" -> "), wanted);
    }
    // Behind a pointer or in an array without elements it is none.
    let pointer = Made::new("POINTER TO S", 8).of("S");
    let none = Made::new("V", 0).of("S").bounds(0, 0);
    let fine = [
        Made::new("S", 8)
            .item(Made::new("p", 8).of("POINTER TO S"))
            .item(field("V").at(8)),
        pointer,
        none,
    ];
    assert!(TypeBook::from_upload(&all(&fine), 8).is_ok());
    // Without those that hold themselves the others are a book.
    let upload = all(&[
        Made::new("S", 2).item(Made::new("i", 2).of("INT")),
        int(),
        alias("B", "C"),
        alias("C", "B"),
    ]);
    let (book, unfit) = Upload::parse(&upload).expect("entries").fitting(8).expect("a book");
    assert_eq!((book.types().count(), unfit.len()), (2, 2));
}

/// A long chain of aliases that comes back, and many of them: told in good time, without telling it all.
#[test]
fn long_cycles() {
    let names: Vec<String> = (0..20_000).map(|i| format!("A{i}")).collect();
    let next = |i: usize| &names[(i + 1) % names.len()];
    let types: Vec<Made> = (0..names.len()).map(|i| Made::new(&names[i], 2).of(next(i))).collect();
    let UploadFault::Cycle(told) = refused(&types).fault else {
        panic!("a cycle")
    };
    assert_eq!((told.len(), &told[32][..]), (33, ".."));
}

#[test]
fn entries_in_one_another() {
    let deep = |n| (0..n).fold(Made::new("x", 0), |inner, _| Made::new("x", 0).item(inner));
    assert!(Upload::parse(&deep(7).bytes()).is_ok());
    assert_eq!(refused(&[deep(8)]).fault, UploadFault::Nested);
    // Too deep for any stack, if it were followed.
    let mut many = Vec::new();
    for _ in 0..200_000u32 {
        many.extend([0xFF, 0xFF, 0xFF, 0x0F]);
        many.extend([0; 36]);
        many.extend([1, 0, 0, 0, 0]);
    }
    let length = many.len();
    for at in (0..length).step_by(45) {
        many[at..at + 4].copy_from_slice(&((length - at) as u32).to_le_bytes());
    }
    assert_eq!(Upload::parse(&many).expect_err("too deep").fault, UploadFault::Nested);
}

/// No upload, and one of more blocks than a book has.
#[test]
fn too_few_and_too_many() {
    // Nothing gives the book with nothing in it, which lacks every type and so never says "no".
    assert_eq!(TypeBook::from_upload(&[], 8).expect("a book").blocks(), 0);
    let wide = |name: &str| (0..40_000).fold(Made::new(name, 0), |made, _| made.item(Made::new("f", 0)));
    assert!(TypeBook::from_upload(&wide("S").bytes(), 8).is_ok());
    let told = refused(&[wide("S"), wide("T")]);
    assert_eq!(told.fault, UploadFault::Form(TypeError::LongBook(80_002)));
}

/// Damages an upload: bytes, lengths, pieces.
fn damage(rng: &mut Rng, upload: &mut Vec<u8>) {
    let at = rng.below(upload.len());
    match rng.below(7) {
        0 => upload[at] = rng.number() as u8,
        1 => upload[at] ^= 1 << rng.below(8),
        2 => upload.truncate(at),
        3 => {
            let number = rng.pick(&[0, 1, 41, 42, 43, 0xFFFF, 0x7FFF_FFFF, u32::MAX]);
            let end = upload.len().min(at + 4);
            upload[at..end].copy_from_slice(&number.to_le_bytes()[..end - at]);
        }
        4 => {
            let other = rng.below(upload.len());
            let (from, to) = (at.min(other), at.max(other));
            upload.drain(from..to.min(from + 64));
        }
        5 => {
            let piece = upload[at..upload.len().min(at + 80)].to_vec();
            let to = rng.below(upload.len());
            upload.splice(to..to, piece);
        }
        _ => {
            // The length of one of the entries, by a little.
            let entry = rng.below(upload.len() / 90) * 90;
            upload[entry] = upload[entry].wrapping_add(rng.pick(&[1, 255, 4, 252]));
        }
    }
}

/// Damaged uploads: a book that is what its bytes say, or an error that can be told; the same for the types that fit.
#[test]
fn damaged_at_random() {
    let whole = example("station.upload");
    let (mut books, mut errors, mut partial) = (0, 0, 0);
    for seed in 0..6_000 {
        let mut rng = Rng::new(seed);
        let mut upload = whole.clone();
        for _ in 0..1 + rng.below(4) {
            damage(&mut rng, &mut upload);
            if upload.is_empty() {
                break;
            }
        }
        match Upload::parse(&upload).map(|entries| (entries.book(8), entries.fitting(8))) {
            Ok((Ok(book), Ok((fitting, unfit)))) => {
                assert!(unfit.is_empty() && fitting.bytes() == book.bytes(), "seed {seed}");
                assert!(TypeBook::new(book.bytes(), 8).is_ok(), "seed {seed}");
                books += 1;
            }
            Ok((Err(error), fitting)) => {
                assert!(error.at <= upload.len() && !error.to_string().is_empty());
                if let Ok((book, unfit)) = fitting {
                    assert!(
                        !unfit.is_empty() && TypeBook::new(book.bytes(), 8).is_ok(),
                        "seed {seed}"
                    );
                    partial += 1;
                }
                errors += 1;
            }
            Ok((Ok(_), Err(error))) => panic!("seed {seed}: a book, but not of what fits: {error}"),
            Err(error) => {
                assert!(error.at <= upload.len() && !error.to_string().is_empty());
                errors += 1;
            }
        }
    }
    // Each of the three was tried often.
    assert!(
        books > 300 && errors > 3_000 && partial > 100,
        "{books} {errors} {partial}"
    );
}

/// A type of a book as an upload would have it; none if an upload can't say it.
fn uploaded(book: &[u8], n: u32) -> Option<Made> {
    let text = |bytes: &[u8]| String::from_utf8_lossy(bytes).into_owned();
    let (size, fields, entries) = (block::size(book, n), block::fields(book, n), block::entries(book, n));
    let mut made = Made::new(&text(block::name(book, n)), size)
        .of(&text(block::type_name(book, n)))
        .id(block::id(book, n));
    for count in block::dimensions(book, n) {
        made = made.bounds(-7, count);
    }
    for f in n + 1..=n + fields {
        let field = Made::new(&text(block::name(book, f)), block::size(book, f));
        made = made.item(field.of(&text(block::type_name(book, f))).at(block::offset(book, f)));
    }
    let bits = [UploadFlags::PLC_POINTER_TYPE, UploadFlags::REFERENCE_TO];
    for (bit, flag) in bits.into_iter().enumerate() {
        made = made.flags(if block::flag(book, n, bit as u8) { flag } else { 0 }, &[]);
    }
    if block::flag(book, n, 3) {
        made = made.flags(UploadFlags::METHOD_INFOS, &[1, 0, 4, 0, 0, 0]);
    }
    if block::flag(book, n, 4) {
        made = made.flags(UploadFlags::ATTRIBUTES, b"\x01\x00\x0c\x01TcImplements\0I\0");
    }
    if block::flag(book, n, 5) {
        // Of an alias or an array the attribute would be said of what it is one of.
        if block::flag(book, n, 4) || !block::type_name(book, n).is_empty() {
            return None;
        }
        made = made.flags(UploadFlags::ATTRIBUTES, b"\x01\x00\x0a\x05TcEncoding\0UTF-8\0");
    }
    if block::flag(book, n, 2) != (entries > 0) {
        return None;
    }
    if entries > 0 {
        made = made.flags(UploadFlags::ENUM_INFOS, &(entries as u16).to_le_bytes());
    }
    for e in n + fields + 1..=n + fields + entries {
        let (name, value) = (block::name(book, e), block::value(book, e));
        if value.len() != size as usize {
            return None;
        }
        made.tail.push(name.len() as u8);
        made.tail.extend([name, b"\0", value].concat());
    }
    Some(made)
}

/// Whether a type's parts never end, by the model: `open` has the types that it lies in.
fn never_ends(book: &Book, width: u8, n: u32, open: &mut Vec<u32>) -> bool {
    if open.contains(&n) {
        return true;
    }
    let named: Vec<u32> = match determine(book.bytes, width, n) {
        model::category::Category::Array if block::dimensions(book.bytes, n).contains(&0) => Vec::new(),
        model::category::Category::Alias | model::category::Category::Array => vec![n],
        model::category::Category::Struct
        | model::category::Category::Union
        | model::category::Category::FunctionBlock => (n + 1..=n + block::fields(book.bytes, n)).collect(),
        _ => Vec::new(),
    };
    open.push(n);
    let parts = named.iter().filter_map(|&b| book.find(block::type_name(book.bytes, b)));
    let endless = parts
        .collect::<Vec<u32>>()
        .into_iter()
        .any(|t| never_ends(book, width, t, open));
    open.pop();
    endless
}

/// Random books as uploads, and back to the same bytes.
#[test]
fn books_there_and_back() {
    let (mut back, mut endless) = (0, 0);
    for seed in 0..2_000 {
        let book = model::random::made(&mut Rng::new(seed)).book;
        let types = (0..block::count(&book)).filter(|&n| block::kind(&book, n) == 1);
        let Some(made) = types.clone().map(|n| uploaded(&book, n)).collect::<Option<Vec<Made>>>() else {
            continue;
        };
        let model = Book::new(&book);
        let ends = |n: u32| {
            [4, 8]
                .iter()
                .any(|&width| !never_ends(&model, width, n, &mut Vec::new()))
        };
        let fine = types.clone().all(ends);
        match TypeBook::from_upload(&all(&made), 8) {
            Ok(made) => {
                assert!(fine && made.bytes() == book, "seed {seed}");
                back += 1;
            }
            Err(error) => {
                assert!(
                    !fine && matches!(error.fault, UploadFault::Cycle(_)),
                    "seed {seed}: {error}"
                );
                endless += 1;
            }
        }
    }
    assert!(back > 1_000 && endless > 30, "{back} {endless}");
}

/// Bytes without any sense.
#[test]
fn nonsense() {
    for seed in 0..2_000 {
        let mut rng = Rng::new(seed);
        let len = rng.below(300);
        let bytes = rng.bytes(len);
        if let Err(error) = TypeBook::from_upload(&bytes, 8) {
            assert!(error.at <= len);
        }
    }
}
