//! Document 01's cases by hand: every refusal of the calls that are here (1 to 15; 16 to 19 are the writer's), its neighbours that
//! aren't refused, and what the buffers hold afterwards.

use model::hostile;
use model::make::{Type, book, chain, deep, example, int, mend, wide};
use typebook::{Refusal, TypeBook, Value, calls};

const WIDTH: u8 = 8;

/// The answer of a read into ample buffers, and its values.
fn read(book: &[u8], memory: &[u8]) -> (u8, u64) {
    let (mut tape, mut text, mut values) = (vec![7; 24 * 400], vec![7; 4_000], [99, 99]);
    let answer = calls::read(book, book.len(), WIDTH, 0, memory, &mut tape, &mut text, &mut values);
    assert!(answer == 0 || (tape.iter().all(|&b| b == 0) && text.iter().all(|&b| b == 0)));
    (answer, values[0])
}

fn answer_of(book: &[u8], memory: &[u8]) -> u8 {
    read(book, memory).0
}

/// The index of a valid book.
fn index(book: &[u8]) -> Vec<u32> {
    let mut index = vec![9; calls::INDEX];
    assert_eq!(calls::build_index(book, book.len(), &mut index), 0);
    index
}

fn rmw(book: &[u8]) -> (u8, u64) {
    let (mut scratch, mut values) = (vec![9; 8_192], [99]);
    let answer = calls::requires_read_modify_write(book, book.len(), &index(book), WIDTH, 0, &mut scratch, &mut values);
    assert!(scratch.iter().all(|&n| n == 0));
    (answer, values[0])
}

fn missing(book: &[u8]) -> (Vec<u32>, u64, u64) {
    let (mut scratch, mut list, mut values) = (vec![9; 8_192], vec![7; 4_096], [99; 3]);
    assert_eq!(
        calls::missing_types(
            book,
            book.len(),
            &index(book),
            WIDTH,
            0,
            &mut scratch,
            &mut list,
            &mut values
        ),
        0
    );
    let listed = values[0] as usize;
    assert!(list[listed..].iter().all(|&n| n == 7));
    (list[..listed].to_vec(), values[1], values[2])
}

#[test]
fn refusal_1_the_books_size() {
    let book = example();
    for len in [1, 511, 513, book.len() + 512, usize::MAX, usize::MAX - 511] {
        assert_eq!(calls::check_book(&book, len), 1, "{len}");
    }
    assert_eq!(calls::check_book(&[], 512), 1);
    assert_eq!(TypeBook::new(vec![0; 511], WIDTH).unwrap_err(), Refusal::BookSize);
    // Over 65,536 blocks come before their sums.
    assert_eq!(calls::check_book(&vec![1; 65_537 * 512], 65_537 * 512), 1);
    assert_eq!(calls::check_book(&vec![1; 65_536 * 512], 65_536 * 512), 2);
}

#[test]
fn refusals_2_to_4_in_their_order() {
    let mut damaged = example();
    damaged[508] ^= 1;
    assert_eq!(calls::check_book(&damaged, damaged.len()), 2);
    // Kind 9 in block 0; with a wrong sum in block 1 the sum comes first.
    let mut form = example();
    form[0] = 9;
    mend(&mut form[..512]);
    assert_eq!(calls::check_book(&form, form.len()), 3);
    form[512 + 508] ^= 1;
    assert_eq!(calls::check_book(&form, form.len()), 2);
    let doubled = book(&[int(), int()]);
    assert_eq!(calls::check_book(&doubled, doubled.len()), 4);
    assert_eq!(calls::check_book(&doubled, 512), 0);
    let mut both = book(&[int(), int(), int()]);
    both[1024] = 9;
    mend(&mut both[1024..]);
    assert_eq!(calls::check_book(&both, both.len()), 3);
    // The book's end cuts a type off; counts that can't be.
    let cut = example();
    assert_eq!(calls::check_book(&cut, 1024), 3);
    let mut many = int().bytes();
    many[12..20].fill(0xFF);
    mend(&mut many);
    assert_eq!(calls::check_book(&many, 512), 3);
}

/// Names of one hash: more of them than are compared one by one, all different, and then one of them twice.
#[test]
fn doubled_among_names_of_one_hash() {
    for count in [2, 192, 193, 194, 195, 1_000, 4_097] {
        let mut types: Vec<Type> = (0..count)
            .map(|n| Type::new(&hostile::name(n * 40_503 % 65_536)))
            .collect();
        let distinct = book(&types);
        assert_eq!(calls::check_book(&distinct, distinct.len()), 0, "{count}");
        for n in [0, count / 2, count - 2] {
            types[count - 1].name = types[n].name.clone();
            let doubled = book(&types);
            assert_eq!(calls::check_book(&doubled, doubled.len()), 4, "{count}, {n}");
        }
        // A field's name is no type's.
        types[count - 1] = Type::new("ST_Last").field(&types[0].name, "INT", 0, 2);
        let field = book(&types);
        assert_eq!(calls::check_book(&field, field.len()), 0, "{count}, a field");
    }
}

#[test]
fn refusal_5_the_root() {
    let bytes = example();
    let (mut values, mut records) = ([7], [7; 8]);
    for root in [1, 2, 4, u64::from(u32::MAX), u64::MAX] {
        assert_eq!(calls::resolve_alias(&bytes, bytes.len(), WIDTH, root, &mut values), 5);
        assert_eq!(
            calls::resolve_indirection(&bytes, bytes.len(), WIDTH, root, &mut values),
            5
        );
        assert_eq!(
            calls::resolve_fields(&bytes, bytes.len(), WIDTH, root, &mut records, &mut values),
            5
        );
        assert_eq!(
            calls::requires_read_modify_write(&bytes, bytes.len(), &[], WIDTH, root, &mut [], &mut values),
            5
        );
        assert_eq!(
            calls::missing_types(&bytes, bytes.len(), &[], WIDTH, root, &mut [], &mut [], &mut values),
            5
        );
        assert_eq!(
            calls::read(&bytes, bytes.len(), WIDTH, root, &[], &mut [], &mut [], &mut values),
            5
        );
        assert_eq!(
            TypeBook::new(&bytes[..], WIDTH).unwrap().root(root).unwrap_err(),
            Refusal::Root
        );
    }
    assert_eq!((values, records), ([7], [7; 8]));
}

#[test]
fn refusal_6_index_scratch_and_list() {
    let bytes = example();
    let (index, few) = (index(&bytes), [0; 16_383]);
    let (mut values, len) = ([7; 3], bytes.len());
    let (mut short, mut long, mut list) = (vec![7; 8_191], vec![7; 8_192], vec![7; 4_095]);
    assert_eq!(
        calls::requires_read_modify_write(&bytes, len, &index, WIDTH, 0, &mut short, &mut values),
        6
    );
    assert_eq!(
        calls::missing_types(&bytes, len, &index, WIDTH, 0, &mut long, &mut list, &mut values),
        6
    );
    assert_eq!(
        calls::missing_types(&bytes, len, &index, WIDTH, 0, &mut short, &mut [0; 4_096], &mut values),
        6
    );
    assert_eq!(
        calls::requires_read_modify_write(&bytes, len, &few, WIDTH, 0, &mut long, &mut values),
        6
    );
    assert_eq!(
        calls::missing_types(&bytes, len, &few, WIDTH, 0, &mut long, &mut [0; 4_096], &mut values),
        6
    );
    let mut few = [7; 16_383];
    assert_eq!(calls::build_index(&bytes, len, &mut few), 6);
    assert_eq!(calls::build_index(&bytes, len - 1, &mut few), 1);
    assert!(few.iter().all(|&n| n == 7));
    assert!(short.iter().chain(&long).chain(&list).all(|&n| n == 7) && values == [7; 3]);
}

#[test]
fn refusals_7_and_8_chains() {
    let resolved = |hops, end: &str| {
        let bytes = book(&[chain(hops, end), vec![int()]].concat());
        let mut values = [99];
        (
            calls::resolve_alias(&bytes, bytes.len(), WIDTH, 0, &mut values),
            values[0],
        )
    };
    assert_eq!(resolved(31, "INT"), (0, 31));
    assert_eq!(resolved(32, "INT"), (8, 99));
    assert_eq!(resolved(31, "GONE"), (7, 30));
    assert_eq!(resolved(32, "GONE"), (7, 31));
    assert_eq!(resolved(33, "GONE"), (8, 99));
}

#[test]
fn chains_by_other_ways() {
    // INT of type INT is an alias of itself.
    let own = int().of("INT").bytes();
    assert_eq!(answer_of(&own, &[0, 0]), 8);
    let names = book(&[
        Type::new("R").of("A").size(8).flags(2),
        Type::new("A").of("INT").size(2),
        int(),
    ]);
    let mut values = [99];
    assert_eq!(
        (
            calls::resolve_indirection(&names, names.len(), WIDTH, 0, &mut values),
            values
        ),
        (0, [2])
    );
    assert_eq!(
        (calls::resolve_alias(&names, names.len(), WIDTH, 0, &mut values), values),
        (0, [0])
    );
    // 7 lays its block where there is room, and asks for none.
    let lacking = Type::new("S").size(2).field("x", "FOO", 0, 2).bytes();
    assert_eq!(read(&lacking, &[0, 0]), (7, 1));
    assert_eq!(
        calls::read(&lacking, 1024, WIDTH, 0, &[0, 0], &mut [], &mut [], &mut []),
        7
    );
}

/// 20,000 fields of one type are one name more, also where a hundred aliases come to their struct: what is left to visit never
/// fills the scratch.
#[test]
fn many_fields_of_one_type_are_one_name() {
    let many = (0..20_000).fold(Type::new("MANY").size(2), |t, i| t.field(&format!("f{i}"), "INT", 0, 2));
    let alone = book(&[many.clone(), int()]);
    assert_eq!(rmw(&alone), (0, 0));
    assert_eq!(missing(&alone), (vec![], 1, 2));
    // Of fields of a missing type the last one is listed.
    assert_eq!(missing(&many.bytes()), (vec![20_000], 1, 2));

    let alias = |i: usize| Type::new(&format!("T{i}")).of("MANY").size(2);
    let aliases: Vec<Type> = (0..100).map(alias).collect();
    let all = book(&[vec![wide(100)], aliases, vec![many, int()]].concat());
    assert_eq!(rmw(&all), (0, 0));
    assert_eq!(missing(&all), (vec![], 1, 102));
}

#[test]
fn the_walks_take_names_last_in_first_out() {
    let fb = Type::new("FB").size(12);
    let of = |a: &str, b: &str| {
        book(&[
            Type::new("S").size(14).field("a", a, 0, 2).field("b", b, 2, 12),
            fb.clone(),
        ])
    };
    assert_eq!(rmw(&of("GONE", "FB")), (0, 1));
    assert_eq!(rmw(&of("FB", "GONE")), (7, 2));
    assert_eq!(rmw(&example()), (0, 0));
    let aliases = book(&[
        Type::new("S").size(4).field("a", "A", 0, 2).field("b", "B", 2, 2),
        Type::new("A").of("GONE").size(2),
        Type::new("B").of("GONE").size(2),
    ]);
    assert_eq!(missing(&aliases), (vec![4, 3], 1, 3));
    let twice = Type::new("S")
        .size(4)
        .field("a", "GONE", 0, 2)
        .field("b", "GONE", 2, 2)
        .bytes();
    assert_eq!(missing(&twice), (vec![2], 1, 2));
}

#[test]
fn refusal_9_a_name_too_many() {
    let types = |n: u32| -> Vec<Type> { (0..n).map(|i| Type::new(&format!("T{i}")).id(2).size(2)).collect() };
    let fits = book(&[vec![wide(4_095)], types(4_095)].concat());
    assert_eq!(rmw(&fits), (0, 0));
    assert_eq!(missing(&fits), (vec![], 1, 4_096));
    let over = book(&[vec![wide(4_096)], types(4_096)].concat());
    assert_eq!(rmw(&over), (9, 99));
    assert_eq!(missing(&over), (vec![], 0, 4_097));
    let book = TypeBook::new(over, WIDTH).unwrap();
    assert_eq!(
        book.root(0).unwrap().requires_read_modify_write(),
        Err(Refusal::TooManyTypes)
    );
    // 4,096 missing types: the last taken is neither looked up nor listed.
    let (listed, whole, count) = missing(&wide(4_096).bytes());
    assert_eq!((listed.len(), listed[0], whole, count), (4_095, 4_096, 0, 4_097));
}

#[test]
fn refusals_10_to_13_of_leaves() {
    assert_eq!(answer_of(&int().bytes(), &[0, 0, 0]), 10);
    assert_eq!(answer_of(&int().bytes(), &[0, 0]), 0);
    assert_eq!(answer_of(&Type::new("XINT").size(4).bytes(), &[0; 4]), 11);
    assert_eq!(answer_of(&Type::new("XINT").size(4).bytes(), &[0; 9]), 11);
    let e = Type::new("E")
        .id(2)
        .size(2)
        .flags(4)
        .entry("a", &[0, 0])
        .entry("b", &[1, 0])
        .bytes();
    assert_eq!(answer_of(&e, &[3, 0]), 12);
    assert_eq!(answer_of(&e, &[1, 0]), 0);
    assert_eq!(answer_of(&e, &[1]), 10);
    let pointer = TypeBook::new(Type::new("PVOID").size(3).bytes(), WIDTH).unwrap();
    let odd = pointer.clone().with_width(3);
    assert_eq!(odd.root(0).unwrap().read(&[0; 3]).unwrap_err(), Refusal::PointerWidth);
    let pointer = pointer.root(0).unwrap();
    assert_eq!(pointer.read(&[0; 3]).unwrap_err(), Refusal::Size);
    assert_eq!(pointer.read(&[1; 8]).unwrap().len(), 1);
    // Products are exact.
    let byte = Type::new("BYTE").id(17).size(1);
    let array = |counts: &[u32], of: &Type| book(&[Type::new("ARR").of(&of.name).dimensions(counts), of.clone()]);
    assert_eq!(answer_of(&array(&[1 << 31, 1 << 31, 4], &byte), &[]), 10);
    assert_eq!(
        answer_of(&array(&[0, u32::MAX, u32::MAX, u32::MAX], &Type::new("Z")), &[]),
        0
    );
}

#[test]
fn refusal_14_level_65() {
    assert_eq!(answer_of(&book(&deep(64)), &[1, 0]), 0);
    assert_eq!(answer_of(&book(&deep(65)), &[1, 0]), 14);
    assert_eq!(
        answer_of(&Type::new("S").size(4).field("me", "S", 0, 4).bytes(), &[0; 4]),
        14
    );
}

/// A further dimension is entered before its element's fields are looked up; the first one's are looked up before any element.
#[test]
fn refusal_14_of_dimensions() {
    let at_level = |level: usize, counts: &[u32], of: &str, size: u32| {
        let mut types = deep(level);
        types.pop();
        types.iter_mut().for_each(|t| (t.size, t.fields[0].3) = (size, size));
        types.push(Type::new("INT").of(of).size(size).dimensions(counts));
        types.push(Type::new("H").size(2).field("x", "GONE", 0, 2));
        types.push(Type::new("BYTE").id(17).size(1));
        answer_of(&book(&types), &[1, 0][..size as usize])
    };
    assert_eq!(at_level(64, &[1, 1], "H", 2), 14);
    assert_eq!(at_level(64, &[1], "H", 2), 7);
    assert_eq!(at_level(64, &[0], "H", 0), 7);
    assert_eq!(at_level(64, &[1, 0], "BYTE", 0), 14);
    assert_eq!(at_level(63, &[1, 0], "BYTE", 0), 0);
    assert_eq!(at_level(64, &[0, 1], "BYTE", 0), 0);
    assert_eq!(at_level(62, &[1, 2], "BYTE", 2), 0);
    assert_eq!(at_level(63, &[1, 2], "BYTE", 2), 14);
}

#[test]
fn refusal_15_room() {
    let bytes = example();
    let mut values = [7; 2];
    for records in 0..7 {
        let (mut tape, memory) = (vec![7; 24 * records + 23], [1, 0, 2, 0]);
        let answer = calls::read(&bytes, bytes.len(), WIDTH, 0, &memory, &mut tape, &mut [], &mut values);
        assert_eq!(answer, if records < 6 { 15 } else { 0 });
        assert_eq!(tape[24 * records..], if records < 6 { [0; 23] } else { [7; 23] });
    }
    assert_eq!(values, [6, 0]);
    // A text of no bytes needs no room, a text of one does.
    let string = Type::new("STRING(1)").id(30).size(2).bytes();
    assert_eq!(
        calls::read(&string, 512, WIDTH, 0, &[0, 9], &mut [0; 24], &mut [], &mut values),
        0
    );
    assert_eq!(
        calls::read(&string, 512, WIDTH, 0, &[65, 0], &mut [0; 24], &mut [], &mut values),
        15
    );
}

#[test]
fn refusal_15_fields_and_endless_arrays() {
    // 15 comes before the look-up of the field whose record doesn't fit.
    let mut values = [7; 2];
    let fields = Type::new("S")
        .size(4)
        .field("a", "GONE", 0, 2)
        .field("b", "GONE", 2, 2)
        .bytes();
    assert_eq!(
        calls::resolve_fields(&fields, fields.len(), WIDTH, 0, &mut [7; 3], &mut values),
        15
    );
    assert_eq!(
        calls::resolve_fields(&fields, fields.len(), WIDTH, 0, &mut [7; 4], &mut values),
        7
    );
    // Bounded though the array is endless.
    let endless = book(&[
        Type::new("ARR").of("Z").dimensions(&[1, u32::MAX, u32::MAX]),
        Type::new("Z"),
    ]);
    assert_eq!(answer_of(&endless, &[]), 15);
}

#[test]
fn appending() {
    let start = int().bytes();
    let piece = Type::new("B").id(17).size(1).bytes();
    let mut buffer = [start.clone(), vec![0xAA; 700]].concat();
    let mut values = [7];
    assert_eq!(
        (calls::append(&mut buffer, 512, &piece, &mut values), values),
        (0, [1024])
    );
    assert_eq!(buffer, [start.clone(), piece.clone(), vec![0xAA; 188]].concat());
    let before = buffer.clone();
    for (said, piece, answer) in [
        (1024, &piece, 4),
        (1024, &vec![], 3),
        (0, &vec![], 3),
        (1024, &piece[..511].to_vec(), 1),
        (1024, &[piece.clone(), piece.clone()].concat(), 3),
        (1024, &Type::new("C").bytes(), 15),
        (1024, &start, 4),
        (1025, &start, 1),
        (4096, &start, 1),
        (usize::MAX, &start, 1),
    ] {
        assert_eq!(calls::append(&mut buffer, said, piece, &mut values), answer);
        assert!(buffer == before && values == [1024]);
    }
    // The book appended to itself: 4, or 3 where it isn't one type.
    assert_eq!(calls::append(&mut buffer, 512, &start, &mut values), 4);
    assert_eq!(calls::append(&mut buffer, 1024, &before[..1024], &mut values), 3);
    let book = TypeBook::new(example(), WIDTH).unwrap();
    let mut more = book.appended(&piece).unwrap();
    assert_eq!((book.blocks(), more.blocks()), (4, 5));
    assert_eq!(more.append(&piece).unwrap_err(), Refusal::DoubledName);
}

#[test]
fn appending_up_to_65_536_blocks() {
    let types: Vec<Type> = (0..65_535).map(|i| Type::new(&format!("T{i}")).id(2).size(2)).collect();
    let mut buffer = book(&types);
    let len = buffer.len();
    buffer.resize(len + 1024, 0);
    let mut values = [7];
    assert_eq!(calls::append(&mut buffer, len, &int().bytes(), &mut values), 0);
    assert_eq!(values, [65_536 * 512]);
    assert_eq!(
        calls::append(&mut buffer, len + 512, &Type::new("X").bytes(), &mut values),
        15
    );
    assert_eq!(
        TypeBook::new(&buffer[..len + 512], WIDTH)
            .unwrap()
            .find("T65534")
            .unwrap()
            .block(),
        65_534
    );
}

/// A struct with a field of every kind of value.
fn every_kind() -> Vec<u8> {
    let types = [
        Type::new("S")
            .size(46)
            .field("i", "INT", 0, 2)
            .field("n", "UDINT", 2, 4)
            .field("b", "BOOL", 6, 1)
            .field("r", "REAL", 7, 4)
            .field("l", "LREAL", 11, 8)
            .field("s", "STRING(3)", 19, 4)
            .field("w", "WSTRING(2)", 23, 6)
            .field("e", "E", 29, 1)
            .field("a", "ARR", 30, 4)
            .field("p", "PVOID", 34, 8)
            .field("u", "Nothing", 42, 3),
        int(),
        Type::new("UDINT").id(19).size(4),
        Type::new("BOOL").of("BIT").id(33).size(1),
        Type::new("REAL").id(4).size(4),
        Type::new("LREAL").id(5).size(8),
        Type::new("STRING(3)").id(30).size(4),
        Type::new("WSTRING(2)").id(31).size(6),
        Type::new("E")
            .id(17)
            .size(1)
            .flags(4)
            .entry("off", &[0])
            .entry("on", &[1]),
        Type::new("ARR").of("Short").size(4).dimensions(&[2]),
        Type::new("Short").of("INT").id(2).size(2),
        Type::new("PVOID").size(8),
        Type::new("Nothing").size(3),
    ];
    book(&types)
}

fn memory_of_every_kind() -> Vec<u8> {
    [
        &(-2i16).to_le_bytes()[..],
        &70_000u32.to_le_bytes(),
        &[0x80],
        &0x7F80_0001u32.to_le_bytes(),
        &1.5f64.to_bits().to_le_bytes(),
        b"\x80x\0y",
        &[0x16, 0x04, 0, 0, 1, 1],
        &[1],
        &[1, 0, 2, 0],
        &u64::MAX.to_le_bytes(),
        &[9; 4],
    ]
    .concat()
}

#[test]
fn values_of_every_kind() {
    let book = TypeBook::new(every_kind(), WIDTH).unwrap();
    let tape = book.root(0).unwrap().read(&memory_of_every_kind()).unwrap();
    let values: Vec<Value> = tape
        .iter()
        .map(|r| r.value)
        .filter(|v| !matches!(v, Value::Key(_)))
        .collect();
    let wanted = [
        Value::Map(11),
        Value::Int { bits: 16, value: -2 },
        Value::Nat {
            bits: 32,
            value: 70_000,
        },
        Value::Bool(true),
        Value::Real32(0x7F80_0001),
        Value::Real64(1.5f64.to_bits()),
        Value::Text {
            text: "\u{20ac}x",
            clipped: false,
        },
        Value::Text {
            text: "\u{416}",
            clipped: false,
        },
        Value::Enum("on"),
        Value::Array(2),
        Value::Int { bits: 16, value: 1 },
        Value::Int { bits: 16, value: 2 },
        Value::End,
        Value::Nat {
            bits: 64,
            value: u64::MAX,
        },
        Value::Unit,
        Value::End,
    ];
    assert_eq!(values, wanted);
}

#[test]
fn keys_and_levels() {
    let book = TypeBook::new(every_kind(), WIDTH).unwrap();
    let tape = book.root(0).unwrap().read(&memory_of_every_kind()).unwrap();
    let keys: Vec<&str> = tape
        .iter()
        .filter_map(|r| if let Value::Key(k) = r.value { Some(k) } else { None })
        .collect();
    assert_eq!(keys, ["i", "n", "b", "r", "l", "s", "w", "e", "a", "p", "u"]);
    let levels: Vec<u32> = tape.iter().map(|r| r.level).collect();
    assert_eq!((levels[0], levels[1], levels[levels.len() - 1]), (1, 2, 1));
    assert_eq!(tape.iter().len(), tape.len());
}
