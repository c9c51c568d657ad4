//! The walks' scratch at its limits: 8,192 numbers are enough for every book, 8,191 are refused (6), and whatever is lent ends zero.

use model::make::{Type, book, int};
use typebook::calls;

const WIDTH: u8 = 8;
const ENOUGH: usize = 8_192;

/// What both walks answer with so many numbers of scratch, and what is left of the scratch.
struct Answers {
    rmw: (u8, u64),
    missing: (u8, [u64; 3]),
    list: Vec<u32>,
    left: [Vec<u32>; 2],
}

fn walks(bytes: &[u8], scratch: usize) -> Answers {
    let mut left = [vec![7; scratch], vec![7; scratch]];
    let (mut value, mut values, mut list) = ([0], [0; 3], vec![7; 4_096]);
    let [one, other] = &mut left;
    let index = vec![0; calls::INDEX];
    let yes = calls::requires_read_modify_write(bytes, bytes.len(), &index, WIDTH, 0, one, &mut value);
    let lists = calls::missing_types(bytes, bytes.len(), &index, WIDTH, 0, other, &mut list, &mut values);
    Answers {
        rmw: (yes, value[0]),
        missing: (lists, values),
        list,
        left,
    }
}

/// Structs one in another, each with an INT beside it; the last one has a field of `end`.
fn nested(structs: usize, end: &str) -> Vec<u8> {
    let name = |n: usize| format!("S_{n}");
    let mut types: Vec<Type> = (0..structs)
        .map(|n| {
            let inner = if n + 1 < structs { name(n + 1) } else { end.to_string() };
            Type::new(&name(n))
                .size(4)
                .field("inner", &inner, 0, 2)
                .field("beside", "INT", 2, 2)
        })
        .collect();
    types.push(int());
    book(&types)
}

/// The same answers for every length from 8,192 on; 6 for one number less, which is left as it was.
fn the_same_from_there_on(bytes: &[u8]) -> Answers {
    let short = walks(bytes, ENOUGH - 1);
    assert_eq!((short.rmw.0, short.missing.0), (6, 6));
    assert!(short.left.iter().flatten().all(|&n| n == 7));
    let first = walks(bytes, ENOUGH);
    for more in [ENOUGH + 1, 16_383, 16_384, 20_000] {
        let other = walks(bytes, more);
        assert_eq!((other.rmw, other.missing), (first.rmw, first.missing));
        assert!(other.list == first.list);
        assert!(other.left.iter().flatten().all(|&n| n == 0));
    }
    assert!(first.left.iter().flatten().all(|&n| n == 0));
    first
}

#[test]
fn structs_one_in_another() {
    // 4,094 structs, INT and the lacking type are 4,096 names: whole.
    let most = the_same_from_there_on(&nested(4_094, "GONE"));
    assert_eq!(most.rmw.0, 7);
    assert_eq!(most.missing, (0, [1, 1, 4_096]));
    // One more is a name too many: not whole, 4,097 counted.
    let over = the_same_from_there_on(&nested(4_095, "GONE"));
    assert_eq!(over.missing, (0, [0, 0, 4_097]));
    // With nothing lacking and INT at the end, 4,095 structs are the most, and 4,096 are refused (9).
    assert_eq!(the_same_from_there_on(&nested(4_095, "INT")).rmw, (0, 0));
    assert_eq!(the_same_from_there_on(&nested(4_096, "INT")).rmw.0, 9);
}

#[test]
fn as_many_missing_names_as_a_walk_meets() {
    for (fields, whole) in [(4_095, 1), (4_096, 0)] {
        let root = (0..fields).fold(Type::new("ROOT").size(2 * fields), |t, i| {
            t.field(&format!("f{i}"), &format!("GONE_{i}"), 2 * i, 2)
        });
        let answers = the_same_from_there_on(&book(&[root]));
        assert_eq!(answers.missing.1, [4_095, whole, u64::from(fields) + 1]);
    }
}

#[test]
fn a_book_of_65_536_blocks() {
    // The root's one field has the last type of the longest book, a function block.
    let mut types = vec![Type::new("ROOT").size(12).field("last", "LAST", 0, 12)];
    types.extend((0..65_533).map(|n| Type::new(&format!("T_{n}")).id(2).size(2)));
    types.push(Type::new("LAST").size(12));
    let bytes = book(&types);
    assert_eq!(bytes.len(), 512 * 65_536);
    let answers = the_same_from_there_on(&bytes);
    assert_eq!((answers.rmw, answers.missing), ((0, 1), (0, [0, 1, 2])));
}
