//! The index of names that is lent to the two walks: whatever it holds, they answer as the model's, which look up every name.

use model::make::{Type, book, example, int, wide};
use model::random::{Rng, made};
use typebook::calls;

const WIDTH: u8 = 8;

fn built(bytes: &[u8]) -> Vec<u32> {
    let mut index = vec![u32::MAX; calls::INDEX];
    assert_eq!(calls::build_index(bytes, bytes.len(), &mut index), 0);
    index
}

/// What both walks answer, with all that they leave.
fn walks(bytes: &[u8], index: &[u32], width: u8, root: u64) -> (u8, u64, u8, [u64; 3], Vec<u32>) {
    let (mut scratch, mut list, mut yes, mut values) = (vec![9; 8_192], vec![7; 4_096], [9], [9; 3]);
    let (len, s) = (bytes.len(), &mut scratch);
    let rmw = calls::requires_read_modify_write(bytes, len, index, width, root, s, &mut yes);
    let missing = calls::missing_types(bytes, len, index, width, root, s, &mut list, &mut values);
    (rmw, yes[0], missing, values, list)
}

/// The same by the model.
fn wanted(bytes: &[u8], width: u8, root: u64) -> (u8, u64, u8, [u64; 3], Vec<u32>) {
    let (mut scratch, mut list, mut yes, mut values) = (vec![9; 8_192], vec![7; 4_096], [9], [9; 3]);
    let (len, s, index) = (bytes.len(), &mut scratch, &[0; 16_384]);
    let rmw = model::calls::requires_read_modify_write(bytes, len, index, width, root, s, &mut yes);
    let missing = model::calls::missing_types(bytes, len, index, width, root, s, &mut list, &mut values);
    (rmw, yes[0], missing, values, list)
}

/// Indexes that are not the book's: empty, past every book, of field blocks, of other books, of this one before it grew, shifted.
fn foreign(bytes: &[u8], other: &[u8]) -> Vec<Vec<u32>> {
    let own = built(bytes);
    let mut shifted = own.clone();
    shifted.rotate_right(1);
    let fields = (0..calls::INDEX as u32).map(|i| i % 40 + 1).collect();
    let some = own
        .iter()
        .enumerate()
        .map(|(i, &n)| if i % 2 == 0 { n } else { 0 })
        .collect();
    vec![
        vec![0; calls::INDEX],
        vec![u32::MAX; calls::INDEX],
        vec![1; calls::INDEX],
        fields,
        built(other),
        shifted,
        some,
    ]
}

#[test]
fn any_index_gives_the_same_answers() {
    let (mut missing, mut yes) = (0, 0);
    for seed in 0..150 {
        let rng = &mut Rng::new(seed + 7_000_000);
        let (one, other) = (made(rng), made(rng));
        let root = u64::from(one.root);
        let right = wanted(&one.book, one.width, root);
        assert_eq!(walks(&one.book, &built(&one.book), one.width, root), right);
        for index in foreign(&one.book, &other.book) {
            assert_eq!(walks(&one.book, &index, one.width, root), right);
        }
        missing += usize::from(right.3[0] > 0 && right.2 == 0);
        yes += usize::from(right.0 == 0 && right.1 == 1);
    }
    assert!(missing > 10 && yes > 5, "{missing} lists, {yes} function blocks");
}

/// The index of the book before a type was appended does not hide that type.
#[test]
fn an_index_from_before_an_append() {
    let root = Type::new("S").size(14).field("a", "FB", 0, 12).field("b", "INT", 12, 2);
    let before = book(&[root, int()]);
    let index = built(&before);
    assert_eq!(walks(&before, &index, WIDTH, 0), wanted(&before, WIDTH, 0));
    let after = [before, Type::new("FB").size(12).bytes()].concat();
    let answer = walks(&after, &index, WIDTH, 0);
    assert_eq!((answer.0, answer.1, answer.3[0]), (0, 1, 0));
    assert_eq!(answer, wanted(&after, WIDTH, 0));
}

/// 20,000 types don't fit: those that are left out are found, and those that the book lacks are told.
#[test]
fn more_types_than_fit() {
    let root = (0..500).fold(Type::new("ROOT").size(1_000), |t, i| {
        t.field(&format!("f{i}"), &format!("T{}", 41 * i), 2 * i, 2)
    });
    let others = (0..20_000).map(|n| Type::new(&format!("T{n}")).id(2).size(2));
    let bytes = book(&[root].into_iter().chain(others).collect::<Vec<_>>());
    let index = built(&bytes);
    assert!(index.iter().all(|&n| n != 0) || index.iter().filter(|&&n| n != 0).count() > 15_000);
    let answer = walks(&bytes, &index, WIDTH, 0);
    assert_eq!(answer, wanted(&bytes, WIDTH, 0));
    assert_eq!(answer.3, [12, 1, 501]);
}

/// Many lacking names, each listed once however often it is named, among types that are found.
#[test]
fn many_lacking_names() {
    let twice = (0..2_000).fold(wide(2_000), |t, i| {
        t.field(&format!("g{i}"), &format!("T{i}"), 2 * i, 2)
    });
    let others = (0..1_000).map(|n| Type::new(&format!("T{}", 3 * n)).id(2).size(2));
    let bytes = book(&[twice].into_iter().chain(others).collect::<Vec<_>>());
    let right = wanted(&bytes, WIDTH, 0);
    assert_eq!(walks(&bytes, &built(&bytes), WIDTH, 0), right);
    assert_eq!(walks(&bytes, &vec![0; calls::INDEX], WIDTH, 0), right);
    let (lacking, met) = (2_000 - 667, 2_001);
    assert_eq!(right.3, [lacking, 1, met]);
}

/// A longer buffer is filled too, number by number as the model does; 1 to 4 and 6 leave it as it was.
#[test]
fn the_whole_buffer() {
    let bytes = example();
    for len in [16_384, 16_385, 20_000] {
        let (mut index, mut other) = (vec![5; len], vec![6; len]);
        assert_eq!(calls::build_index(&bytes, bytes.len(), &mut index), 0);
        assert_eq!(model::calls::build_index(&bytes, bytes.len(), &mut other), 0);
        assert_eq!(index, other);
        assert_eq!(index.iter().filter(|&&n| n != 0).count(), 2);
    }
    let mut wrong = bytes.clone();
    wrong[0] = 2;
    let mut index = vec![5; 20_000];
    assert_eq!(calls::build_index(&wrong, wrong.len(), &mut index), 2);
    assert_eq!(calls::build_index(&wrong, wrong.len(), &mut index[..16_383]), 2);
    assert_eq!(calls::build_index(&bytes, bytes.len(), &mut index[..16_383]), 6);
    assert!(index.iter().all(|&n| n == 5));
}

/// What an index is worth is told of any index: one of the book, one of another, one with few slots or with a number changed.
#[test]
fn what_an_index_is_worth() {
    let mut told = [0; 2];
    for seed in 0..300 {
        let rng = &mut Rng::new(seed + 29_000_000);
        let (one, other) = (made(rng), made(rng));
        let blocks = one.book.len() / 512;
        let mut indexes = foreign(&one.book, &other.book);
        for len in [0, 1, 2, blocks, 2 * blocks, 3 * blocks, 4 * blocks] {
            let mut index = vec![0; len];
            calls::fill_names(&one.book, &mut index);
            indexes.push(index.clone());
            if len > 0 {
                index[rng.below(len)] = rng.below(blocks + 2) as u32;
                indexes.push(index);
            }
        }
        for index in &indexes {
            let holds = model::index::holds(&one.book, index);
            assert_eq!(calls::index_holds(&one.book, index), holds);
            told[usize::from(holds)] += 1;
        }
    }
    assert!(told.iter().all(|&n| n > 300), "{told:?}");
}
