//! The walks of a checked book go by an index with a hint for each block, made once: they must answer as the model's do, which look up
//! every name, also where the book grew since, where it lacks a name, and where types name themselves.

use model::make::{Type, book, chain, int};
use model::random::{Rng, made};
use model::{Stop, block};
use typebook::{Refusal, TypeBook};

/// Both walks of every type of the book, against the model's; how many names were missing and how many function blocks were found.
fn alike(book: &TypeBook) -> (usize, usize) {
    let width = book.width();
    let model = model::Book::new(book.bytes());
    let (mut missing, mut yes) = (0, 0);
    for t in book.types() {
        let (listed, wanted) = (
            t.missing_types().unwrap(),
            model::walk::missing_types(&model, width, t.block()),
        );
        assert_eq!((listed.whole, listed.count), (wanted.whole, wanted.count));
        assert_eq!(listed.blocks, wanted.blocks);
        let told = t.requires_read_modify_write().map_err(|r| match r {
            Refusal::NotFound { block } => Stop::Missing(block),
            other => Stop::Number(other.number()),
        });
        assert_eq!(told, model::walk::requires_read_modify_write(&model, width, t.block()));
        missing += listed.blocks.len();
        yes += usize::from(told == Ok(true));
    }
    (missing, yes)
}

/// The types of a book, each with its fields and entries.
fn pieces(book: &[u8]) -> Vec<&[u8]> {
    let types = (0..block::count(book)).filter(|&n| block::kind(book, n) == 1);
    let end = |t: u32| t + 1 + block::fields(book, t) + block::entries(book, t);
    types.map(|t| &book[512 * t as usize..512 * end(t) as usize]).collect()
}

#[test]
fn every_type_of_a_book() {
    let (mut missing, mut yes) = (0, 0);
    for seed in 0..1_000 {
        let made = made(&mut Rng::new(seed + 2_000_000));
        let (m, y) = alike(&TypeBook::new(&made.book[..], made.width).unwrap());
        // By an index of the names alone the answers are the same.
        assert_eq!(
            alike(&TypeBook::names_only(&made.book[..], made.width).unwrap()),
            (m, y)
        );
        missing += m;
        yes += y;
    }
    assert!(missing > 500 && yes > 1_000, "{missing} missing, {yes} function blocks");
}

#[test]
fn after_each_append() {
    let mut missing = 0;
    for seed in 0..200 {
        let rng = &mut Rng::new(seed + 3_000_000);
        let made = made(rng);
        let mut pieces = pieces(&made.book);
        for i in (1..pieces.len()).rev() {
            pieces.swap(i, rng.below(i + 1));
        }
        let mut grown = TypeBook::new(pieces[0].to_vec(), made.width).unwrap();
        for piece in &pieces[1..] {
            missing += alike(&grown).0;
            grown.append(piece).unwrap();
        }
        alike(&grown);
    }
    assert!(missing > 1_000, "{missing} missing");
}

/// A name that is missing when the index is made is found once its type is appended.
#[test]
fn a_missing_name_that_comes_later() {
    let root = Type::new("S").size(14).field("a", "FB", 0, 12).field("b", "INT", 12, 2);
    let book = TypeBook::new(book(&[root, int()]), 8).unwrap();
    assert_eq!(alike(&book), (1, 0));
    let more = book.appended(&Type::new("FB").size(12).bytes()).unwrap();
    let (missing, yes) = alike(&more);
    assert_eq!((missing, yes), (0, 2));
    // The shorter book is as it was.
    assert_eq!(alike(&book), (1, 0));
}

#[test]
fn types_that_name_themselves_and_chains() {
    let own = Type::new("S").size(4).field("again", "S", 0, 4);
    let two = [
        Type::new("A").size(4).field("b", "B", 0, 4),
        Type::new("B").size(4).field("a", "A", 0, 4),
    ];
    alike(&TypeBook::new(book(&[own]), 8).unwrap());
    alike(&TypeBook::new(book(&two), 8).unwrap());
    for hops in [1, 31, 32, 33] {
        let mut types = vec![Type::new("S").size(2).field("x", "A0", 0, 2).field("y", "A1", 0, 2)];
        types.extend(chain(hops, "INT"));
        alike(&TypeBook::new(book(&types), 8).unwrap());
        types.push(int());
        alike(&TypeBook::new(book(&types), 8).unwrap());
    }
}
