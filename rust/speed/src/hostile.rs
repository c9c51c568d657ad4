//! Names that were made to have one hash, against ordinary names of the same length: the check for doubled names, the making of an index,
//! and look-ups by it.

use model::hostile;
use model::make::{Type, book};
use speed::{TYPES, keep, reached_by, shown, turns};
use std::time::Duration;
use typebook::{TypeBook, calls};

const WIDTH: u8 = 8;

/// How a type of that number is named: ordinary names, and those of one hash.
const BOTH: [fn(usize) -> String; 2] = [hostile::ordinary, hostile::name];

/// Both times, and how many times longer the second is.
fn line(what: &str, ordinary: Duration, one_hash: Duration) {
    let longer = one_hash.as_secs_f64() / ordinary.as_secs_f64();
    println!("{what:58} {:>12} {:>12} {longer:8.2}", shown(ordinary), shown(one_hash));
}

/// The same work on a book with ordinary names and on one with names of one hash, in turns.
fn both(what: &str, rounds: usize, books: &[Vec<u8>], mut work: impl FnMut(&[u8])) {
    let times = turns(rounds, &mut [&mut || work(&books[0])]);
    let hostile = turns(rounds, &mut [&mut || work(&books[1])]);
    line(what, times[0], hostile[0]);
}

pub fn names() {
    println!(
        "\n{:58} {:>12} {:>12} {:>8}",
        "names of 200 bytes", "ordinary", "one hash", "longer"
    );
    for n in [TYPES, 16_384, 65_536] {
        let types = |name: fn(usize) -> String| (0..n).map(|i| Type::new(&name(i)).id(2).size(2)).collect::<Vec<_>>();
        let books = BOTH.map(|name| book(&types(name)));
        both(&format!("check_book, {n} types"), 5, &books, |b| {
            assert_eq!(calls::check_book(b, b.len()), 0);
        });
    }
    look_ups();
}

/// The time of some work on a book that checks the book, the check apart: it is timed in the same turns and taken off.
fn apart(rounds: usize, book: &[u8], mut work: impl FnMut()) -> Duration {
    let check = || keep(calls::check_book(book, book.len()));
    let t = turns(rounds, &mut [&mut work, &mut { check }]);
    t[0].saturating_sub(t[1])
}

/// A lent index of 16,384 numbers, in a book of 4,096 types with four fields each; checks apart.
fn look_ups() {
    let books = BOTH.map(reached_by);
    let indexes = books.clone().map(|b| {
        let mut index = vec![0; calls::INDEX];
        assert_eq!(calls::build_index(&b, b.len(), &mut index), 0);
        index
    });
    let build = |i: usize| {
        let (b, mut index) = (&books[i], vec![0; calls::INDEX]);
        apart(5, b, || assert_eq!(calls::build_index(b, b.len(), &mut index), 0))
    };
    line("build_index, 4,096 types of four fields", build(0), build(1));
    let find = |i: usize| {
        let names: Vec<String> = (0..TYPES).map(BOTH[i]).collect();
        let all = || {
            names
                .iter()
                .for_each(|n| keep(calls::find_by(&books[i], &indexes[i], n.as_bytes())))
        };
        turns(5, &mut [&mut { all }])[0] / TYPES as u32
    };
    line("find_by, mean of all 4,096 names", find(0), find(1));
    let walk = |i: usize| {
        let (b, mut scratch, mut list, mut values) = (&books[i], vec![0; 8_192], vec![0; 4_096], [0; 3]);
        apart(3, b, || {
            let (s, l) = (&mut scratch, &mut list);
            assert_eq!(
                calls::missing_types(b, b.len(), &indexes[i], WIDTH, 0, s, l, &mut values),
                0
            );
            assert_eq!(values[0], 0);
        })
    };
    line("missing_types, all reached", walk(0), walk(1));
    both("  a plain program that scans the book in order", 3, &books, |b| {
        keep(model::walk::missing_types(&model::Book::without_map(b), WIDTH, 0));
    });
    let new = |i: usize| {
        apart(3, &books[i], || {
            keep(TypeBook::new(&books[i][..], WIDTH).expect("valid"))
        })
    };
    line("TypeBook::new, with a hint for each block", new(0), new(1));
    let walk = |i: usize| {
        let book = TypeBook::new(&books[i][..], WIDTH).expect("valid");
        let root = book.root(0).expect("a type");
        turns(5, &mut [&mut || keep(root.missing_types())])[0]
    };
    line("missing_types of that TypeBook", walk(0), walk(1));
}
