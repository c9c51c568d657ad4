//! Books made longer type by type: how the time grows with the number of types.

use speed::{keep, shown, turns};
use std::collections::HashMap;
use std::convert::Infallible;
use std::time::Duration;
use typebook::{TypeBook, TypeBuilder};

const WIDTH: u8 = 8;

/// A root of so many fields, each of a struct of its own with four INTs; each type's name and blocks, the root's first.
fn types(count: u32) -> Vec<(String, Vec<u8>)> {
    let name = |n: u32| format!("ST_Station{n}");
    let root = (0..count).fold(TypeBuilder::new("ROOT").size(8 * count), |t, n| {
        t.field(format!("s{n}"), name(n), 8 * n, 8)
    });
    let station = |n| {
        (0..4).fold(TypeBuilder::new(name(n)).size(8), |t, i| {
            t.field(format!("nField{i}"), "INT", 2 * i, 2)
        })
    };
    let int = TypeBuilder::new("INT").id(2).size(2);
    let all = [root, int].into_iter().chain((0..count).map(station));
    all.map(|t| (t.name().to_string(), t.blocks().expect("it fits")))
        .collect()
}

/// Each type of a root of so many, added to a book that has the root: one by one, all at once, and as they are asked for.
pub fn growing() {
    println!(
        "\n{:34} {:>12} {:>12} {:>12} {:>12}",
        "a book completed, medians", "one by one", "all at once", "by name", "as before"
    );
    for count in [375, 750, 1_500, 3_000] {
        let types = types(count);
        let (root, rest) = types.split_first().expect("the root");
        let own = TypeBook::names_only(&root.1[..], WIDTH).expect("valid");
        let by_name: HashMap<&str, &[u8]> = types.iter().map(|(name, piece)| (&name[..], &piece[..])).collect();
        let all = |book: &TypeBook| assert_eq!(book.types().count(), types.len());
        let t = turns(
            15,
            &mut [
                &mut || {
                    let mut book = own.clone();
                    for (_, piece) in rest {
                        book.append(piece).expect("new");
                    }
                    keep(book);
                },
                &mut || {
                    let mut book = own.clone();
                    book.append_all(rest.iter().map(|(_, piece)| piece)).expect("new");
                    keep(book);
                },
                &mut || {
                    let mut book = own.clone();
                    let fetch = |name: &str| Ok::<_, Infallible>(by_name.get(name).map(|piece| piece.to_vec()));
                    book.complete("ROOT", fetch).expect("all are there");
                    all(&book);
                    keep(book);
                },
            ],
        );
        let before = match count {
            ..=750 => shown(checked_each_time(&own, rest)),
            _ => "-".into(),
        };
        let [one, at_once, by_name] = [t[0], t[1], t[2]].map(shown);
        let what = format!("{count} types of four fields");
        println!("{what:34} {one:>12} {at_once:>12} {by_name:>12} {before:>12}");
    }
}

/// What the check of one of those types by itself takes, which an append makes.
pub fn one_type() {
    let (_, piece) = &types(1)[2];
    let checks = &mut || (0..1_000).for_each(|_| keep(typebook::calls::check_book(piece, piece.len())));
    let t = turns(15, &mut [checks])[0] / 1_000;
    println!("the check of one such type by itself: {}", shown(t));
}

/// The same with a book that is copied and checked again for each type, as it was done before.
fn checked_each_time(own: &TypeBook, rest: &[(String, Vec<u8>)]) -> Duration {
    let mut each = || {
        let mut bytes = own.bytes().to_vec();
        for (_, piece) in rest {
            let len = bytes.len();
            let mut buffer = bytes.clone();
            buffer.resize(len + piece.len(), 0);
            assert_eq!(typebook::calls::append(&mut buffer, len, piece, &mut [0]), 0);
            bytes = TypeBook::new(buffer, WIDTH).expect("valid").into_bytes().into_owned();
        }
        keep(bytes);
    };
    turns(1, &mut [&mut each])[0]
}
