//! A book made longer in place: as appending to a copy does, byte for byte and answer for answer; a book completed by name.

use model::block;
use model::make::{self, Type, int};
use model::random::{Rng, made};
use std::collections::{BTreeMap, BTreeSet};
use std::convert::Infallible;
use std::sync::Arc;
use std::time::{Duration, Instant};
use typebook::{AppendError, CompleteError, Missing, Refusal, TypeBook, TypeBuilder, calls};

/// The types of a book by name, each with its fields and entries.
fn pieces(book: &[u8]) -> Vec<(String, Vec<u8>)> {
    let types = (0..block::count(book)).filter(|&n| block::kind(book, n) == 1);
    let end = |t: u32| t + 1 + block::fields(book, t) + block::entries(book, t);
    let name = |t| String::from_utf8(block::name(book, t).to_vec()).expect("of 20h to 7Eh");
    types
        .map(|t| (name(t), book[512 * t as usize..512 * end(t) as usize].to_vec()))
        .collect()
}

/// What the call that checks the book every time makes of the same piece: the answer and the book then.
fn by_the_call(book: &[u8], piece: &[u8]) -> (u8, Vec<u8>) {
    let mut buffer = [book, &vec![0; piece.len()]].concat();
    let mut values = [0];
    let number = calls::append(&mut buffer, book.len(), piece, &mut values);
    buffer.truncate(if number == 0 { values[0] as usize } else { book.len() });
    (number, buffer)
}

/// A piece, sometimes a damaged one.
fn some_piece(rng: &mut Rng, pieces: &[(String, Vec<u8>)]) -> Vec<u8> {
    let mut piece = pieces[rng.below(pieces.len())].1.clone();
    match rng.below(8) {
        0 => piece.truncate(rng.below(piece.len() + 1)),
        1 => {
            let at = rng.below(piece.len());
            piece[at] ^= 1 << rng.below(8);
        }
        2 => piece.extend(pieces[rng.below(pieces.len())].1.clone()),
        3 => {
            // Of the right sum, mostly of the wrong form.
            let at = rng.below(508);
            piece[at] ^= 1 << rng.below(8);
            make::mend(&mut piece[..512]);
        }
        _ => {}
    }
    piece
}

#[test]
fn appending_in_place_is_appending() {
    let mut answers = BTreeMap::new();
    for seed in 0..400 {
        let rng = &mut Rng::new(seed + 28_000_000);
        let (one, two) = (made(rng), made(rng));
        let pieces = [pieces(&one.book), pieces(&two.book)].concat();
        let first = &pieces[rng.below(pieces.len())].1;
        let mut book = match rng.chance(500) {
            true => TypeBook::new(&first[..], 8).expect("valid"),
            false => TypeBook::names_only(first.clone(), 8).expect("valid"),
        };
        for _ in 0..3 * pieces.len() {
            let piece = some_piece(rng, &pieces);
            let (number, wanted) = by_the_call(book.bytes(), &piece);
            // A clone isn't touched, and neither is a tape that holds the book's bytes.
            let held = rng.chance(100).then(|| book.clone());
            let before = held.as_ref().map(|b| b.bytes().to_vec());
            let told = book.append(&piece).map_or_else(Refusal::number, |()| 0);
            assert_eq!(told, number);
            assert_eq!(book.bytes(), wanted);
            assert_eq!(held.map(|b| b.bytes().to_vec()), before);
            assert_eq!(calls::check_book(book.bytes(), book.bytes().len()), 0);
            *answers.entry(number).or_insert(0) += 1;
        }
        for (name, _) in &pieces {
            let found = calls::find(book.bytes(), name.as_bytes());
            assert_eq!(book.find(name).map(|t| t.block()), found);
        }
    }
    for number in [0, 1, 2, 3, 4] {
        assert!(answers.get(&number) > Some(&100), "{answers:?}");
    }
}

#[test]
fn up_to_65_536_blocks() {
    let one = |n: u32| TypeBuilder::new(format!("T{n}")).blocks().expect("it fits");
    let many = (0..65_535).fold(TypeBuilder::new("M"), |t, _| t.entry("e", &[]));
    let mut book = TypeBook::builder().with(many).build(8).expect("65,536 blocks");
    assert_eq!(book.append(&one(0)), Err(Refusal::NoRoom));
    assert_eq!(book.blocks(), 65_536);
    let mut book = TypeBook::builder().with(TypeBuilder::new("A")).build(8).expect("valid");
    book.append_all((1..65_536).map(one)).expect("room for all");
    assert_eq!(book.append(&one(0)), Err(Refusal::NoRoom));
    assert_eq!(book.append(&one(1)), Err(Refusal::DoubledName));
    assert_eq!(calls::check_book(book.bytes(), book.bytes().len()), 0);
}

#[test]
fn all_or_none() {
    let rng = &mut Rng::new(31);
    for _ in 0..200 {
        let made = made(rng);
        let pieces = pieces(&made.book);
        let (first, rest) = pieces.split_first().expect("a type");
        let mut book = TypeBook::new(&first.1[..], made.width).expect("valid");
        let all: Vec<&[u8]> = rest.iter().map(|(_, piece)| &piece[..]).collect();
        let doubled = [&all[..], &[&first.1[..]], &all[..]].concat();
        let refusal = Refusal::DoubledName;
        let piece = all.len();
        assert_eq!(book.append_all(&doubled), Err(AppendError { piece, refusal }));
        assert_eq!(book.bytes(), first.1);
        assert_eq!(book.append_all(&all), Ok(()));
        assert_eq!(book.bytes(), made.book);
    }
}

/// The names that a walk of the model lists until it lists none, added from the controller's book.
fn completed_by_model(controller: &model::Book, width: u8, root: &str) -> Option<BTreeSet<String>> {
    let by_name: BTreeMap<String, Vec<u8>> = pieces(controller.bytes).into_iter().collect();
    let mut ours = by_name[root].clone();
    let mut added = BTreeSet::from([root.to_string()]);
    loop {
        let model = model::Book::new(&ours);
        let missing = model::walk::missing_types(&model, width, 0);
        if missing.blocks.is_empty() {
            return missing.whole.then_some(added);
        }
        let names = missing.blocks.iter().map(|&b| block::type_name(&ours, b));
        let names: BTreeSet<String> = names.map(|n| String::from_utf8_lossy(n).into()).collect();
        for name in names {
            ours.extend(by_name.get(&name)?);
            added.insert(name);
        }
    }
}

#[test]
fn completed_by_name_as_by_asks() {
    let (mut whole, mut not) = (0, 0);
    for seed in 0..1_500 {
        let made = made(&mut Rng::new(seed + 29_000_000));
        let controller = model::Book::new(&made.book);
        let by_name: BTreeMap<String, Vec<u8>> = pieces(&made.book).into_iter().collect();
        let root = String::from_utf8_lossy(block::name(&made.book, made.root)).to_string();
        // Begun with a type that has nothing to do with it, or from nothing.
        let start = if seed % 2 == 0 {
            Type::new("\u{7e}other").bytes()
        } else {
            Vec::new()
        };
        let mut book = TypeBook::names_only(&start[..], made.width).expect("valid");
        let mut asked = BTreeSet::new();
        let told = book.complete(&root, |name| {
            assert!(asked.insert(name.to_string()), "{name} was asked for twice");
            Ok::<_, Infallible>(by_name.get(name).cloned())
        });
        match (told, completed_by_model(&controller, made.width, &root)) {
            (Ok(added), Some(wanted)) => {
                assert_eq!(added.iter().cloned().collect::<BTreeSet<_>>(), wanted);
                assert_eq!(added.len(), wanted.len());
                let recipe = book.find(&root).expect("the root");
                assert!(recipe.missing_types().expect("no refusal").is_complete());
                let models = model::walk::requires_read_modify_write(&controller, made.width, made.root);
                assert_eq!(recipe.requires_read_modify_write().ok(), models.ok());
                whole += 1;
            }
            (Err(CompleteError::Missing { name }), None) => {
                assert!(!by_name.contains_key(&name));
                not += 1;
            }
            (Err(CompleteError::NotWhole), None) => not += 1,
            (told, wanted) => panic!("{seed}: {told:?}, {wanted:?}"),
        }
    }
    assert!(700 < whole && 50 < not, "{whole} completed, {not} not");
}

#[test]
fn what_a_fetch_can_do_wrong() {
    let recipe = TypeBuilder::new("R")
        .size(2)
        .field("x", "INT", 0, 2)
        .blocks()
        .expect("fits");
    let new = || TypeBook::new(&recipe[..], 8).expect("valid");
    let name = || "INT".to_string();
    let told = new().complete("R", |_| Err::<Option<Vec<u8>>, _>("no line"));
    assert_eq!(
        told,
        Err(CompleteError::Fetch {
            name: name(),
            error: "no line"
        })
    );
    let told = new().complete("R", |_| Ok::<_, Infallible>(None));
    assert_eq!(told, Err(CompleteError::Missing { name: name() }));
    let told = new().complete("R", |_| Ok::<_, Infallible>(Some(vec![1, 2])));
    assert_eq!(
        told,
        Err(CompleteError::Refused {
            name: name(),
            refusal: Refusal::BookSize
        })
    );
    let mut book = new();
    let told = book.complete("R", |_| Ok::<_, Infallible>(Some(Type::new("DINT").bytes())));
    assert_eq!(
        told,
        Err(CompleteError::OtherName {
            name: name(),
            got: "DINT".into()
        })
    );
    assert!(book.find("DINT").is_none());
    let told = new().complete("R", |_| Ok::<_, Infallible>(Some(int().bytes())));
    assert_eq!(told, Ok(vec![name()]));
    // A chain without end is no complete book, though nothing is listed.
    let ring = make::book(&[
        Type::new("R").of("Q").id(2).size(2),
        Type::new("Q").of("R").id(2).size(2),
    ]);
    let mut book = TypeBook::new(ring, 8).expect("valid");
    let missing = book.root(0).and_then(|t| t.missing_types()).expect("no refusal");
    assert!(missing.blocks.is_empty() && !missing.is_complete());
    let told = book.complete("R", |_| Ok::<_, Infallible>(None));
    assert_eq!(told, Err(CompleteError::NotWhole));
}

/// A root is given by its number or its name; what can be no root is refused before anything is fetched.
#[test]
fn completed_from_a_root_of_either_kind() {
    let recipe = TypeBuilder::new("R")
        .size(2)
        .field("x", "INT", 0, 2)
        .blocks()
        .expect("fits");
    let fetch = |name: &str| {
        Ok::<_, Infallible>(match name {
            "R" => Some(recipe.clone()),
            "INT" => Some(int().bytes()),
            _ => None,
        })
    };
    let mut book = TypeBook::empty(8);
    assert_eq!(book.complete("R", fetch), Ok(vec!["R".into(), "INT".into()]));
    let mut book = TypeBook::new(&recipe[..], 8).expect("valid");
    assert_eq!(book.complete(0, fetch), Ok(vec!["INT".into()]));
    let mut book = TypeBook::empty(8);
    let name = "Q".to_string();
    assert_eq!(book.complete("Q", fetch), Err(CompleteError::Missing { name }));
    let never = |_: &str| -> Result<_, Infallible> { panic!("nothing is to be fetched") };
    assert_eq!(book.complete(0, never), Err(CompleteError::Ask(Refusal::Root)));
    assert_eq!(
        book.complete("Gr\u{f6}\u{df}e", never),
        Err(CompleteError::Ask(Refusal::RootName))
    );
    assert_eq!(book.blocks(), 0);
}

#[test]
fn complete_means_nothing_listed_and_whole() {
    for (blocks, whole, wanted) in [(vec![], true, true), (vec![], false, false), (vec![1], true, false)] {
        let count = 1;
        assert_eq!(Missing { blocks, whole, count }.is_complete(), wanted);
    }
}

/// A struct of so many types, each a struct of four fields.
fn many(types: u32) -> (TypeBuilder, Vec<TypeBuilder>) {
    let name = |n| format!("ST_Station{n}");
    let root = (0..types).fold(TypeBuilder::new("ROOT").size(8 * types), |t, n| {
        t.field(format!("s{n}"), name(n), 8 * n, 8)
    });
    let station = |n| {
        (0..4).fold(TypeBuilder::new(name(n)).size(8), |t, i| {
            t.field(format!("f{i}"), "INT", 2 * i, 2)
        })
    };
    (root, (0..types).map(station).collect())
}

/// Three thousand types are added one by one in well under a second even without optimising, where checking the book again for each of
/// them took 25 seconds with it; docs/BENCHMARKS.md has the times.
#[test]
fn three_thousand_types_one_by_one() {
    let (root, types) = many(3_000);
    let pieces: Vec<Vec<u8>> = types.iter().map(|t| t.blocks().expect("fits")).collect();
    let mut book = TypeBook::builder().with(root).build(8).expect("valid");
    let start = Instant::now();
    for piece in &pieces {
        book.append(piece).expect("new");
    }
    let taken = start.elapsed();
    assert_eq!(book.types().count(), 3_001);
    assert!(taken < Duration::from_secs(3), "{taken:?}");
    assert_eq!(calls::check_book(book.bytes(), book.bytes().len()), 0);
}

#[test]
fn books_and_tapes_go_to_other_threads() {
    fn both<T: Send + Sync>(_: &T) {}
    let book = Arc::new(
        TypeBook::builder()
            .with(TypeBuilder::new("INT").id(2).size(2))
            .build(8)
            .expect("valid"),
    );
    let recipe = book.root(0).expect("a type");
    let tape = recipe.read(&[5, 0]).expect("read");
    let mut builder = typebook::TapeBuilder::new(&book);
    builder.int(1).expect("due");
    both(&*book);
    both(&recipe);
    both(&tape);
    both(&builder);
    both(&Refusal::Root);
    both(&recipe.missing_types());
    both(&recipe.read_or_explain(&[]));
    both(&book.plan(&book, 0));
    both(&typebook::Scratch::new());
    let kept = tape.into_owned();
    let threads: Vec<_> = (0..4u8)
        .map(|n| {
            let (book, kept) = (Arc::clone(&book), kept.clone());
            std::thread::spawn(move || {
                let recipe = book.find("INT").expect("a type");
                let memory = [n, 0];
                let tape = recipe.read(&memory).expect("read").into_owned();
                assert_eq!(recipe.write(&memory, &kept), Ok(vec![5, 0]));
                (tape, memory)
            })
        })
        .collect();
    for thread in threads {
        let (tape, memory) = thread.join().expect("no panic");
        assert_eq!(book.root(0).expect("a type").write(&[9, 9], &tape), Ok(memory.to_vec()));
    }
}
