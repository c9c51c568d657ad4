//! A save from its beginning: our book begins with little more than the root, asks what it lacks, gets each listed type from the controller's
//! book, and asks again, until nothing is listed. Then it must answer as the controller's book does, and so must a plan, which makes the whole
//! list in one call.

use model::block;
use model::category::{Category, determine};
use model::random::{Made, Rng, made, memory};
use model::resolve::resolve;
use std::collections::BTreeSet;
use typebook::{Refusal, TapeBuilder, TypeBook, TypeRef};

fn text(name: &[u8]) -> &str {
    std::str::from_utf8(name).unwrap()
}

/// A type block with its fields and entries.
fn definition(book: &[u8], t: u32) -> &[u8] {
    let blocks = 1 + block::fields(book, t) + block::entries(book, t);
    &book[512 * t as usize..512 * (t + blocks) as usize]
}

type Names<'b> = BTreeSet<&'b [u8]>;

/// Document 01's reached and needed names; none where the controller's book lacks one, or a chain is too long.
fn reached_and_needed<'b>(book: &model::Book<'b>, width: u8, root: u32) -> Option<(Names<'b>, Names<'b>)> {
    let (mut reached, mut needed) = (BTreeSet::new(), BTreeSet::new());
    let mut due = vec![block::name(book.bytes, root)];
    while let Some(name) = due.pop() {
        if !reached.insert(name) {
            continue;
        }
        needed.insert(name);
        let mut t = book.find(name)?;
        let end = resolve(book, width, t, false).ok()?;
        while t != end {
            let next = block::type_name(book.bytes, t);
            needed.insert(next);
            t = book.find(next)?;
        }
        match determine(book.bytes, width, t) {
            Category::Array => due.push(block::type_name(book.bytes, t)),
            Category::Struct | Category::Union | Category::FunctionBlock => {
                due.extend((1..=block::fields(book.bytes, t)).map(|i| block::type_name(book.bytes, t + i)));
            }
            _ => {}
        }
    }
    Some((reached, needed))
}

/// Our book: the root and some other definitions of the controller's, in an order of its own, and the root's place.
fn ours(rng: &mut Rng, controller: &[u8], root: u32) -> (Vec<u8>, u32) {
    let types = (0..block::count(controller)).filter(|&n| block::kind(controller, n) == 1);
    let mut held: Vec<u32> = types.filter(|&t| t == root || rng.chance(200)).collect();
    for i in (1..held.len()).rev() {
        held.swap(i, rng.below(i + 1));
    }
    let before: usize = held
        .iter()
        .take_while(|&&t| t != root)
        .map(|&t| definition(controller, t).len())
        .sum();
    let book = held.iter().flat_map(|&t| definition(controller, t)).copied().collect();
    (book, (before / 512) as u32)
}

/// Adds a type of the controller's; a name that is there already is refused, and so is what is no type.
fn add(rng: &mut Rng, book: &mut TypeBook, piece: &[u8], lacking: bool) {
    if rng.chance(100) {
        let before = book.bytes().to_vec();
        assert_eq!(book.append(&piece[..511]), Err(Refusal::BookSize));
        assert_eq!(book.append(&[piece, piece].concat()), Err(Refusal::Form));
        assert_eq!(book.bytes(), before);
    }
    let wanted = if lacking { Ok(()) } else { Err(Refusal::DoubledName) };
    assert_eq!(book.append(piece), wanted);
}

/// Asks and adds until nothing is listed; how many asks listed any.
fn complete<'a>(
    rng: &mut Rng,
    mut book: TypeBook<'a>,
    root: u32,
    controller: &model::Book,
    needed: &Names,
) -> (TypeBook<'a>, usize) {
    let mut asks = 0;
    loop {
        let missing = book.root(u64::from(root)).unwrap().missing_types().unwrap();
        assert!(missing.whole);
        let names: Vec<String> = missing.blocks.iter().map(|&b| book.type_name(b).to_string()).collect();
        let complete = needed.iter().all(|n| book.find(text(n)).is_some());
        assert_eq!(names.is_empty(), complete);
        if names.is_empty() {
            return (book, asks);
        }
        assert!(
            names
                .iter()
                .all(|n| needed.contains(n.as_bytes()) && book.find(n).is_none())
        );
        asks += 1;
        for name in &names {
            let lacking = book.find(name).is_none();
            let piece = definition(controller.bytes, controller.find(name.as_bytes()).unwrap());
            add(rng, &mut book, piece, lacking);
        }
    }
}

/// The completed book's answers are those of the controller's; whether a function block lies in the root.
fn answers_alike(rng: &mut Rng, book: &TypeBook, our_root: u32, made: &Made, reached: &Names) -> bool {
    let (controller, width) = (model::Book::new(&made.book), made.width);
    let ours = book.root(u64::from(our_root)).unwrap();
    assert_eq!(ours.missing_types().unwrap().count, reached.len());
    let come_to = |n: &&[u8]| resolve(&controller, width, controller.find(n).unwrap(), false).unwrap();
    let yes = reached
        .iter()
        .any(|n| determine(&made.book, width, come_to(n)) == Category::FunctionBlock);
    assert_eq!(ours.requires_read_modify_write(), Ok(yes));

    let memory = memory(rng, made);
    let whole = TypeBook::new(&made.book[..], width).unwrap();
    let theirs = whole.root(u64::from(made.root)).unwrap().read(&memory);
    match (ours.read(&memory), theirs) {
        (Ok(told), Ok(wanted)) => assert!(told.iter().map(|r| r.value).eq(wanted.iter().map(|r| r.value))),
        (told, wanted) => {
            let refusal = told.unwrap_err();
            assert_eq!(refusal, wanted.unwrap_err());
            assert!(!matches!(refusal, Refusal::NotFound { .. }));
        }
    }
    let told = written(book, ours, &memory);
    let wanted = written(&whole, whole.root(u64::from(made.root)).unwrap(), &memory);
    assert_eq!(told, wanted);
    assert!(!matches!(told, Err(Refusal::NotFound { .. })));
    yes
}

/// What is written over a memory of what was read of it, or of an empty map where nothing was: each book has its own block numbers.
fn written(book: &TypeBook, t: TypeRef, memory: &[u8]) -> Result<Vec<u8>, Refusal> {
    let mut empty = TapeBuilder::new(book);
    empty.map().unwrap().end().unwrap();
    let tape = t.read(memory).unwrap_or(empty.finish().unwrap());
    t.write(memory, &tape)
}

#[test]
fn a_book_is_completed_and_then_answers_as_the_controllers() {
    let (mut completed, mut blocks, mut others) = (0, 0, 0);
    for seed in 0..2_500 {
        let rng = &mut Rng::new(seed + 1_000_000);
        let made = made(rng);
        let controller = model::Book::new(&made.book);
        let Some((reached, needed)) = reached_and_needed(&controller, made.width, made.root) else {
            continue;
        };
        let (book, our_root) = ours(rng, &made.book, made.root);
        let book = TypeBook::new(book, made.width).unwrap();
        let lacking = needed.iter().filter(|n| book.find(text(n)).is_none()).count();
        // One call makes such a list too, and adds the needed names that were lacking; others only where it has more than 16 rounds and then
        // looks for what all of our book is made of.
        let whole = TypeBook::new(&made.book[..], made.width).unwrap();
        let plan = book.plan(&whole, u64::from(our_root)).unwrap();
        assert!(plan.book.bytes().starts_with(book.bytes()) && plan.added.len() >= lacking);
        others += usize::from(plan.added.len() > lacking);
        assert!(needed.iter().all(|n| plan.book.find(text(n)).is_some()));
        let (book, asks) = complete(rng, book, our_root, &controller, &needed);
        assert!(asks <= lacking);
        completed += usize::from(lacking > 0);
        let yes = answers_alike(rng, &book, our_root, &made, &reached);
        assert_eq!(plan.read_modify_write, yes);
        blocks += usize::from(yes);
    }
    assert!(
        completed > 800 && blocks > 200 && others < 10,
        "{completed} books completed, {blocks} with a function block, {others} with other types too"
    );
}
