//! Random calls: the static library against the plain model. Answers, values and every byte of every lent buffer must agree.
//! MODEL_BOOKS says how many books each test makes, if it is set: for a longer trial by hand.

use model::Stop;
use model::block;
use model::make::{Type, book, wide};
use model::random::{Made, Rng, chaos, damage, made, memory};
use model::resolve::resolve;
use std::collections::BTreeSet;
use typebook::{Missing, Refusal, Room, TypeBook, TypeRef, calls};

fn books() -> u64 {
    let said = std::env::var("MODEL_BOOKS").ok();
    said.map_or(10_000, |n| n.parse().expect("MODEL_BOOKS is a number"))
}

/// A book, what is said of its length, and a root: mostly valid.
struct Case {
    book: Vec<u8>,
    len: usize,
    width: u8,
    root: u64,
    memory: Vec<u8>,
}

fn case(rng: &mut Rng) -> Case {
    let Made { book, root, width } = if rng.chance(700) { made(rng) } else { chaos(rng) };
    let memory = memory(
        rng,
        &Made {
            book: book.clone(),
            root,
            width,
        },
    );
    let mut case = Case {
        len: book.len(),
        book,
        width,
        root: u64::from(root),
        memory,
    };
    if rng.chance(150) {
        case.len = damage(rng, &mut case.book);
    }
    if rng.chance(50) {
        case.book.resize(case.book.len() + rng.below(600), 0xA5);
    }
    if rng.chance(50) {
        let blocks = case.book.len() as u64 / 512;
        let any = rng.number() % (blocks + 1);
        case.root = rng.pick(&[blocks, blocks + 1, u64::from(u32::MAX), u64::MAX, 1 << 32, any, any]);
    }
    case
}

/// Lent values of some length, filled.
fn values(rng: &mut Rng) -> (Vec<u64>, Vec<u64>) {
    let lent = vec![0xABCD; rng.pick(&[0, 1, 2, 3, 3, 3, 5])];
    (lent.clone(), lent)
}

/// A lent buffer twice, filled with something.
fn twice<T: Copy>(fill: T, len: usize) -> (Vec<T>, Vec<T>) {
    (vec![fill; len], vec![fill; len])
}

/// Runs a test on random books; what its calls answer must be these numbers, each at least once.
fn run(met: &[u8], test: impl Fn(&mut Rng, &Case) -> Vec<u8>) {
    let mut answers = BTreeSet::new();
    for seed in 0..books() {
        let rng = &mut Rng::new(seed);
        let case = case(rng);
        answers.extend(test(rng, &case));
    }
    // A shorter trial may not meet all of them.
    let all = books() >= 10_000;
    assert!(
        answers.iter().all(|n| met.contains(n)) && (!all || answers.len() == met.len()),
        "{answers:?}"
    );
}

#[test]
fn checks_and_look_ups() {
    run(&[0, 1, 2, 3, 4], |rng, c| {
        let answer = calls::check_book(&c.book, c.len);
        assert_eq!(answer, model::check::check_book(&c.book, c.len));
        let mut index = vec![9; rng.pick(&[0, 1, 7, 64, 300])];
        calls::fill_index(&c.book, &mut index);
        assert!(index.iter().all(|&i| i == 0 || block::kind(&c.book, i - 1) == 1));
        if rng.chance(300) {
            let most = rng.pick(&[3, 40, u64::from(u32::MAX)]);
            index.iter_mut().for_each(|i| *i = (rng.number() % most) as u32);
        }
        for _ in 0..4 {
            let n = rng.below(c.book.len() / 512 + 2) as u32;
            let name = if rng.chance(500) {
                block::name(&c.book, n)
            } else {
                block::type_name(&c.book, n)
            };
            let first = model::calls::find(&c.book, name);
            assert_eq!(calls::find(&c.book, name), first);
            // Of two types of one name an index may lead to either.
            let by = calls::find_by(&c.book, &index, name);
            assert_eq!(by.is_some(), first.is_some());
            assert!(by.is_none_or(|n| block::kind(&c.book, n) == 1 && block::name(&c.book, n) == name));
        }
        vec![answer]
    });
}

#[test]
fn blocks_of_any_bytes() {
    run(&[0], |rng, c| {
        let mut book = c.book.clone();
        if rng.chance(300) {
            let at = rng.below(book.len());
            let noise = rng.bytes(40);
            book.iter_mut().skip(at).zip(&noise).for_each(|(b, &n)| *b = n);
            book.truncate(rng.below(book.len() + 1));
        }
        for _ in 0..6 {
            let any = rng.number() as u32;
            let n = rng.pick(&[any % (book.len() as u32 / 512 + 2), any % 4, any, u32::MAX]);
            assert_eq!(calls::is_type(&book, n), block::kind(&book, n) == 1);
            let (mut ours, mut theirs) = values(rng);
            let width = if rng.chance(500) { c.width } else { rng.number() as u8 };
            assert_eq!(calls::determine(&book, width, n, &mut ours), 0);
            model::calls::determine(&book, width, n, &mut theirs);
            assert_eq!(ours, theirs);
            let mut place = [7, 7, 7];
            assert_eq!(calls::name(&book, n, &mut place), 0);
            assert_eq!(&book[place[0] as usize..][..place[1] as usize], block::name(&book, n));
            assert_eq!(calls::type_name(&book, n, &mut place), 0);
            assert_eq!(
                &book[place[0] as usize..][..place[1] as usize],
                block::type_name(&book, n)
            );
            assert_eq!(place[2], 7);
        }
        vec![0]
    });
}

#[test]
fn appending() {
    run(&[0, 1, 2, 3, 4, 15], |rng, c| {
        let mut other = made(rng).book;
        let piece = match rng.below(6) {
            // The book itself, and a type that it has already.
            0 => c.book.clone(),
            1 => definition(&c.book, c.root as u32),
            2 => Vec::new(),
            3 => {
                let said = damage(rng, &mut other);
                other.truncate(said);
                other
            }
            _ => definition(&other, 0),
        };
        let mut ours = c.book.clone();
        ours.resize(c.book.len() + rng.pick(&[0, piece.len(), piece.len() + 700, 511]), 0xA5);
        let mut theirs = ours.clone();
        let (mut v, mut w) = values(rng);
        let answer = calls::append(&mut ours, c.len, &piece, &mut v);
        assert_eq!(answer, model::calls::append(&mut theirs, c.len, &piece, &mut w));
        assert!(v == w && ours == theirs);
        if answer == 0 {
            // The same piece appended to what this left.
            let new = c.len + piece.len();
            assert_eq!(calls::append(&mut ours, new, &piece, &mut v), 4);
            assert!(v == w && ours == theirs);
        }
        vec![answer]
    });
}

/// The blocks of a type, as far as they are there.
fn definition(book: &[u8], t: u32) -> Vec<u8> {
    let blocks = 1 + u64::from(block::fields(book, t)) + u64::from(block::entries(book, t));
    let rest = book.get(t as usize * 512..).unwrap_or_default();
    rest[..rest.len().min(blocks as usize * 512)].to_vec()
}

#[test]
fn chains_and_fields() {
    run(&[0, 1, 2, 3, 4, 5, 7, 8, 15], |rng, c| {
        let (book, len, width, root) = (&c.book[..], c.len, c.width, c.root);
        let (mut v, mut w) = values(rng);
        let answer = calls::resolve_alias(book, len, width, root, &mut v);
        assert_eq!(answer, model::calls::resolved(book, len, width, root, false, &mut w));
        assert_eq!(v, w);
        let (mut v, mut w) = values(rng);
        let answer = calls::resolve_indirection(book, len, width, root, &mut v);
        assert_eq!(answer, model::calls::resolved(book, len, width, root, true, &mut w));
        assert_eq!(v, w);
        let (mut v, mut w) = values(rng);
        let (mut records, mut others) = twice(7, rng.pick(&[0, 3, 4, 8, 11, 40, 40, 40]));
        let fields = calls::resolve_fields(book, len, width, root, &mut records, &mut v);
        assert_eq!(
            fields,
            model::calls::resolve_fields(book, len, width, root, &mut others, &mut w)
        );
        assert_eq!((v, records), (w, others));
        vec![answer, fields]
    });
}

/// An index for a walk: one that was built, or numbers of the kinds that must not be followed, and now and then one that is too short.
fn index(rng: &mut Rng, book: &[u8], len: usize) -> Vec<u32> {
    let mut index = vec![rng.pick(&[0, 1, 7, u32::MAX]); rng.pick(&[16_384, 16_384, 16_384, 20_000, 16_383])];
    match rng.below(3) {
        0 => {
            calls::build_index(book, len, &mut index);
        }
        1 => index.fill_with(|| rng.below(40) as u32),
        _ => {}
    }
    index
}

/// The built index, number by number, and the buffer as it was after a refusal.
#[test]
fn built_indexes() {
    run(&[0, 1, 2, 3, 4, 6], |rng, c| {
        let (mut index, mut other) = twice(
            rng.number() as u32,
            rng.pick(&[16_384, 16_384, 16_385, 20_000, 16_383, 0]),
        );
        let answer = calls::build_index(&c.book, c.len, &mut index);
        assert_eq!(answer, model::calls::build_index(&c.book, c.len, &mut other));
        assert_eq!(index, other);
        vec![answer]
    });
}

#[test]
fn walks() {
    // 9 wants 4,097 names; tests/refusals.rs has it.
    run(&[0, 1, 2, 3, 4, 5, 6, 7, 8], |rng, c| {
        let (book, len, width, root) = (&c.book[..], c.len, c.width, c.root);
        let (mut v, mut w) = values(rng);
        let (mut scratch, mut other) = twice(rng.number() as u32, rng.pick(&[8_192, 8_192, 16_383, 20_000, 8_191, 0]));
        let index = &index(rng, book, len);
        let answer = calls::requires_read_modify_write(book, len, index, width, root, &mut scratch, &mut v);
        assert_eq!(
            answer,
            model::calls::requires_read_modify_write(book, len, index, width, root, &mut other, &mut w)
        );
        assert!(v == w && scratch == other);
        let (mut v, mut w) = values(rng);
        let (mut list, mut others) = twice(7, rng.pick(&[4_096, 4_096, 4_096, 5_000, 4_095, 0]));
        let (mut scratch, mut other) = twice(5, scratch.len());
        let missing = calls::missing_types(book, len, index, width, root, &mut scratch, &mut list, &mut v);
        assert_eq!(
            missing,
            model::calls::missing_types(book, len, index, width, root, &mut other, &mut others, &mut w)
        );
        assert!(v == w && scratch == other && list == others);
        vec![answer, missing]
    });
}

/// Wide types about the limit of 4,096 names: all there, some missing, function blocks among them.
#[test]
fn walks_at_their_limit() {
    let missing = |i: u32, every: u32| every != 0 && i.is_multiple_of(every);
    for (fields, every, block) in [
        (4_095, 0, 9_999),
        (4_096, 0, 9_999),
        (4_095, 1, 9_999),
        (4_096, 1, 9_999),
        (4_097, 7, 9_999),
        (4_095, 0, 0),
        (4_096, 0, 0),
        (4_096, 0, 1),
    ] {
        let size = |i| if i == block { 12 } else { 2 };
        let id = |i| if i == block { 65 } else { 2 };
        let there = (0..fields).filter(|&i| !missing(i, every));
        let types = there.map(|i| Type::new(&format!("T{i}")).id(id(i)).size(size(i)));
        let bytes = book(&[vec![wide(fields)], types.collect()].concat());
        let (model, checked) = (model::Book::new(&bytes), TypeBook::new(&bytes[..], 8).expect("valid"));
        let root = checked.root(0).expect("a type");
        let yes = model::walk::requires_read_modify_write(&model, 8, 0).map_err(stopped);
        assert_eq!(root.requires_read_modify_write().map_err(told), yes);
        let theirs = model::walk::missing_types(&model, 8, 0);
        let (whole, count) = (theirs.whole, theirs.count);
        assert_eq!(
            root.missing_types(),
            Ok(Missing {
                blocks: theirs.blocks,
                whole,
                count
            })
        );
    }
}

#[test]
fn reads() {
    run(&[0, 1, 2, 3, 4, 5, 7, 8, 10, 11, 12, 13, 14, 15], |rng, c| {
        let (book, len, width, root) = (&c.book[..], c.len, c.width, c.root);
        let (mut v, mut w) = values(rng);
        let (mut tape, mut other) = twice(0x77, rng.pick(&[0, 24, 149, 24 * 12, 24 * 600, 24 * 600, 24 * 600]));
        let (mut text, mut others) = twice(0x66, rng.pick(&[0, 5, 30, 4_000, 4_000, 4_000]));
        let answer = calls::read(book, len, width, root, &c.memory, &mut tape, &mut text, &mut v);
        assert_eq!(
            answer,
            model::calls::read(book, len, width, root, &c.memory, &mut other, &mut others, &mut w)
        );
        assert!(v == w && tape == other && text == others);
        vec![answer]
    });
}

/// A refusal's number and block.
fn told(refusal: Refusal) -> (u8, u32) {
    match refusal {
        Refusal::NotFound { block } => (7, block),
        other => (other.number(), 0),
    }
}

fn stopped(stop: Stop) -> (u8, u32) {
    match stop {
        Stop::Missing(block) => (7, block),
        Stop::Number(n) => (n, 0),
    }
}

/// The forms without a check, through the safe types.
#[test]
fn checked_books() {
    run(&[0, 1, 2, 3, 4, 5, 7, 8, 10, 11, 12, 13, 14, 15], |rng, c| {
        let len = c.len.min(c.book.len());
        match TypeBook::new(&c.book[..len], c.width) {
            Ok(book) => match book.root(c.root) {
                Ok(t) => checked_type(rng, c, &book, t),
                Err(refusal) => {
                    assert_eq!(
                        model::check::check_root(&c.book, len, c.root),
                        Err(model::Stop::Number(refusal.number()))
                    );
                    vec![refusal.number()]
                }
            },
            Err(refusal) => {
                assert_eq!(refusal.number(), model::check::check_book(&c.book, len));
                vec![refusal.number()]
            }
        }
    });
}

fn checked_type(rng: &mut Rng, c: &Case, book: &TypeBook, t: TypeRef) -> Vec<u8> {
    let model = model::Book::new(book.bytes());
    let (width, root) = (c.width, t.block());
    let found = |r: Result<TypeRef, Refusal>| r.map(|t| t.block()).map_err(told);
    assert_eq!(
        found(t.resolve_alias()),
        resolve(&model, width, root, false).map_err(stopped)
    );
    assert_eq!(
        found(t.resolve_indirection()),
        resolve(&model, width, root, true).map_err(stopped)
    );
    let yes = model::walk::requires_read_modify_write(&model, width, root).map_err(stopped);
    assert_eq!(t.requires_read_modify_write().map_err(told), yes);
    let (ours, theirs) = (t.missing_types(), model::walk::missing_types(&model, width, root));
    assert_eq!(
        ours,
        Ok(Missing {
            blocks: theirs.blocks,
            whole: theirs.whole,
            count: theirs.count
        })
    );
    let ours = t.fields().map_err(told);
    let theirs = model::resolve::fields(&model, width, root).map_err(stopped);
    let ours = ours.map(|all| {
        all.iter()
            .map(|f| [f.offset, f.size, f.resolved.block(), f.field])
            .collect()
    });
    assert_eq!(
        ours,
        theirs.map(|all| all
            .iter()
            .map(|f| [f.offset, f.size, f.resolved, f.field])
            .collect::<Vec<_>>())
    );
    vec![checked_read(rng, c, &model, t)]
}

fn checked_read(rng: &mut Rng, c: &Case, model: &model::Book, t: TypeRef) -> u8 {
    let room = Room {
        records: rng.pick(&[0, 5, 2_000, 2_000]),
        text: rng.pick(&[0, 9, 9_000, 9_000]),
    };
    let (mut tape, mut text) = (vec![0; 24 * room.records], vec![0; room.text]);
    let theirs = model::calls::read_in(model, c.width, t.block(), &c.memory, &mut tape, &mut text);
    match (t.read_within(&c.memory, room), theirs) {
        (Ok(ours), Ok((records, texts))) => {
            assert!(ours.bytes() == &tape[..24 * records] && ours.text() == &text[..texts]);
            assert_eq!(ours.iter().count(), records);
            0
        }
        (ours, theirs) => {
            let refusal = ours.map(|_| ()).map_err(told);
            assert_eq!(refusal, theirs.map(|_| ()).map_err(stopped));
            refusal.unwrap_err().0
        }
    }
}

#[test]
fn texts() {
    for seed in 0..books() {
        let rng = &mut Rng::new(seed);
        let bytes = text(rng);
        // The place 2^64 - 1 itself stands for a text that doesn't fit.
        let at = rng.pick(&[0, 0, 1, 5, 70, usize::MAX - 1]);
        let (mut out, mut other) = twice(0xA5, rng.below(90));
        assert_eq!(
            calls::windows_1252_decode(&bytes, &mut out, at),
            model::calls::windows_1252_decode(&bytes, &mut other, at)
        );
        assert_eq!(
            calls::utf_16_decode(&bytes, &mut out, at),
            model::calls::utf_16_decode(&bytes, &mut other, at)
        );
        assert_eq!(
            calls::utf_8_decode(&bytes, &mut out, at),
            model::calls::utf_8_decode(&bytes, &mut other, at)
        );
        assert_eq!(out, other);
        assert_eq!(
            calls::windows_1252_encode(&bytes, &mut out),
            model::calls::windows_1252_encode(&bytes, &mut other)
        );
        assert_eq!(
            calls::utf_16_encode(&bytes, &mut out),
            model::calls::utf_16_encode(&bytes, &mut other)
        );
        assert_eq!(out, other);
        assert_eq!(calls::utf_8_well_formed(&bytes), std::str::from_utf8(&bytes).is_ok());
        if let Ok(text) = std::str::from_utf8(&bytes) {
            assert_eq!(
                typebook::text::to_windows_1252(text),
                model::text::windows_1252_encode(text)
            );
            assert_eq!(typebook::text::to_utf_16(text), model::text::utf_16_encode(text));
        }
        assert_eq!(
            typebook::text::from_windows_1252(&bytes),
            model::text::windows_1252_decode(&bytes)
        );
        assert_eq!(typebook::text::from_utf_16(&bytes), model::text::utf_16_decode(&bytes));
        assert_eq!(typebook::text::from_utf_8(&bytes), model::text::utf_8_decode(&bytes));
    }
}

/// Bytes that are UTF-8, nearly UTF-8, UTF-16 or nothing.
fn text(rng: &mut Rng) -> Vec<u8> {
    const CHARS: [char; 16] = [
        'a',
        'Z',
        ' ',
        '\0',
        '\u{7f}',
        '\u{80}',
        '\u{e4}',
        '\u{ff}',
        '\u{192}',
        '\u{416}',
        '\u{7ff}',
        '\u{800}',
        '\u{20ac}',
        '\u{fffd}',
        '\u{1f600}',
        '\u{10ffff}',
    ];
    let text: String = (0..rng.below(12)).map(|_| rng.pick(&CHARS)).collect();
    let mut bytes = match rng.below(4) {
        0 => rng.bytes(text.len()),
        1 => text.encode_utf16().flat_map(u16::to_le_bytes).collect(),
        _ => text.into_bytes(),
    };
    if rng.chance(300) && !bytes.is_empty() {
        let at = rng.below(bytes.len());
        match rng.below(3) {
            0 => bytes[at] = rng.pick(&[0x80, 0xBF, 0xC0, 0xD8, 0xDC, 0xE0, 0xED, 0xF0, 0xF4, 0xFF]),
            1 => bytes.truncate(at),
            _ => drop(bytes.remove(at)),
        }
    }
    bytes
}
