//! Random calls with roots by name: the static library against the plain model, and each name that the book has against its number. Answers,
//! values and every byte of every lent buffer must agree.

use model::Stop;
use model::block;
use model::make::example;
use model::random::{Made, Rng, chaos, damage, made, memory};
use model::tapes::{Tape, spoil, tape};
use std::collections::BTreeSet;
use typebook::{PlanError, TypeBook, calls};

/// What a call answers, its values, and the lent buffers after it.
type Told = (u8, Vec<u64>, Vec<u8>, Vec<u32>);

/// A book, what is said of its length, and the name of a root.
struct Case {
    made: Made,
    len: usize,
    name: Vec<u8>,
    memory: Vec<u8>,
    given: Tape,
    scratch: usize,
    list: usize,
    index: Vec<u32>,
    room: usize,
}

/// A name: mostly one of the book's, else one that it lacks, or one that no type can have.
fn name(rng: &mut Rng, made: &Made) -> Vec<u8> {
    let own = block::name(&made.book, made.root).to_vec();
    match rng.below(20) {
        0 => Vec::new(),
        1 => b"no such type".to_vec(),
        2 => vec![b'n'; rng.pick(&[199, 200, 201, 300])],
        3 => vec![rng.pick(&[0x1F, 0x20, 0x7E, 0x7F, 0xFF])],
        4 => [&own[..], &[rng.pick(&[b' ', 0, 0x80])]].concat(),
        5 => own[..own.len() / 2].to_vec(),
        6 => {
            let blocks = made.book.len() / 512;
            block::name(&made.book, rng.below(blocks.max(1)) as u32).to_vec()
        }
        _ => own,
    }
}

fn case(seed: u64) -> Case {
    let rng = &mut Rng::new(seed);
    let mut made = if rng.chance(800) { made(rng) } else { chaos(rng) };
    let memory = memory(rng, &made);
    let mut tape = tape(rng, &made);
    if rng.chance(200) {
        spoil(rng, &mut tape);
    }
    let name = name(rng, &made);
    let mut len = made.book.len();
    if rng.chance(100) {
        len = damage(rng, &mut made.book);
    }
    if rng.chance(60) {
        len = 0;
    }
    if rng.chance(30) {
        made.book.clear();
        len = rng.pick(&[0, 0, 0, 512]);
    }
    Case {
        len,
        name,
        given: tape,
        scratch: rng.pick(&[0, 8_191, 8_192, 8_192, 8_192, 9_000]),
        list: rng.pick(&[4_095, 4_096, 4_096, 4_096, 5_000]),
        index: vec![0; rng.pick(&[16_383, 16_384, 16_384, 16_384, 20_000])],
        room: memory.len() + rng.pick(&[0, 0, 0, 0, 0, 1]),
        memory,
        made,
    }
}

/// What is lent to a call.
struct Lent {
    v: Vec<u64>,
    tape: Vec<u8>,
    text: Vec<u8>,
    numbers: Vec<u32>,
    list: Vec<u32>,
}

/// One call, by the library's function or by the model's, over buffers that are filled alike.
fn told(c: &Case, call: impl FnOnce(&mut Lent) -> u8) -> Told {
    let mut lent = Lent {
        v: vec![0xABCD; 3],
        tape: vec![0xA5; 24 * 30],
        text: vec![0xA5; 200],
        numbers: vec![3; c.scratch],
        list: vec![4; c.list],
    };
    let number = call(&mut lent);
    let numbers = [lent.numbers, lent.list].concat();
    (number, lent.v, [lent.tape, lent.text].concat(), numbers)
}

/// Every call with this root, by the model.
fn models(c: &Case, root: impl model::check::Root) -> Vec<Told> {
    use model::calls as model;
    let (b, len, w, m, i) = (&c.made.book[..], c.len, c.made.width, &c.memory[..], &c.index[..]);
    let Tape { records, text } = &c.given;
    vec![
        told(c, |l| model::resolved(b, len, w, root, false, &mut l.v)),
        told(c, |l| model::resolved(b, len, w, root, true, &mut l.v)),
        told(c, |l| model::resolve_fields(b, len, w, root, &mut l.numbers, &mut l.v)),
        told(c, |l| {
            model::requires_read_modify_write(b, len, i, w, root, &mut l.numbers, &mut l.v)
        }),
        told(c, |l| {
            model::missing_types(b, len, i, w, root, &mut l.numbers, &mut l.list, &mut l.v)
        }),
        told(c, |l| {
            model::read(b, len, w, root, m, &mut l.tape, &mut l.text, &mut l.v)
        }),
        told(c, |l| {
            l.tape.resize(c.room, 0xA5);
            model::write(b, len, w, root, m, records, text, &mut l.tape, &mut l.v)
        }),
    ]
}

/// The same by the library, by the root's name.
fn ours(c: &Case) -> Vec<Told> {
    let (b, len, w, m, i) = (&c.made.book[..], c.len, c.made.width, &c.memory[..], &c.index[..]);
    let (name, Tape { records, text }) = (&c.name[..], &c.given);
    vec![
        told(c, |l| calls::resolve_alias_named(b, len, w, name, &mut l.v)),
        told(c, |l| calls::resolve_indirection_named(b, len, w, name, &mut l.v)),
        told(c, |l| {
            calls::resolve_fields_named(b, len, w, name, &mut l.numbers, &mut l.v)
        }),
        told(c, |l| {
            calls::requires_read_modify_write_named(b, len, i, w, name, &mut l.numbers, &mut l.v)
        }),
        told(c, |l| {
            calls::missing_types_named(b, len, i, w, name, &mut l.numbers, &mut l.list, &mut l.v)
        }),
        told(c, |l| {
            calls::read_named(b, len, w, name, m, &mut l.tape, &mut l.text, &mut l.v)
        }),
        told(c, |l| {
            l.tape.resize(c.room, 0xA5);
            calls::write_named(b, len, w, name, m, records, text, &mut l.tape, &mut l.v)
        }),
    ]
}

#[test]
fn names_as_the_model_has_them() {
    let mut met = vec![BTreeSet::new(); 7];
    for seed in 0..4_000 {
        let c = case(seed);
        let told = ours(&c);
        assert_eq!(told, models(&c, &c.name[..]), "{seed}");
        // A name that the book has is as its block's number.
        if let Ok(block) = model::check::check_root(&c.made.book, c.len, &c.name[..]) {
            assert_eq!(told, models(&c, u64::from(block)), "{seed}");
        }
        for (numbers, (number, ..)) in met.iter_mut().zip(told) {
            numbers.insert(number);
        }
    }
    for (call, numbers) in met.iter().enumerate() {
        assert!(
            numbers.is_superset(&BTreeSet::from([0, 1, 2, 23])),
            "{call}: {numbers:?}"
        );
        assert!(
            !numbers.contains(&5) && (call == 4 || numbers.contains(&7)),
            "{call}: {numbers:?}"
        );
    }
}

#[test]
fn a_lacking_root_in_the_walks() {
    let (book, index) = (example(), vec![0; 16_384]);
    for (bytes, name) in [(&book[..], &b"FOO"[..]), (&[], b"S"), (&[], b"")] {
        let len = bytes.len();
        let (mut scratch, mut list, mut v) = (vec![9; 8_200], vec![7; 4_100], [0xAB; 3]);
        let number = calls::missing_types_named(bytes, len, &index, 8, name, &mut scratch, &mut list, &mut v);
        assert_eq!((number, v), (0, [1, 1, 1]));
        assert_eq!((list[0], scratch.iter().any(|&n| n != 0)), (u32::MAX, false));
        assert!(list[1..].iter().all(|&n| n == 7));
        // 6 comes first, and leaves all as it was; 23 before 6.
        for (i, s, l) in [(16_383, 8_192, 4_096), (16_384, 8_191, 4_096), (16_384, 8_192, 4_095)] {
            let (mut scratch, mut list, mut v) = (vec![9; s], vec![7; l], [0xAB; 3]);
            let number = calls::missing_types_named(bytes, len, &index[..i], 8, name, &mut scratch, &mut list, &mut v);
            assert_eq!((number, v), (6, [0xAB; 3]));
            let number =
                calls::missing_types_named(bytes, len, &index[..i], 8, b"\x7f", &mut scratch, &mut list, &mut v);
            assert_eq!((number, v), (23, [0xAB; 3]));
            assert!(scratch.iter().all(|&n| n == 9) && list.iter().all(|&n| n == 7));
        }
        let (mut scratch, mut v) = (vec![9; 8_200], [0xAB; 1]);
        let number = calls::requires_read_modify_write_named(bytes, len, &index, 8, name, &mut scratch, &mut v);
        assert_eq!((number, v), (7, [u64::from(u32::MAX)]));
        assert!(scratch.iter().all(|&n| n == 0));
        let (mut scratch, mut v) = (vec![9; 8_191], [0xAB; 1]);
        let number = calls::requires_read_modify_write_named(bytes, len, &index, 8, name, &mut scratch, &mut v);
        assert_eq!((number, v, scratch), (6, [0xAB], vec![9; 8_191]));
        // As a number it is no block.
        let (mut scratch, mut list, mut v) = (vec![9; 8_192], vec![7; 4_096], [0xAB; 3]);
        let root = u64::from(u32::MAX);
        let number = calls::missing_types(bytes, len, &index, 8, root, &mut scratch, &mut list, &mut v);
        assert_eq!(
            (number, v, scratch, list),
            (5, [0xAB; 3], vec![9; 8_192], vec![7; 4_096])
        );
    }
}

/// From nothing to an answer: as the model plans it, and as the controller's own book has it.
#[test]
fn plans_from_nothing() {
    let mut met = BTreeSet::new();
    for seed in 0..2_000 {
        let rng = &mut Rng::new(seed);
        let made = if rng.chance(800) { made(rng) } else { chaos(rng) };
        let name = match rng.chance(950) {
            true => block::name(&made.book, made.root),
            false => b"no such type",
        };
        let text = std::str::from_utf8(name).unwrap();
        let Ok(controller) = TypeBook::new(&made.book[..], made.width) else {
            continue;
        };
        let mut buffer = vec![0; made.book.len()];
        let (answer, len) = model::plan::plan(&mut buffer, 0, &made.book, made.width, name);
        let number = match (TypeBook::empty(made.width).plan(&controller, text), answer) {
            (Ok(plan), Ok(yes)) => {
                assert_eq!(
                    (plan.read_modify_write, plan.book.bytes()),
                    (yes, &buffer[..len]),
                    "{seed}"
                );
                let whole = controller.root(text).unwrap();
                assert_eq!(whole.requires_read_modify_write(), Ok(yes), "{seed}");
                0
            }
            (Err(PlanError::Missing { .. }), Err(Stop::Missing(_))) => 7,
            (Err(PlanError::Refused(refusal)), Err(Stop::Number(number))) if refusal.number() == number => number,
            (plan, answer) => panic!("{seed}: {plan:?} against {answer:?}"),
        };
        met.insert(number);
    }
    assert!(met.contains(&0) && met.contains(&7), "{met:?}");
}

/// A plan by a name at the boundary, with nothing in our book, with the controller's own or with another: answers, values and every byte of
/// every buffer as the model has them.
#[test]
fn plans_by_name_as_the_model_has_them() {
    let mut met = BTreeSet::new();
    for seed in 0..4_000 {
        let rng = &mut Rng::new(seed);
        let (mut theirs, other) = (made(rng), made(rng));
        let (name, mine) = (name(rng, &theirs), rng.below(4));
        let mut ours = match mine {
            0 => theirs.book.clone(),
            1 => other.book,
            _ => Vec::new(),
        };
        let (mut len, mut all) = (ours.len(), theirs.book.len());
        match rng.below(20) {
            0 => all = damage(rng, &mut theirs.book),
            1 if mine < 2 => len = damage(rng, &mut ours),
            _ => {}
        }
        let room = rng.pick(&[0, 512, 4_096, theirs.book.len()]);
        let lent = if rng.chance(50) { 8_191 } else { 8_192 };
        let start = || {
            (
                [&ours[..], &vec![0x77; room]].concat(),
                vec![7; lent],
                vec![7; 64],
                [99; 3],
            )
        };
        let (controller, width) = (&theirs.book[..], theirs.width);
        let (mut b, mut s, mut i, mut v) = start();
        let number = calls::plan_save_named(&mut b, len, controller, all, width, &name, &mut s, &mut i, &mut v);
        let told = (number, v, b, s, i);
        let (mut b, mut s, mut i, mut v) = start();
        let number = model::calls::plan_save(&mut b, len, controller, all, width, &name[..], &mut s, &mut i, &mut v);
        assert!(told == (number, v, b, s, i), "seed {seed}");
        if number == 7 && told.1[0] == u64::from(u32::MAX) {
            assert_eq!(told.1, [u64::from(u32::MAX), len as u64, 99], "seed {seed}");
        }
        met.insert((number, mine > 1));
    }
    for wanted in [
        (0, false),
        (0, true),
        (6, true),
        (7, true),
        (15, true),
        (23, true),
        (23, false),
    ] {
        assert!(met.contains(&wanted), "{wanted:?} in {met:?}");
    }
}
