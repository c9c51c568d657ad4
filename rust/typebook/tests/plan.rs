//! The plan of a save over the boundary: its refusals by hand, and random books against the model, every byte of every buffer.

use model::make::{Type, book, chain, example, int, mend, wide};
use model::random::{Rng, chaos, damage, made};
use typebook::{Plan, PlanError, Refusal, TypeBook, calls};

const WIDTH: u8 = 8;

/// What a plan answers, and the buffer, scratch and index that it leaves.
type Told = (u8, [u64; 3], Vec<u8>, Vec<u32>, Vec<u32>);

/// A call of the library's shape.
type Call = fn(&mut [u8], usize, &[u8], usize, u8, u64, &mut [u32], &mut [u32], &mut [u64]) -> u8;

/// What the buffers are before a call: our book with `room` more bytes, the scratch's and the index' lengths.
struct Lent<'a> {
    ours: &'a [u8],
    len: usize,
    room: usize,
    controller: &'a [u8],
    theirs: usize,
    width: u8,
    root: u64,
    scratch: usize,
    index: usize,
}

impl<'a> Lent<'a> {
    fn new(ours: &'a [u8], controller: &'a [u8], root: u64) -> Self {
        Lent {
            ours,
            len: ours.len(),
            room: controller.len(),
            controller,
            theirs: controller.len(),
            width: WIDTH,
            root,
            scratch: 8_192,
            index: 40,
        }
    }

    fn ask(&self, call: Call) -> Told {
        let mut buffer = [self.ours, &vec![0x77; self.room]].concat();
        let (mut scratch, mut index, mut values) = (vec![7; self.scratch], vec![7; self.index], [99; 3]);
        let number = call(
            &mut buffer,
            self.len,
            self.controller,
            self.theirs,
            self.width,
            self.root,
            &mut scratch,
            &mut index,
            &mut values,
        );
        (number, values, buffer, scratch, index)
    }

    /// Refused with that number before anything was done: all buffers as before, and the length that was given.
    fn refused(&self, number: u8) {
        let told = self.ask(calls::plan_save);
        assert_eq!((told.0, told.1), (number, [self.len as u64, 99, 99]));
        assert_eq!(told.2, [self.ours, &vec![0x77; self.room]].concat());
        assert!(told.3.iter().chain(&told.4).all(|&n| n == 7));
    }
}

fn planned(ours: &[u8], controller: &[u8]) -> Result<Plan, PlanError> {
    let (ours, controller) = (
        TypeBook::new(ours, WIDTH).unwrap(),
        TypeBook::new(controller, WIDTH).unwrap(),
    );
    ours.plan(&controller, 0)
}

#[test]
fn refusals_1_to_5_of_our_book_and_the_root() {
    let (ours, theirs) = (example(), example());
    for len in [1, 513, 5 * 512 + theirs.len(), usize::MAX] {
        Lent {
            len,
            ..Lent::new(&ours, &theirs, 0)
        }
        .refused(1);
    }
    // A book with nothing in it is one, and has no root by number.
    Lent {
        len: 0,
        ..Lent::new(&ours, &theirs, 0)
    }
    .refused(5);
    let mut damaged = ours.clone();
    damaged[508] ^= 1;
    // Ours come before the controller's and before the scratch.
    Lent {
        theirs: 1,
        scratch: 0,
        ..Lent::new(&damaged, &theirs, 9)
    }
    .refused(2);
    damaged[508] ^= 1;
    damaged[0] = 9;
    mend(&mut damaged[..512]);
    Lent::new(&damaged, &theirs, 0).refused(3);
    Lent::new(&book(&[int(), int()]), &theirs, 0).refused(4);
    for root in [1, 2, 4, u64::from(u32::MAX), u64::MAX] {
        Lent {
            theirs: 1,
            ..Lent::new(&ours, &theirs, root)
        }
        .refused(5);
        let ours = TypeBook::new(&ours[..], WIDTH).unwrap();
        let refused = ours.plan(&ours, root).unwrap_err();
        assert_eq!(refused, PlanError::Refused(Refusal::Root));
    }
}

#[test]
fn refusals_1_to_4_of_the_controllers_book_and_6() {
    let (ours, mut theirs) = (example(), example());
    for len in [511, theirs.len() + 512, usize::MAX] {
        Lent {
            theirs: len,
            scratch: 0,
            ..Lent::new(&ours, &theirs, 0)
        }
        .refused(1);
    }
    theirs[508] ^= 1;
    Lent {
        scratch: 0,
        ..Lent::new(&ours, &theirs, 0)
    }
    .refused(2);
    theirs[508] ^= 1;
    theirs[0] = 9;
    mend(&mut theirs[..512]);
    Lent::new(&ours, &theirs, 0).refused(3);
    Lent::new(&ours, &book(&[int(), int()]), 0).refused(4);
    Lent {
        scratch: 8_191,
        ..Lent::new(&ours, &example(), 0)
    }
    .refused(6);
}

#[test]
fn refusal_7_names_what_is_in_neither_book() {
    let root = Type::new("S").size(4).field("t", "TANK", 0, 4);
    let tank = Type::new("TANK").size(4).field("c", "FB_Counter", 0, 4);
    let (ours, theirs) = (root.bytes(), book(&[int(), tank]));
    let refused = planned(&ours, &theirs).unwrap_err();
    assert_eq!(
        refused,
        PlanError::Missing {
            name: "FB_Counter".into()
        }
    );
    assert_eq!(refused.number(), 7);
    assert!(refused.to_string().contains("\"FB_Counter\""));
    // The block is that of the grown book, TANK's field; TANK stays.
    let told = Lent::new(&ours, &theirs, 0).ask(calls::plan_save);
    assert_eq!((told.0, told.1), (7, [3, 4 * 512, 99]));
    assert_eq!(told.2[..2 * 512], ours[..]);
    assert_eq!(told.2[2 * 512..4 * 512], theirs[512..]);
    // The controller's list knows nothing of it at all.
    let refused = planned(&ours, &int().bytes()).unwrap_err();
    assert_eq!(refused, PlanError::Missing { name: "TANK".into() });
}

#[test]
fn refusal_8_a_chain_of_32_and_31_are_fine() {
    for (hops, fine) in [(31, true), (32, false), (40, false)] {
        let theirs = book(&[chain(hops, "INT"), vec![int()]].concat());
        let answer = planned(&theirs[..512], &theirs);
        match answer {
            Ok(plan) if fine => assert_eq!((plan.added.len(), plan.read_modify_write), (31, false)),
            other => assert_eq!(
                (other.unwrap_err(), fine),
                (PlanError::Refused(Refusal::AliasChain), false)
            ),
        }
    }
}

#[test]
fn refusal_9_a_name_too_many() {
    for (fields, fine) in [(4_095, true), (4_096, false)] {
        let leaves = (0..fields).map(|i| Type::new(&format!("T{i}")).id(2).size(2));
        let theirs = book(&leaves.collect::<Vec<_>>());
        match planned(&wide(fields).bytes(), &theirs) {
            Ok(plan) if fine => assert_eq!((plan.added.len(), plan.read_modify_write), (4_095, false)),
            other => assert_eq!(
                (other.unwrap_err(), fine),
                (PlanError::Refused(Refusal::TooManyTypes), false)
            ),
        }
    }
}

#[test]
fn refusal_15_no_room() {
    let root = Type::new("S").size(4).field("t", "TANK", 0, 4).field("i", "INT", 0, 2);
    let tank = Type::new("TANK").size(4).field("c", "INT", 0, 2);
    let (ours, theirs) = (root.bytes(), book(&[int(), tank]));
    // INT and TANK have three blocks; INT is listed first.
    for (room, number, len) in [(0, 15, 3), (511, 15, 3), (512, 15, 4), (1_535, 15, 4), (1_536, 0, 6)] {
        let told = Lent {
            room,
            ..Lent::new(&ours, &theirs, 0)
        }
        .ask(calls::plan_save);
        let end = if number == 0 { told.1[1] } else { told.1[0] };
        assert_eq!((told.0, end), (number, len * 512), "{room}");
        assert_eq!(calls::check_book(&told.2, end as usize), 0);
        assert!(told.3.iter().chain(&told.4).all(|&n| n == 0));
        assert!(told.2[end as usize..].iter().all(|&b| b == 0x77));
    }
}

#[test]
fn refusal_15_over_65_536_blocks() {
    let root = Type::new("S").size(2).field("i", "INT", 0, 2);
    for (blocks, fine) in [(65_535, true), (65_536, false)] {
        // A type with many fields, which the root doesn't reach, fills the rest of our book.
        let ours = book(&[root.clone(), wide(blocks - 3)]);
        match planned(&ours, &int().bytes()) {
            Ok(plan) if fine => assert_eq!(
                (plan.book.blocks(), &plan.added[..]),
                (65_536, &["INT".to_string()][..])
            ),
            other => assert_eq!((other.unwrap_err(), fine), (PlanError::Refused(Refusal::NoRoom), false)),
        }
    }
}

/// Two books of one pool of names, or ours a part of the controller's; any widths, rooms and lengths.
fn lent<'a>(rng: &mut Rng, ours: &'a [u8], controller: &'a [u8]) -> Lent<'a> {
    let blocks = ours.len() / 512;
    let types: Vec<u64> = (0..blocks as u64).filter(|&n| ours[512 * n as usize] == 1).collect();
    let root = if types.is_empty() || rng.chance(30) {
        rng.below(blocks + 2) as u64
    } else {
        rng.pick(&types)
    };
    Lent {
        width: rng.pick(&[8, 8, 4, 2, 0, 3]),
        room: if rng.chance(200) {
            rng.below(controller.len() + 1)
        } else {
            controller.len()
        },
        index: rng.pick(&[0, 1, 2, 7, 64, 400]),
        ..Lent::new(ours, controller, root)
    }
}

/// Some definitions of a book.
fn part(rng: &mut Rng, book: &[u8], keep: usize) -> Vec<u8> {
    let mut out = Vec::new();
    let mut kept = false;
    for block in book.chunks(512) {
        if block[0] == 1 {
            kept = rng.chance(keep);
        }
        if kept {
            out.extend_from_slice(block);
        }
    }
    out
}

#[test]
fn random_books_against_the_model() {
    let (mut answers, mut grown) = ([0; 20], 0);
    for seed in 0..4_000 {
        let rng = &mut Rng::new(seed + 5_000_000);
        let mut theirs = if rng.chance(400) {
            chaos(rng).book
        } else {
            made(rng).book
        };
        let keep = rng.pick(&[100, 300, 600]);
        let ours = if rng.chance(500) {
            part(rng, &theirs, keep)
        } else {
            chaos(rng).book
        };
        if rng.chance(300) {
            theirs = part(rng, &theirs, 800);
        }
        if rng.chance(20) && !theirs.is_empty() {
            damage(rng, &mut theirs);
        }
        let lent = lent(rng, &ours, &theirs);
        let told = lent.ask(calls::plan_save);
        assert!(told == lent.ask(model::calls::plan_save), "seed {seed}");
        answers[usize::from(told.0)] += 1;
        let len = told.1[usize::from(told.0 == 0 || told.0 == 7)];
        grown += usize::from(len > ours.len() as u64);
    }
    for number in [0, 7, 8, 15] {
        assert!(answers[number] > 10, "{number}: {answers:?}");
    }
    assert!(grown > 300, "{grown}");
}

/// Types of ours, each with a field of a type that only the controller has, whose own field is our next type; and a type of ours that the root
/// doesn't reach, which names one of the controller's.
fn alternating(pairs: usize, end: Type) -> (Vec<u8>, Vec<u8>) {
    let (ours, theirs) = (|n: usize| format!("OURS_{n}"), |n: usize| format!("THEIRS_{n}"));
    let holds = |name: &str, of: &str| Type::new(name).size(4).field("inner", of, 0, 2);
    let mut mine: Vec<Type> = (0..pairs).map(|n| holds(&ours(n), &theirs(n))).collect();
    mine.push(holds("ASIDE", "UNREACHED"));
    let mut all = mine.clone();
    all.extend((0..pairs - 1).map(|n| holds(&theirs(n), &ours(n + 1))));
    all.extend([
        holds(&theirs(pairs - 1), "END"),
        Type::new("UNREACHED").id(2).size(2),
        end,
    ]);
    (book(&mine), book(&all))
}

#[test]
fn types_of_ours_alternate_with_lacking_ones() {
    for (pairs, end) in [(15, 12), (16, 12), (17, 12), (18, 8), (40, 12), (40, 2)] {
        let (ours, all) = alternating(pairs, Type::new("END").size(end));
        // All room, just enough, and a block too little for the sweep of the whole book or for what is needed.
        for room in [
            all.len(),
            all.len() - ours.len(),
            all.len() - ours.len() - 512,
            all.len() - ours.len() - 1024,
        ] {
            let lent = Lent {
                room,
                ..Lent::new(&ours, &all, 0)
            };
            let told = lent.ask(calls::plan_save);
            assert!(told == lent.ask(model::calls::plan_save), "{pairs} {end} {room}");
            if room >= all.len() - ours.len() {
                assert_eq!((told.0, told.1[0]), (0, u64::from(end == 12)));
                // Only from the seventeenth round on is anything added that the root doesn't need.
                let unneeded = if pairs > 16 { 0 } else { 512 };
                assert_eq!(told.1[1] as usize, all.len() - unneeded);
            }
        }
    }
}
