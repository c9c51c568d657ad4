//! Writes: the static library against the plain model, and document 01's refusals 10 to 19 at their edges.
//! MODEL_BOOKS says how many books the random test makes, if it is set: for a longer trial by hand.

use model::Stop;
use model::make::{Type, book, chain, int};
use model::random::{Made, Rng, chaos, damage, made, memory};
use model::tapes::{self, Tape};
use std::collections::BTreeSet;
use typebook::{Refusal, TypeBook, calls};

/// A write in the library's shape: the answer, the output and the values.
type Told = (u8, Vec<u8>, Vec<u64>);

/// A call's arguments.
struct Case<'c> {
    book: &'c [u8],
    len: usize,
    width: u8,
    root: u64,
    image: &'c [u8],
    tape: &'c Tape,
    room: usize,
}

impl Case<'_> {
    fn ours(&self, lent: usize) -> Told {
        let (mut out, mut v) = (vec![0xEE; self.room], vec![9; lent]);
        let Tape { records, text } = self.tape;
        let (book, len, width, root) = (self.book, self.len, self.width, self.root);
        let n = calls::write(book, len, width, root, self.image, records, text, &mut out, &mut v);
        (n, out, v)
    }

    fn models(&self, lent: usize) -> Told {
        let (mut out, mut v) = (vec![0x11; self.room], vec![9; lent]);
        if self.room != self.image.len() {
            out.fill(0xEE);
        }
        let Tape { records, text } = self.tape;
        let (book, len, width, root) = (self.book, self.len, self.width, self.root);
        let n = model::calls::write(book, len, width, root, self.image, records, text, &mut out, &mut v);
        (n, out, v)
    }

    /// The form for a checked book, where the book is valid and the root a type.
    fn checked(&self) -> Option<(Result<(), Refusal>, Vec<u8>)> {
        let book = TypeBook::new(&self.book[..self.len.min(self.book.len())], self.width).ok()?;
        let mut out = vec![0xEE; self.room];
        let Tape { records, text } = self.tape;
        let root = book.root(self.root).ok()?;
        Some((root.write_into(self.image, records, text, &mut out), out))
    }

    /// The answer, once the model and the form for a checked book agree with it.
    fn agreed(&self, lent: usize) -> u8 {
        let told = self.ours(lent);
        assert_eq!(told, self.models(lent));
        if let Some((result, out)) = self.checked().filter(|_| self.len <= self.book.len()) {
            assert_eq!(result.map_or_else(|refusal| refusal.number(), |()| 0), told.0);
            assert_eq!(out, told.1);
        }
        told.0
    }
}

#[test]
fn random_tapes_good_and_damaged() {
    let said = std::env::var("MODEL_BOOKS").ok();
    let books = said.map_or(12_000, |n| n.parse().expect("MODEL_BOOKS is a number"));
    let mut answers = BTreeSet::new();
    for seed in 0..books {
        let rng = &mut Rng::new(seed ^ 0x5EED_0000);
        let of = if rng.chance(700) { made(rng) } else { chaos(rng) };
        let image = memory(rng, &of);
        let mut tape = tapes::tape(rng, &of);
        if rng.chance(250) && !tape.records.is_empty() {
            tapes::spoil(rng, &mut tape);
        }
        let Made { mut book, root, width } = of;
        let mut len = book.len();
        if rng.chance(60) {
            len = damage(rng, &mut book);
        }
        let mut root = u64::from(root);
        if rng.chance(40) {
            let blocks = book.len() as u64 / 512;
            root = rng.pick(&[0, 1, blocks, u64::MAX, 1 << 32]);
        }
        let room = match rng.chance(40) {
            true => rng.below(image.len() + 2),
            false => image.len(),
        };
        let (book, image, tape) = (&book[..], &image[..], &tape);
        let case = Case {
            book,
            len,
            width,
            root,
            image,
            tape,
            room,
        };
        answers.insert(case.agreed(rng.below(3)));
    }
    // A shorter trial may not meet all of them.
    let wanted = [0, 1, 2, 3, 4, 5, 7, 8, 10, 13, 16, 17, 18, 19];
    assert!(
        answers.iter().all(|n| wanted.contains(n)) && (books < 12_000 || answers.len() == wanted.len()),
        "{answers:?}"
    );
}

/// A struct with a value of each kind, and a tape with each kind of record.
fn of_each_kind() -> (Vec<u8>, Vec<u8>, Tape) {
    let s = Type::new("S")
        .size(29)
        .field("b", "BIT", 0, 1)
        .field("i", "INT", 1, 2)
        .field("u", "UDINT", 3, 4)
        .field("r", "REAL", 7, 4)
        .field("l", "LREAL", 11, 8)
        .field("t", "STRING", 19, 5)
        .field("e", "E", 24, 1)
        .field("a", "ARR", 25, 4);
    let bytes = book(&[
        s,
        int(),
        Type::new("BIT").id(33).size(1),
        Type::new("UDINT").id(19).size(4),
        Type::new("REAL").id(4).size(4),
        Type::new("LREAL").id(5).size(8),
        Type::new("STRING").id(30).size(5),
        Type::new("E").id(17).size(1).flags(4).entry("p", &[1]).entry("q", &[2]),
        Type::new("ARR").of("INT").size(4).dimensions(&[2]),
    ]);
    let mut tape = Tape::default();
    tape.put(3, 0, 8, 0);
    tape.put(4, 0, 1, 0);
    tape.put(6, 0, 0, 1);
    tape.put(4, 0, 2, 0);
    tape.put(7, 2, 0, -3i64 as u64);
    tape.put(4, 0, 3, 0);
    tape.put(8, 4, 0, 70_000);
    tape.put(4, 0, 4, 0);
    tape.put(9, 0, 0, 0x7FA0_0001);
    tape.put(4, 0, 5, 0);
    tape.put(10, 0, 0, 0xFFF0_0000_0000_0001);
    tape.put(4, 0, 6, 0);
    tape.put_text("a\u{20ac}");
    tape.put(4, 0, 7, 0);
    tape.put(12, 0, 17, 0);
    tape.put(4, 0, 8, 0);
    tape.put(1, 0, 2, 0);
    tape.put(7, 8, 0, 5);
    tape.put(8, 1, 0, 6);
    tape.put(2, 0, 0, 0);
    tape.put(5, 0, 0, 0);
    (bytes, vec![0x77; 29], tape)
}

#[test]
fn every_byte_of_every_record() {
    let (bytes, image, tape) = of_each_kind();
    let (checked, model) = (TypeBook::new(&bytes[..], 8).expect("valid"), model::Book::new(&bytes));
    let root = checked.root(0).expect("a type");
    let mut answers = BTreeSet::new();
    let mut same = |tape: &Tape| {
        let (mut ours, mut theirs) = (vec![1; image.len()], vec![2; image.len()]);
        let Tape { records, text } = tape;
        let told = root.write_into(&image, records, text, &mut ours);
        let models = model::calls::write_in(&model, 8, 0, &image, records, text, &mut theirs);
        let number = told.map_or_else(|refusal| refusal.number(), |()| 0);
        assert_eq!(number, models.map_or_else(number_of, |()| 0));
        assert_eq!(ours, theirs);
        answers.insert(number);
    };
    same(&tape);
    for at in 0..tape.records.len() {
        for new in 0..=255 {
            let mut other = tape.clone();
            other.records[at] = new;
            same(&other);
        }
    }
    for at in (0..=tape.records.len()).chain([usize::MAX]) {
        // Cut off at every byte, and one record more at the end.
        let mut other = tape.clone();
        other.records.truncate(at);
        if at == usize::MAX {
            other.put(13, 0, 0, 0);
        }
        same(&other);
    }
    for at in 0..tape.text.len() {
        for new in 0..=255 {
            let mut other = tape.clone();
            other.text[at] = new;
            same(&other);
        }
    }
    assert_eq!(answers, BTreeSet::from([0, 10, 16, 17, 18, 19]));
}

fn number_of(stop: Stop) -> u8 {
    match stop {
        Stop::Missing(_) => 7,
        Stop::Number(n) => n,
    }
}

/// Types of every category, with the ids that let a value in where it looks out of place.
fn of_every_category() -> Vec<Type> {
    let mut types = Vec::new();
    for (k, &id) in [2, 16, 19, 21, 4, 5, 30, 31, 33, 65, 0].iter().enumerate() {
        for size in [1, 2, 4, 8] {
            let name = |base: &str| format!("{base}{k}_{size}");
            let t = |base: &str| Type::new(&name(base)).id(id).size(size);
            let entry = [1, 2, 3, 4, 5, 6, 7, 8];
            types.extend([
                t("P").flags(1),
                t("R").flags(2),
                t("I").flags(8),
                t("A").of("INT").dimensions(&[size / 2]),
                t("AA").of("INT").dimensions(&[1, size / 2]),
                t("E").flags(4).entry("e", &entry[..size as usize]).entry("f", &[1]),
                t("N(1..2)"),
                t("Z"),
                t("S").field("a", "INT", 0, 2),
                t("U").field("a", "INT", 0, 2).field("b", "INT", 0, 2),
                t("F").field("a", "INT", size.saturating_sub(2).max(1), 2),
                t("L").of("INT"),
                t("TIME"),
            ]);
        }
    }
    types.push(int());
    types
}

#[test]
fn every_kind_into_every_category() {
    let types = of_every_category();
    let bytes = book(&types);
    let (checked, model) = (TypeBook::new(&bytes[..], 8).expect("valid"), model::Book::new(&bytes));
    let field = (0..).find(|&n| model::block::kind(&bytes, n) == 2).expect("a field");
    let entry = (0..).find(|&n| model::block::kind(&bytes, n) == 3).expect("an entry");
    let (mut answers, mut at) = (BTreeSet::new(), 0);
    let of_width = [2, 3, 4, 8].map(|width| checked.clone().with_width(width));
    for t in &types {
        for tape in one_of_each(field, entry) {
            for checked in &of_width {
                let (root, width) = (checked.root(at).expect("a type"), checked.width());
                for len in [1, 2, 3, 4, 8] {
                    let image = vec![0x55; len];
                    let (mut ours, mut theirs) = (vec![1; len], vec![2; len]);
                    let Tape { records, text } = &tape;
                    let told = root.write_into(&image, records, text, &mut ours);
                    let n = root.block();
                    let models = model::calls::write_in(&model, width, n, &image, records, text, &mut theirs);
                    let number = told.map_or_else(|refusal| refusal.number(), |()| 0);
                    assert_eq!(number, models.map_or_else(number_of, |()| 0), "{t:?}");
                    assert_eq!(ours, theirs);
                    answers.insert(number);
                }
            }
        }
        at += u64::from(t.blocks());
    }
    assert_eq!(answers, BTreeSet::from([0, 10, 13, 17, 18, 19]));
}

/// A tape for each kind of value, some with numbers at the ends of ranges.
fn one_of_each(field: u32, entry: u32) -> Vec<Tape> {
    let one = |kind, width, a, b| {
        let mut tape = Tape::default();
        tape.put(kind, width, a, b);
        tape
    };
    let text = |text: &str| {
        let mut tape = Tape::default();
        tape.put_text(text);
        tape
    };
    let mut tapes = vec![one(6, 0, 0, 1), one(9, 0, 0, 0xFFC0_0001), one(10, 0, 0, u64::MAX)];
    tapes.extend([one(12, 0, entry.into(), 0), one(13, 0, 0, 0), text("e"), text("f")]);
    tapes.extend([text(""), text("g\u{416}")]);
    for value in [
        -129,
        -128,
        -1,
        0,
        127,
        128,
        255,
        256,
        32_767,
        32_768,
        65_536,
        i64::MIN,
        i64::MAX,
    ] {
        tapes.push(one(7, 8, 0, value as u64));
        tapes.push(one(8, 8, 0, value as u64));
    }
    for count in 0..3 {
        let (mut flat, mut deep, mut map) = (Tape::default(), Tape::default(), Tape::default());
        flat.put(1, 0, count, 0);
        deep.put(1, 0, 1, 0);
        deep.put(1, 0, count, 0);
        map.put(3, 0, count, 0);
        for i in 0..count {
            flat.put(7, 1, 0, i);
            deep.put(8, 2, 0, i);
            map.put(4, 0, field.into(), 0);
            map.put(7, 4, 0, i);
        }
        flat.put(2, 0, 0, 0);
        deep.put(2, 0, 0, 0);
        deep.put(2, 0, 0, 0);
        map.put(5, 0, 0, 0);
        tapes.extend([flat, deep, map]);
    }
    tapes
}

/// What a write of one made book answers: 0 with the output, or the number.
fn write(types: &[Type], width: u8, image: &[u8], fill: impl Fn(&mut Tape)) -> Result<Vec<u8>, u8> {
    let bytes = book(types);
    let mut tape = Tape::default();
    fill(&mut tape);
    let case = Case {
        book: &bytes,
        len: bytes.len(),
        width,
        root: 0,
        image,
        tape: &tape,
        room: image.len(),
    };
    match case.agreed(1) {
        0 => Ok(case.ours(0).1),
        n => {
            assert_eq!(case.ours(0).1, image);
            Err(n)
        }
    }
}

#[test]
fn sizes_at_their_edge() {
    let text = |id, n: usize, text: &str| {
        let t = Type::new("T").id(id).size(80);
        write(&[t], 8, &vec![7; n], |tape| tape.put_text(text))
    };
    // Document 01: U+0416 fits 8 bytes; 7 is 10.
    assert_eq!(text(30, 8, "\u{416}"), Ok(b"&#1046;\0".to_vec()));
    assert_eq!(text(30, 7, "\u{416}"), Err(10));
    assert_eq!(text(30, 3, "hi"), Ok(b"hi\0".to_vec()));
    assert_eq!(text(30, 2, "hi"), Err(10));
    assert_eq!(text(30, 0, ""), Err(10));
    assert_eq!(text(31, 4, "\u{416}"), Ok(vec![0x16, 4, 0, 0]));
    assert_eq!(text(31, 5, "\u{416}"), Ok(vec![0x16, 4, 0, 0, 0]));
    assert_eq!(text(31, 3, "\u{416}"), Err(10));
    // A field whose end is its struct's end, and one byte further.
    for (size, told) in [(3, Ok(vec![1, 9, 0])), (2, Err(10))] {
        let s = Type::new("S").size(size).field("a", "INT", 1, 2);
        let told_now = write(&[s, int()], 8, &vec![1; size as usize], |tape| {
            tape.put(3, 0, 1, 0);
            tape.put(4, 0, 1, 0);
            tape.put(7, 2, 0, 9);
            tape.put(5, 0, 0, 0);
        });
        assert_eq!(told_now, told);
    }
    // 19 before 10, 13 before both.
    let pointer = |width, value: i64| {
        let t = Type::new("P").size(8).flags(1);
        write(&[t], width, &[0; 9], |tape| tape.put(7, 8, 0, value as u64))
    };
    assert_eq!(
        [pointer(3, -1), pointer(4, -1), pointer(4, 1)],
        [Err(13), Err(19), Err(10)]
    );
    let int_of = |n, value: u64| write(&[int()], 8, &vec![0; n], |tape| tape.put(8, 8, 0, value));
    assert_eq!([int_of(3, 32_768), int_of(3, 32_767)], [Err(19), Err(10)]);
    assert_eq!([int_of(2, 32_767), int_of(2, 32_768)], [Ok(vec![0xFF, 0x7F]), Err(19)]);
}

#[test]
fn counts_and_names_at_their_edge() {
    let array = |values: &[u64]| {
        let types = [
            Type::new("A").of("SINT").size(2).dimensions(&[2]),
            Type::new("SINT").id(16).size(1),
        ];
        write(&types, 8, &[5, 5], |tape| {
            tape.put(1, 0, values.len() as u64, 0);
            values.iter().for_each(|&v| tape.put(8, 8, 0, v));
            tape.put(2, 0, 0, 0);
        })
    };
    assert_eq!(array(&[1, 2]), Ok(vec![1, 2]));
    // The one too many before it is looked at, too few at the end.
    assert_eq!([array(&[200]), array(&[1]), array(&[])], [Err(19), Err(17), Err(17)]);
    assert_eq!([array(&[1, 2, 200]), array(&[1, 200, 3])], [Err(17), Err(19)]);
    // 18 before the value and before the cut.
    let s = Type::new("S").size(2).field("a", "INT", 0, 2);
    let other = Type::new("O").size(2).field("z", "INT", 0, 2).field("a", "INT", 9, 9);
    let key = |block| {
        write(&[s.clone(), other.clone(), int()], 8, &[1, 1], |tape| {
            tape.put(3, 0, 1, 0);
            tape.put(4, 0, block, 0);
            tape.put(7, 2, 0, 6);
            tape.put(5, 0, 0, 0);
        })
    };
    assert_eq!([key(1), key(4), key(3)], [Ok(vec![6, 0]), Ok(vec![6, 0]), Err(18)]);
    assert_eq!([key(0), key(5), key(6)], [Err(16), Err(16), Err(16)]);
}

#[test]
fn aliases_levels_and_lengths_at_their_edge() {
    let one = |types: &[Type], kind| write(types, 8, &[0, 0], |tape| tape.put(kind, 0, 0, 0));
    let number = |types: &[Type]| write(types, 8, &[0, 0], |tape| tape.put(7, 2, 0, 1));
    assert_eq!(number(&[chain(31, "INT"), vec![int()]].concat()), Ok(vec![1, 0]));
    assert_eq!(number(&[chain(32, "INT"), vec![int()]].concat()), Err(8));
    assert_eq!(number(&chain(32, "GONE")), Err(7));
    // Aliases first, also for a bool and a unit.
    assert_eq!(
        [one(&chain(1, "GONE"), 13), one(&chain(1, "GONE"), 6)],
        [Err(7), Err(7)]
    );
    assert_eq!(one(&[int()], 13), Err(17));
    // Arrays in one another: the form ends at level 64.
    let arrays = |n: u64, inner: bool| {
        write(&[int()], 8, &[0, 0], |tape| {
            (1..=n).for_each(|i| tape.put(1, 0, u64::from(i < n || inner), 0));
            if inner {
                tape.put(13, 0, 0, 0);
            }
            (0..n).for_each(|_| tape.put(2, 0, 0, 0));
        })
    };
    assert_eq!(
        [arrays(64, false), arrays(64, true), arrays(65, false), arrays(63, true)],
        [Err(17), Err(16), Err(16), Err(17)]
    );
    // 10 for unequal lengths comes before 16, after 5; such an output stays as it was.
    let (bytes, tape) = (book(&[int()]), Tape::default());
    let told = |root, room| {
        let case = Case {
            book: &bytes,
            len: bytes.len(),
            width: 8,
            root,
            image: &[3, 4],
            tape: &tape,
            room,
        };
        assert_eq!(case.agreed(0), case.ours(0).0);
        (case.ours(0).0, case.ours(0).1)
    };
    assert_eq!(told(0, 3), (10, vec![0xEE; 3]));
    assert_eq!(told(1, 3), (5, vec![0xEE; 3]));
    assert_eq!(told(0, 2), (16, vec![3, 4]));
    assert_eq!(told(1, 2), (5, vec![3, 4]));
}
