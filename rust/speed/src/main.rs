//! Times the static library against the plain model: walks, reads, writes, look-ups, checks, encodings.
//!
//!     cargo run --release --offline -p speed             # all; with the word plan, grow, index or hostile that part alone
//!
//! Medians of rounds in which the two sides take turns; above 1 the port is quicker. Nothing of the gate needs it.

mod grow;
mod hostile;

use model::make::{Type, book};
use model::tapes::Tape;
use speed::{TYPES, head, keep, line, pair, turns};
use typebook::{Scratch, TypeBook, calls};

const WIDTH: u8 = 8;

fn walks() {
    let bytes = speed::reached();
    let book = TypeBook::new(&bytes[..], WIDTH).expect("valid");
    let root = book.root(0).expect("a type");
    let (model, plain) = (model::Book::new(&bytes), model::Book::without_map(&bytes));
    let mut s = Scratch::new();
    let missing = root.missing_types().expect("no refusal");
    assert_eq!((missing.blocks.len(), missing.whole, missing.count), (0, true, TYPES));

    head("walks, 4,096 types of four fields, all reached", "model");
    pair(
        "requires_read_modify_write, checked before; HashMap",
        41,
        || root.requires_read_modify_write_with(&mut s),
        || model::walk::requires_read_modify_write(&model, WIDTH, 0),
    );
    pair(
        "requires_read_modify_write, checked before; each look-up a scan",
        3,
        || root.requires_read_modify_write_with(&mut s),
        || model::walk::requires_read_modify_write(&plain, WIDTH, 0),
    );
    pair(
        "missing_types, checked before; HashMap",
        41,
        || root.missing_types_with(&mut s),
        || model::walk::missing_types(&model, WIDTH, 0),
    );
    pair(
        "missing_types, checked before; each look-up a scan",
        3,
        || root.missing_types_with(&mut s),
        || model::walk::missing_types(&plain, WIDTH, 0),
    );
    whole_walk(&bytes);
}

fn whole_walk(bytes: &[u8]) {
    let (mut scratch, mut list, mut index) = (vec![0; 8_192], vec![0; 4_096], vec![0; calls::INDEX]);
    let (mut others, mut other_list, none) = (scratch.clone(), list.clone(), index.clone());
    let len = bytes.len();
    pair(
        "build_index and missing_types, whole calls",
        9,
        || {
            calls::build_index(bytes, len, &mut index);
            calls::missing_types(bytes, len, &index, WIDTH, 0, &mut scratch, &mut list, &mut [0; 3])
        },
        || model::calls::missing_types(bytes, len, &none, WIDTH, 0, &mut others, &mut other_list, &mut [0; 3]),
    );
}

/// `missing_types` with a lent index of 16,384 numbers against the model that scans the book in order, the checks of the book apart: the
/// calls' own checks are timed in the same turns and taken off. `build`: the index is built anew each time, and its time counts.
fn lent(what: &str, rounds: usize, bytes: &[u8], build: bool) {
    let (len, plain) = (bytes.len(), model::Book::without_map(bytes));
    let (mut scratch, mut list, mut values) = (vec![0; 8_192], vec![0; 4_096], [0; 3]);
    let mut index = vec![u32::MAX; calls::INDEX];
    let mut wanted = None;
    let t = turns(
        rounds,
        &mut [
            &mut || {
                if build {
                    assert_eq!(calls::build_index(bytes, len, &mut index), 0);
                }
                let (s, l) = (&mut scratch, &mut list);
                assert_eq!(calls::missing_types(bytes, len, &index, WIDTH, 0, s, l, &mut values), 0);
            },
            &mut || (0..1 + u32::from(build)).for_each(|_| keep(calls::check_book(bytes, len))),
            &mut || wanted = Some(model::walk::missing_types(&plain, WIDTH, 0)),
        ],
    );
    let wanted = wanted.expect("a round");
    assert_eq!(values[0] as usize, wanted.blocks.len());
    assert_eq!(list[..wanted.blocks.len()], wanted.blocks);
    line(what, t[0].saturating_sub(t[1]), t[2]);
}

fn indexes() {
    head("missing_types, checks apart, building counted in", "scan");
    let (all, lacking) = (speed::reached(), speed::lacking());
    lent("4,096 types of four fields, all reached", 9, &all, true);
    lent("the same, a foreign index", 3, &all, false);
    lent("4,096 fields of lacking names among 4,096 types", 9, &lacking, true);
    lent("the same, a foreign index", 3, &lacking, false);
    lent("4,000 of 20,000 types reached", 9, &speed::among_20_000(), true);
}

/// A plan from our book by the controller's: the whole call, with the checks of both books, against the model's with and without them.
fn plan(what: &str, rounds: usize, ours: &[u8], controller: &[u8]) {
    let (len, theirs) = (ours.len(), controller.len());
    let mut buffer = [ours, &vec![0; theirs]].concat();
    let (mut other, mut third) = (buffer.clone(), buffer.clone());
    let (mine, whole) = (
        TypeBook::new(ours, WIDTH).expect("valid"),
        TypeBook::new(controller, WIDTH).expect("valid"),
    );
    let types = mine.types().count() + whole.types().count();
    let (mut scratch, mut index) = (vec![0; 8_192], vec![0; 8 * types]);
    let (mut scratches, mut indexes, mut values, mut wanted) = (scratch.clone(), index.clone(), [0; 2], [1; 2]);
    let t = turns(
        rounds,
        &mut [
            &mut || {
                let (s, i) = (&mut scratch, &mut index);
                let number = calls::plan_save(&mut buffer, len, controller, theirs, WIDTH, 0, s, i, &mut values);
                assert_eq!(number, 0);
            },
            &mut || {
                let (s, i) = (&mut scratches, &mut indexes);
                model::calls::plan_save(&mut other, len, controller, theirs, WIDTH, 0, s, i, &mut wanted);
            },
            &mut || keep(model::plan::plan(&mut third, len, controller, WIDTH, 0)),
            &mut || keep(mine.plan(&whole, 0)),
        ],
    );
    assert!(buffer == other && buffer == third && values == wanted);
    line(what, t[0], t[1]);
    line("  against the loop without checks of the books", t[0], t[2]);
    line(
        "  TypeBook::plan, which also checks and indexes the new book",
        t[3],
        t[1],
    );
}

fn plans() {
    head("plan_save, whole call; asks by a HashMap, inserts", "model");
    let all = speed::reached();
    plan(
        "from the root alone to 4,096 types of four fields",
        15,
        &all[..5 * 512],
        &all,
    );
    let (ours, all) = speed::known_to_us_alone();
    plan(
        "the same, with 4,096 types of ours that the controller's book lacks",
        15,
        &ours,
        &all,
    );
    let (ours, all) = speed::alternating(2_000);
    plan("types of ours alternate with lacking ones, 2,000 times", 1, &ours, &all);
}

fn reads(what: &str, (bytes, memory): (Vec<u8>, Vec<u8>)) {
    let (book, model) = (
        TypeBook::new(&bytes[..], WIDTH).expect("valid"),
        model::Book::new(&bytes),
    );
    let root = book.root(0).expect("a type");
    let whole = root.read(&memory).expect("read");
    let (mut tape, mut text) = (vec![0; whole.bytes().len()], vec![0; whole.text().len()]);
    let (mut other, mut others) = (tape.clone(), text.clone());

    head(&format!("read, {what}"), "model");
    pair(
        &format!("{} records, checked before", whole.len()),
        41,
        || root.read_into(&memory, &mut tape, &mut text),
        || model::calls::read_in(&model, WIDTH, 0, &memory, &mut other, &mut others),
    );
    assert!(tape == other && text == others);
}

fn writes(what: &str, (bytes, memory): (Vec<u8>, Vec<u8>)) {
    let (book, model) = (
        TypeBook::new(&bytes[..], WIDTH).expect("valid"),
        model::Book::new(&bytes),
    );
    let root = book.root(0).expect("a type");
    let tape = root.read(&memory).expect("read");
    let (records, text) = (tape.bytes(), tape.text());
    let (mut output, mut other) = (memory.clone(), memory.clone());

    head(&format!("write, {what}"), "model");
    pair(
        &format!("{} records, checked before", tape.len()),
        41,
        || root.write_into(&memory, records, text, &mut output),
        || model::calls::write_in(&model, WIDTH, 0, &memory, records, text, &mut other),
    );
    assert!(output == other);
}

/// The form of a tape whose 40,000 records all name one text of a megabyte, which the model tests anew for each. The type takes
/// no array, so that nothing but the form takes time.
fn one_text(what: &str, before: &[u8]) {
    const RECORDS: u64 = 40_000;
    let text = [before, made(&["plain text of a recipe, "]).as_bytes()].concat();
    let mut tape = Tape::default();
    tape.put(1, 0, RECORDS, 0);
    for _ in 0..RECORDS {
        tape.put(11, 0, before.len() as u64, (text.len() - before.len()) as u64);
    }
    tape.put(2, 0, 0, 0);
    let (bytes, records) = (types(1), &tape.records[..]);
    let (book, model) = (
        TypeBook::new(&bytes[..], WIDTH).expect("valid"),
        model::Book::new(&bytes),
    );
    let root = book.root(0).expect("a type");
    let (mut output, mut other) = ([0; 2], [0; 2]);
    let refused = root.write_into(&[0; 2], records, &text, &mut output);
    assert_eq!(refused.expect_err("no array").number(), 17);

    pair(
        what,
        3,
        || root.write_into(&[0; 2], records, &text, &mut output),
        || model::calls::write_in(&model, WIDTH, 0, &[0; 2], records, &text, &mut other),
    );
}

/// The whole call with its checks and its own index, in a book that has more types than the index of a short book has slots.
fn long_read((bytes, memory): (Vec<u8>, Vec<u8>)) {
    let len = bytes.len();
    let (mut tape, mut other) = (vec![0; 24 * 10_002], vec![0; 24 * 10_002]);
    let t = turns(
        5,
        &mut [
            &mut || {
                keep(calls::read(
                    &bytes,
                    len,
                    WIDTH,
                    0,
                    &memory,
                    &mut tape,
                    &mut [],
                    &mut [0; 2],
                ))
            },
            &mut || {
                keep(model::calls::read(
                    &bytes,
                    len,
                    WIDTH,
                    0,
                    &memory,
                    &mut other,
                    &mut [],
                    &mut [0; 2],
                ))
            },
            &mut || keep(calls::check_book(&bytes, len)),
            &mut || keep(model::check::check_book(&bytes, len)),
        ],
    );
    assert!(tape == other);
    head("read, a struct of 5,000 fields among 60,000 types", "model");
    line("whole call", t[0], t[1]);
    line("  of which the check", t[2], t[3]);
}

/// So many types without fields.
fn types(n: usize) -> Vec<u8> {
    let types = (0..n).map(|i| Type::new(&format!("ST_Recipe{i}")).id(2).size(2));
    book(&types.collect::<Vec<_>>())
}

fn checks() {
    head("books", "model");
    for n in [TYPES, 65_536] {
        let bytes = types(n);
        let t = turns(
            9,
            &mut [
                &mut || keep(calls::check_book(&bytes, bytes.len())),
                &mut || keep(model::check::check_book(&bytes, bytes.len())),
                &mut || keep(model::check::sums(&bytes)),
            ],
        );
        line(&format!("check_book, {n} types"), t[0], t[1]);
        line("  against a plain loop over the sums alone", t[0], t[2]);
    }
    let bytes = types(TYPES);
    let mut buffer = [&bytes[..], &[0; 512]].concat();
    let (piece, mut other) = (Type::new("X").bytes(), buffer.clone());
    pair(
        "append to 4,096 types",
        9,
        || calls::append(&mut buffer, bytes.len(), &piece, &mut [0]),
        || model::check::append(&mut other, bytes.len(), &piece),
    );
}

fn look_ups() {
    let bytes = types(TYPES);
    let (book, model) = (
        TypeBook::new(&bytes[..], WIDTH).expect("valid"),
        model::Book::new(&bytes),
    );
    let names: Vec<String> = (0..TYPES).step_by(41).map(|i| format!("ST_Recipe{i}")).collect();
    head("100 look-ups among 4,096 types", "model");
    pair(
        "find by the index; by a HashMap",
        41,
        || names.iter().for_each(|n| keep(book.find(n))),
        || names.iter().for_each(|n| keep(model.find(n.as_bytes()))),
    );
    pair(
        "find by a scan",
        41,
        || names.iter().for_each(|n| keep(calls::find(&bytes, n.as_bytes()))),
        || {
            names
                .iter()
                .for_each(|n| keep(model::calls::find(&bytes, n.as_bytes())))
        },
    );
}

/// A text of about a megabyte.
fn made(pieces: &[&str]) -> String {
    let size = pieces.iter().map(|p| p.len()).sum::<usize>() / pieces.len();
    pieces.iter().copied().cycle().take((1 << 20) / size).collect()
}

fn texts(what: &str, text: &str) {
    let (narrow, wide) = (model::text::windows_1252_encode(text), model::text::utf_16_encode(text));
    let mut out = vec![0; 4 * text.len() + 64];
    let mut other = out.clone();
    let bytes = text.as_bytes();
    pair(
        &format!("windows_1252_decode, {what}"),
        15,
        || calls::windows_1252_decode(&narrow, &mut out, 0),
        || model::calls::windows_1252_decode(&narrow, &mut other, 0),
    );
    pair(
        &format!("windows_1252_encode, {what}"),
        15,
        || calls::windows_1252_encode(bytes, &mut out),
        || model::calls::windows_1252_encode(bytes, &mut other),
    );
    pair(
        &format!("utf_16_decode, {what}"),
        15,
        || calls::utf_16_decode(&wide, &mut out, 0),
        || model::calls::utf_16_decode(&wide, &mut other, 0),
    );
    pair(
        &format!("utf_16_encode, {what}"),
        15,
        || calls::utf_16_encode(bytes, &mut out),
        || model::calls::utf_16_encode(bytes, &mut other),
    );
    assert!(out == other);
}

fn main() {
    match std::env::args().nth(1).as_deref() {
        Some("plan") => return plans(),
        Some("index") => return indexes(),
        Some("hostile") => return hostile::names(),
        Some("grow") => {
            grow::growing();
            return grow::one_type();
        }
        _ => {}
    }
    walks();
    indexes();
    plans();
    grow::growing();
    grow::one_type();
    reads("a struct of 200 fields among 4,096 types", speed::struct_of_200());
    reads("an array of 10,000 structs of 6 fields", speed::array_of_10_000());
    long_read(speed::struct_among_60_000());
    writes("a struct of 200 fields among 4,096 types", speed::struct_of_200());
    writes("an array of 10,000 structs of 6 fields", speed::array_of_10_000());
    writes("an array of 999,998 INTs", speed::array_of_ints(999_998));
    head("the form of a tape, 40,000 records that name one text of 1 MB", "model");
    one_text("the text buffer is that text", b"");
    one_text("a byte that is no UTF-8 stands before it", b"\xff");
    checks();
    look_ups();
    hostile::names();
    head("texts of about 1 MB", "model");
    texts("ASCII", &made(&["plain text of a recipe, ", "0123456789 "]));
    texts("Latin", &made(&["Gr\u{f6}\u{df}e 12 \u{20ac} ", "plain "]));
    texts("Cyrillic", &made(&["\u{416}\u{437}\u{430}", "\u{431} "]));
}
