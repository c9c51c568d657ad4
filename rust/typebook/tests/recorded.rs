//! The recorded answers of crates/vectors/data, over the boundary: every operation that has an export, those on a root that is a type
//! also with the root given by its name. tools/case_file.py has the format, docs/DIFFERENCES.md says where each answer comes from.

mod groups;

use std::collections::BTreeMap;
use std::path::Path;
use typebook::calls;

const FILL: u8 = 0xA5;

/// Takes parts off the front of bytes.
#[derive(Clone, Copy)]
struct Parts<'a>(&'a [u8]);

impl<'a> Parts<'a> {
    fn bytes(&mut self, n: usize) -> &'a [u8] {
        let (part, rest) = self.0.split_at(n);
        self.0 = rest;
        part
    }

    fn number(&mut self, n: usize) -> u64 {
        self.bytes(n).iter().rev().fold(0, |sum, &b| sum << 8 | u64::from(b))
    }

    fn u8(&mut self) -> u8 {
        self.number(1) as u8
    }

    fn sized(&mut self) -> &'a [u8] {
        let n = self.number(2) as usize;
        self.bytes(n)
    }
}

/// Takes bytes off the packed ones until there are `n`: each pair of 0 and a count stands for so many zeros.
fn unpacked(parts: &mut Parts, n: usize) -> Vec<u8> {
    let mut out = Vec::new();
    while out.len() < n {
        match parts.u8() {
            0 => out.resize(out.len() + usize::from(parts.u8()), 0),
            byte => out.push(byte),
        }
    }
    out
}

/// A root as a call takes it.
#[derive(Clone, Copy)]
enum Root<'a> {
    Block(u64),
    Name(&'a [u8]),
}

/// The name of a root that is a type block.
fn name_of(book: &[u8], root: u64) -> Option<&[u8]> {
    let block = book.chunks_exact(512).nth(root as usize)?;
    (block[0] == 1).then(|| &block[54..][..usize::from(block[52])])
}

/// A buffer that is kept from case to case, and the length of the book in it.
struct Kept {
    buffer: Vec<u8>,
    len: usize,
}

impl Kept {
    fn new() -> Self {
        // As large as a book may be.
        Self {
            buffer: vec![0; 65_536 * 512],
            len: 0,
        }
    }

    fn book(&self) -> &[u8] {
        &self.buffer[..self.len]
    }

    /// Puts packed blocks to a place, where the book then ends; two zeros stand for the rest of a block and its sum.
    fn unpack(&mut self, place: usize, mut parts: Parts) {
        self.len = place;
        while !parts.0.is_empty() {
            match parts.u8() {
                0 => match parts.u8() {
                    0 => self.finish_block(),
                    zeros => self.extend(&[0; 255][..usize::from(zeros)]),
                },
                byte => self.extend(&[byte]),
            }
        }
    }

    fn extend(&mut self, bytes: &[u8]) {
        self.buffer[self.len..self.len + bytes.len()].copy_from_slice(bytes);
        self.len += bytes.len();
    }

    fn finish_block(&mut self) {
        let start = self.len / 512 * 512;
        self.buffer[self.len..start + 512].fill(0);
        model::make::mend(&mut self.buffer[start..start + 512]);
        self.len = start + 512;
    }
}

fn u32s(numbers: &[u32]) -> Vec<u8> {
    numbers.iter().flat_map(|n| n.to_le_bytes()).collect()
}

/// A refusal's number, for 7 with its block.
fn refusal(number: u8, block: u64) -> Vec<u8> {
    match number {
        7 => [vec![7], u32s(&[block as u32])].concat(),
        n => vec![n],
    }
}

/// 0, the next place and the lent buffer, or 15 and the buffer.
fn put(place: Option<usize>, lent: &[u8]) -> Vec<u8> {
    match place {
        Some(place) => [&[0], &(place as u64).to_le_bytes()[..], lent].concat(),
        None => [&[15], lent].concat(),
    }
}

/// What the library answers to an operation; none for one that it doesn't export.
fn answer(operation: u8, given: &[u8], lent: usize, kept: &mut Kept) -> Option<Vec<u8>> {
    let mut parts = Parts(given);
    let mut out = vec![FILL; lent];
    Some(match operation {
        5 | 10 => {
            let at = parts.number(2) as usize;
            let decode = if operation == 5 {
                calls::windows_1252_decode
            } else {
                calls::utf_16_decode
            };
            let place = decode(parts.0, &mut out, at);
            put(place, &out)
        }
        7 | 12 => {
            let encode = if operation == 7 {
                calls::windows_1252_encode
            } else {
                calls::utf_16_encode
            };
            let place = encode(given, &mut out);
            put(place, &out)
        }
        13 => vec![u8::from(calls::utf_8_well_formed(given))],
        17..=22 => group(operation, parts, kept.book()),
        64 => {
            let place = parts.number(4) as usize;
            kept.unpack(place, parts);
            u32s(&[kept.len as u32])
        }
        65 => vec![root_check(kept.book(), parts.number(8))],
        66 => vec![changed(
            kept.book(),
            parts.number(4) as usize,
            parts.u8(),
            parts.u8() == 1,
        )],
        67 => vec![category(parts.u8(), parts.number(4) as u32, kept.book())],
        68..=74 => both_ways(operation, parts, kept.book(), &mut out),
        _ => return None,
    })
}

/// The sum of a group's texts: of the decoder, which the model's has to equal, or of the reader.
fn group(operation: u8, mut parts: Parts, book: &[u8]) -> Vec<u8> {
    let inputs = match operation {
        17 | 20 => groups::pairs(parts.u8()),
        18 | 21 => groups::leads(parts.u8()),
        _ => groups::random(parts.number(8)),
    };
    let decoded = |input: &Vec<u8>| {
        let text = typebook::text::from_utf_8(input);
        assert_eq!(text, model::text::utf_8_decode(input), "{input:x?}");
        text.into_bytes()
    };
    let total = match operation {
        17..=19 => groups::sum(inputs.iter().map(decoded)),
        _ => groups::sum(inputs.into_iter().map(|input| marked(input, book))),
    };
    total.to_le_bytes().to_vec()
}

/// The text of block 0, a STRING of 40 bytes.
fn marked(mut memory: Vec<u8>, book: &[u8]) -> Vec<u8> {
    memory.resize(40, 0);
    let (mut tape, mut text, mut v) = ([0; 24], vec![0; 120], [0; 2]);
    let n = calls::read(book, book.len(), 8, 0, &memory, &mut tape, &mut text, &mut v);
    assert_eq!(n, 0, "{memory:x?}");
    text.truncate(v[1] as usize);
    text
}

/// 1 to 5 stand before any other refusal of a call on a root.
fn root_check(book: &[u8], root: u64) -> u8 {
    match calls::resolve_alias(book, book.len(), 8, root, &mut []) {
        number @ 1..=5 => number,
        _ => 0,
    }
}

fn changed(book: &[u8], place: usize, value: u8, mended: bool) -> u8 {
    let mut book = book.to_vec();
    book[place] = value;
    if mended {
        let at = place / 512 * 512;
        model::make::mend(&mut book[at..at + 512]);
    }
    calls::check_book(&book, book.len())
}

fn category(width: u8, block: u32, book: &[u8]) -> u8 {
    let mut v = [0];
    calls::determine(book, width, block, &mut v);
    v[0] as u8
}

/// What a call on a root answers; by the root's name, where it has one, it has to answer the same.
fn both_ways(operation: u8, mut parts: Parts, book: &[u8], out: &mut [u8]) -> Vec<u8> {
    let (width, root) = (parts.u8(), parts.number(4));
    if let Some(name) = name_of(book, root) {
        let named = on_root(operation, width, Root::Name(name), parts, book, out);
        out.fill(FILL);
        let told = on_root(operation, width, Root::Block(root), parts, book, out);
        assert!(
            named == told,
            "operation {operation}, {name:?}: {named:02X?}, not {told:02X?}"
        );
        return told;
    }
    on_root(operation, width, Root::Block(root), parts, book, out)
}

fn on_root(operation: u8, width: u8, root: Root, parts: Parts, book: &[u8], out: &mut [u8]) -> Vec<u8> {
    match operation {
        68 | 69 => resolved(operation, width, root, book),
        70 => rmw(width, root, parts, book),
        71 => missing(width, root, parts, book),
        72 => fields(width, root, parts, book),
        73 => read(width, root, parts, book),
        _ => write(width, root, parts, book, out),
    }
}

fn resolved(operation: u8, width: u8, root: Root, book: &[u8]) -> Vec<u8> {
    let (len, mut v) = (book.len(), [0; 2]);
    let n = match (operation, root) {
        (68, Root::Block(root)) => calls::resolve_alias(book, len, width, root, &mut v),
        (68, Root::Name(name)) => calls::resolve_alias_named(book, len, width, name, &mut v),
        (_, Root::Block(root)) => calls::resolve_indirection(book, len, width, root, &mut v),
        (_, Root::Name(name)) => calls::resolve_indirection_named(book, len, width, name, &mut v),
    };
    match n {
        0 => [vec![0], u32s(&[v[0] as u32])].concat(),
        n => refusal(n, v[0]),
    }
}

/// Lent numbers, as many as the case says.
fn lent(parts: &mut Parts) -> Vec<u32> {
    vec![0xA5A5_A5A5; parts.number(2) as usize]
}

/// 1 if the numbers from a place on are as before.
fn kept(numbers: &[u32], from: usize) -> u8 {
    u8::from(numbers[from..].iter().all(|&n| n == 0xA5A5_A5A5))
}

/// 1 if the scratch is untouched after 1 to 6, and else zero.
fn scratch_kept(answer: u8, scratch: &[u32]) -> u8 {
    match answer {
        1..=6 => kept(scratch, 0),
        _ => u8::from(scratch.iter().all(|&n| n == 0)),
    }
}

fn rmw(width: u8, root: Root, mut parts: Parts, book: &[u8]) -> Vec<u8> {
    let (mut scratch, mut v) = (lent(&mut parts), [0]);
    let index = vec![u32::MAX; calls::INDEX];
    let (len, lent) = (book.len(), &mut scratch[..]);
    let n = match root {
        Root::Block(root) => calls::requires_read_modify_write(book, len, &index, width, root, lent, &mut v),
        Root::Name(name) => calls::requires_read_modify_write_named(book, len, &index, width, name, lent, &mut v),
    };
    let told = if n == 0 { vec![0, v[0] as u8] } else { refusal(n, v[0]) };
    [told, vec![scratch_kept(n, &scratch)]].concat()
}

fn missing(width: u8, root: Root, mut parts: Parts, book: &[u8]) -> Vec<u8> {
    let (mut scratch, mut list, mut v) = (lent(&mut parts), lent(&mut parts), [0; 3]);
    let mut index = vec![0; calls::INDEX];
    calls::build_index(book, book.len(), &mut index);
    let (len, lent, room) = (book.len(), &mut scratch[..], &mut list[..]);
    let n = match root {
        Root::Block(root) => calls::missing_types(book, len, &index, width, root, lent, room, &mut v),
        Root::Name(name) => calls::missing_types_named(book, len, &index, width, name, lent, room, &mut v),
    };
    let listed = v[0] as usize;
    let told = match n {
        0 => [vec![0, v[1] as u8], u32s(&[v[2] as u32]), u32s(&list[..listed])].concat(),
        n => refusal(n, v[0]),
    };
    [told, vec![kept(&list, listed), scratch_kept(n, &scratch)]].concat()
}

fn fields(width: u8, root: Root, mut parts: Parts, book: &[u8]) -> Vec<u8> {
    let (mut records, mut v) = (lent(&mut parts), [0]);
    let n = match root {
        Root::Block(root) => calls::resolve_fields(book, book.len(), width, root, &mut records, &mut v),
        Root::Name(name) => calls::resolve_fields_named(book, book.len(), width, name, &mut records, &mut v),
    };
    match n {
        0 => {
            let (filled, rest) = records.split_at(4 * v[0] as usize);
            [vec![0], u32s(filled), vec![kept(rest, 0)]].concat()
        }
        n => [refusal(n, v[0]), vec![kept(&records, 0)]].concat(),
    }
}

/// 0, records, text bytes, the records, kept (tape), the text, kept (text), nothing packed; or a refusal and both.
fn read(width: u8, root: Root, mut parts: Parts, book: &[u8]) -> Vec<u8> {
    let mut tape = vec![FILL; parts.number(2) as usize];
    let mut text = vec![FILL; parts.number(2) as usize];
    let mut v = [0; 2];
    let n = match root {
        Root::Block(root) => calls::read(book, book.len(), width, root, parts.0, &mut tape, &mut text, &mut v),
        Root::Name(name) => calls::read_named(book, book.len(), width, name, parts.0, &mut tape, &mut text, &mut v),
    };
    let all = |bytes: &[u8], value| u8::from(bytes.iter().all(|&b| b == value));
    if n != 0 {
        return [refusal(n, v[0]), vec![all(&tape, 0), all(&text, 0)]].concat();
    }
    let (filled, tape_rest) = tape.split_at(24 * v[0] as usize);
    let (texts, text_rest) = text.split_at(v[1] as usize);
    let head = [vec![0], u32s(&[v[0] as u32, v[1] as u32])].concat();
    [
        &head[..],
        filled,
        &[all(tape_rest, FILL)],
        texts,
        &[all(text_rest, FILL)],
    ]
    .concat()
}

/// 0 or a refusal, and the output.
fn write(width: u8, root: Root, mut parts: Parts, book: &[u8], out: &mut [u8]) -> Vec<u8> {
    let (image, text) = (parts.number(2) as usize, parts.number(2) as usize);
    let (image, text) = (parts.bytes(image), parts.bytes(text));
    let mut tape = Vec::new();
    while !parts.0.is_empty() {
        tape.extend(unpacked(&mut parts, 1));
    }
    let mut v = [0];
    let n = match root {
        Root::Block(root) => calls::write(book, book.len(), width, root, image, &tape, text, out, &mut v),
        Root::Name(name) => calls::write_named(book, book.len(), width, name, image, &tape, text, out, &mut v),
    };
    [refusal(n, v[0]), out.to_vec()].concat()
}

/// A recorded read with its tape and text unpacked.
fn recorded(operation: u8, told: &[u8]) -> Vec<u8> {
    if operation != 73 || told[0] != 0 {
        return told.to_vec();
    }
    let mut parts = Parts(&told[1..]);
    let (records, texts) = (parts.number(4) as usize, parts.number(4) as usize);
    let tape = unpacked(&mut parts, 24 * records);
    let tape_kept = parts.u8();
    let text = unpacked(&mut parts, texts);
    [&told[..9], &tape, &[tape_kept], &text, parts.0].concat()
}

#[test]
fn recorded_answers() {
    let folder = Path::new(env!("CARGO_MANIFEST_DIR")).join("../../crates/vectors/data");
    let mut replayed = BTreeMap::new();
    for entry in std::fs::read_dir(&folder).expect("the recorded cases") {
        let path = entry.expect("an entry").path();
        let file = std::fs::read(&path).expect("a file");
        let mut pages = Parts(&file);
        let mut kept = Kept::new();
        while !pages.0.is_empty() {
            let length = pages.number(4) as usize;
            let mut page = Parts(pages.bytes(length));
            while !page.0.is_empty() {
                let (operation, lent) = (page.u8(), page.number(2) as usize);
                let (given, told) = (page.sized(), page.sized());
                if let Some(answer) = answer(operation, given, lent, &mut kept) {
                    assert!(
                        answer == recorded(operation, told),
                        "{path:?}: operation {operation} on {given:02X?}: {answer:02X?}, not {told:02X?}"
                    );
                    *replayed.entry(operation).or_insert(0usize) += 1;
                }
            }
        }
    }
    println!("replayed by operation: {replayed:?}");
    for operation in [
        5, 7, 10, 12, 13, 17, 18, 19, 20, 21, 22, 64, 65, 66, 67, 68, 69, 70, 71, 72, 73, 74,
    ] {
        assert!(
            replayed.contains_key(&operation),
            "no recorded case of operation {operation}"
        );
    }
}
