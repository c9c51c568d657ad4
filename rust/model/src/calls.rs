//! The calls in the library's shape: any bytes, lent buffers, an answer by number and values.

use crate::check::{LACKING, Root};
use crate::index::{INDEX, built};
use crate::read::{Reader, Sink};
use crate::resolve::{fields_within, resolve};
use crate::walk::Missing;
use crate::write::{Writer, well_formed};
use crate::{Book, Stop, block, category, check, plan, text, walk};

const SCRATCH: usize = 8_192;
const LIST: usize = 4_096;

/// Lays values over the first of the lent ones, as many as fit.
fn lay(values: &mut [u64], new: &[u64]) -> u8 {
    values.iter_mut().zip(new).for_each(|(old, &new)| *old = new);
    0
}

fn stopped(stop: Stop, values: &mut [u64]) -> u8 {
    match stop {
        Stop::Number(n) => n,
        Stop::Missing(by) => {
            lay(values, &[u64::from(by)]);
            7
        }
    }
}

/// Writes a text at a place, all of it or nothing.
fn put(text: &[u8], out: &mut [u8], at: usize) -> Option<usize> {
    if text.is_empty() {
        return Some(at);
    }
    let end = at.checked_add(text.len())?;
    out.get_mut(at..end)?.copy_from_slice(text);
    Some(end)
}

/// As the library's `windows_1252_decode`.
pub fn windows_1252_decode(bytes: &[u8], out: &mut [u8], at: usize) -> Option<usize> {
    put(text::windows_1252_decode(bytes).as_bytes(), out, at)
}

/// As the library's `windows_1252_encode`.
pub fn windows_1252_encode(bytes: &[u8], out: &mut [u8]) -> Option<usize> {
    put(&text::windows_1252_encode(&String::from_utf8_lossy(bytes)), out, 0)
}

/// As the library's `utf_16_decode`.
pub fn utf_16_decode(bytes: &[u8], out: &mut [u8], at: usize) -> Option<usize> {
    put(text::utf_16_decode(bytes).as_bytes(), out, at)
}

/// As the library's `utf_16_encode`.
pub fn utf_16_encode(bytes: &[u8], out: &mut [u8]) -> Option<usize> {
    put(&text::utf_16_encode(&String::from_utf8_lossy(bytes)), out, 0)
}

/// As the library's `utf_8_decode`.
pub fn utf_8_decode(bytes: &[u8], out: &mut [u8], at: usize) -> Option<usize> {
    put(text::utf_8_decode(bytes).as_bytes(), out, at)
}

/// As the library's `find`: a linear search.
pub fn find(book: &[u8], name: &[u8]) -> Option<u32> {
    (0..block::count(book)).find(|&n| block::kind(book, n) == 1 && block::name(book, n) == name)
}

/// As the library's `determine`.
pub fn determine(book: &[u8], width: u8, n: u32, values: &mut [u64]) -> u8 {
    lay(values, &[category::determine(book, width, n) as u64])
}

/// As the library's `append`.
pub fn append(buffer: &mut [u8], len: usize, piece: &[u8], values: &mut [u64]) -> u8 {
    match check::append(buffer, len, piece) {
        Ok(new) => lay(values, &[new as u64]),
        Err(number) => number,
    }
}

/// As the library's `resolve_alias` and, with `references`, its `resolve_indirection`.
pub fn resolved(buffer: &[u8], len: usize, width: u8, root: impl Root, references: bool, values: &mut [u64]) -> u8 {
    let root = match check::check_root(buffer, len, root) {
        Ok(root) => root,
        Err(stop) => return stopped(stop, values),
    };
    match resolve(&Book::new(&buffer[..len]), width, root, references) {
        Ok(block) => lay(values, &[u64::from(block)]),
        Err(stop) => stopped(stop, values),
    }
}

/// As the library's `resolve_fields`.
pub fn resolve_fields(
    buffer: &[u8],
    len: usize,
    width: u8,
    root: impl Root,
    records: &mut [u32],
    values: &mut [u64],
) -> u8 {
    let root = match check::check_root(buffer, len, root) {
        Ok(root) => root,
        Err(stop) => return stopped(stop, values),
    };
    match fields_within(&Book::new(&buffer[..len]), width, root, records.len() / 4) {
        Ok(fields) => {
            for (record, f) in records.chunks_exact_mut(4).zip(&fields) {
                record.copy_from_slice(&[f.offset, f.size, f.resolved, f.field]);
            }
            lay(values, &[fields.len() as u64])
        }
        Err(stop) => stopped(stop, values),
    }
}

/// As the library's `build_index`.
pub fn build_index(buffer: &[u8], len: usize, index: &mut [u32]) -> u8 {
    match check::check_book(buffer, len) {
        0 if index.len() < INDEX => 6,
        0 => {
            index.copy_from_slice(&built(&buffer[..len], index.len()));
            0
        }
        number => number,
    }
}

/// As the library's `requires_read_modify_write`.
pub fn requires_read_modify_write(
    buffer: &[u8],
    len: usize,
    index: &[u32],
    width: u8,
    root: impl Root,
    scratch: &mut [u32],
    values: &mut [u64],
) -> u8 {
    let root = check::check_root(buffer, len, root);
    if let Err(Stop::Number(number)) = root {
        return number;
    }
    if index.len() < INDEX || scratch.len() < SCRATCH {
        return 6;
    }
    scratch.fill(0);
    match root.and_then(|root| walk::requires_read_modify_write(&Book::new(&buffer[..len]), width, root)) {
        Ok(yes) => lay(values, &[u64::from(yes)]),
        Err(stop) => stopped(stop, values),
    }
}

/// As the library's `missing_types`.
#[allow(clippy::too_many_arguments)]
pub fn missing_types(
    buffer: &[u8],
    len: usize,
    index: &[u32],
    width: u8,
    root: impl Root,
    scratch: &mut [u32],
    list: &mut [u32],
    values: &mut [u64],
) -> u8 {
    let root = check::check_root(buffer, len, root);
    if let Err(Stop::Number(number)) = root {
        return number;
    }
    if index.len() < INDEX || scratch.len() < SCRATCH || list.len() < LIST {
        return 6;
    }
    scratch.fill(0);
    let missing = match root {
        Ok(root) => walk::missing_types(&Book::new(&buffer[..len]), width, root),
        // The root's own name is the one that is missing.
        Err(_) => Missing {
            blocks: vec![LACKING],
            whole: true,
            count: 1,
        },
    };
    list[..missing.blocks.len()].copy_from_slice(&missing.blocks);
    lay(
        values,
        &[
            missing.blocks.len() as u64,
            u64::from(missing.whole),
            missing.count as u64,
        ],
    )
}

/// As the library's `plan_save`.
#[allow(clippy::too_many_arguments)]
pub fn plan_save(
    buffer: &mut [u8],
    len: usize,
    controller: &[u8],
    theirs: usize,
    width: u8,
    root: impl Root,
    scratch: &mut [u32],
    index: &mut [u32],
    values: &mut [u64],
) -> u8 {
    let found = check::check_root(buffer, len, root);
    let refused = match (found, check::check_book(controller, theirs)) {
        (Err(Stop::Number(number)), _) => number,
        (_, 0) if scratch.len() < SCRATCH => 6,
        (_, number) => number,
    };
    if refused != 0 {
        lay(values, &[len as u64]);
        return refused;
    }
    let (answer, len) = plan::plan(buffer, len, &controller[..theirs], width, root);
    scratch.fill(0);
    index.fill(0);
    match answer {
        Ok(yes) => lay(values, &[u64::from(yes), len as u64]),
        Err(Stop::Missing(by)) => {
            lay(values, &[u64::from(by), len as u64]);
            7
        }
        Err(Stop::Number(number)) => {
            lay(values, &[len as u64]);
            number
        }
    }
}

/// As the library's `read`.
#[allow(clippy::too_many_arguments)]
pub fn read(
    buffer: &[u8],
    len: usize,
    width: u8,
    root: impl Root,
    memory: &[u8],
    tape: &mut [u8],
    text: &mut [u8],
    values: &mut [u64],
) -> u8 {
    let answer = match check::check_root(buffer, len, root) {
        Ok(root) => read_in(&Book::new(&buffer[..len]), width, root, memory, tape, text),
        Err(stop) => Err(stop),
    };
    match answer {
        Ok((records, texts)) => lay(values, &[records as u64, texts as u64]),
        Err(stop) => {
            tape.fill(0);
            text.fill(0);
            stopped(stop, values)
        }
    }
}

/// A read of a checked book: the records on the tape and the bytes of text.
pub fn read_in(
    book: &Book,
    width: u8,
    root: u32,
    memory: &[u8],
    tape: &mut [u8],
    text: &mut [u8],
) -> Result<(usize, usize), Stop> {
    let mut reader = Reader {
        book,
        width,
        sink: Sink::new(tape, text),
    };
    reader.root(root, memory)?;
    Ok((reader.sink.filled / 24, reader.sink.texts))
}

/// As the library's `write`.
#[allow(clippy::too_many_arguments)]
pub fn write(
    buffer: &[u8],
    len: usize,
    width: u8,
    root: impl Root,
    image: &[u8],
    tape: &[u8],
    text: &[u8],
    output: &mut [u8],
    values: &mut [u64],
) -> u8 {
    let answer = match check::check_root(buffer, len, root) {
        Ok(root) => write_in(&Book::new(&buffer[..len]), width, root, image, tape, text, output),
        Err(Stop::Missing(by)) => {
            restore(image, output);
            ready(&buffer[..len], image, tape, text, output).and(Err(Stop::Missing(by)))
        }
        Err(stop) => {
            restore(image, output);
            Err(stop)
        }
    };
    answer.map_or_else(|stop| stopped(stop, values), |()| 0)
}

/// After a refusal an output as long as the image equals the image.
fn restore(image: &[u8], output: &mut [u8]) {
    if output.len() == image.len() {
        output.copy_from_slice(image);
    }
}

/// What is asked before the walk of a write: 10 for unequal lengths, then 16.
fn ready(book: &[u8], image: &[u8], tape: &[u8], text: &[u8], output: &[u8]) -> Result<(), Stop> {
    if output.len() != image.len() {
        return Err(Stop::Number(10));
    }
    match well_formed(book, tape, text) {
        true => Ok(()),
        false => Err(Stop::Number(16)),
    }
}

/// A write of a checked book.
pub fn write_in(
    book: &Book,
    width: u8,
    root: u32,
    image: &[u8],
    tape: &[u8],
    text: &[u8],
    output: &mut [u8],
) -> Result<(), Stop> {
    restore(image, output);
    ready(book.bytes, image, tape, text, output)?;
    let written = Writer::new(book, width, tape, text).root(root, output);
    if written.is_err() {
        restore(image, output);
    }
    written
}
