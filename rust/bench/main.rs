//! Times the port's encodings against encoding_rs and the Rust that the port replaces, on texts of about a megabyte, and the
//! checks and look-ups of a type book (book.rs).
//!
//! Each line has the median of the rounds, in megabytes of input a second, of both, and the port's speed as a part of the
//! Rust's (1.00: equal, above: faster). Both write into a buffer that is there before; the two take turns. The encodings are
//! timed by what they take of the processor, so that a round is not longer because another program was let in between.

mod book;

use encoding_rs::{CoderResult, Encoding, UTF_8, UTF_16LE, WINDOWS_1252};
use std::hint::black_box;

const ROUNDS: usize = 31;
const SIZE: usize = 1 << 20;

// The exports of the crate gateway: the place after what was written, or u64::MAX where it does not fit.
unsafe extern "C" {
    fn gateway_windows_1252_decode(bytes: *const u8, len: usize, out: *mut u8, out_len: usize, at: usize) -> u64;
    fn gateway_windows_1252_encode(text: *const u8, len: usize, out: *mut u8, out_len: usize) -> u64;
    fn gateway_utf_16_decode(bytes: *const u8, len: usize, out: *mut u8, out_len: usize, at: usize) -> u64;
    fn gateway_utf_16_encode(text: *const u8, len: usize, out: *mut u8, out_len: usize) -> u64;
    fn gateway_utf_8_decode(bytes: *const u8, len: usize, out: *mut u8, out_len: usize, at: usize) -> u64;
    fn gateway_utf_8_well_formed(text: *const u8, len: usize) -> u8;
}

type Call = fn(&[u8], &mut [u8]) -> usize;

fn port_windows_1252_decode(bytes: &[u8], out: &mut [u8]) -> usize {
    // The slices are lent for the call alone, as their lengths say.
    unsafe { gateway_windows_1252_decode(bytes.as_ptr(), bytes.len(), out.as_mut_ptr(), out.len(), 0) as usize }
}

fn port_windows_1252_encode(text: &[u8], out: &mut [u8]) -> usize {
    unsafe { gateway_windows_1252_encode(text.as_ptr(), text.len(), out.as_mut_ptr(), out.len()) as usize }
}

fn port_utf_16_decode(bytes: &[u8], out: &mut [u8]) -> usize {
    unsafe { gateway_utf_16_decode(bytes.as_ptr(), bytes.len(), out.as_mut_ptr(), out.len(), 0) as usize }
}

fn port_utf_16_encode(text: &[u8], out: &mut [u8]) -> usize {
    unsafe { gateway_utf_16_encode(text.as_ptr(), text.len(), out.as_mut_ptr(), out.len()) as usize }
}

fn port_utf_8_decode(bytes: &[u8], out: &mut [u8]) -> usize {
    unsafe { gateway_utf_8_decode(bytes.as_ptr(), bytes.len(), out.as_mut_ptr(), out.len(), 0) as usize }
}

fn port_utf_8_well_formed(text: &[u8], _: &mut [u8]) -> usize {
    unsafe { gateway_utf_8_well_formed(text.as_ptr(), text.len()) as usize }
}

fn decoded(encoding: &'static Encoding, bytes: &[u8], out: &mut [u8]) -> usize {
    let mut decoder = encoding.new_decoder_without_bom_handling();
    let (result, _, written, _) = decoder.decode_to_utf8(bytes, out, true);
    assert!(result == CoderResult::InputEmpty);
    written
}

fn rust_windows_1252_decode(bytes: &[u8], out: &mut [u8]) -> usize {
    decoded(WINDOWS_1252, bytes, out)
}

fn rust_utf_16_decode(bytes: &[u8], out: &mut [u8]) -> usize {
    decoded(UTF_16LE, bytes, out)
}

fn rust_utf_8_decode(bytes: &[u8], out: &mut [u8]) -> usize {
    decoded(UTF_8, bytes, out)
}

fn rust_windows_1252_encode(text: &[u8], out: &mut [u8]) -> usize {
    let text = std::str::from_utf8(text).expect("UTF-8");
    let (result, _, written, _) = WINDOWS_1252.new_encoder().encode_from_utf8(text, out, true);
    assert!(result == CoderResult::InputEmpty);
    written
}

// As write_wstring of the Rust: the length first, then unit by unit.
fn rust_utf_16_encode(text: &[u8], out: &mut [u8]) -> usize {
    let encoded = std::str::from_utf8(text).expect("UTF-8").encode_utf16();
    assert!(encoded.clone().count() * 2 <= out.len());
    let mut at = 0;
    for unit in encoded {
        out[at..at + 2].copy_from_slice(&unit.to_le_bytes());
        at += 2;
    }
    at
}

fn rust_utf_8_well_formed(text: &[u8], _: &mut [u8]) -> usize {
    (Encoding::utf8_valid_up_to(text) == text.len()) as usize
}

/// Bytes of about `size` made of pieces drawn by a fixed sequence.
fn made_bytes(pieces: &[&[u8]], size: usize) -> Vec<u8> {
    let (mut out, mut state) = (Vec::new(), 1u32);
    while out.len() < size {
        state = state.wrapping_mul(1_664_525).wrapping_add(1_013_904_223);
        out.extend_from_slice(pieces[(state >> 16) as usize % pieces.len()]);
    }
    out
}

/// The same of texts.
fn made(pieces: &[&str], size: usize) -> String {
    let pieces: Vec<&[u8]> = pieces.iter().map(|p| p.as_bytes()).collect();
    String::from_utf8(made_bytes(&pieces, size)).expect("pieces of UTF-8")
}

/// How often a text is taken in one measurement, so that short ones can be timed.
fn turns(input: &[u8]) -> usize {
    (SIZE / input.len()).max(1)
}

/// A time as the C library has it.
#[repr(C)]
struct Time {
    seconds: i64,
    nanoseconds: i64,
}

unsafe extern "C" {
    fn clock_gettime(clock: i32, time: *mut Time) -> i32;
}

/// Linux's number of the clock that counts a thread's time on the processor.
const THREAD: i32 = 3;

fn on_processor() -> f64 {
    let mut time = Time {
        seconds: 0,
        nanoseconds: 0,
    };
    assert_eq!(unsafe { clock_gettime(THREAD, &mut time) }, 0);
    time.seconds as f64 + time.nanoseconds as f64 / 1e9
}

fn seconds(call: Call, input: &[u8], out: &mut [u8]) -> f64 {
    let turns = turns(input);
    let start = on_processor();
    for _ in 0..turns {
        black_box(call(black_box(input), black_box(out)));
    }
    (on_processor() - start) / turns as f64
}

fn median(mut times: Vec<f64>) -> f64 {
    times.sort_by(f64::total_cmp);
    times[times.len() / 2]
}

fn compare(what: &str, input: &[u8], port: Call, rust: Call) {
    compare_in(what, input, port, rust, 4 * input.len() + 64);
}

/// The port writes into a buffer of `room` bytes, the Rust into an ample one: encoding_rs asks for more room than a text takes.
fn compare_in(what: &str, input: &[u8], port: Call, rust: Call, room: usize) {
    let mut out = vec![0u8; room];
    let mut other = vec![0u8; 4 * input.len() + 64];
    let written = port(input, &mut out);
    assert_eq!(written, rust(input, &mut other), "{what}");
    assert!(out[..written] == other[..written], "{what}: the bytes differ");
    let (mut ours, mut theirs) = (Vec::new(), Vec::new());
    for _ in 0..ROUNDS {
        ours.push(seconds(port, input, &mut out));
        theirs.push(seconds(rust, input, &mut other));
    }
    let (ours, theirs) = (median(ours), median(theirs));
    let speed = |s: f64| input.len() as f64 / s / 1e6;
    println!(
        "{what:58} {:9.0} {:9.0} {:7.2}",
        speed(ours),
        speed(theirs),
        theirs / ours
    );
}

fn main() {
    println!(
        "{:58} {:>9} {:>9} {:>7}",
        "medians, MB/s of input", "port", "Rust", "port/Rust"
    );
    let ascii = made(&["plain ", "text ", "0123456789 ", "of a recipe, "], SIZE);
    let latin = made(
        &["Stra\u{df}e ", "Gr\u{f6}\u{df}e ", "plain text ", "price 12 \u{20ac} "],
        SIZE,
    );
    let accents = made(&["\u{e4}\u{f6}", "\u{fc}", "\u{20ac}", "\u{2019}"], SIZE);
    let cyrillic = made(&["\u{416}\u{437}", "\u{20ac}", "\u{430}\u{431} "], SIZE);
    let faces = made(&["\u{1f600}", "a\u{1f4d6}", "\u{10ffff}"], SIZE);
    for (name, text) in [
        ("ASCII", &ascii),
        ("Latin, one in ten", &latin),
        ("Latin, all", &accents),
    ] {
        let bytes = WINDOWS_1252.encode(text).0;
        compare(
            &format!("enc_windows_1252_decoder::decode, {name}"),
            &bytes,
            port_windows_1252_decode,
            rust_windows_1252_decode,
        );
        let tight = format!("the same, a buffer of just the length, {name}");
        compare_in(
            &tight,
            &bytes,
            port_windows_1252_decode,
            rust_windows_1252_decode,
            text.len(),
        );
        compare(
            &format!("enc_windows_1252_encoder::encode, {name}"),
            text.as_bytes(),
            port_windows_1252_encode,
            rust_windows_1252_encode,
        );
    }
    for (name, text) in [
        ("ASCII", &ascii),
        ("Latin, one in ten", &latin),
        ("Cyrillic", &cyrillic),
        ("pairs", &faces),
    ] {
        let bytes: Vec<u8> = text.encode_utf16().flat_map(u16::to_le_bytes).collect();
        compare(
            &format!("enc_utf_16_decoder::decode, {name}"),
            &bytes,
            port_utf_16_decode,
            rust_utf_16_decode,
        );
        compare(
            &format!("enc_utf_16_encoder::encode, {name}"),
            text.as_bytes(),
            port_utf_16_encode,
            rust_utf_16_encode,
        );
        compare(
            &format!("enc_utf_8_decoder::well_formed, {name}"),
            text.as_bytes(),
            port_utf_8_well_formed,
            rust_utf_8_well_formed,
        );
    }
    utf_8();
    book::run();
}

/// STRINGs in UTF-8, long and of 80 bytes.
fn utf_8() {
    let sets: [(&str, &[&[u8]]); 6] = [
        ("ASCII", &[b"plain ", b"text ", b"0123456789 ", b"of a recipe, "]),
        (
            "Latin",
            &[
                "Stra\u{df}e ".as_bytes(),
                "Gr\u{f6}\u{df}e ".as_bytes(),
                b"plain text ",
                "price 12 \u{20ac} ".as_bytes(),
            ],
        ),
        (
            "Cyrillic",
            &[
                "\u{416}\u{437}".as_bytes(),
                "\u{20ac}".as_bytes(),
                "\u{430}\u{431} ".as_bytes(),
            ],
        ),
        (
            "CJK",
            &[
                "\u{6e29}\u{5ea6}".as_bytes(),
                "\u{80f6}".as_bytes(),
                "\u{8bbe}\u{5b9a}\u{503c}".as_bytes(),
                b"12 ",
            ],
        ),
        (
            "emoji",
            &["\u{1f600}".as_bytes(), "a\u{1f4d6}".as_bytes(), "\u{10ffff}".as_bytes()],
        ),
        (
            "damaged",
            &[
                "Stra\u{df}e ".as_bytes(),
                b"\xE2\x82",
                b"plain text ",
                b"\xF0\x80",
                b"\xFF",
                "\u{6e29}".as_bytes(),
            ],
        ),
    ];
    for (name, pieces) in sets {
        for (long, size) in [("", SIZE), (", 80 bytes", 80)] {
            let mut bytes = made_bytes(pieces, size);
            bytes.truncate(size);
            let what = format!("enc_utf_8_replacing::decode, {name}{long}");
            compare(&what, &bytes, port_utf_8_decode, rust_utf_8_decode);
        }
    }
}
