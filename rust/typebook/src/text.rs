//! The encodings of STRING and WSTRING, by the proved functions.

use crate::ffi::total;

/// The text of Windows-1252 bytes; every byte has a character.
///
/// ```
/// assert_eq!(typebook::text::from_windows_1252(b"12 \x80"), "12 \u{20ac}");
/// ```
pub fn from_windows_1252(bytes: &[u8]) -> String {
    decoded(bytes, 3, total::windows_1252_decode)
}

/// The Windows-1252 bytes of a text; a character that it lacks becomes `&#`, its decimal number and `;`.
///
/// ```
/// assert_eq!(typebook::text::to_windows_1252("\u{20ac}\u{416}"), b"\x80&#1046;");
/// ```
pub fn to_windows_1252(text: &str) -> Vec<u8> {
    encoded(text, 4, total::windows_1252_encode)
}

/// The text of UTF-16 bytes, low byte first; what is ill-formed becomes U+FFFD.
///
/// ```
/// assert_eq!(typebook::text::from_utf_16(&[0x41, 0, 0x3D, 0xD8]), "A\u{fffd}");
/// ```
pub fn from_utf_16(bytes: &[u8]) -> String {
    decoded(bytes, 3, total::utf_16_decode)
}

/// The UTF-16 bytes of a text, low byte first.
///
/// ```
/// assert_eq!(typebook::text::to_utf_16("\u{1f600}"), [0x3D, 0xD8, 0x00, 0xDE]);
/// ```
pub fn to_utf_16(text: &str) -> Vec<u8> {
    encoded(text, 2, total::utf_16_encode)
}

/// The text of UTF-8 bytes; each ill-formed part becomes U+FFFD, as the Encoding Standard has it, and a byte order mark stays.
///
/// ```
/// assert_eq!(typebook::text::from_utf_8(b"A\xF0\x80"), "A\u{fffd}\u{fffd}");
/// ```
pub fn from_utf_8(bytes: &[u8]) -> String {
    decoded(bytes, 3, total::utf_8_decode)
}

/// Whether bytes are well-formed UTF-8.
///
/// ```
/// assert!(typebook::text::is_utf_8("\u{e4}".as_bytes()));
/// assert!(!typebook::text::is_utf_8(b"\xC0\x80"));
/// ```
pub fn is_utf_8(bytes: &[u8]) -> bool {
    total::utf_8_well_formed(bytes)
}

/// No character of the answer needs more than `most` bytes for each byte given.
fn decoded(bytes: &[u8], most: usize, decode: fn(&[u8], &mut [u8], usize) -> Option<usize>) -> String {
    let mut out = vec![0; most * bytes.len()];
    let len = decode(bytes, &mut out, 0).expect("room for every character");
    out.truncate(len);
    String::from_utf8(out).expect("decoded texts are UTF-8")
}

fn encoded(text: &str, most: usize, encode: fn(&[u8], &mut [u8]) -> Option<usize>) -> Vec<u8> {
    let mut out = vec![0; most * text.len()];
    let len = encode(text.as_bytes(), &mut out).expect("room for every character");
    out.truncate(len);
    out
}
