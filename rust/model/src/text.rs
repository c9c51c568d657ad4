//! Windows-1252, UTF-16 and UTF-8, by the WHATWG Encoding Standard.

use std::ops::RangeInclusive;

/// The code points of 80h to 9Fh; every other byte is its own.
const HIGH: [u16; 32] = [
    0x20AC, 0x81, 0x201A, 0x192, 0x201E, 0x2026, 0x2020, 0x2021, 0x2C6, 0x2030, 0x160, 0x2039, 0x152, 0x8D, 0x17D,
    0x8F, 0x90, 0x2018, 0x2019, 0x201C, 0x201D, 0x2022, 0x2013, 0x2014, 0x2DC, 0x2122, 0x161, 0x203A, 0x153, 0x9D,
    0x17E, 0x178,
];

fn windows_1252_char(byte: u8) -> char {
    match byte {
        0x80..=0x9F => char::from_u32(u32::from(HIGH[usize::from(byte - 0x80)])).unwrap_or('\u{fffd}'),
        _ => char::from(byte),
    }
}

/// The text of Windows-1252 bytes.
pub fn windows_1252_decode(bytes: &[u8]) -> String {
    bytes.iter().map(|&b| windows_1252_char(b)).collect()
}

/// The Windows-1252 bytes of a text, with `&#` decimal `;` for what it lacks.
pub fn windows_1252_encode(text: &str) -> Vec<u8> {
    let mut out = Vec::new();
    for c in text.chars() {
        let code = c as u32;
        match (code, HIGH.iter().position(|&h| u32::from(h) == code)) {
            (_, Some(i)) => out.push(0x80 + i as u8),
            (0..=0x7F | 0xA0..=0xFF, None) => out.push(code as u8),
            _ => out.extend_from_slice(format!("&#{code};").as_bytes()),
        }
    }
    out
}

/// The text of UTF-16 bytes, low byte first. An odd byte at the end is one more error, but with a lead surrogate before it
/// the two are one.
pub fn utf_16_decode(bytes: &[u8]) -> String {
    let units = bytes.chunks_exact(2).map(|p| u16::from_le_bytes([p[0], p[1]]));
    let mut items: Vec<Result<char, u16>> = char::decode_utf16(units)
        .map(|r| r.map_err(|e| e.unpaired_surrogate()))
        .collect();
    if bytes.len() % 2 == 1 {
        match items.last() {
            Some(Err(lead)) if *lead < 0xDC00 => {}
            _ => items.push(Err(0xDFFF)),
        }
    }
    items.into_iter().map(|r| r.unwrap_or('\u{fffd}')).collect()
}

/// The UTF-16 bytes of a text.
pub fn utf_16_encode(text: &str) -> Vec<u8> {
    text.encode_utf16().flat_map(u16::to_le_bytes).collect()
}

/// How many bytes follow a lead byte, and the range of the first of them (the Unicode Standard's table 3-7).
fn followers(lead: u8) -> Option<(usize, RangeInclusive<u8>)> {
    match lead {
        0x00..=0x7F => Some((0, 0x80..=0xBF)),
        0xC2..=0xDF => Some((1, 0x80..=0xBF)),
        0xE0 => Some((2, 0xA0..=0xBF)),
        0xED => Some((2, 0x80..=0x9F)),
        0xE1..=0xEF => Some((2, 0x80..=0xBF)),
        0xF0 => Some((3, 0x90..=0xBF)),
        0xF1..=0xF3 => Some((3, 0x80..=0xBF)),
        0xF4 => Some((3, 0x80..=0x8F)),
        _ => None,
    }
}

/// The text of UTF-8 bytes, U+FFFD for each maximal part of a code point that is not whole and for each byte that begins none.
pub fn utf_8_decode(bytes: &[u8]) -> String {
    let (mut out, mut rest) = (String::new(), bytes);
    while let Some((&lead, after)) = rest.split_first() {
        let Some((count, range)) = followers(lead) else {
            out.push('\u{fffd}');
            rest = after;
            continue;
        };
        let fits = |(i, b): &(usize, &u8)| match i {
            0 => range.contains(b),
            _ => **b & 0xC0 == 0x80,
        };
        let taken = after.iter().enumerate().take(count).take_while(fits).count();
        let (part, left) = rest.split_at(1 + taken);
        match taken == count {
            true => out.push_str(std::str::from_utf8(part).expect("a whole code point")),
            false => out.push('\u{fffd}'),
        }
        rest = left;
    }
    out
}

/// What stands before the first zero, or all.
fn up_to_zero(bytes: &[u8]) -> &[u8] {
    bytes.split(|&b| b == 0).next().unwrap_or_default()
}

/// A STRING's bytes up to its zero, or all.
pub fn string(bytes: &[u8]) -> String {
    windows_1252_decode(up_to_zero(bytes))
}

/// The same of a STRING that is marked as UTF-8.
pub fn marked_string(bytes: &[u8]) -> String {
    utf_8_decode(up_to_zero(bytes))
}

/// A WSTRING's bytes up to its first aligned zero pair, or all.
pub fn wstring(bytes: &[u8]) -> String {
    let end = bytes
        .chunks_exact(2)
        .position(|p| p == [0, 0])
        .map_or(bytes.len(), |i| 2 * i);
    utf_16_decode(&bytes[..end])
}

/// Whether a STRING's bytes have a terminator: a zero.
pub fn string_ended(bytes: &[u8]) -> bool {
    bytes.contains(&0)
}

/// Whether a WSTRING's bytes have a terminator: a zero pair at an even place.
pub fn wstring_ended(bytes: &[u8]) -> bool {
    (0..bytes.len() / 2).any(|i| bytes[2 * i] == 0 && bytes[2 * i + 1] == 0)
}

#[cfg(test)]
mod tests {
    use super::*;

    #[test]
    fn parts_of_utf_8() {
        assert_eq!(utf_8_decode(b"\xF0\x80"), "\u{fffd}\u{fffd}");
        assert_eq!(utf_8_decode(b"\xE2\x82"), "\u{fffd}");
        assert_eq!(utf_8_decode(b"\xED\xA0\x80"), "\u{fffd}\u{fffd}\u{fffd}");
        assert_eq!(utf_8_decode(b"\xEF\xBB\xBFA"), "\u{feff}A");
        assert_eq!(marked_string(b"A\xE2\x82\0B"), "A\u{fffd}");
        for n in 0..1 << 16 {
            let pair = [(n >> 8) as u8, n as u8];
            assert_eq!(utf_8_decode(&pair), String::from_utf8_lossy(&pair));
        }
    }
}
