//! What a block's bytes say. Past the end of the book every byte is 0 and every part is empty.

/// The bytes of a block.
pub const BLOCK: usize = 512;

/// The number of whole blocks.
pub fn count(book: &[u8]) -> u32 {
    (book.len() / BLOCK) as u32
}

/// The bytes from byte `k` of block `n` on.
fn from(book: &[u8], n: u32, k: usize) -> &[u8] {
    book.get(n as usize * BLOCK + k..).unwrap_or_default()
}

/// One byte of a block.
pub fn byte(book: &[u8], n: u32, k: usize) -> u8 {
    from(book, n, k).first().copied().unwrap_or(0)
}

/// Four bytes of a block as a number.
pub fn number(book: &[u8], n: u32, k: usize) -> u32 {
    from(book, n, k)
        .iter()
        .take(4)
        .rev()
        .fold(0, |sum, &b| sum << 8 | u32::from(b))
}

fn part(book: &[u8], n: u32, length: u8, k: usize) -> &[u8] {
    let rest = from(book, n, k);
    &rest[..rest.len().min(usize::from(length))]
}

/// 1 a type, 2 a field, 3 an enum entry.
pub fn kind(book: &[u8], n: u32) -> u8 {
    byte(book, n, 0)
}

/// A type's flag: 0 pointer, 1 reference, 2 enum, 3 has methods, 4 TcImplements, 5 a STRING in UTF-8.
pub fn flag(book: &[u8], n: u32, bit: u8) -> bool {
    byte(book, n, 1) >> bit & 1 == 1
}

/// The counts of an array's dimensions.
pub fn dimensions(book: &[u8], n: u32) -> Vec<u32> {
    (0..usize::from(byte(book, n, 2)))
        .map(|i| number(book, n, 20 + 4 * i))
        .collect()
}

/// A type's id.
pub fn id(book: &[u8], n: u32) -> u32 {
    number(book, n, 4)
}

/// A field's offset.
pub fn offset(book: &[u8], n: u32) -> u32 {
    number(book, n, 4)
}

/// A type's or field's size.
pub fn size(book: &[u8], n: u32) -> u32 {
    number(book, n, 8)
}

/// How many fields follow a type block.
pub fn fields(book: &[u8], n: u32) -> u32 {
    number(book, n, 12)
}

/// How many entries follow those.
pub fn entries(book: &[u8], n: u32) -> u32 {
    number(book, n, 16)
}

/// An entry's value.
pub fn value(book: &[u8], n: u32) -> &[u8] {
    part(book, n, byte(book, n, 1), 20)
}

/// A block's name.
pub fn name(book: &[u8], n: u32) -> &[u8] {
    part(book, n, byte(book, n, 52), 54)
}

/// A block's type name.
pub fn type_name(book: &[u8], n: u32) -> &[u8] {
    part(book, n, byte(book, n, 53), 254)
}
