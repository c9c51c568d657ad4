//! The library's functions, declared, and this crate's only unsafe code.
//!
//! The calls of [`total`] take any bytes: each is proved for all of them. The forms whose names end in `_in` need a book
//! that was checked and a root that is one of its type blocks; [`Checked`] and [`TypeBlock`] can only be had by those checks, and
//! their bytes can't change while they are lent. An index may hold any numbers.

use crate::bytes::Bytes;
use std::borrow::Cow;
use std::sync::OnceLock;

mod raw {
    // A slice crosses as a pointer and a length. tests/declarations.rs holds these against the exports of crates/gateway.
    unsafe extern "C" {
        pub fn gateway_windows_1252_decode(
            bytes: *const u8,
            bytes_len: usize,
            out: *mut u8,
            out_len: usize,
            at: usize,
        ) -> u64;
        pub fn gateway_windows_1252_encode(text: *const u8, text_len: usize, out: *mut u8, out_len: usize) -> u64;
        pub fn gateway_utf_16_decode(
            bytes: *const u8,
            bytes_len: usize,
            out: *mut u8,
            out_len: usize,
            at: usize,
        ) -> u64;
        pub fn gateway_utf_16_encode(text: *const u8, text_len: usize, out: *mut u8, out_len: usize) -> u64;
        pub fn gateway_utf_8_decode(bytes: *const u8, bytes_len: usize, out: *mut u8, out_len: usize, at: usize)
        -> u64;
        pub fn gateway_utf_8_well_formed(text: *const u8, text_len: usize) -> u8;
        pub fn gateway_find(book: *const u8, book_len: usize, name: *const u8, name_len: usize) -> u32;
        pub fn gateway_find_by(
            book: *const u8,
            book_len: usize,
            index: *const u32,
            index_len: usize,
            name: *const u8,
            name_len: usize,
        ) -> u32;
        pub fn gateway_build_index(
            buffer: *const u8,
            buffer_len: usize,
            len: usize,
            index: *mut u32,
            index_len: usize,
        ) -> u8;
        pub fn gateway_fill_names(book: *const u8, book_len: usize, index: *mut u32, index_len: usize);
        pub fn gateway_fill_index(book: *const u8, book_len: usize, index: *mut u32, index_len: usize);
        pub fn gateway_check_book(buffer: *const u8, buffer_len: usize, len: usize) -> u8;
        pub fn gateway_is_type(book: *const u8, book_len: usize, block: u32) -> u8;
        pub fn gateway_name(book: *const u8, book_len: usize, block: u32, values: *mut u64, values_len: usize) -> u8;
        pub fn gateway_type_name(
            book: *const u8,
            book_len: usize,
            block: u32,
            values: *mut u64,
            values_len: usize,
        ) -> u8;
        pub fn gateway_determine(
            book: *const u8,
            book_len: usize,
            width: u8,
            block: u32,
            values: *mut u64,
            values_len: usize,
        ) -> u8;
        pub fn gateway_time_parts(
            name: *const u8,
            name_len: usize,
            count: u64,
            values: *mut u64,
            values_len: usize,
        ) -> u8;
        pub fn gateway_time_count(
            name: *const u8,
            name_len: usize,
            parts: *const u32,
            parts_len: usize,
            values: *mut u64,
            values_len: usize,
        ) -> u8;
        pub fn gateway_append(
            buffer: *mut u8,
            buffer_len: usize,
            len: usize,
            piece: *const u8,
            piece_len: usize,
            values: *mut u64,
            values_len: usize,
        ) -> u8;
        pub fn gateway_index_holds(book: *const u8, book_len: usize, index: *const u32, index_len: usize) -> u8;
        pub fn gateway_append_in(
            buffer: *mut u8,
            buffer_len: usize,
            len: usize,
            piece: *const u8,
            piece_len: usize,
            index: *mut u32,
            index_len: usize,
            held: u8,
            values: *mut u64,
            values_len: usize,
        ) -> u8;
        pub fn gateway_version() -> u32;
        pub fn gateway_resolve_alias(
            buffer: *const u8,
            buffer_len: usize,
            len: usize,
            width: u8,
            root: u64,
            values: *mut u64,
            values_len: usize,
        ) -> u8;
        pub fn gateway_resolve_alias_named(
            buffer: *const u8,
            buffer_len: usize,
            len: usize,
            width: u8,
            name: *const u8,
            name_len: usize,
            values: *mut u64,
            values_len: usize,
        ) -> u8;
        pub fn gateway_resolve_indirection(
            buffer: *const u8,
            buffer_len: usize,
            len: usize,
            width: u8,
            root: u64,
            values: *mut u64,
            values_len: usize,
        ) -> u8;
        pub fn gateway_resolve_indirection_named(
            buffer: *const u8,
            buffer_len: usize,
            len: usize,
            width: u8,
            name: *const u8,
            name_len: usize,
            values: *mut u64,
            values_len: usize,
        ) -> u8;
        pub fn gateway_resolve_fields(
            buffer: *const u8,
            buffer_len: usize,
            len: usize,
            width: u8,
            root: u64,
            records: *mut u32,
            records_len: usize,
            values: *mut u64,
            values_len: usize,
        ) -> u8;
        pub fn gateway_resolve_fields_named(
            buffer: *const u8,
            buffer_len: usize,
            len: usize,
            width: u8,
            name: *const u8,
            name_len: usize,
            records: *mut u32,
            records_len: usize,
            values: *mut u64,
            values_len: usize,
        ) -> u8;
        pub fn gateway_requires_read_modify_write(
            buffer: *const u8,
            buffer_len: usize,
            len: usize,
            index: *const u32,
            index_len: usize,
            width: u8,
            root: u64,
            scratch: *mut u32,
            scratch_len: usize,
            values: *mut u64,
            values_len: usize,
        ) -> u8;
        pub fn gateway_requires_read_modify_write_named(
            buffer: *const u8,
            buffer_len: usize,
            len: usize,
            index: *const u32,
            index_len: usize,
            width: u8,
            name: *const u8,
            name_len: usize,
            scratch: *mut u32,
            scratch_len: usize,
            values: *mut u64,
            values_len: usize,
        ) -> u8;
        pub fn gateway_missing_types(
            buffer: *const u8,
            buffer_len: usize,
            len: usize,
            index: *const u32,
            index_len: usize,
            width: u8,
            root: u64,
            scratch: *mut u32,
            scratch_len: usize,
            list: *mut u32,
            list_len: usize,
            values: *mut u64,
            values_len: usize,
        ) -> u8;
        pub fn gateway_missing_types_named(
            buffer: *const u8,
            buffer_len: usize,
            len: usize,
            index: *const u32,
            index_len: usize,
            width: u8,
            name: *const u8,
            name_len: usize,
            scratch: *mut u32,
            scratch_len: usize,
            list: *mut u32,
            list_len: usize,
            values: *mut u64,
            values_len: usize,
        ) -> u8;
        pub fn gateway_plan_save(
            buffer: *mut u8,
            buffer_len: usize,
            len: usize,
            controller: *const u8,
            controller_len: usize,
            theirs: usize,
            width: u8,
            root: u64,
            scratch: *mut u32,
            scratch_len: usize,
            index: *mut u32,
            index_len: usize,
            values: *mut u64,
            values_len: usize,
        ) -> u8;
        pub fn gateway_plan_save_named(
            buffer: *mut u8,
            buffer_len: usize,
            len: usize,
            controller: *const u8,
            controller_len: usize,
            theirs: usize,
            width: u8,
            name: *const u8,
            name_len: usize,
            scratch: *mut u32,
            scratch_len: usize,
            index: *mut u32,
            index_len: usize,
            values: *mut u64,
            values_len: usize,
        ) -> u8;
        pub fn gateway_read(
            buffer: *const u8,
            buffer_len: usize,
            len: usize,
            width: u8,
            root: u64,
            memory: *const u8,
            memory_len: usize,
            tape: *mut u8,
            tape_len: usize,
            text: *mut u8,
            text_len: usize,
            values: *mut u64,
            values_len: usize,
        ) -> u8;
        pub fn gateway_read_named(
            buffer: *const u8,
            buffer_len: usize,
            len: usize,
            width: u8,
            name: *const u8,
            name_len: usize,
            memory: *const u8,
            memory_len: usize,
            tape: *mut u8,
            tape_len: usize,
            text: *mut u8,
            text_len: usize,
            values: *mut u64,
            values_len: usize,
        ) -> u8;
        pub fn gateway_write(
            buffer: *const u8,
            buffer_len: usize,
            len: usize,
            width: u8,
            root: u64,
            image: *const u8,
            image_len: usize,
            tape: *const u8,
            tape_len: usize,
            text: *const u8,
            text_len: usize,
            output: *mut u8,
            output_len: usize,
            values: *mut u64,
            values_len: usize,
        ) -> u8;
        pub fn gateway_write_named(
            buffer: *const u8,
            buffer_len: usize,
            len: usize,
            width: u8,
            name: *const u8,
            name_len: usize,
            image: *const u8,
            image_len: usize,
            tape: *const u8,
            tape_len: usize,
            text: *const u8,
            text_len: usize,
            output: *mut u8,
            output_len: usize,
            values: *mut u64,
            values_len: usize,
        ) -> u8;
        pub fn gateway_resolve_alias_in(
            book: *const u8,
            book_len: usize,
            index: *const u32,
            index_len: usize,
            width: u8,
            root: u32,
            values: *mut u64,
            values_len: usize,
        ) -> u8;
        pub fn gateway_resolve_indirection_in(
            book: *const u8,
            book_len: usize,
            index: *const u32,
            index_len: usize,
            width: u8,
            root: u32,
            values: *mut u64,
            values_len: usize,
        ) -> u8;
        pub fn gateway_resolve_fields_in(
            book: *const u8,
            book_len: usize,
            index: *const u32,
            index_len: usize,
            width: u8,
            root: u32,
            records: *mut u32,
            records_len: usize,
            values: *mut u64,
            values_len: usize,
        ) -> u8;
        pub fn gateway_requires_read_modify_write_in(
            book: *const u8,
            book_len: usize,
            index: *const u32,
            index_len: usize,
            width: u8,
            root: u32,
            scratch: *mut u32,
            scratch_len: usize,
            values: *mut u64,
            values_len: usize,
        ) -> u8;
        pub fn gateway_missing_types_in(
            book: *const u8,
            book_len: usize,
            index: *const u32,
            index_len: usize,
            width: u8,
            root: u32,
            scratch: *mut u32,
            scratch_len: usize,
            list: *mut u32,
            list_len: usize,
            values: *mut u64,
            values_len: usize,
        ) -> u8;
        pub fn gateway_read_in(
            book: *const u8,
            book_len: usize,
            index: *const u32,
            index_len: usize,
            width: u8,
            root: u32,
            memory: *const u8,
            memory_len: usize,
            tape: *mut u8,
            tape_len: usize,
            text: *mut u8,
            text_len: usize,
            values: *mut u64,
            values_len: usize,
        ) -> u8;
        pub fn gateway_write_in(
            book: *const u8,
            book_len: usize,
            index: *const u32,
            index_len: usize,
            width: u8,
            root: u32,
            image: *const u8,
            image_len: usize,
            tape: *const u8,
            tape_len: usize,
            text: *const u8,
            text_len: usize,
            output: *mut u8,
            output_len: usize,
            values: *mut u64,
            values_len: usize,
        ) -> u8;
    }
}

/// The library's calls as they are, by numbers and slices, for any bytes.
///
/// An answer of 0 is success, any other number is a refusal of document 01. A call lays its values over the first numbers of
/// `values`, as many as fit; after refusal 7 the first is the block whose type name isn't in the book, and any other refusal
/// leaves them as before.
pub mod total {
    use super::raw;

    /// The place after the decoded text, which begins at `at` of `out`; none where it doesn't fit.
    fn place(answer: u64) -> Option<usize> {
        (answer != u64::MAX).then_some(answer as usize)
    }

    /// Decodes Windows-1252 into UTF-8 from `at` on; answers the place after it, or none, and `out` is then as before.
    pub fn windows_1252_decode(bytes: &[u8], out: &mut [u8], at: usize) -> Option<usize> {
        // SAFETY, here and below: every pointer and length is one slice's, lent for the call alone.
        place(unsafe { raw::gateway_windows_1252_decode(bytes.as_ptr(), bytes.len(), out.as_mut_ptr(), out.len(), at) })
    }

    /// Encodes UTF-8 as Windows-1252; what it lacks becomes `&#`, the decimal number and `;`.
    pub fn windows_1252_encode(text: &[u8], out: &mut [u8]) -> Option<usize> {
        place(unsafe { raw::gateway_windows_1252_encode(text.as_ptr(), text.len(), out.as_mut_ptr(), out.len()) })
    }

    /// Decodes UTF-16, low byte first, into UTF-8 from `at` on.
    pub fn utf_16_decode(bytes: &[u8], out: &mut [u8], at: usize) -> Option<usize> {
        place(unsafe { raw::gateway_utf_16_decode(bytes.as_ptr(), bytes.len(), out.as_mut_ptr(), out.len(), at) })
    }

    /// Encodes UTF-8 as UTF-16, low byte first.
    pub fn utf_16_encode(text: &[u8], out: &mut [u8]) -> Option<usize> {
        place(unsafe { raw::gateway_utf_16_encode(text.as_ptr(), text.len(), out.as_mut_ptr(), out.len()) })
    }

    /// Decodes UTF-8, U+FFFD for each ill-formed part, from `at` on.
    pub fn utf_8_decode(bytes: &[u8], out: &mut [u8], at: usize) -> Option<usize> {
        place(unsafe { raw::gateway_utf_8_decode(bytes.as_ptr(), bytes.len(), out.as_mut_ptr(), out.len(), at) })
    }

    /// Whether a text is well-formed UTF-8.
    pub fn utf_8_well_formed(text: &[u8]) -> bool {
        unsafe { raw::gateway_utf_8_well_formed(text.as_ptr(), text.len()) == 1 }
    }

    /// The block that a look-up gives, none for 2^32 - 1.
    fn block(answer: u32) -> Option<u32> {
        (answer != u32::MAX).then_some(answer)
    }

    /// The first type block of that name.
    pub fn find(book: &[u8], name: &[u8]) -> Option<u32> {
        block(unsafe { raw::gateway_find(book.as_ptr(), book.len(), name.as_ptr(), name.len()) })
    }

    /// The same where names are unique, quickly where the index is one of [`fill_index`]; any index is allowed.
    pub fn find_by(book: &[u8], index: &[u32], name: &[u8]) -> Option<u32> {
        let (b, i) = (book, index);
        block(unsafe { raw::gateway_find_by(b.as_ptr(), b.len(), i.as_ptr(), i.len(), name.as_ptr(), name.len()) })
    }

    /// Makes an index of the book's names for [`find_by`]; four numbers a type serve well.
    pub fn fill_names(book: &[u8], index: &mut [u32]) {
        unsafe { raw::gateway_fill_names(book.as_ptr(), book.len(), index.as_mut_ptr(), index.len()) }
    }

    /// The same with a hint for each block, the type that it names, where the index has three numbers or more for each block.
    pub fn fill_index(book: &[u8], index: &mut [u32]) {
        unsafe { raw::gateway_fill_index(book.as_ptr(), book.len(), index.as_mut_ptr(), index.len()) }
    }

    /// Whether the index leads to every type of the book.
    pub fn index_holds(book: &[u8], index: &[u32]) -> bool {
        unsafe { raw::gateway_index_holds(book.as_ptr(), book.len(), index.as_ptr(), index.len()) == 1 }
    }

    /// Refusals 1 to 4 of the book in the first `len` bytes of the buffer.
    pub fn check_book(buffer: &[u8], len: usize) -> u8 {
        unsafe { raw::gateway_check_book(buffer.as_ptr(), buffer.len(), len) }
    }

    /// Whether a block is a type block.
    pub fn is_type(book: &[u8], block: u32) -> bool {
        unsafe { raw::gateway_is_type(book.as_ptr(), book.len(), block) == 1 }
    }

    /// Values: offset and length of the block's name in the book.
    pub fn name(book: &[u8], block: u32, values: &mut [u64]) -> u8 {
        unsafe { raw::gateway_name(book.as_ptr(), book.len(), block, values.as_mut_ptr(), values.len()) }
    }

    /// Values: offset and length of the block's type name in the book.
    pub fn type_name(book: &[u8], block: u32, values: &mut [u64]) -> u8 {
        unsafe { raw::gateway_type_name(book.as_ptr(), book.len(), block, values.as_mut_ptr(), values.len()) }
    }

    /// Value: the category's place in the list of [`Category`](crate::Category).
    pub fn determine(book: &[u8], width: u8, block: u32, values: &mut [u64]) -> u8 {
        unsafe {
            raw::gateway_determine(
                book.as_ptr(),
                book.len(),
                width,
                block,
                values.as_mut_ptr(),
                values.len(),
            )
        }
    }

    /// Values: year, month, day, hour, minute, second and nanosecond of a count of the type of that name; or 24.
    pub fn time_parts(name: &[u8], count: u64, values: &mut [u64]) -> u8 {
        unsafe { raw::gateway_time_parts(name.as_ptr(), name.len(), count, values.as_mut_ptr(), values.len()) }
    }

    /// Value: the count of the type of that name that has these seven parts; or 24.
    pub fn time_count(name: &[u8], parts: &[u32], values: &mut [u64]) -> u8 {
        unsafe {
            raw::gateway_time_count(
                name.as_ptr(),
                name.len(),
                parts.as_ptr(),
                parts.len(),
                values.as_mut_ptr(),
                values.len(),
            )
        }
    }

    /// Appends one type's blocks to the book in the first `len` bytes of the buffer. Value: the new length.
    pub fn append(buffer: &mut [u8], len: usize, piece: &[u8], values: &mut [u64]) -> u8 {
        unsafe {
            raw::gateway_append(
                buffer.as_mut_ptr(),
                buffer.len(),
                len,
                piece.as_ptr(),
                piece.len(),
                values.as_mut_ptr(),
                values.len(),
            )
        }
    }

    /// The library's version: two hexadecimal digits for each of three parts.
    pub fn version() -> u32 {
        unsafe { raw::gateway_version() }
    }

    /// Value: the block that the root's aliases come to.
    pub fn resolve_alias(buffer: &[u8], len: usize, width: u8, root: u64, values: &mut [u64]) -> u8 {
        let v = values;
        unsafe { raw::gateway_resolve_alias(buffer.as_ptr(), buffer.len(), len, width, root, v.as_mut_ptr(), v.len()) }
    }

    /// [`resolve_alias`] of a root that is given by its name; 7 with 4,294,967,295 where the book lacks it, 23 where it is no name.
    pub fn resolve_alias_named(buffer: &[u8], len: usize, width: u8, name: &[u8], values: &mut [u64]) -> u8 {
        let v = values;
        unsafe {
            raw::gateway_resolve_alias_named(
                buffer.as_ptr(),
                buffer.len(),
                len,
                width,
                name.as_ptr(),
                name.len(),
                v.as_mut_ptr(),
                v.len(),
            )
        }
    }

    /// Value: the block that the root's aliases and references come to.
    pub fn resolve_indirection(buffer: &[u8], len: usize, width: u8, root: u64, values: &mut [u64]) -> u8 {
        let v = values;
        unsafe {
            raw::gateway_resolve_indirection(buffer.as_ptr(), buffer.len(), len, width, root, v.as_mut_ptr(), v.len())
        }
    }

    /// [`resolve_indirection`] of a root that is given by its name.
    pub fn resolve_indirection_named(buffer: &[u8], len: usize, width: u8, name: &[u8], values: &mut [u64]) -> u8 {
        let v = values;
        unsafe {
            raw::gateway_resolve_indirection_named(
                buffer.as_ptr(),
                buffer.len(),
                len,
                width,
                name.as_ptr(),
                name.len(),
                v.as_mut_ptr(),
                v.len(),
            )
        }
    }

    /// Records of four numbers (offset, size, resolved type's block, field's block). Value: the number of fields.
    pub fn resolve_fields(
        buffer: &[u8],
        len: usize,
        width: u8,
        root: u64,
        records: &mut [u32],
        values: &mut [u64],
    ) -> u8 {
        unsafe {
            raw::gateway_resolve_fields(
                buffer.as_ptr(),
                buffer.len(),
                len,
                width,
                root,
                records.as_mut_ptr(),
                records.len(),
                values.as_mut_ptr(),
                values.len(),
            )
        }
    }

    /// [`resolve_fields`] of a root that is given by its name.
    pub fn resolve_fields_named(
        buffer: &[u8],
        len: usize,
        width: u8,
        name: &[u8],
        records: &mut [u32],
        values: &mut [u64],
    ) -> u8 {
        unsafe {
            raw::gateway_resolve_fields_named(
                buffer.as_ptr(),
                buffer.len(),
                len,
                width,
                name.as_ptr(),
                name.len(),
                records.as_mut_ptr(),
                records.len(),
                values.as_mut_ptr(),
                values.len(),
            )
        }
    }

    /// The numbers that the two walks want of an index, at least.
    pub const INDEX: usize = 16_384;

    /// Builds an index of the names of the book's types into all of `index`, for the two walks: document 01's number, 0 where it is
    /// done. 6 where it has fewer than [`INDEX`] numbers.
    pub fn build_index(buffer: &[u8], len: usize, index: &mut [u32]) -> u8 {
        unsafe { raw::gateway_build_index(buffer.as_ptr(), buffer.len(), len, index.as_mut_ptr(), index.len()) }
    }

    /// Value: 1 if a function block lies anywhere in the root, else 0. The index is one of [`build_index`]; any other gives the same
    /// answer, later.
    pub fn requires_read_modify_write(
        buffer: &[u8],
        len: usize,
        index: &[u32],
        width: u8,
        root: u64,
        scratch: &mut [u32],
        values: &mut [u64],
    ) -> u8 {
        unsafe {
            raw::gateway_requires_read_modify_write(
                buffer.as_ptr(),
                buffer.len(),
                len,
                index.as_ptr(),
                index.len(),
                width,
                root,
                scratch.as_mut_ptr(),
                scratch.len(),
                values.as_mut_ptr(),
                values.len(),
            )
        }
    }

    /// [`requires_read_modify_write`] of a root that is given by its name.
    pub fn requires_read_modify_write_named(
        buffer: &[u8],
        len: usize,
        index: &[u32],
        width: u8,
        name: &[u8],
        scratch: &mut [u32],
        values: &mut [u64],
    ) -> u8 {
        unsafe {
            raw::gateway_requires_read_modify_write_named(
                buffer.as_ptr(),
                buffer.len(),
                len,
                index.as_ptr(),
                index.len(),
                width,
                name.as_ptr(),
                name.len(),
                scratch.as_mut_ptr(),
                scratch.len(),
                values.as_mut_ptr(),
                values.len(),
            )
        }
    }

    /// Values: blocks listed, 1 if the walk is whole, distinct names met. The index as in [`requires_read_modify_write`].
    #[allow(clippy::too_many_arguments)]
    pub fn missing_types(
        buffer: &[u8],
        len: usize,
        index: &[u32],
        width: u8,
        root: u64,
        scratch: &mut [u32],
        list: &mut [u32],
        values: &mut [u64],
    ) -> u8 {
        unsafe {
            raw::gateway_missing_types(
                buffer.as_ptr(),
                buffer.len(),
                len,
                index.as_ptr(),
                index.len(),
                width,
                root,
                scratch.as_mut_ptr(),
                scratch.len(),
                list.as_mut_ptr(),
                list.len(),
                values.as_mut_ptr(),
                values.len(),
            )
        }
    }

    /// [`missing_types`] of a root that is given by its name: where the book lacks it, its number 4,294,967,295 alone is listed.
    #[allow(clippy::too_many_arguments)]
    pub fn missing_types_named(
        buffer: &[u8],
        len: usize,
        index: &[u32],
        width: u8,
        name: &[u8],
        scratch: &mut [u32],
        list: &mut [u32],
        values: &mut [u64],
    ) -> u8 {
        unsafe {
            raw::gateway_missing_types_named(
                buffer.as_ptr(),
                buffer.len(),
                len,
                index.as_ptr(),
                index.len(),
                width,
                name.as_ptr(),
                name.len(),
                scratch.as_mut_ptr(),
                scratch.len(),
                list.as_mut_ptr(),
                list.len(),
                values.as_mut_ptr(),
                values.len(),
            )
        }
    }

    /// Completes our book, in the first `len` bytes of the buffer, by types of the controller's, in the first `theirs` bytes of its own,
    /// and decides. Values: 1 if the memory must be read before it is written, else 0, and our book's new length; with 7 the block and that
    /// length; with any other refusal that length alone. The index may have any length; eight numbers for each type of both books
    /// serve well.
    #[allow(clippy::too_many_arguments)]
    pub fn plan_save(
        buffer: &mut [u8],
        len: usize,
        controller: &[u8],
        theirs: usize,
        width: u8,
        root: u64,
        scratch: &mut [u32],
        index: &mut [u32],
        values: &mut [u64],
    ) -> u8 {
        unsafe {
            raw::gateway_plan_save(
                buffer.as_mut_ptr(),
                buffer.len(),
                len,
                controller.as_ptr(),
                controller.len(),
                theirs,
                width,
                root,
                scratch.as_mut_ptr(),
                scratch.len(),
                index.as_mut_ptr(),
                index.len(),
                values.as_mut_ptr(),
                values.len(),
            )
        }
    }

    /// `plan_save` by a root's name, which our book may lack: then the root too is added from the controller's book, and with 7 the value
    /// 4,294,967,295 says that neither book has it.
    #[allow(clippy::too_many_arguments)]
    pub fn plan_save_named(
        buffer: &mut [u8],
        len: usize,
        controller: &[u8],
        theirs: usize,
        width: u8,
        name: &[u8],
        scratch: &mut [u32],
        index: &mut [u32],
        values: &mut [u64],
    ) -> u8 {
        unsafe {
            raw::gateway_plan_save_named(
                buffer.as_mut_ptr(),
                buffer.len(),
                len,
                controller.as_ptr(),
                controller.len(),
                theirs,
                width,
                name.as_ptr(),
                name.len(),
                scratch.as_mut_ptr(),
                scratch.len(),
                index.as_mut_ptr(),
                index.len(),
                values.as_mut_ptr(),
                values.len(),
            )
        }
    }

    /// Values: records on the tape, bytes in the text buffer.
    #[allow(clippy::too_many_arguments)]
    pub fn read(
        buffer: &[u8],
        len: usize,
        width: u8,
        root: u64,
        memory: &[u8],
        tape: &mut [u8],
        text: &mut [u8],
        values: &mut [u64],
    ) -> u8 {
        unsafe {
            raw::gateway_read(
                buffer.as_ptr(),
                buffer.len(),
                len,
                width,
                root,
                memory.as_ptr(),
                memory.len(),
                tape.as_mut_ptr(),
                tape.len(),
                text.as_mut_ptr(),
                text.len(),
                values.as_mut_ptr(),
                values.len(),
            )
        }
    }

    /// [`read`] by a root that is given by its name.
    #[allow(clippy::too_many_arguments)]
    pub fn read_named(
        buffer: &[u8],
        len: usize,
        width: u8,
        name: &[u8],
        memory: &[u8],
        tape: &mut [u8],
        text: &mut [u8],
        values: &mut [u64],
    ) -> u8 {
        unsafe {
            raw::gateway_read_named(
                buffer.as_ptr(),
                buffer.len(),
                len,
                width,
                name.as_ptr(),
                name.len(),
                memory.as_ptr(),
                memory.len(),
                tape.as_mut_ptr(),
                tape.len(),
                text.as_mut_ptr(),
                text.len(),
                values.as_mut_ptr(),
                values.len(),
            )
        }
    }

    /// Writes a tape with its text over an image. After 0 the output, as long as the image, holds the new bytes; after a refusal
    /// the image, where it is as long, and what it held before where not. No values but the block of 7.
    #[allow(clippy::too_many_arguments)]
    pub fn write(
        buffer: &[u8],
        len: usize,
        width: u8,
        root: u64,
        image: &[u8],
        tape: &[u8],
        text: &[u8],
        output: &mut [u8],
        values: &mut [u64],
    ) -> u8 {
        unsafe {
            raw::gateway_write(
                buffer.as_ptr(),
                buffer.len(),
                len,
                width,
                root,
                image.as_ptr(),
                image.len(),
                tape.as_ptr(),
                tape.len(),
                text.as_ptr(),
                text.len(),
                output.as_mut_ptr(),
                output.len(),
                values.as_mut_ptr(),
                values.len(),
            )
        }
    }

    /// [`write`] by a root that is given by its name.
    #[allow(clippy::too_many_arguments)]
    pub fn write_named(
        buffer: &[u8],
        len: usize,
        width: u8,
        name: &[u8],
        image: &[u8],
        tape: &[u8],
        text: &[u8],
        output: &mut [u8],
        values: &mut [u64],
    ) -> u8 {
        unsafe {
            raw::gateway_write_named(
                buffer.as_ptr(),
                buffer.len(),
                len,
                width,
                name.as_ptr(),
                name.len(),
                image.as_ptr(),
                image.len(),
                tape.as_ptr(),
                tape.len(),
                text.as_ptr(),
                text.len(),
                output.as_mut_ptr(),
                output.len(),
                values.as_mut_ptr(),
                values.len(),
            )
        }
    }

    /// The same calls where a caller lends nothing at all: a null pointer and the length 0.
    #[cfg(test)]
    mod tests {
        use super::raw;
        use std::ptr::{null, null_mut};

        #[test]
        fn null_and_no_length() {
            // SAFETY: a slice of no bytes is read and written nowhere.
            unsafe {
                assert_eq!(raw::gateway_check_book(null(), 0, 0), 0);
                assert_eq!(raw::gateway_check_book(null(), 0, usize::MAX), 1);
                assert_eq!(raw::gateway_find(null(), 0, null(), 0), u32::MAX);
                assert_eq!(raw::gateway_find_by(null(), 0, null(), 0, null(), 0), u32::MAX);
                assert_eq!(raw::gateway_build_index(null(), 0, 0, null_mut(), 0), 6);
                raw::gateway_fill_names(null(), 0, null_mut(), 0);
                raw::gateway_fill_index(null(), 0, null_mut(), 0);
                assert_eq!(raw::gateway_index_holds(null(), 0, null(), 0), 1);
                assert_eq!(raw::gateway_is_type(null(), 0, 0), 0);
                assert_eq!(raw::gateway_name(null(), 0, 7, null_mut(), 0), 0);
                assert_eq!(raw::gateway_type_name(null(), 0, 7, null_mut(), 0), 0);
                assert_eq!(raw::gateway_determine(null(), 0, 8, 0, null_mut(), 0), 0);
                assert_eq!(raw::gateway_time_parts(null(), 0, 0, null_mut(), 0), 24);
                assert_eq!(raw::gateway_time_count(null(), 0, null(), 0, null_mut(), 0), 24);
            }
        }

        #[test]
        fn null_and_no_length_in_calls_on_books() {
            // SAFETY: as above.
            unsafe {
                assert_eq!(raw::gateway_append(null_mut(), 0, 0, null(), 0, null_mut(), 0), 3);
                assert_eq!(raw::gateway_resolve_alias(null(), 0, 0, 8, 0, null_mut(), 0), 5);
                assert_eq!(raw::gateway_resolve_indirection(null(), 0, 0, 8, 0, null_mut(), 0), 5);
                assert_eq!(
                    raw::gateway_resolve_fields(null(), 0, 0, 8, 0, null_mut(), 0, null_mut(), 0),
                    5
                );
                assert_eq!(
                    raw::gateway_requires_read_modify_write(
                        null(),
                        0,
                        0,
                        null(),
                        0,
                        8,
                        0,
                        null_mut(),
                        0,
                        null_mut(),
                        0
                    ),
                    5
                );
                assert_eq!(
                    raw::gateway_missing_types(
                        null(),
                        0,
                        0,
                        null(),
                        0,
                        8,
                        0,
                        null_mut(),
                        0,
                        null_mut(),
                        0,
                        null_mut(),
                        0
                    ),
                    5
                );
                assert_eq!(
                    raw::gateway_read(
                        null(),
                        0,
                        0,
                        8,
                        0,
                        null(),
                        0,
                        null_mut(),
                        0,
                        null_mut(),
                        0,
                        null_mut(),
                        0
                    ),
                    5
                );
                let (n, m) = (null(), null_mut());
                assert_eq!(
                    raw::gateway_plan_save(m, 0, 0, n, 0, 0, 8, 0, null_mut(), 0, null_mut(), 0, null_mut(), 0),
                    5
                );
                assert_eq!(
                    raw::gateway_plan_save_named(
                        m,
                        0,
                        0,
                        n,
                        0,
                        0,
                        8,
                        n,
                        0,
                        null_mut(),
                        0,
                        null_mut(),
                        0,
                        null_mut(),
                        0
                    ),
                    6
                );
                assert_eq!(
                    raw::gateway_write(n, 0, 0, 8, 0, n, 0, n, 0, n, 0, m, 0, null_mut(), 0),
                    5
                );
                // The name of no bytes is of the form, and the book of no bytes lacks it.
                let mut lacking = [0];
                let v = lacking.as_mut_ptr();
                assert_eq!(raw::gateway_resolve_alias_named(n, 0, 0, 8, n, 0, v, 1), 7);
                assert_eq!(
                    raw::gateway_resolve_indirection_named(n, 0, 0, 8, n, 0, null_mut(), 0),
                    7
                );
                assert_eq!(
                    raw::gateway_resolve_fields_named(n, 0, 0, 8, n, 0, null_mut(), 0, null_mut(), 0),
                    7
                );
                assert_eq!(
                    raw::gateway_read_named(n, 0, 0, 8, n, 0, n, 0, m, 0, m, 0, null_mut(), 0),
                    7
                );
                assert_eq!(
                    raw::gateway_write_named(n, 0, 0, 8, n, 0, n, 0, n, 0, n, 0, m, 0, null_mut(), 0),
                    16
                );
                assert_eq!(lacking, [u64::from(u32::MAX)]);
                let (i, k, v) = (null(), null_mut(), null_mut());
                assert_eq!(
                    raw::gateway_requires_read_modify_write_named(n, 0, 0, i, 0, 8, n, 0, k, 0, v, 0),
                    6
                );
                assert_eq!(
                    raw::gateway_missing_types_named(n, 0, 0, i, 0, 8, n, 0, k, 0, k, 0, v, 0),
                    6
                );
            }
        }

        #[test]
        fn null_and_no_length_in_texts() {
            // SAFETY: as above.
            unsafe {
                assert_eq!(raw::gateway_windows_1252_decode(null(), 0, null_mut(), 0, 0), 0);
                assert_eq!(raw::gateway_windows_1252_encode(null(), 0, null_mut(), 0), 0);
                assert_eq!(raw::gateway_utf_16_decode(null(), 0, null_mut(), 0, 0), 0);
                assert_eq!(raw::gateway_utf_16_encode(null(), 0, null_mut(), 0), 0);
                assert_eq!(raw::gateway_utf_8_decode(null(), 0, null_mut(), 0, 0), 0);
                assert_eq!(raw::gateway_utf_8_well_formed(null(), 0), 1);
            }
        }
    }
}

/// An index of a book's names alone, which appending goes by and adds to.
#[derive(Clone)]
struct Names {
    numbers: Vec<u32>,
    /// How many types the book has.
    types: usize,
    /// The library has said that the index leads to every type of the book.
    held: bool,
}

impl Names {
    /// An index of so many slots a type, of which four serve well; more would only fill the processor's caches.
    fn of(book: &[u8], types: usize, slots: usize) -> Self {
        let mut numbers = vec![0; Self::room(slots * types, book.len() / 512)];
        total::fill_names(book, &mut numbers);
        let held = total::index_holds(book, &numbers);
        Self { numbers, types, held }
    }

    /// An index of three numbers a block or more would have hints and could not be added to.
    fn room(wanted: usize, blocks: usize) -> usize {
        wanted.min((3 * blocks).saturating_sub(1))
    }

    /// The index for one type more. It is made anew, longer in proportion, where it has fewer than two slots a type, so that appending takes
    /// a time that grows as the book does; where it doesn't lead to every type, a longer one may.
    fn for_more(self, book: &[u8]) -> Self {
        let room = Self::room(8 * self.types, book.len() / 512);
        let least = if self.held { 2 * self.types } else { room - room / 8 };
        match self.numbers.len() < least {
            true => Self::of(book, self.types, 8),
            false => self,
        }
    }
}

/// How many types a book has.
fn types_of(book: &[u8]) -> usize {
    book.chunks_exact(512).filter(|block| block[0] == 1).count()
}

/// A book that the library has found valid, with an index.
#[derive(Clone)]
pub(crate) struct Checked<'a> {
    bytes: Bytes<'a>,
    /// Whether the calls go by the index of the names alone.
    names_only: bool,
    /// An index with hints, for this very book.
    index: OnceLock<Vec<u32>>,
    names: OnceLock<Names>,
}

impl<'a> Checked<'a> {
    /// The checks of document 01's refusals 1 to 4, or the number of the one that is met first.
    fn tested(bytes: Cow<'a, [u8]>, names_only: bool) -> Result<Self, u8> {
        match total::check_book(&bytes, bytes.len()) {
            0 => {
                let checked = Self {
                    bytes: bytes.into(),
                    names_only,
                    index: OnceLock::new(),
                    names: OnceLock::new(),
                };
                checked.index();
                Ok(checked)
            }
            number => Err(number),
        }
    }

    /// Four slots a type serve well.
    pub(crate) fn slots(&self) -> usize {
        4 * types_of(&self.bytes)
    }

    /// A checked book with an index of its names.
    pub(crate) fn names_only(bytes: Cow<'a, [u8]>) -> Result<Self, u8> {
        Self::tested(bytes, true)
    }

    /// A checked book with an index of its names and a hint for each block.
    pub(crate) fn new(bytes: Cow<'a, [u8]>) -> Result<Self, u8> {
        Self::tested(bytes, false)
    }

    pub(crate) fn bytes(&self) -> &[u8] {
        &self.bytes
    }

    /// The bytes, to be kept beside the book.
    pub(crate) fn shared(&self) -> Bytes<'a> {
        self.bytes.clone()
    }

    pub(crate) fn into_bytes(self) -> Cow<'a, [u8]> {
        self.bytes.into_cow()
    }

    pub(crate) fn into_kept(self) -> Checked<'static> {
        Checked {
            bytes: self.bytes.into_kept(),
            names_only: self.names_only,
            index: self.index,
            names: self.names,
        }
    }

    /// The index that the calls go by, made when the book is checked. One of the names alone goes on as the book grows; one with hints
    /// is made anew at the first call after an append.
    pub(crate) fn index(&self) -> &[u32] {
        match self.names_only {
            true => &self.names().numbers,
            false => self.index.get_or_init(|| {
                let blocks = self.bytes.len() / 512;
                let mut index = vec![0; blocks + self.slots().max(2 * blocks)];
                total::fill_index(&self.bytes, &mut index);
                index
            }),
        }
    }

    /// An index for the look-up of a name, which needs no hints: none is made for it while a book is appended to.
    pub(crate) fn name_index(&self) -> &[u32] {
        match (self.index.get(), self.names.get()) {
            (None, Some(names)) => &names.numbers,
            _ => self.index(),
        }
    }

    /// The index of the names alone, made at the first append, or when the book is checked if there is no other.
    fn names(&self) -> &Names {
        self.names
            .get_or_init(|| Names::of(&self.bytes, types_of(&self.bytes), 4))
    }

    /// Appends one type's blocks, or gives the number of the refusal, and then the book is as it was. The book isn't checked again, and the
    /// new type goes into the index of the names.
    pub(crate) fn append(&mut self, piece: &[u8]) -> Result<(), u8> {
        let len = self.bytes.len();
        self.names();
        let kept = self.names.take().expect("made above");
        let mut names = kept.for_more(&self.bytes);
        let (buffer, index, mut values) = (self.bytes.to_mut(), &mut names.numbers, [0; 2]);
        buffer.resize(len + piece.len(), 0);
        // SAFETY: the first `len` bytes are the checked book, the index leads to every type of it where that is said, and every pointer and
        // length is one slice's, lent for the call alone. What the call leaves is again a valid book, and what it answers of the index is so.
        let number = unsafe {
            raw::gateway_append_in(
                buffer.as_mut_ptr(),
                buffer.len(),
                len,
                piece.as_ptr(),
                piece.len(),
                index.as_mut_ptr(),
                index.len(),
                u8::from(names.held),
                values.as_mut_ptr(),
                values.len(),
            )
        };
        if number == 0 {
            buffer.truncate(values[0] as usize);
            names.held = values[1] == 1;
            names.types += 1;
            self.index = OnceLock::new();
        } else {
            buffer.truncate(len);
        }
        self.names = OnceLock::from(names);
        match number {
            0 => Ok(()),
            number => Err(number),
        }
    }

    /// The book as it was when it had `len` bytes, of which it was made by appending. Its indexes are made anew: the names that were cut off
    /// would take the slots of others.
    pub(crate) fn cut_back(&mut self, len: usize) {
        if len < self.bytes.len() {
            self.bytes.to_mut().truncate(len);
            self.index = OnceLock::new();
            self.names = OnceLock::new();
        }
    }

    /// The block, if it is one of this book's type blocks.
    pub(crate) fn type_block(&self, block: u32) -> Option<TypeBlock<'_>> {
        total::is_type(&self.bytes, block).then_some(TypeBlock { book: self, block })
    }
}

/// A type block of a checked book: what the forms without a check need.
#[derive(Clone, Copy)]
pub(crate) struct TypeBlock<'b> {
    book: &'b Checked<'b>,
    block: u32,
}

// SAFETY, in each call below: the book was checked and its bytes are lent unchanged, the root is one of its type blocks, and every
// pointer and length is one slice's, lent for the call alone.
impl<'b> TypeBlock<'b> {
    pub(crate) fn book(self) -> &'b Checked<'b> {
        self.book
    }

    pub(crate) fn number(self) -> u32 {
        self.block
    }

    pub(crate) fn resolve_alias(self, width: u8, values: &mut [u64]) -> u8 {
        let (b, i, v) = (self.book.bytes(), self.book.index(), values);
        unsafe {
            raw::gateway_resolve_alias_in(
                b.as_ptr(),
                b.len(),
                i.as_ptr(),
                i.len(),
                width,
                self.block,
                v.as_mut_ptr(),
                v.len(),
            )
        }
    }

    pub(crate) fn resolve_fields(self, width: u8, records: &mut [u32], values: &mut [u64]) -> u8 {
        let (b, i, v) = (self.book.bytes(), self.book.index(), values);
        unsafe {
            raw::gateway_resolve_fields_in(
                b.as_ptr(),
                b.len(),
                i.as_ptr(),
                i.len(),
                width,
                self.block,
                records.as_mut_ptr(),
                records.len(),
                v.as_mut_ptr(),
                v.len(),
            )
        }
    }

    pub(crate) fn resolve_indirection(self, width: u8, values: &mut [u64]) -> u8 {
        let (b, i, v) = (self.book.bytes(), self.book.index(), values);
        unsafe {
            raw::gateway_resolve_indirection_in(
                b.as_ptr(),
                b.len(),
                i.as_ptr(),
                i.len(),
                width,
                self.block,
                v.as_mut_ptr(),
                v.len(),
            )
        }
    }

    pub(crate) fn requires_read_modify_write(self, width: u8, scratch: &mut [u32], values: &mut [u64]) -> u8 {
        let (b, i, v) = (self.book.bytes(), self.book.index(), values);
        unsafe {
            raw::gateway_requires_read_modify_write_in(
                b.as_ptr(),
                b.len(),
                i.as_ptr(),
                i.len(),
                width,
                self.block,
                scratch.as_mut_ptr(),
                scratch.len(),
                v.as_mut_ptr(),
                v.len(),
            )
        }
    }

    pub(crate) fn missing_types(self, width: u8, scratch: &mut [u32], list: &mut [u32], values: &mut [u64]) -> u8 {
        let (b, i, v) = (self.book.bytes(), self.book.index(), values);
        unsafe {
            raw::gateway_missing_types_in(
                b.as_ptr(),
                b.len(),
                i.as_ptr(),
                i.len(),
                width,
                self.block,
                scratch.as_mut_ptr(),
                scratch.len(),
                list.as_mut_ptr(),
                list.len(),
                v.as_mut_ptr(),
                v.len(),
            )
        }
    }

    pub(crate) fn read(self, width: u8, memory: &[u8], tape: &mut [u8], text: &mut [u8], values: &mut [u64]) -> u8 {
        let (b, i, v) = (self.book.bytes(), self.book.index(), values);
        unsafe {
            raw::gateway_read_in(
                b.as_ptr(),
                b.len(),
                i.as_ptr(),
                i.len(),
                width,
                self.block,
                memory.as_ptr(),
                memory.len(),
                tape.as_mut_ptr(),
                tape.len(),
                text.as_mut_ptr(),
                text.len(),
                v.as_mut_ptr(),
                v.len(),
            )
        }
    }

    pub(crate) fn write(
        self,
        width: u8,
        image: &[u8],
        tape: &[u8],
        text: &[u8],
        output: &mut [u8],
        values: &mut [u64],
    ) -> u8 {
        let (b, i, v) = (self.book.bytes(), self.book.index(), values);
        unsafe {
            raw::gateway_write_in(
                b.as_ptr(),
                b.len(),
                i.as_ptr(),
                i.len(),
                width,
                self.block,
                image.as_ptr(),
                image.len(),
                tape.as_ptr(),
                tape.len(),
                text.as_ptr(),
                text.len(),
                output.as_mut_ptr(),
                output.len(),
                v.as_mut_ptr(),
                v.len(),
            )
        }
    }
}

#[cfg(test)]
mod tests {
    use super::*;
    use crate::TypeBuilder;
    use model::random::{Rng, made, memory};
    use std::collections::BTreeSet;

    /// Every answer of the forms for a checked book, and what they leave in the buffers.
    fn answers(t: TypeBlock, width: u8, memory: &[u8]) -> (Vec<u8>, Vec<u64>, Vec<u32>, Vec<u8>) {
        let mut v = vec![9; 9];
        let (mut scratch, mut list) = (vec![1; 8_192], vec![7; 4_096]);
        let (mut tape, mut text, mut output) = (vec![3; 24 * 300], vec![3; 2_000], vec![3; memory.len()]);
        let numbers = vec![
            t.resolve_alias(width, &mut v[..1]),
            t.resolve_indirection(width, &mut v[1..2]),
            t.requires_read_modify_write(width, &mut scratch, &mut v[2..3]),
            t.missing_types(width, &mut scratch, &mut list, &mut v[3..6]),
            t.read(width, memory, &mut tape, &mut text, &mut v[6..8]),
            t.requires_read_modify_write(width, &mut scratch[..8_191], &mut v[8..]),
            t.missing_types(width, &mut scratch, &mut list[..4_095], &mut v[8..]),
            t.write(width, memory, &tape[..24 * v[6] as usize], &text, &mut output, &mut [0]),
        ];
        (numbers, v, [scratch, list].concat(), [tape, text, output].concat())
    }

    /// An index of any length gives the same answers: without hints, with them, and with none but a slot or two.
    #[test]
    fn indexes_of_any_length_change_no_answer() {
        for seed in 0..400 {
            let rng = &mut Rng::new(seed);
            let made = made(rng);
            let memory = memory(rng, &made);
            let mut book = Checked::new(Cow::Borrowed(&made.book)).expect("valid");
            let told = answers(book.type_block(made.root).expect("a type"), made.width, &memory);
            let blocks = made.book.len() / 512;
            for len in [0, 1, 2, blocks, 3 * blocks - 1, 3 * blocks, 3 * blocks + 1, 10 * blocks] {
                let mut index = vec![0; len];
                total::fill_index(&book.bytes, &mut index);
                book.index = OnceLock::from(index);
                assert_eq!(
                    answers(book.type_block(made.root).expect("a type"), made.width, &memory),
                    told
                );
            }
        }
    }

    /// The last numbers of an index are one more than the type that each block's type name finds, or 0 where it finds none.
    #[test]
    fn hints_are_what_the_names_find() {
        for seed in 0..400 {
            let made = made(&mut Rng::new(seed));
            let checked = Checked::new(Cow::Borrowed(&made.book)).expect("valid");
            let model = model::Book::new(&made.book);
            let hints = &checked.index()[checked.index().len() - made.book.len() / 512..];
            for (b, &hint) in hints.iter().enumerate() {
                let found = model.find(model::block::type_name(&made.book, b as u32));
                assert_eq!(hint, found.map_or(0, |t| t + 1), "block {b} of {seed}");
            }
        }
    }

    /// Any index is allowed: an empty one, one of another book, one of random numbers, one whose hints all lead to one block.
    #[test]
    fn foreign_indexes_change_no_answer() {
        for seed in 0..400 {
            let rng = &mut Rng::new(seed);
            let made = made(rng);
            let memory = memory(rng, &made);
            let mut book = Checked::new(Cow::Borrowed(&made.book)).expect("valid");
            let told = answers(book.type_block(made.root).expect("a type"), made.width, &memory);
            assert_eq!((told.0[5], told.0[6], told.1[8]), (6, 6, 9));
            let blocks = book.bytes().len() as u64 / 512;
            for most in [1, 2, blocks + 3, u64::from(u32::MAX) + 1] {
                let len = rng.below(6 * blocks as usize + 3);
                book.index = OnceLock::from((0..len).map(|_| (rng.number() % most) as u32).collect::<Vec<_>>());
                assert_eq!(
                    answers(book.type_block(made.root).expect("a type"), made.width, &memory),
                    told
                );
            }
        }
    }

    /// While a book grows its index of the names is, number by number, the one that is made of the longer book, and it is seldom made anew.
    #[test]
    fn the_index_of_names_goes_on() {
        for fields in [0, 3] {
            let mut book = Checked::new(Cow::Borrowed(&[])).expect("valid");
            let mut lengths = BTreeSet::new();
            for n in 0..2_000 {
                let named = TypeBuilder::new(format!("T{n}"));
                let piece = (0..fields).fold(named, |t, _| t.field("x", "INT", 0, 2)).blocks();
                assert_eq!(book.append(&piece.expect("it fits")), Ok(()));
                let names = book.names.get().expect("made for the append");
                assert_eq!((names.types, names.held), (n + 1, n > 0));
                lengths.insert(names.numbers.len());
                if n > 0 {
                    assert_eq!(names.numbers, model::index::built(book.bytes(), names.numbers.len()));
                }
            }
            assert!(lengths.len() < 30, "{lengths:?}");
        }
    }

    /// More names of one place than there are tries: the index goes on no longer, and every answer is right.
    #[test]
    fn names_of_one_place() {
        let names = (0..)
            .map(|n| format!("T{n}"))
            .filter(|name| model::index::hash(name.as_bytes()) >> 20 == 7);
        let pieces: Vec<_> = names
            .take(150)
            .map(|name| TypeBuilder::new(name).blocks().expect("it fits"))
            .collect();
        let mut book = Checked::new(Cow::Borrowed(&[])).expect("valid");
        for (n, piece) in pieces.iter().enumerate() {
            assert_eq!(book.append(piece), Ok(()));
            assert_eq!(book.append(&pieces[n / 2]), Err(4));
            assert_eq!(book.append(piece), Err(4));
            let names = book.names.get().expect("made for the append");
            assert_eq!(names.held, total::index_holds(book.bytes(), &names.numbers), "{n}");
        }
        assert_eq!(book.names.get().map(|names| names.held), Some(false));
        assert_eq!(book.bytes(), pieces.concat());
    }
}
