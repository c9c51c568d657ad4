/* The calls of libgateway.a, for C on x86-64 Linux. Each equals a proved call; docs/CONTRACTS.md says what is proved.
 *
 * Slices. A slice is a pointer and its number of elements. The pointer is not null and aligned for its elements, also where the number
 * is 0; then nothing is read or written through it. A slice that a call writes overlaps no other slice of that call. All slices are
 * lent for the call alone: nothing is kept.
 *
 * What is returned. Unless the comment says otherwise: 0, or the number of the refusal (document 01's table; 23 and 24 are document 02's):
 *    1 the book is not whole blocks of 512 bytes, over 65,536 blocks, or longer than its buffer
 *    2 a block's sum differs               3 a block's form                     4 two type blocks of one name
 *    5 the root is no type block           6 index, scratch or list too short   7 a type name that is not in the book
 *    8 a chain of aliases of 32 hops       9 a 4,097th name (read-modify-write and plans)
 *   10 a size    11 an id that cannot be read    12 an enum value without entry    13 a pointer's width is not 2, 4 or 8
 *   14 level 65                           15 tape, text, records or book buffer too short; a book that would pass 65,536 blocks
 *   16 the tape's form    17 a value that does not go with its type, or an array's count
 *   18 a field or entry name that the type does not have    19 an integer that does not fit
 *   23 a root's name that no type can have
 *   24 another type, a count or parts that the type cannot hold, or parts that name no moment (the two calls on times only)
 *
 * Values. `values` takes a call's numbers over its first elements, as many as fit; its other elements stay as before. With refusal 7
 * values[0] is the block whose type name is not in the book; any other refusal leaves `values` as before (but see gateway_plan_save and gateway_plan_save_named).
 * gateway_time_parts has seven numbers, no other call more than three: seven elements are enough for every call.
 *
 * The book. `buffer` holds a type book in its first `len` bytes; a `len` beyond the buffer is refused (1). `width` is the size of
 * the controller's pointers in bytes. `root` is a block's number, from 0 on; one that is no type block of the book is refused (5). A book
 * of 0 bytes is valid and has no type.
 *
 * The calls whose names end in _named take the root's name in place of its number. A name of over 200 bytes, or with a byte that is not
 * 20h to 7Eh, is refused with 23 in the place of 5. A name that the book lacks is refused with 7 where the call's walk begins, and values[0] is
 * then 4294967295, which is no block's number.
 *
 * The calls whose names end in _in are for many calls on one book and test neither book nor root. They may only be called with a
 * `book` for which gateway_check_book(book, book_len, book_len) returned 0, unchanged since, and a `root` for which gateway_is_type
 * returned 1. With any other book or root nothing is known of what they do. `index` may hold anything and may be empty; one that
 * gateway_fill_index or gateway_fill_names made of the book makes look-ups quick. The other calls take any bytes and any numbers.
 *
 * A call takes no memory but its stack: lend a thread 2 MiB. Measured with an older compiler, the most is 1,228 KiB, a write at 64 structs in one another (1,217
 * KiB at 63), and 829 KiB, a read at 64 arrays of one dimension in one another (826 KiB at 63). 512 KiB of each is the room for an index
 * of names, taken whatever the book's length: gateway_write_in and gateway_read_in, which have none, take 716 and 317 KiB there. A check
 * of a book and a plan take 257 KiB each.
 */
#ifndef GATEWAY_H
#define GATEWAY_H

#include <stddef.h>
#include <stdint.h>

#ifdef __cplusplus
extern "C" {
#endif

/* ---- which library this is */

/* The version that this header describes, and that of the library: two hexadecimal digits for each of three parts, as 0x000200 for
 * 0.2.0. */
#define GATEWAY_VERSION 0x000200
uint32_t gateway_version(void);

/* ---- texts: UTF-8 on one side, the controller's bytes on the other (WHATWG Encoding Standard) */

/* Decodes Windows-1252 bytes to UTF-8, into `out` from byte `at` on: all the bytes, zeros too. Returns the place after the text; `out`
 * then holds the text there, the rest as before. Returns 2^64 - 1 where the text does not fit; `out` is then as before. An empty text
 * fits at any place. */
uint64_t gateway_windows_1252_decode(const uint8_t *bytes, size_t bytes_len, uint8_t *out, size_t out_len, size_t at);

/* Encodes UTF-8 to Windows-1252, into `out` from its start on; a character that has no byte becomes a reference, as &#8734; and what is
 * not UTF-8 counts as U+FFFD. Returns the number of bytes; `out` then starts with them, the rest as before. Returns 2^64 - 1 where they
 * do not fit; `out` is then as before. */
uint64_t gateway_windows_1252_encode(const uint8_t *text, size_t text_len, uint8_t *out, size_t out_len);

/* Decodes UTF-16, low byte first, to UTF-8; an unpaired surrogate or an odd byte gives U+FFFD, and no byte order mark is looked for.
 * Otherwise as gateway_windows_1252_decode. */
uint64_t gateway_utf_16_decode(const uint8_t *bytes, size_t bytes_len, uint8_t *out, size_t out_len, size_t at);

/* Decodes UTF-8: each ill-formed part gives U+FFFD, as the standard's decoder has it, and no byte order mark is looked for. Otherwise as
 * gateway_windows_1252_decode. */
uint64_t gateway_utf_8_decode(const uint8_t *bytes, size_t bytes_len, uint8_t *out, size_t out_len, size_t at);

/* Encodes UTF-8 to UTF-16, low byte first; what is not UTF-8 counts as U+FFFD. Otherwise as gateway_windows_1252_encode. */
uint64_t gateway_utf_16_encode(const uint8_t *text, size_t text_len, uint8_t *out, size_t out_len);

/* Returns 1 where the text is well-formed UTF-8, else 0. */
uint8_t gateway_utf_8_well_formed(const uint8_t *text, size_t text_len);

/* ---- look-ups: any bytes are taken for a book */

/* Returns the first type block of that name, or 2^32 - 1 where the book has none. */
uint32_t gateway_find(const uint8_t *book, size_t book_len, const uint8_t *name, size_t name_len);

/* Returns a type block of that name, by an index of the book: the only one where the book is valid; or 2^32 - 1 where the book has
 * none. Any index gives a right answer, one of gateway_fill_index gives it quickly. */
uint32_t gateway_find_by(const uint8_t *book, size_t book_len, const uint32_t *index, size_t index_len, const uint8_t *name,
                         size_t name_len);

/* Builds an index of the names of the book's types into all of `index`, for gateway_requires_read_modify_write and gateway_missing_types, once
 * the book has passed its checks. Returns 0; or 1 to 4 of the book, or 6 where `index` has fewer than 16,384 elements: `index` is then as
 * before. Each type block takes, in the book's order, the first free of 64 slots from its name's place on; an element is 0 or one more than a
 * type block's number. An index of another book may cost time and alters no answer. */
uint8_t gateway_build_index(const uint8_t *buffer, size_t buffer_len, size_t len, uint32_t *index, size_t index_len);

/* Fills `index` with the names of the book's types: each element is 0, or one more than a type block's number. Four elements for each
 * type serve well; 16,384 do for any book of 4,096 types. For a call or two. */
void gateway_fill_names(const uint8_t *book, size_t book_len, uint32_t *index, size_t index_len);

/* The same, and the type that each block names, which makes the walks of a checked book quick: one element for each block, at the end
 * of the index. They are left out where the index has fewer than three elements for each block. Two elements for each block or four for
 * each type, whichever is more, and one more for each block serve well. */
void gateway_fill_index(const uint8_t *book, size_t book_len, uint32_t *index, size_t index_len);

/* ---- the book */

/* Returns 0 where the first `len` bytes of the buffer are a valid book, else 1 to 4. */
uint8_t gateway_check_book(const uint8_t *buffer, size_t buffer_len, size_t len);

/* Returns 1 where that block of the book is a type block, else 0 (also past the book's end). Any bytes are taken for a book. */
uint8_t gateway_is_type(const uint8_t *book, size_t book_len, uint32_t block);

/* Returns 0. values: the offset of the block's name in the book, and its length in bytes. Any bytes are taken for a book: offset and
 * length never lead past its end, and past it the length is 0. */
uint8_t gateway_name(const uint8_t *book, size_t book_len, uint32_t block, uint64_t *values, size_t values_len);

/* The same for the block's type name. */
uint8_t gateway_type_name(const uint8_t *book, size_t book_len, uint32_t block, uint64_t *values, size_t values_len);

/* Returns 0. values: the block's category: 0 none, 1 primitive, 2 alias, 3 enum, 4 array, 5 struct, 6 function block, 7 program,
 * 8 function, 9 subrange, 10 string, 11 bitset, 12 pointer, 13 union, 14 reference, 15 interface. Any bytes are taken for a book. */
uint8_t gateway_determine(const uint8_t *book, size_t book_len, uint8_t width, uint32_t block, uint64_t *values, size_t values_len);

/* A count of time of the type of that name (TOD, TIME_OF_DAY, DATE, DT, DATE_AND_TIME, LDATE, LDT, LTOD).
 * 0: values: year, month, day, hour, minute, second, nanosecond; a time of day has 0 for the first three.
 * 24: another type (TIME and LTIME too), or a count that the type doesn't have. */
uint8_t gateway_time_parts(const uint8_t *name, size_t name_len, uint64_t count, uint64_t *values, size_t values_len);

/* The same back: parts has the seven numbers in that order, one that it doesn't have is 0.
 * 0: values: the count. 24: another type, or parts that name no moment that the type can hold. */
uint8_t gateway_time_count(const uint8_t *name, size_t name_len, const uint32_t *parts, size_t parts_len, uint64_t *values,
                           size_t values_len);

/* Appends one whole type (its block, its fields, its entries) to the book.
 * 0: values: the book's new length; the buffer holds the book, the piece after it, and then its bytes as before.
 * 1 to 3: the book's, then the piece's (3 also where it is not one whole type); 4: the book's, or its name is in the book; 15: no room in
 * the buffer, or over 65,536 blocks. A refusal leaves the buffer as before. */
uint8_t gateway_append(uint8_t *buffer, size_t buffer_len, size_t len, const uint8_t *piece, size_t piece_len, uint64_t *values,
                       size_t values_len);

/* 1 where the index leads to every type of the book, whatever both hold, else 0. */
uint8_t gateway_index_holds(const uint8_t *book, size_t book_len, const uint32_t *index, size_t index_len);

/* The same as gateway_append without a check of the book and without a search of it, for many types one after the other: the name is looked
 * up by an index of the book's names, and the new type is put into it. It may only be called where
 * gateway_check_book(buffer, buffer_len, len) would return 0, and with held = 1 only where gateway_index_holds(buffer, len, index, index_len)
 * would return 1. With another `held` the index may hold anything, stays as it is, and the book is searched for a name to which it does not
 * lead.
 * 0: values: the book's new length, and 1 where the index leads to every type of the longer book, else 0. So they are the `len` and the
 * `held` of the next call; the longer book is valid. A refusal leaves buffer and index as before.
 * An index that gateway_fill_names made goes on so while it has fewer than three numbers for each block of the book before the call, and one
 * of 64 slots is free for the name: two numbers a type or more serve well. Else it stays as it is, and a longer one can be made. */
uint8_t gateway_append_in(uint8_t *buffer, size_t buffer_len, size_t len, const uint8_t *piece, size_t piece_len, uint32_t *index,
                          size_t index_len, uint8_t held, uint64_t *values, size_t values_len);

/* ---- aliases, references, fields */

/* 0: values: the block that the root comes to with its aliases resolved. Else 1 to 5, 7, 8. */
uint8_t gateway_resolve_alias(const uint8_t *buffer, size_t buffer_len, size_t len, uint8_t width, uint64_t root, uint64_t *values,
                              size_t values_len);

/* gateway_resolve_alias by a name: 0, 1 to 4, 7, 8, 23. */
uint8_t gateway_resolve_alias_named(const uint8_t *buffer, size_t buffer_len, size_t len, uint8_t width, const uint8_t *name,
                                    size_t name_len, uint64_t *values, size_t values_len);

/* The same with aliases and references resolved. */
uint8_t gateway_resolve_indirection(const uint8_t *buffer, size_t buffer_len, size_t len, uint8_t width, uint64_t root,
                                    uint64_t *values, size_t values_len);

/* gateway_resolve_indirection by a name. */
uint8_t gateway_resolve_indirection_named(const uint8_t *buffer, size_t buffer_len, size_t len, uint8_t width,
                                          const uint8_t *name, size_t name_len, uint64_t *values, size_t values_len);

/* 0: values: the number of fields of the root block itself; `records` starts with four numbers for each field, in order (its offset, its
 * size, the block of its type with aliases resolved, its own block), the rest as before.
 * Else 1 to 5, 7, 8, or 15 where the records do not fit; `records` is then as before. */
uint8_t gateway_resolve_fields(const uint8_t *buffer, size_t buffer_len, size_t len, uint8_t width, uint64_t root, uint32_t *records,
                               size_t records_len, uint64_t *values, size_t values_len);

/* gateway_resolve_fields by a name: 0, 1 to 4, 7, 8, 15, 23; a name that the book lacks is 7 whatever the room. */
uint8_t gateway_resolve_fields_named(const uint8_t *buffer, size_t buffer_len, size_t len, uint8_t width, const uint8_t *name,
                                     size_t name_len, uint32_t *records, size_t records_len, uint64_t *values,
                                     size_t values_len);

/* gateway_resolve_fields in a checked book: 0, 7, 8 or 15. */
uint8_t gateway_resolve_fields_in(const uint8_t *book, size_t book_len, const uint32_t *index, size_t index_len, uint8_t width,
                                  uint32_t root, uint32_t *records, size_t records_len, uint64_t *values, size_t values_len);

/* gateway_resolve_alias in a checked book: 0, 7 or 8. The block of values is a type block. */
uint8_t gateway_resolve_alias_in(const uint8_t *book, size_t book_len, const uint32_t *index, size_t index_len, uint8_t width,
                                 uint32_t root, uint64_t *values, size_t values_len);

/* gateway_resolve_indirection in a checked book: 0, 7 or 8. The block of values is a type block. */
uint8_t gateway_resolve_indirection_in(const uint8_t *book, size_t book_len, const uint32_t *index, size_t index_len, uint8_t width,
                                       uint32_t root, uint64_t *values, size_t values_len);

/* ---- the walk of the types that a type is made of: 16,384 numbers of an index, 8,192 of scratch, 4,096 of a list. The index is one that
 * gateway_build_index made of the book; any other gives the same answers, later */

/* 0: values: 1 where the memory of a value of the root's type must be read, changed and written back, else 0.
 * Else 1 to 6, 7, 8, 9. Scratch: as before after 1 to 6, else all zero. */
uint8_t gateway_requires_read_modify_write(const uint8_t *buffer, size_t buffer_len, size_t len, const uint32_t *index, size_t index_len,
                                           uint8_t width, uint64_t root, uint32_t *scratch, size_t scratch_len, uint64_t *values,
                                           size_t values_len);

/* gateway_requires_read_modify_write by a name: 0, 1 to 4, 6 to 9, 23. Scratch: as before after 1 to 6 and 23, else all zero. */
uint8_t gateway_requires_read_modify_write_named(const uint8_t *buffer, size_t buffer_len, size_t len, const uint32_t *index,
                                                 size_t index_len, uint8_t width, const uint8_t *name, size_t name_len,
                                                 uint32_t *scratch, size_t scratch_len, uint64_t *values, size_t values_len);

/* 0: values: how many types that the root is made of are not in the book, 1 where the walk is whole (else 0), and how many distinct
 * names were met. `list` starts with the blocks that name the missing types, in the order found, the rest as before; scratch all zero.
 * Else 1 to 6; scratch and list are then as before. */
uint8_t gateway_missing_types(const uint8_t *buffer, size_t buffer_len, size_t len, const uint32_t *index, size_t index_len, uint8_t width,
                              uint64_t root, uint32_t *scratch, size_t scratch_len, uint32_t *list, size_t list_len, uint64_t *values,
                              size_t values_len);

/* gateway_missing_types by a name: 0, 1 to 4, 6, 23. Of a name that the book lacks: 0, one number is listed, 4294967295, which stands for that
 * name, the walk is whole, one name was met. */
uint8_t gateway_missing_types_named(const uint8_t *buffer, size_t buffer_len, size_t len, const uint32_t *index,
                                    size_t index_len, uint8_t width, const uint8_t *name, size_t name_len, uint32_t *scratch,
                                    size_t scratch_len, uint32_t *list, size_t list_len, uint64_t *values, size_t values_len);

/* gateway_requires_read_modify_write in a checked book: 0, 6, 7, 8, 9. Scratch: as before after 6, else all zero. */
uint8_t gateway_requires_read_modify_write_in(const uint8_t *book, size_t book_len, const uint32_t *index, size_t index_len,
                                              uint8_t width, uint32_t root, uint32_t *scratch, size_t scratch_len, uint64_t *values, size_t values_len);

/* gateway_missing_types in a checked book: 0 or 6; after 6 scratch and list are as before. */
uint8_t gateway_missing_types_in(const uint8_t *book, size_t book_len, const uint32_t *index, size_t index_len,
                                 uint8_t width, uint32_t root, uint32_t *scratch, size_t scratch_len, uint32_t *list, size_t list_len, uint64_t *values, size_t values_len);

/* ---- the plan of a save: one call for all asks and adds */

/* Completes our book (in `buffer`) for a save of the root: adds, from the controller's book in the first `theirs` bytes of `controller`,
 * every type that the root is made of and our book lacks, until none lacks; then decides. 8,192 numbers of scratch; the index may have any
 * length and hold anything, eight elements for each type of both books serve well. `len` + `theirs` bytes of buffer always have the room;
 * 15 then comes only where our book would pass 65,536 blocks.
 * 0: values: 1 where the memory must be read, changed and written back, else 0; the new length of our book.
 * Else 1 to 5 of our book and the root, 1 to 4 of the controller's book, 6; then 7 (a type that neither book has: values: the block of our
 * book, as it is then, whose type name is not found; the length), 8, 9, 15. Unlike in the other calls values[0] is the length of our book
 * with every refusal but 7. No refusal means "no".
 * 1 to 6 leave buffer, scratch and index as before. Else the buffer holds our book, then the definitions that were added, up to the new
 * length (a valid book, after 7, 8, 9 and 15 too), then its bytes as before; scratch and index are all zero. */
uint8_t gateway_plan_save(uint8_t *buffer, size_t buffer_len, size_t len, const uint8_t *controller, size_t controller_len, size_t theirs,
                          uint8_t width, uint64_t root, uint32_t *scratch, size_t scratch_len, uint32_t *index, size_t index_len,
                          uint64_t *values, size_t values_len);

/* gateway_plan_save by the root's name, which our book may lack, as a book of 0 bytes does: the root too is added from the controller's
 * book then, as the first block after ours. So a plan may begin from nothing. 0, 1 to 4 of our book, 23, 1 to 4 of the controller's book,
 * 6, 7 to 9, 15. If neither book has the name: 7 with 4,294,967,295 and the length, and our book as it was. Values and buffers as above; 23
 * too leaves buffer, scratch and index as before. */
uint8_t gateway_plan_save_named(uint8_t *buffer, size_t buffer_len, size_t len, const uint8_t *controller, size_t controller_len,
                                size_t theirs, uint8_t width, const uint8_t *name, size_t name_len, uint32_t *scratch, size_t scratch_len,
                                uint32_t *index, size_t index_len, uint64_t *values, size_t values_len);

/* ---- read */

/* Reads the memory by the root's type.
 * 0: values: the number of records and of text bytes; `tape` starts with the records of 24 bytes, `text` with the text bytes, the rest of
 * each as before. Else 1 to 5, 7, 8, 10 to 15; tape and text are then all zero. Byte 1 of a text's record is 1 if a terminator was
 * found in its bytes, 0 if not: then the controller may have clipped it. Bytes 4 to 7 of a value's record are the block of its type as
 * it was named, before aliases; those of ends and keys are 0. */
uint8_t gateway_read(const uint8_t *buffer, size_t buffer_len, size_t len, uint8_t width, uint64_t root, const uint8_t *memory,
                     size_t memory_len, uint8_t *tape, size_t tape_len, uint8_t *text, size_t text_len, uint64_t *values,
                     size_t values_len);

/* gateway_read by a name: 0, 1 to 4, 7, 8, 10 to 15, 23. */
uint8_t gateway_read_named(const uint8_t *buffer, size_t buffer_len, size_t len, uint8_t width, const uint8_t *name,
                           size_t name_len, const uint8_t *memory, size_t memory_len, uint8_t *tape, size_t tape_len,
                           uint8_t *text, size_t text_len, uint64_t *values, size_t values_len);

/* The same in a checked book: 0, 7, 8, 10 to 15. */
uint8_t gateway_read_in(const uint8_t *book, size_t book_len, const uint32_t *index, size_t index_len, uint8_t width, uint32_t root,
                        const uint8_t *memory, size_t memory_len, uint8_t *tape, size_t tape_len, uint8_t *text, size_t text_len,
                        uint64_t *values, size_t values_len);

/* ---- write */

/* Writes a tape with its text over a memory's image, by the root's type, into `output`; fields that the tape does not name keep the
 * image's bytes. What `output` holds before does not matter. Byte 1 of a text is 0 or 1, bytes
 * 4 to 7 of a value any type block: they make no difference.
 * 0: `output`, as long as the image, holds the new bytes; nothing is laid over `values`.
 * Else, in this order: 1 to 5; 10 where output and image are not of one length; 16 where the tape has not its form; then in the order
 * of the walk 7, 8, 10, 13, 17, 18, 19. After any refusal, 1 to 5 too, an output as long as the image equals the image, one of another
 * length is as before. */
uint8_t gateway_write(const uint8_t *buffer, size_t buffer_len, size_t len, uint8_t width, uint64_t root, const uint8_t *image,
                      size_t image_len, const uint8_t *tape, size_t tape_len, const uint8_t *text, size_t text_len, uint8_t *output,
                      size_t output_len, uint64_t *values, size_t values_len);

/* gateway_write by a name: 0, 1 to 4 and 23, then 10 and 16, then those of the walk, 7 first for a name that the book lacks. */
uint8_t gateway_write_named(const uint8_t *buffer, size_t buffer_len, size_t len, uint8_t width, const uint8_t *name,
                            size_t name_len, const uint8_t *image, size_t image_len, const uint8_t *tape, size_t tape_len,
                            const uint8_t *text, size_t text_len, uint8_t *output, size_t output_len, uint64_t *values,
                            size_t values_len);

/* The same in a checked book: 0, 7, 8, 10, 13, 16 to 19. */
uint8_t gateway_write_in(const uint8_t *book, size_t book_len, const uint32_t *index, size_t index_len, uint8_t width, uint32_t root,
                         const uint8_t *image, size_t image_len, const uint8_t *tape, size_t tape_len, const uint8_t *text,
                         size_t text_len, uint8_t *output, size_t output_len, uint64_t *values, size_t values_len);

#ifdef __cplusplus
}
#endif

#endif
