"""Writes files of recorded cases for the program `vectors`.

A file is a run of pages: 4 bytes, the page's length (at most 65,536), and that many bytes of whole cases.
Numbers are little-endian. A case:

    1 byte    operation
    2 bytes   length of the buffer that is lent to the call, 0 where it takes none; each byte of it is A5h before
    2 bytes   length of the input, and the input
    2 bytes   length of the recorded answer, and the answer

The program runs the operation on the input and compares what it answers with the recorded bytes. The operations of the
first layer, with their inputs and answers (u16, u32, u64: numbers; `lent`: all of the lent buffer after the call):

     1  enc_windows_1252::code_point       byte                        u32
     2  enc_windows_1252::byte_of          u32                         1 and the byte, or 0
     3  enc_windows_1252::string_end       bytes                       1 if a zero was found, else 0; u32 place
     4  enc_windows_1252_decoder::decoded_len u16 room, bytes             0, u64 length; or 15
     5  enc_windows_1252_decoder::decode   u16 place, bytes            0, u64 next place, lent; or 15, lent
     6  enc_windows_1252_encoder::encoded_len u16 room, text              0, u64 length; or 15
     7  enc_windows_1252_encoder::encode   text                        0, u64 length, lent; or 15, lent
     8  enc_utf_16::wstring_end            as 3
     9  enc_utf_16_decoder::decoded_len    as 4
    10  enc_utf_16_decoder::decode         as 5
    11  enc_utf_16_encoder::encoded_len    as 6
    12  enc_utf_16_encoder::encode         as 7
    13  enc_utf_8_decoder::well_formed     text                        1 or 0
    14  enc_utf_8_decoder::next            text                        from place 0 to the end: u32 code point, or FFFFFFFFh for
                                                                       an ill-formed part, and u32 place after it
    15  enc_utf_8_encoder::put             u16 place, u32 code point   0, u64 next place, lent; or 15, lent
    16  enc_utf_8_encoder::utf8_len        u32 code point              byte
    17  enc_utf_8_replacing::decode, pairs first byte                  u64 sum of the texts of the group that record_marked_strings.py names
    18  the same, leads                    first byte                  as 17
    19  the same, random                   u64 state                   as 17
20..22  read, pairs, leads, random        as 17 to 19                 as 17, by reads of the kept book's block 0
    32  AdsTypeId                          u32                         its place in the list of ids (Unknown: 17), u32 back
    33  le::le_value                       bytes                       u64
    34  le::le_u32                         bytes                       u32
    35  le::le_store                       u64                         lent
    36  integer, read                      u32 id, bytes               0, kind 7 or 8, width, u64 bits; or 10, 11
    37  integer, written                   u32 id, kind, width, u64    0, 10, 17 or 19, then lent
    38  real, read                         u32 id, bytes               0, kind 9 or 10, 0, u64 bits; or 10, 11
    39  real, written                      kind, u64 bits              0 or 10, then lent

The numbers 10, 11, 15, 17 and 19 are document 01's refusals, the kinds 7 to 10 those of its tape.

The operations on books. The program keeps one book from case to case, in a buffer of 4,718,592 bytes (9,216 blocks). `packed`
bytes have each run of 1 to 255 zeros as two bytes, 0 and its length, and every other byte as it is; in a book two zeros stand
for the rest of a block: zeros, and then the block's sum, which the program makes. A refusal is its number and, for 7, the u32
block. Lent tapes, texts and numbers hold A5h in every byte before the call; `kept` is 1 if what the call had no business with
is as before, and if all that it has to leave zero is zero (the walks' scratch; tape and text after a refusal), else 0:

    64  book                               u32 place, packed           the bytes go to the place, the book ends after them. u32 length
    65  check_root                         u64 root                    0 to 5
    66  check_book, a byte changed         u32 place, value, 0 or 1    0 to 4. The byte is changed, with 1 the block's sum is made
                                                                right, and after the check both are put back
    67  determine                          width, u32 block            the category's place in the Rust's list (None: 0)
    68  resolve_alias                      width, u32 root             0, u32 block; or a refusal
    69  resolve_indirection                width, u32 root             0, u32 block; or a refusal
    70  requires_read_modify_write         width, u32 root, u16        0, 1 or 0; or a refusal. Then kept (scratch)
                                    numbers of scratch
    71  missing_types                      width, u32 root, u16        0, whole (1 or 0), u32 count, the u32 blocks; or a refusal.
                                    numbers of scratch, u16 of  Then kept (list), kept (scratch)
                                    list
    72  resolve_fields                     width, u32 root, u16        0, for each field u32 offset, size, type block, field block;
                                    numbers of records          or a refusal. Then kept (records)
    73  read                               width, u32 root, u16 bytes  0, u32 records, u32 text bytes, the records packed, kept
                                    of tape, u16 of text room,  (tape), the text packed, kept (text); or a refusal, kept
                                    memory                      (tape), kept (text)
    74  write                              width, u32 root, u16 bytes  0 or a refusal, then lent (the output)
                                    of image, u16 of text,
                                    image, text, the tape packed
"""

import struct

PAGE = 65536
FILL = 0xA5

CODE_POINT, BYTE_OF, STRING_END, DECODED_LEN, DECODE, ENCODED_LEN, ENCODE = range(1, 8)
WSTRING_END, WDECODED_LEN, WDECODE, WENCODED_LEN, WENCODE = range(8, 13)
WELL_FORMED, ITEMS, PUT, UTF8_LEN = range(13, 17)
UTF_8_PAIRS, UTF_8_LEADS, UTF_8_RANDOM, READ_PAIRS, READ_LEADS, READ_RANDOM = range(17, 23)
TYPE_ID, LE_VALUE, LE_U32, LE_STORE, INTEGER_READ, INTEGER_WRITE, REAL_READ, REAL_WRITE = range(32, 40)
BOOK, CHECK, CHANGED, CATEGORY, ALIAS, INDIRECTION, RMW, MISSING, FIELDS, READ, WRITE = range(64, 75)


def u16(n):
    return struct.pack("<H", n)


def u32(n):
    return struct.pack("<I", n)


def u64(n):
    return struct.pack("<Q", n)


class CaseFile:
    def __init__(self):
        self.cases = []
        self.seen = set()

    def add(self, operation, given, answer, lent=0):
        case = struct.pack("<BHH", operation, lent, len(given)) + given + u16(len(answer)) + answer
        assert len(case) <= PAGE, (operation, len(given), len(answer))
        if case not in self.seen:
            self.seen.add(case)
            self.cases.append(case)

    def add_in_order(self, operation, given, answer, lent=0):
        """A case that leans on the one before it, and so is kept even if it was there."""
        case = struct.pack("<BHH", operation, lent, len(given)) + given + u16(len(answer)) + answer
        assert len(case) <= PAGE, (operation, len(given), len(answer))
        self.cases.append(case)

    def write(self, path):
        pages, page = [], []
        size = 0
        for case in self.cases:
            if size + len(case) > PAGE:
                pages.append(b"".join(page))
                page, size = [], 0
            page.append(case)
            size += len(case)
        if page:
            pages.append(b"".join(page))
        data = b"".join(u32(len(p)) + p for p in pages)
        with open(path, "wb") as f:
            f.write(data)
        print(f"{path}: {len(self.cases)} cases, {len(data)} bytes")


def lent_answer(data, place, room):
    """What a call answers that writes `data` at a place of a lent buffer: where it does not fit, 15 and the buffer as before."""
    before = bytes([FILL]) * room
    if not data:
        return b"\0" + u64(place) + before
    if place + len(data) > room:
        return b"\x0f" + before
    return b"\0" + u64(place + len(data)) + before[:place] + data + before[place + len(data):]


def room_answer(length, room):
    return b"\0" + u64(length) if length <= room else b"\x0f"


def packed(data):
    """Each run of 1 to 255 zeros as 0 and its length, every other byte as it is."""
    out, at = bytearray(), 0
    while at < len(data):
        if data[at]:
            end = data.find(0, at)
            end = len(data) if end < 0 else end
            out += data[at:end]
            at = end
        else:
            n = 1
            while n < 255 and data[at + n:at + n + 1] == b"\0":
                n += 1
            out += bytes([0, n])
            at += n
    return bytes(out)


def packed_book(data):
    """A book's blocks packed: where a block's end is zeros and a right sum, as two zeros."""
    out = bytearray()
    for at in range(0, len(data), 512):
        block = data[at:at + 512]
        if len(block) == 512 and block[508:] == u32(sum(block[:508])) and block[507] == 0:
            out += packed(block[:508].rstrip(b"\0")) + b"\0\0"
        else:
            out += packed(block)
    return bytes(out)
