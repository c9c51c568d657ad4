#!/usr/bin/env python3
"""Records what Windows-1252, UTF-16 and UTF-8 answer: the files windows-1252, utf-16 and utf-8.

    python3 tools/record_encodings.py ORACLE ASK FOLDER

ORACLE is the oracle's folder, built; ASK the program of tools/encoding_rs; FOLDER is crates/vectors/data.

Texts are decoded by the Rust's own read of a STRING or WSTRING. The Rust looks for byte order marks and the port does
not, so a text that opens with one, and bytes with a zero inside, are decoded by encoding_rs's plain decoder; where both
can be asked they must agree. Texts are encoded by the Rust's own write. Where a text ends, and which buffers are too
short, is document 01's; UTF-8's ill-formed parts are Python's (its decoder follows the Unicode Standard's table 3-7, an
ill-formed part for each maximal subpart), and must agree with encoding_rs's.
"""

import codecs
import itertools
import sys
from random import Random

from answers import Encodings, opens_with_mark, oracle
from case_file import *

BOUNDARIES = [0, 1, 0x26, 0x7E, 0x7F, 0x80, 0x81, 0x8D, 0x9F, 0xA0, 0xFE, 0xFF, 0x100, 0x7FE, 0x7FF, 0x800, 0x801, 0xFFF,
              0x1000, 0xCFFF, 0xD000, 0xD7FE, 0xD7FF, 0xE000, 0xE001, 0xFEFF, 0xFFFD, 0xFFFE, 0xFFFF, 0x10000, 0x10001,
              0x103FF, 0x10400, 0x1F600, 0x3FFFF, 0x40000, 0xFFFFF, 0x100000, 0x10FFFE, 0x10FFFF]
DECIMAL = [99, 100, 999, 1000, 9999, 10000, 99999, 100000, 999999, 1000000]
NO_SCALARS = [0xD800, 0xDABC, 0xDBFF, 0xDC00, 0xDFFF, 0x110000, 0x110001, 0x1FFFFF, 0x200000, 0x7FFFFFFF, 0xFFFFFFFF]


def scalar(n):
    return n < 0xD800 or 0xE000 <= n < 0x110000


class Recorder:
    def __init__(self, oracle_folder, ask):
        self.book, self.oracle = oracle(oracle_folder)
        self.encodings = Encodings(ask)

    def read(self, data, wide):
        """The text that the Rust reads from a STRING or WSTRING, in UTF-8."""
        kind = self.book.WSTRING if wide else self.book.STRING
        book = self.book.Book([self.book.Type("T", id=kind, size=len(data))]).bytes()
        answer = self.oracle.ask("read", 8, book, 0, data)
        assert answer.startswith("ok str:"), answer
        return bytes.fromhex(answer[7:])

    def write(self, text, wide):
        """What the Rust writes for a text (a str), without its end."""
        end = 2 if wide else 1
        kind = self.book.WSTRING if wide else self.book.STRING
        size = 10 * len(text) + end
        book = self.book.Book([self.book.Type("T", id=kind, size=size)]).bytes()
        tape = self.book.tape_from_tree(("text", text))
        answer = self.oracle.ask("write", 8, book, 0, bytes([FILL]) * size, *tape)
        assert answer.startswith("ok "), answer
        raw = bytes.fromhex(answer[3:])
        length = len(self.encodings.encode(text.encode())) if not wide else 2 * len(text.encode("utf-16-le")) // 2
        assert not any(raw[length:])
        return raw[:length]

    def decoded(self, data, wide):
        plain = self.encodings.text("utf-16le" if wide else "windows-1252", data)
        ends = string_end(data, wide)[1] < len(data)
        if not ends and not opens_with_mark(data):
            assert self.read(data, wide) == plain, data.hex()
        return plain

    def encoded(self, text, wide):
        """A text's bytes; an ill-formed text (bytes) counts with its parts replaced."""
        good = text.decode("utf-8", "replace")
        return self.write(good, wide)


def string_end(data, wide):
    """(whether a terminator was found, where the text ends)."""
    if not wide:
        at = data.find(0)
        return (1, at) if at >= 0 else (0, len(data))
    for i in range(0, len(data) - 1, 2):
        if data[i:i + 2] == b"\0\0":
            return (1, i)
    return (0, len(data))


def add_end(file, data, wide):
    found, at = string_end(data, wide)
    file.add(WSTRING_END if wide else STRING_END, data, bytes([found]) + u32(at))


def add_decoded(file, rec, data, wide, places):
    text = rec.decoded(data, wide)
    n = len(text)
    for room in sorted({0, max(0, n - 1), n, n + 1, 65535} if places > 1 else {n}):
        file.add(WDECODED_LEN if wide else DECODED_LEN, u16(room) + data, room_answer(n, room))
    fits = [(0, n), (0, max(0, n - 1)), (3, n + 3), (3, n + 2), (2, n + 7), (n + 9, n + 8), (7, 6), (1, 0)]
    for place, room in fits[:places]:
        file.add(WDECODE if wide else DECODE, u16(place) + data, lent_answer(text, place, room), room)


def add_encoded(file, rec, text, wide, rooms):
    data = rec.encoded(text, wide)
    n = len(data)
    for room in sorted({0, max(0, n - 1), n, n + 1, 65535} if rooms > 1 else {n}):
        file.add(WENCODED_LEN if wide else ENCODED_LEN, u16(room) + text, room_answer(n, room))
    for room in [n, max(0, n - 1), n + 3, 0][:rooms]:
        file.add(WENCODE if wide else ENCODE, text, lent_answer(data, 0, room), room)


def texts(rng):
    """Texts in UTF-8, well-formed and not, to be encoded."""
    table = [bytes([b]).decode("cp1252", "replace") for b in range(128, 256)]
    near = sorted({n for c in table for n in (ord(c) - 1, ord(c), ord(c) + 1)} | set(DECIMAL) | set(BOUNDARIES))
    for n in near + list(range(256)):
        if scalar(n):
            yield chr(n).encode()
    for _ in range(150):
        yield chr(rng.choice([n for n in (rng.randrange(0x800), rng.randrange(0x10000), rng.randrange(0x110000))
                              if scalar(n)] or [65])).encode()
    pool = [chr(n) for n in BOUNDARIES if scalar(n)] + table + list("abcXYZ 019&#;")
    for _ in range(250):
        yield "".join(rng.choice(pool) for _ in range(rng.randrange(12))).encode()
    for _ in range(150):
        raw = bytearray("".join(rng.choice(pool) for _ in range(rng.randrange(1, 8))).encode())
        raw[rng.randrange(len(raw))] = rng.randrange(256)
        yield bytes(raw)
    yield b""
    yield ("abcdefgh" * 300).encode()
    yield ("Stra\u00dfe \u20ac \u0416 \U0001f600 " * 60).encode()


def windows_1252(rec, rng):
    file = CaseFile()
    for b in range(256):
        code = rec.encodings.text("windows-1252", bytes([b])).decode()
        file.add(CODE_POINT, bytes([b]), u32(ord(code)))
        file.add(BYTE_OF, u32(ord(code)), bytes([1, b]))
        if b:
            assert rec.read(bytes([b]), False) == code.encode()
            assert rec.write(code, False) == bytes([b])
    near = {n + d for n in BOUNDARIES + DECIMAL + list(range(0x80, 0xA0)) for d in (-1, 0, 1)}
    near |= {ord(bytes([b]).decode("cp1252", "replace")) + d for b in range(128, 160) for d in (-1, 0, 1)}
    near |= {rng.randrange(0x110000) for _ in range(200)} | set(NO_SCALARS)
    for n in sorted(n for n in near if n >= 0):
        data = rec.encoded(chr(n).encode(), False) if scalar(n) else b"&"
        single = len(data) == 1 and (n == 0x26 or data != b"&")
        file.add(BYTE_OF, u32(n), bytes([1, data[0]]) if single else b"\0")
    inputs = [bytes([b]) for b in range(256)] + [b"", bytes(range(256)), bytes(range(1, 256)), bytes(range(255, 0, -1))]
    inputs += [b"\xef\xbb\xbfA", b"\xff\xfeA", b"\xfe\xffA", b"a\0b", b"\0", b"\0\0", b"abc\0"]
    for _ in range(300):
        n = rng.randrange(1, 30)
        inputs.append(rng.randbytes(n))
        inputs.append(bytes(rng.choice(b"abcXYZ 019\x7f\x80\x81\x8d\x99\x9f\xa0\xe4\xff") for _ in range(n)))
    inputs += [b"plain ASCII text, " * 150, bytes(rng.choice(b"abc\x80\xe4") for _ in range(1500))]
    for data in inputs:
        add_end(file, data, False)
        add_decoded(file, rec, data, False, 8 if len(data) < 5 else 4 if len(data) < 300 else 1)
    for text in texts(rng):
        add_encoded(file, rec, text, False, 4 if len(text) < 300 else 1)
    return file


UNITS = [0x0041, 0x00E9, 0x07FF, 0x20AC, 0xD7FF, 0xD800, 0xD83D, 0xDBFF, 0xDC00, 0xDE00, 0xDFFF, 0xE000, 0xFEFF, 0xFFFF]
FEW = [0x0041, 0x20AC, 0xD800, 0xDBFF, 0xDC00, 0xDFFF, 0xFFFF]
TAILS = [b"", b"\x41", b"\x00", b"\xd8", b"\xdc"]


def units(*us):
    return b"".join(u16(u) for u in us)


def utf_16(rec, rng):
    file = CaseFile()
    inputs = [t for t in TAILS]
    inputs += [units(u) + t for u in UNITS for t in TAILS]
    inputs += [units(*us) + t for us in itertools.product(UNITS, repeat=2) for t in TAILS]
    inputs += [units(*us) + t for us in itertools.product(FEW, repeat=3) for t in TAILS]
    ends = [units(0x41, 0, 0x42), b"\x41\0\0\0\x42", b"\x41\0\0\x41\0\0", b"\0\0", b"\0\0\x41", b"\0", b"\x41", b"\0\x41\0\0",
            b"\x41\0\x3d\xd8\0\0", b"\xff\xfe\x41\0", b"\xfe\xff\0\x41", b"\xef\xbb\xbf\x41", b""]
    random = []
    for _ in range(300):
        random.append(b"".join(u16(rng.choice(UNITS + [0, rng.randrange(65536)])) for _ in range(rng.randrange(1, 12)))
                      + rng.choice(TAILS))
        random.append(rng.randbytes(rng.randrange(1, 24)))
    long = [b"".join(u16(rng.choice(UNITS)) for _ in range(500)), "plain text ".encode("utf-16-le") * 100]
    for data in inputs:
        add_decoded(file, rec, data, True, 2 if len(data) < 5 else 1)
    for data in ends + random + long:
        add_end(file, data, True)
        add_decoded(file, rec, data, True, 8 if len(data) < 5 else 4 if len(data) < 300 else 1)
    for text in texts(rng):
        add_encoded(file, rec, text, True, 4 if len(text) < 300 else 1)
    return file


LEADS = [0x00, 0x41, 0x7F, 0x80, 0x8F, 0x90, 0x9F, 0xA0, 0xBF, 0xC0, 0xC1, 0xC2, 0xDF, 0xE0, 0xE1, 0xEC, 0xED, 0xEE, 0xEF,
         0xF0, 0xF1, 0xF3, 0xF4, 0xF5, 0xF7, 0xF8, 0xFC, 0xFE, 0xFF]
SECOND = [0x00, 0x41, 0x7F, 0x80, 0x8F, 0x90, 0x9F, 0xA0, 0xBF, 0xC0, 0xC2, 0xE2, 0xF0, 0xFF]
LATER = [0x41, 0x7F, 0x80, 0xBF, 0xC0, 0xE1]


def items(text):
    """(code point or none, place after) for each code point and each ill-formed part of a text."""
    parts = []

    def note(error):
        parts.append((error.start, error.end))
        return ("\ufffd", error.end)

    codecs.register_error("note", note)
    good = text.decode("utf-8", "note")
    out, at, bad = [], 0, dict(parts)
    for c in good:
        if at in bad:
            out.append((None, bad[at]))
            at = bad[at]
        else:
            at += len(c.encode())
            out.append((ord(c), at))
    assert at == len(text)
    return out


def add_text(file, rec, text):
    try:
        text.decode("utf-8")
        well = True
    except UnicodeDecodeError:
        well = False
    assert well == rec.encodings.valid(text)
    assert text.decode("utf-8", "replace").encode() == rec.encodings.text("utf-8", text)
    file.add(WELL_FORMED, text, bytes([well]))
    answer = b"".join((u32(0xFFFFFFFF) if code is None else u32(code)) + u32(at) for code, at in items(text))
    file.add(ITEMS, text, answer)


def utf_8(rec, rng):
    file = CaseFile()
    inputs = [b""] + [bytes([b]) for b in range(256)] + [bytes(p) for p in itertools.product(LEADS, SECOND)]
    inputs += [bytes(p) for p in itertools.product([b for b in LEADS if b >= 0xE0], SECOND, LATER)]
    inputs += [bytes(p) for p in itertools.product([b for b in LEADS if b >= 0xF0 and b < 0xF8], SECOND, LATER, LATER)]
    inputs += [b"A" + chr(n).encode() + b"B" for n in BOUNDARIES if scalar(n)]
    inputs += [b"\xef\xbb\xbfA", "Stra\u00dfe \u20ac \u0416 \U0001f600".encode() * 20, b"a" * 1000]
    for _ in range(400):
        inputs.append(rng.randbytes(rng.randrange(1, 12)))
        raw = bytearray("".join(chr(n) for n in rng.choices([n for n in BOUNDARIES if scalar(n)], k=rng.randrange(1, 6))).encode())
        raw[rng.randrange(len(raw))] ^= 1 << rng.randrange(8)
        inputs.append(bytes(raw))
    for text in inputs:
        add_text(file, rec, text)
    near = {n + d for n in BOUNDARIES + NO_SCALARS for d in (-1, 0, 1)} | {rng.randrange(0x120000) for _ in range(200)}
    for n in sorted(n for n in near if 0 <= n < 1 << 32):
        data = chr(n).encode() if scalar(n) else "\ufffd".encode()
        file.add(UTF8_LEN, u32(n), bytes([len(data)]))
        for place, room in ((0, len(data)), (0, len(data) - 1), (2, len(data) + 3), (5, 4), (4, 4)):
            file.add(PUT, u16(place) + u32(n), lent_answer(data, place, room), room)
    return file


def main():
    oracle_folder, ask, folder = sys.argv[1:4]
    rec = Recorder(oracle_folder, ask)
    windows_1252(rec, Random(1)).write(f"{folder}/windows-1252")
    utf_16(rec, Random(2)).write(f"{folder}/utf-16")
    utf_8(rec, Random(3)).write(f"{folder}/utf-8")
    rec.oracle.close()
    rec.encodings.close()


main()
