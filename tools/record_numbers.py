#!/usr/bin/env python3
"""Records what type ids, byte order, integers and reals answer: the file numbers.

    python3 tools/record_numbers.py ORACLE FOLDER

ORACLE is the oracle's folder, built; FOLDER is crates/vectors/data.

Integers and reals are read and written by the Rust: reading through a subrange, whose value goes by its type id alone,
and through an enum without entries, which asks the integer reader and then answers 12. Type ids are the Rust's list in
type_id.rs, and byte order is that of its from_le_bytes and to_le_bytes.
"""

import struct
import sys
from random import Random

from answers import oracle
from case_file import *

SIGNED, UNSIGNED, SINGLE, DOUBLE = 7, 8, 9, 10
ORDER = [0, 2, 3, 4, 5, 16, 17, 18, 19, 20, 21, 30, 31, 32, 33, 34, 65]
OTHERS = [1, 6, 15, 22, 29, 35, 64, 66, 99, 255, 256, 0x10002, 0x80000010, 0xFFFFFFFF]
INTEGERS = {16: (1, True), 2: (2, True), 3: (4, True), 20: (8, True), 17: (1, False), 18: (2, False), 19: (4, False), 21: (8, False)}
REALS = {4: 4, 5: 8}


class Recorder:
    def __init__(self, folder):
        self.book, self.oracle = oracle(folder)

    def subrange(self, id, size):
        return self.book.Book([self.book.Type("T(0..1)", id=id, size=size)]).bytes()

    def read(self, id, data):
        """The words of the Rust's answer, of a subrange."""
        return self.oracle.ask("read", 8, self.subrange(id, len(data)), 0, data).split(" raw=")[0].split()

    def as_enum(self, id, data):
        """10, 11, or 12 where the integer reader gave a value."""
        kind = self.book.Type("E", id=id, size=len(data), flags=self.book.ENUM)
        words = self.oracle.ask("read", 8, self.book.Book([kind]).bytes(), 0, data).split()
        assert words[0] == "err", words
        return int(words[1])

    def write(self, id, size, value):
        """(number, bytes): what the Rust answers to a written value."""
        image = bytes([FILL]) * size
        words = self.oracle.ask("write", 8, self.subrange(id, size), 0, image, *self.book.tape_from_tree(value)).split()
        if words[0] == "ok":
            return 0, b"" if words[1] == "-" else bytes.fromhex(words[1])
        assert words[0] == "err", words
        return int(words[1]), image


def integer_read(rec, id, data):
    number = rec.as_enum(id, data)
    if number != 12:
        return bytes([number])
    words = rec.read(id, data)
    assert words[0] == "ok", words
    kind, value = words[1].split(":")
    width, value = int(kind[1:]) // 8, int(value)
    return bytes([0, SIGNED if kind[0] == "i" else UNSIGNED, width]) + u64(value % 2**64)


def real_read(rec, id, data):
    if id not in REALS:
        return bytes([11])
    words = rec.read(id, data)
    if words[0] == "err":
        return bytes([int(words[1])])
    kind, bits = words[1].split(":")
    return bytes([0, SINGLE if kind == "f32" else DOUBLE, 0]) + u64(int(bits, 16))


def patterns(rng, size):
    """Bytes of that size: all equal, one bit at either end, and others."""
    yield bytes(size)
    yield b"\xff" * size
    if size:
        yield bytes(size - 1) + b"\x80"
        yield b"\xff" * (size - 1) + b"\x7f"
        yield b"\x80" + bytes(size - 1)
        yield b"\x01" + bytes(size - 1)
        yield b"\x7f" + b"\xff" * (size - 1)
        yield bytes(range(1, size + 1))
        for _ in range(4):
            yield rng.randbytes(size)


def real_patterns(rng, size):
    top = {4: (8, 23), 8: (11, 52)}[size]
    exponent, fraction = top
    full = (1 << exponent) - 1
    for sign in (0, 1):
        for e in (0, 1, full // 2, full - 1, full):
            for f in (0, 1, (1 << fraction) - 1, 1 << (fraction - 1), (1 << (fraction - 1)) + 1, (1 << (fraction - 1)) - 1,
                      rng.getrandbits(fraction), rng.getrandbits(fraction)):
                yield (sign << (exponent + fraction) | e << fraction | f).to_bytes(size, "little")
    for _ in range(40):
        yield rng.randbytes(size)


def add_ids(file, rng):
    near = {n + d for n in ORDER + OTHERS for d in (-1, 0, 1)} | set(range(70)) | {rng.getrandbits(32) for _ in range(100)}
    for n in sorted(n for n in near if 0 <= n < 1 << 32):
        file.add(TYPE_ID, u32(n), bytes([ORDER.index(n) if n in ORDER else 17]) + u32(n))


def add_byte_order(file, rng):
    for size in range(13):
        for data in patterns(rng, size):
            file.add(LE_VALUE, data, u64(int.from_bytes(data[:8], "little")))
            file.add(LE_U32, data, u32(int.from_bytes(data[:4], "little")))
            value = int.from_bytes((data + bytes(8))[:8], "little")
            for room in range(11):
                out = u64(value)[:room] + bytes([FILL]) * (room - 8)
                file.add(LE_STORE, u64(value), out, room)


def integer_values(rng):
    """(kind, width, value): integers at the ends of every range, of each width that holds them."""
    values = {0, 1, -1}
    for bits in (8, 16, 32, 64):
        for end in (-(1 << bits - 1), (1 << bits - 1) - 1, (1 << bits) - 1):
            values |= {end - 1, end, end + 1}
        values |= {rng.getrandbits(bits), -rng.getrandbits(bits - 1)}
    for value in sorted(values):
        for width in (1, 2, 4, 8):
            if -(1 << 8 * width - 1) <= value < 1 << 8 * width - 1:
                yield SIGNED, width, value
            if 0 <= value < 1 << 8 * width:
                yield UNSIGNED, width, value


def add_integers(file, rec, rng):
    for id in ORDER + OTHERS:
        for size in range(10):
            for data in patterns(rng, size):
                file.add(INTEGER_READ, u32(id) + data, integer_read(rec, id, data))
    values = list(integer_values(rng))
    for id in ORDER + OTHERS:
        width = INTEGERS.get(id, (4, False))[0]
        few = values if id in INTEGERS else values[::17]
        for kind, w, value in few:
            sizes = {width, rng.randrange(10)} | ({0, width - 1, width + 1} if rng.random() < 0.1 else set())
            for size in sorted(sizes):
                number, out = rec.write(id, size, ("int" if kind == SIGNED else "nat", w, value))
                given = u32(id) + bytes([kind, w]) + u64(value % 2**64)
                file.add(INTEGER_WRITE, given, bytes([number]) + out, size)


def add_reals(file, rec, rng):
    for id in ORDER + OTHERS:
        for size in range(10):
            for data in patterns(rng, size):
                file.add(REAL_READ, u32(id) + data, real_read(rec, id, data))
    for id, size in REALS.items():
        for data in real_patterns(rng, size):
            file.add(REAL_READ, u32(id) + data, real_read(rec, id, data))
            bits = int.from_bytes(data, "little")
            for room in sorted({size, rng.randrange(10), 8, 4}):
                number, out = rec.write(id, room, ("f32" if size == 4 else "f64", bits))
                file.add(REAL_WRITE, bytes([SINGLE if size == 4 else DOUBLE]) + u64(bits), bytes([number]) + out, room)


def main():
    folder, out = sys.argv[1:3]
    rec, rng, file = Recorder(folder), Random(4), CaseFile()
    add_ids(file, rng)
    add_byte_order(file, rng)
    add_integers(file, rec, rng)
    add_reals(file, rec, rng)
    file.write(f"{out}/numbers")
    rec.oracle.close()


main()
