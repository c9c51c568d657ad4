#!/usr/bin/env python3
"""Records what STRINGs in UTF-8 (change request 4) answer: the file marked-strings.

    sh tools/encoding_rs/build.sh DIR
    python3 tools/record_marked_strings.py ORACLE DIR/release/ask FOLDER

ORACLE is the oracle's folder, for its maker of books and its check of them; FOLDER is crates/vectors/data. Every seed is fixed, so the file comes out
the same. Nothing of the port is asked: the original doesn't know the mark, and a marked STRING's text is what encoding_rs's UTF-8 decoder makes of
its bytes without looking for a byte order mark. What is written, and which marks and rooms are refused, is documents 01's and 02's.

The decoder and the reader are held against it in groups, whose texts are recorded as one 64-bit FNV-1a sum, each text followed by FFh:

    pairs     every second byte after a first byte: 256 groups, 65,536 byte strings
    leads     a first byte from 80h on with every class of second and third byte, and of second, third and fourth: 128 groups
    random    a thousand byte strings of up to 39 bytes, drawn from a state on: 100 groups, 100,000 byte strings

The reader gets each as the start of a marked STRING of 40 bytes that are zeros after it, so that its text ends at the first zero.
"""

import itertools
import sys
from random import Random

from answers import Encodings, books, check
from case_file import *
from document_02 import completed

WIDTH, MARK, LONGEST = 8, 32, 40
SECOND = [0x41, 0x7F, 0x80, 0x8F, 0x90, 0x9F, 0xA0, 0xBF, 0xC0, 0xE2, 0xFF]
LATER = [0x41, 0x7F, 0x80, 0xBF, 0xC0, 0xF1]
POOL = [0x41, 0x7F, 0x80, 0x8F, 0x90, 0x9F, 0xA0, 0xBF, 0xC2, 0xDF, 0xE0, 0xE2, 0xED, 0xEF, 0xF0, 0xF3, 0xF4, 0xF5, 0xFF]
SCALARS = [0x41, 0x7F, 0x80, 0xE4, 0x7FF, 0x800, 0x20AC, 0xD7FF, 0xE000, 0xFEFF, 0xFFFD, 0x10000, 0x1F600, 0x10FFFF]


class Draw:
    """Numbers by a fixed sequence: the upper half of a state of 64 bits."""

    def __init__(self):
        self.state = 1

    def below(self, n):
        self.state = (self.state * 6364136223846793005 + 1442695040888963407) % (1 << 64)
        return (self.state >> 32) % n


def drawn(draw):
    plain = draw.below(2) == 0
    return bytes(draw.below(256) if plain else POOL[draw.below(len(POOL))] for _ in range(draw.below(40)))


def groups():
    """(the number of the group's kind, the case's input, the byte strings)."""
    for a in range(256):
        yield 0, bytes([a]), [bytes([a, b]) for b in range(256)]
    tails = [*itertools.product(SECOND, LATER), *itertools.product(SECOND, LATER, LATER)]
    for a in range(128, 256):
        yield 1, bytes([a]), [bytes([a, *tail]) for tail in tails]
    draw = Draw()
    for _ in range(100):
        yield 2, u64(draw.state), [drawn(draw) for _ in range(1000)]


def sum_of(texts):
    total = 0xCBF29CE484222325
    for text in texts:
        for byte in text + b"\xff":
            total = (total ^ byte) * 0x100000001B3 % (1 << 64)
    return u64(total)


def ended(data):
    return data.partition(b"\0")[0]


class Strings:
    def __init__(self, oracle_folder, ask):
        self.b = books(oracle_folder)
        self.encodings = Encodings(ask)
        self.file = CaseFile()

    def string(self, size, flags=MARK, name="S"):
        return self.b.Type(name, id=self.b.STRING, size=size, flags=flags)

    def book(self, types):
        data = self.b.Book(types).bytes()
        self.file.add_in_order(BOOK, u32(0) + packed_book(data), u32(len(data)))
        return data

    def text(self, data, marked=True):
        return self.encodings.text("utf-8" if marked else "windows-1252", ended(data))

    def groups(self):
        """The decoder over all groups, and then the reader."""
        reader = []
        for kind, given, inputs in groups():
            self.file.add(UTF_8_PAIRS + kind, given, sum_of(self.encodings.text("utf-8", data) for data in inputs))
            reader.append((READ_PAIRS + kind, given, sum_of(self.text(data) for data in inputs)))
        self.book([self.string(LONGEST)])
        for case in reader:
            self.file.add_in_order(*case)

    def read(self, data, memory, tree, short=0):
        """A read of block 0 that shows the tree, with just the room for it, or with a byte of text less: 15."""
        tape, text = self.b.tape_from_tree(tree)
        tape = completed(data, 0, memory, tape)
        answer = b"\0" + u32(len(tape) // 24) + u32(len(text)) + packed(tape) + b"\1" + packed(text) + b"\1"
        if short:
            answer = b"\x0f\1\1"
        given = bytes([WIDTH]) + u32(0) + u16(len(tape)) + u16(len(text) - short) + memory
        self.file.add_in_order(READ, given, answer)

    def leaf(self, data, marked):
        return ("text", self.text(data, marked).decode())

    def reads(self, draw):
        """Marked STRINGs of any length, with and without a zero; beside others, behind aliases, in arrays: only the type's own mark counts."""
        for _ in range(400):
            memory = drawn(draw)
            data, leaf = self.book([self.string(len(memory))]), self.leaf(memory, True)
            self.read(data, memory, leaf)
            if leaf[1]:
                self.read(data, memory, leaf, short=1)
        for mine, other, memory in itertools.product((0, MARK), (0, MARK), (b"\xc3\xa4\xe2\x82", b"\xc3\xa4A\0", b"A\0\xff\xf0")):
            alias = self.b.Type("A", "S", id=self.b.STRING, size=4, flags=mine)
            self.read(self.book([alias, self.string(4, other)]), memory, self.leaf(memory, other))
            array = self.b.Type("A", "S", id=self.b.STRING, size=4, flags=mine, dims=(2,))
            parts = [self.leaf(memory[:2], other), self.leaf(memory[2:], other)]
            self.read(self.book([array, self.string(2, other)]), memory, ("array", parts))
            fields = [self.b.Field("f", "S", 0, 2), self.b.Field("g", "T", 2, 2)]
            types = [self.b.Type("R", size=4, fields=fields), self.string(2, mine), self.string(2, other, "T")]
            parts = [(1, self.leaf(memory[:2], mine)), (2, self.leaf(memory[2:], other))]
            self.read(self.book(types), memory, ("map", parts))

    def write(self, size, text, written):
        """A write of a text to block 0, over FFh in each byte; 10 where the text and its zero are longer than the type."""
        image = b"\xff" * size
        tape, raw = self.b.tape_from_tree(("text", text))
        answer = b"\0" + written.ljust(size, b"\0") if len(written) < size else b"\x0a" + image
        self.file.add_in_order(WRITE, bytes([WIDTH]) + u32(0) + u16(size) + u16(len(raw)) + image + raw + packed(tape), answer, size)

    def writes(self, rng):
        """Texts about the length of their STRING. A text into an array goes by the array's own id and mark."""
        for _ in range(400):
            text = "".join(map(chr, rng.choices(SCALARS, k=rng.randrange(12))))
            size = max(0, len(text.encode()) + rng.randrange(-1, 4))
            self.book([self.string(size)])
            self.write(size, text, text.encode())
        for mine, other, dims in itertools.product((0, MARK), (0, MARK), ((), (2,))):
            named = self.b.Type("A", "S", id=self.b.STRING, size=4, flags=mine, dims=dims)
            self.book([named, self.string(2 if dims else 4, other)])
            self.write(4, "\u00e4", b"\xc3\xa4" if (mine if dims else other) else b"\xe4")

    def marks(self):
        """Byte 1 of each block with every value. The oracle's check is of document 01: it doesn't know the mark, which a type block with id 30 may have."""
        types = [self.b.Type("T", id=id, size=2) for id in (*self.b.IDS, 29, 30 + 256, 30 << 8)]
        types += [self.string(4), self.b.Type("A", "S", id=self.b.STRING, size=4, dims=(2,)),
                  self.b.Type("R", size=64, fields=[self.b.Field("f", "S", 30, 2)], entries=[self.b.Entry("e", bytes([30]))])]
        for t in types:
            data = self.book([t])
            for block, value in itertools.product(range(len(data) // 512), range(256)):
                known = value & ~MARK if block == 0 and t.id == self.b.STRING else value
                changed = bytearray(data)
                changed[512 * block + 1] = known
                changed[512 * block + 508:512 * block + 512] = u32(sum(changed[512 * block:512 * block + 508]))
                self.file.add_in_order(CHANGED, u32(512 * block + 1) + bytes([value, 1]), bytes([check(self.b, bytes(changed))]))


def main():
    oracle_folder, ask, folder = sys.argv[1:4]
    strings = Strings(oracle_folder, ask)
    strings.groups()
    strings.reads(Draw())
    strings.writes(Random(4))
    strings.marks()
    strings.file.write(f"{folder}/marked-strings")
    strings.encodings.close()


main()
