#!/usr/bin/env python3
"""Records what writes answer.

    python3 tools/record_writes.py ORACLE FOLDER

ORACLE is the oracle's folder, built; FOLDER is crates/vectors/data. Every seed is fixed, so the file comes out the same.

The answers are the Rust's (request writedoc: the root's aliases resolved first, a unit refused, as document 01 has it), for books that
are valid and tapes of the form. Document 01 alone gives the rest, the Rust having neither a tape nor two lent lengths: 16 (tools/tape_form.py),
10 for an output of another length than the image, 5, and what an output holds after a refusal. What document 02 adds to a tape is taken off it
before the Rust is asked: a write takes no notice of it. Left out are cases that document 01
decides otherwise than the Rust: a real into a pointer by the type's id, products of 2^64 or more.
"""

import struct
import sys
from random import Random

from case_file import *
from document_02 import plain
from record_books import ROOM, Recorder, add_book
from tape_form import formed, spoiled

# The longest image, text and tape that a case takes.
IMAGE, TEXTS, TAPES = 4096, 4096, 65520
REALS = (4, 5)


class Writes(Recorder):
    def __init__(self, folder):
        super().__init__(folder)
        self.file, self.told = CaseFile(), {}

    def by_document(self, made, data, root, image, tape, text, lent):
        """The refusals that stand before the walk."""
        if root >= len(data) // 512 or data[512 * root] != 1:
            return 5
        if lent != len(image):
            return 10
        return 0 if formed(data, tape, text) else 16

    def left_out(self, made, tape):
        """Whether a real may go into a pointer by its id: document 01 decides there."""
        pointers = [t for t in made.book.types if t.id in REALS
                    and self.b.category(t, made.width) in ("pointer", "reference", "interface")]
        return bool(pointers) and any(tape[i] in (9, 10) for i in range(0, len(tape), 24))

    def write(self, made, data, image, tape, text, root=None, lent=None):
        root = made.root if root is None else root
        lent = len(image) if lent is None else lent
        if len(image) > IMAGE or len(text) > TEXTS or len(tape) > TAPES:
            return
        number = self.by_document(made, data, root, image, tape, text, lent)
        output = image if lent == len(image) else bytes([FILL]) * lent
        if number:
            answer = bytes([number]) + output
        else:
            raw = self.oracle.ask("writedoc", made.width, data, root, image, plain(tape), text)
            if raw.startswith("panic") or self.left_out(made, tape):
                return
            assert not raw.startswith(("bad", "err ?")), raw
            words = raw.split(" raw=")[0].split()
            answer = self.answer(words, image)
            number = 0 if words[0] == "ok" else int(words[1])
        self.told[number] = self.told.get(number, 0) + 1
        given = bytes([made.width]) + u32(root) + u16(len(image)) + u16(len(text)) + image + text + packed(tape)
        self.file.add_in_order(WRITE, given, answer, lent)

    def answer(self, words, image):
        if words[0] == "ok":
            return b"\0" + (b"" if words[1] == "-" else bytes.fromhex(words[1]))
        number = int(words[1])
        return bytes([number]) + (u32(int(words[3])) if number == 7 else b"") + image

    def random_writes(self, count):
        """That many random books, each with an image and some tapes: along the root's type, changed, damaged."""
        b = self.b
        for rng, made in self.random(60000, count):
            data = made.book.bytes()
            image = b.gen_memory(rng, made)[:IMAGE]
            add_book(self.file, data)
            tree = b.gen_tree(rng, made, odd=rng.choice([0.0, 0.02, 0.1]))
            tape, text = b.tape_from_tree(tree)
            self.write(made, data, image, tape, text)
            changed = b.mutate(rng, tree, made.book, rng.choice([0.03, 0.2]))
            self.write(made, data, image, *b.tape_from_tree(changed))
            self.write(made, data, image, *spoiled(rng, tape, text))
            if rng.random() < 0.1:
                self.write(made, data, image, *b.tape_from_tree(b.gen_leaf(rng, made.book)))
            if rng.random() < 0.1:
                self.write(made, data, image, tape, text, lent=max(0, len(image) + rng.choice([-1, 1, 5])))
            if rng.random() < 0.05:
                self.write(made, data, image, tape, text, root=rng.choice([0, 1, len(data) // 512, 2**32 - 1]))
            if rng.random() < 0.1:
                shorter = image[:-1] if rng.random() < 0.5 else image + b"\7"
                self.write(made, data, shorter, tape, text)

    def made(self, types, width=8):
        """A book by hand, its root the first type."""
        b = self.b

        class Made:
            pass

        made = Made()
        made.book, made.width, made.root = b.Book(types), width, 0
        add_book(self.file, made.book.bytes())
        return made

    def by_hand(self):
        """Edges: every kind of leaf into every id and category, texts about their room, counts, names, chains, levels."""
        b = self.b
        T, F, E = b.Type, b.Field, b.Entry
        int16 = T("INT", id=b.INT16, size=2)
        ends = [-2**63, -2**31 - 1, -2**31, -32769, -32768, -129, -128, -1, 0, 127, 128, 255, 256, 32767, 32768, 65535, 65536,
                2**31 - 1, 2**31, 2**32 - 1, 2**32, 2**63 - 1]
        leaves = [("bool", 1), ("f32", 0x7FA00001), ("f64", 1), ("text", "e"), ("text", "x"), ("unit",), ("array", []), ("map", [])]
        leaves += [("int", 8, v) for v in ends] + [("nat", 8, v) for v in (0, 255, 256, 65536, 2**32, 2**63, 2**64 - 1)]
        for id in b.IDS:
            for name, flags, dims in (("T", 0, ()), ("P", b.POINTER, ()), ("R", b.REFERENCE, ()), ("A", 0, (1,)), ("E", b.ENUM, ()),
                                      ("N(0..1)", 0, ())):
                size = {16: 1, 17: 1, 33: 1, 2: 2, 18: 2, 3: 4, 4: 4, 19: 4}.get(id, 8)
                entries = [E("e", bytes(range(1, size + 1)))] if name == "E" else []
                made = self.made([T(name, "", id, size, flags, dims, [], entries)])
                for leaf in leaves + ([("enum", 1)] if entries else []):
                    for n in (size, size + 1):
                        self.write(made, made.book.bytes(), b"\x55" * n, *b.tape_from_tree(leaf))
        for id, unit in ((b.STRING, 1), (b.WSTRING, 2)):
            made = self.made([T("T", "", id, 80)])
            for text in ("", "a", "ab", "\u0416", "\u20ac\u0081", "\ufeff", "a\0b", "\U0001f600", "\u0080"):
                for n in range(0, 22):
                    self.write(made, made.book.bytes(), b"\x55" * n, *b.tape_from_tree(("text", text)))
        for counts in ((2,), (0,), (2, 2), (1, 0), (0, 3), (1, 1, 2)):
            n = 2
            for c in counts:
                n *= c
            made = self.made([T("A", "INT", b.INT16, n, 0, counts), int16])
            for k in range(4):
                for inner in (("int", 2, 1), ("array", []), ("array", [("int", 2, 7)] * 2), ("int", 8, 70000), ("unit",),
                              ("array", [("array", [("nat", 1, 3)] * 2)])):
                    self.write(made, made.book.bytes(), b"\x55" * n, *b.tape_from_tree(("array", [inner] * k)))
        gone = [T("A", "H", b.BIG, 2, 0, (1, 1)), T("H", size=2, fields=[F("x", "GONE", 0, 2)])]
        made = self.made(gone)
        for inner in (("int", 2, 1), ("unit",), ("array", [])):
            self.write(made, made.book.bytes(), b"\1\2", *b.tape_from_tree(("array", [inner])))
        struct = [T("S", size=4, fields=[F("a", "INT", 0, 2), F("b", "INT", 2, 2), F("c", "INT", 3, 2), F("a", "INT", 2, 2)]), int16,
                  T("O", size=2, fields=[F("z", "INT", 0, 2), F("b", "GONE", 0, 2)])]
        made = self.made(struct)
        for key in (1, 2, 3, 4, 7, 8):
            for leaf in (("int", 2, 5), ("int", 8, 70000), ("text", "")):
                self.write(made, made.book.bytes(), b"\x55" * 4, *b.tape_from_tree(("map", [(key, leaf)])))
                self.write(made, made.book.bytes(), b"\x55" * 4, *b.tape_from_tree(("map", [(1, ("int", 1, 1)), (key, leaf)])))
        for hops in (1, 31, 32, 33):
            for end in (None, "GONE"):
                book = b.chain(hops, end) if end else b.chain(hops)
                made = self.made(book.types)
                for leaf in (("int", 2, 9), ("unit",), ("bool", 1), ("map", [])):
                    self.write(made, made.book.bytes(), b"\1\2", *b.tape_from_tree(leaf))
        self.levels()

    def levels(self):
        b = self.b
        for level in (62, 63, 64):
            made = b.deep(level)
            add_book(self.file, made.bytes())
            made = self.made(made.types)
            blocks = [n for n, m in made.book.members(2)]
            tree = ("int", 2, 77)
            for block in reversed(blocks[:level - 1]):
                tree = ("map", [(block, tree)])
            self.write(made, made.book.bytes(), b"\1\2", *b.tape_from_tree(tree))
        made = self.made([b.Type("INT", id=b.INT16, size=2)])
        for depth in (63, 64, 65):
            for inner in ([], [("unit",)]):
                tree = ("array", inner)
                for _ in range(depth - 1):
                    tree = ("array", [tree])
                self.write(made, made.book.bytes(), b"\1\2", *b.tape_from_tree(tree))

    def every_byte(self):
        """Each byte of a tape with every kind of record changed to sixteen values."""
        b = self.b
        T, F, E = b.Type, b.Field, b.Entry
        made = self.made([
            T("S", size=29, fields=[F("b", "BIT", 0, 1), F("i", "INT", 1, 2), F("u", "UDINT", 3, 4), F("r", "REAL", 7, 4),
                                    F("l", "LREAL", 11, 8), F("t", "STRING", 19, 5), F("e", "E", 24, 1), F("a", "ARR", 25, 4)]),
            T("INT", id=b.INT16, size=2), T("BIT", id=b.BIT, size=1), T("UDINT", id=19, size=4), T("REAL", id=4, size=4),
            T("LREAL", id=5, size=8), T("STRING", id=b.STRING, size=5),
            T("E", id=17, size=1, flags=b.ENUM, entries=[E("p", b"\1"), E("q", b"\2")]), T("ARR", "INT", b.BIG, 4, 0, (2,))])
        entries = [n for n, m in made.book.members(3)]
        tree = ("map", [(1, ("bool", 1)), (2, ("int", 2, -3)), (3, ("nat", 4, 70000)), (4, ("f32", 0x7FA00001)),
                        (5, ("f64", 0xFFF0000000000001)), (6, ("text", "a\u20ac")), (7, ("enum", entries[1])),
                        (8, ("array", [("int", 8, 5), ("nat", 1, 6)]))])
        data, image = made.book.bytes(), b"\x77" * 29
        tape, text = b.tape_from_tree(tree)
        self.write(made, data, image, tape, text)
        for at in range(len(tape)):
            for value in (0, 1, 2, 3, 4, 5, 6, 7, 8, 9, 12, 13, 14, 127, 128, 255):
                changed = bytearray(tape)
                changed[at] = value
                self.write(made, data, image, bytes(changed), text)
        for at in range(len(tape)):
            self.write(made, data, image, tape[:at], text)


def main():
    folder, out = sys.argv[1:]
    writes = Writes(folder)
    writes.by_hand()
    writes.every_byte()
    writes.random_writes(5010)
    writes.file.write(f"{out}/writes")
    print("writes:", dict(sorted(writes.told.items())))
    writes.oracle.close()


if __name__ == "__main__":
    main()
