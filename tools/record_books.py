#!/usr/bin/env python3
"""Records what the calls on type books answer: one file for each of these words.

    python3 tools/record_books.py ORACLE FOLDER categories|checks|walks|reads ...

ORACLE is the oracle's folder, built; FOLDER is crates/vectors/data. Every seed is fixed, so a file comes out the same.

categories, walks and reads are the answers of the Rust (requests cat; alias, indir, rmw, missing, fields; read), for books
that are valid. checks is document 01's text on the form of books, refusals 1 to 5, as the function `check` of the oracle's
book.py reads it: the Rust has no such test. tools/record_limits.py records the limits. What document 02 adds to a tape is worked out by
tools/document_02.py.
"""

import itertools
import sys
from random import Random

from answers import check, oracle
from case_file import *
from document_02 import completed

CATEGORIES = ["None", "Primitive", "Alias", "Enum", "Array", "Struct", "FunctionBlock", "Program", "Function", "SubRange",
              "String", "Bitset", "Pointer", "Union", "Reference", "Interface"]
PART = 30000
TAPE, TEXT = 65520, 12288
SCRATCH, LIST, RECORDS = 8192, 4096, 16384
# The longest random book that is recorded.
ROOM = 262144


def add_book(file, data, place=0):
    """Bytes of the book from a place on, in parts that fit a page."""
    at, first = 0, True
    while first or at < len(data):
        part = data[at:at + 512 * 128]
        while len(packed_book(part)) > PART:
            part = part[:len(part) // 1024 * 512]
        file.add_in_order(BOOK, u32(place + at) + packed_book(part), u32(place + at + len(part)))
        at += len(part)
        first = False


def refusal(words):
    """A refusal's number and, for 7, its block."""
    number = int(words[1])
    return bytes([number]) + (u32(int(words[3])) if number == 7 else b"")


class Recorder:
    def __init__(self, folder):
        self.b, self.oracle = oracle(folder)

    def ask(self, request, width, book, root, *more):
        answer = self.oracle.ask(request, width, book, root, *more).split(" raw=")[0]
        assert not answer.startswith(("bad", "panic", "err ?")), answer
        return answer.split()

    # -- single requests

    def category(self, file, book, width, n):
        name = self.ask("cat", width, book, n)[0]
        file.add_in_order(CATEGORY, bytes([width]) + u32(n), bytes([CATEGORIES.index(name)]))
        return name

    def resolved(self, file, operation, book, width, n):
        words = self.ask("alias" if operation == ALIAS else "indir", width, book, n)
        answer = b"\0" + u32(int(words[1])) if words[0] == "ok" else refusal(words)
        file.add_in_order(operation, bytes([width]) + u32(n), answer)

    def rmw(self, file, book, width, n, scratch=SCRATCH):
        words = self.ask("rmw", width, book, n)
        answer = refusal(words) if words[0] == "err" else bytes([0, words[0] == "yes"])
        self.add_rmw(file, width, n, scratch, answer)

    def add_rmw(self, file, width, n, scratch, answer):
        file.add_in_order(RMW, bytes([width]) + u32(n) + u16(scratch), answer + b"\1")

    def missing(self, file, book, width, n, scratch=SCRATCH, room=LIST):
        words = self.ask("missing", width, book, n)
        if words[0] == "err":
            answer = refusal(words)
        else:
            whole, count = (int(w.split("=")[1]) for w in words[-2:])
            answer = bytes([0, whole]) + u32(count) + b"".join(u32(int(w.rpartition("@")[2])) for w in words[1:-2])
        self.add_missing(file, width, n, scratch, room, answer)

    def add_missing(self, file, width, n, scratch, room, answer):
        file.add_in_order(MISSING, bytes([width]) + u32(n) + u16(scratch) + u16(room), answer + b"\1\1")

    def fields(self, file, book, width, n):
        words = self.ask("fields", width, book, n)
        if words[0] == "err":
            answer = refusal(words)
        else:
            answer = b"\0"
            for word in words[1:]:
                offset, size, block, _, field = word.split(",")
                answer += u32(int(offset)) + u32(int(size)) + u32(int(block)) + u32(int(field))
        if len(answer) < 60000:
            self.add_fields(file, width, n, RECORDS, answer)

    def add_fields(self, file, width, n, records, answer):
        file.add_in_order(FIELDS, bytes([width]) + u32(n) + u16(records), answer + b"\1")

    def read(self, file, book, width, n, memory, tape=TAPE, text=TEXT):
        words = self.ask("read", width, book, n, memory, tape // 24, text)
        if words[0] == "err":
            answer = refusal(words) + b"\1\1"
        else:
            answer = self.read_answer(book, n, memory, self.b.tree_from_events(words[1:]))
        if len(answer) + len(memory) < 60000:
            self.add_read(file, width, n, memory, tape, text, answer)
        return words

    def read_answer(self, book, n, memory, tree):
        t, x = self.b.tape_from_tree(tree)
        t = completed(book, n, memory, t)
        return b"\0" + u32(len(t) // 24) + u32(len(x)) + packed(t) + b"\1" + packed(x) + b"\1"

    def add_read(self, file, width, n, memory, tape, text, answer):
        file.add_in_order(READ, bytes([width]) + u32(n) + u16(tape) + u16(text) + memory, answer)

    def lengths(self, words):
        """Bytes of tape and text that an accepted read takes."""
        t, x = self.b.tape_from_tree(self.b.tree_from_events(words[1:]))
        return len(t), len(x)

    # -- files

    def categories(self):
        """Every branch of determine: all flags, ids, names and shapes that a branch asks for, and random types."""
        file, told = CaseFile(), {}
        b = self.b
        names = ["T", "", "BOOL", "INT", "PVOID", "PCCH", "PVOIDX", "POINTER TO", "POINTER TO X", "POINTER TOX", "POINTER T",
                 "REFERENCE TO", "REFERENCE TO X", "REFERENCE T", "INT(0..9)", ")..(", "a..b", "x()", "(..", "..)", "()..",
                 "bool", "STRING(80)", "LDATE", "LDT", "LTOD"] + b.TIME_NAMES
        ids = b.IDS + [1, 6, 15, 22, 99, 0xFFFFFFFF]
        shapes = [(), ((0, 2),), ((4, 2),), ((0, 2), (0, 2)), ((4, 2), (4, 2)), ((0, 2), (2, 2)), ((4, 2), (8, 2)),
                  ((0, 2), (2, 2), (2, 2)), ((2, 2), (0, 2))]
        sizes = [0, 1, 2, 3, 4, 6, 8, 12, 16, 255, 300, 0x80000000, 0xFFFFFFFC]

        def one(name, type_name, id, size, flags, dims, shape, width):
            fields = [b.Field(f"f{i}", "INT", o, s) for i, (o, s) in enumerate(shape)]
            data = b.Book([b.Type(name, type_name, id, size, flags, dims, fields)]).bytes()
            add_book(file, data)
            name = self.category(file, data, width, 0)
            told[name] = told.get(name, 0) + 1

        for name, type_name, id in itertools.product(names, ["", "INT"], [b.BIG, b.INT16]):
            for flags, dims in ((0, ()), (b.METHODS, ()), (b.ENUM, ()), (0, (2,))):
                one(name, type_name, id, 4, flags, dims, (), 8)
        for id, size in itertools.product(ids, sizes):
            one("T", "", id, size, 0, (), (), 8)
        for flags, shape, size in itertools.product((0, 8, 16, 24), shapes, (0, 4, 6, 8, 12)):
            for width in (4, 8):
                one("T", "", b.BIG, size, flags, (), shape, width)
        for flags in range(32):
            one("T", "X", b.BIG, 8, flags, (), ((0, 4),), 8)
            one("T", "", b.BIG, 8, flags, (1, 0), (), 8)
        rng = Random(11)
        for _ in range(1500):
            one(rng.choice(names), rng.choice(["", "", "INT"]), rng.choice(ids + [b.BIG] * 20), rng.choice(sizes),
                sum(bit for bit in (1, 2, 4, 8, 16) if rng.random() < 0.12), (1,) * (rng.random() < 0.1), rng.choice(shapes),
                rng.choice([8, 8, 4, 2, 0, 255]))
        print("categories:", told)
        assert set(told) == set(CATEGORIES) - {"Program", "Function"}
        return file

    def checks(self):
        """Each byte of a type, a field and an entry block changed, sums right and wrong; places, counts, names, roots."""
        file, rng, b = CaseFile(), Random(12), self.b
        base = b.Book([
            b.Type("TYPE_A", "BASE", b.BIG, 12, b.METHODS, (2, 3), [b.Field("first", "INT", 4, 2)],
                   [b.Entry("entry", b"\1\2\3")]),
            b.Type("INT", "", b.INT16, 2),
            b.Type("E", "", b.INT16, 2, b.ENUM, (), [], [b.Entry("", b""), b.Entry("full", bytes(range(1, 9)))]),
            b.Type("B" * 200, "C" * 200, b.BIG, 2, 0, (1,) * 8, [b.Field("D" * 200, "E" * 200, 0, 2)])]).bytes()
        add_book(file, base)
        self.roots(file, base)
        values = [0, 1, 2, 3, 4, 8, 9, 0x1F, 0x20, 0x41, 0x7E, 0x7F, 0x80, 0xC8, 0xC9, 0xFF]
        for block in (0, 1, 2):
            for k in range(508):
                for value in values:
                    self.changed(file, base, 512 * block + k, value, True)
        for block in range(3, len(base) // 512):
            for k in list(range(0, 64)) + list(range(250, 260)) + list(range(450, 508)):
                for value in rng.sample(values, 4):
                    self.changed(file, base, 512 * block + k, value, True)
        for place in range(len(base)):
            self.changed(file, base, place, rng.choice(values), False)
        for data in self.bad_books(rng):
            add_book(file, data)
            self.roots(file, data)
        return file

    def changed(self, file, base, place, value, fix):
        data = bytearray(base)
        data[place] = value
        at = place // 512 * 512
        if fix:
            data[at + 508:at + 512] = u32(sum(data[at:at + 508]))
        answer = check(self.b, bytes(data))
        file.add_in_order(CHANGED, u32(place) + bytes([value, fix]), bytes([answer]))

    def roots(self, file, data):
        answer = check(self.b, data)
        blocks = len(data) // 512
        for root in list(range(blocks + 2))[:12] + [2**32 - 1, 2**32, 2**64 - 1]:
            number = answer or (0 if root < blocks and data[512 * root] == 1 else 5)
            file.add_in_order(CHECK, u64(root), bytes([number]))

    def bad_books(self, rng):
        b = self.b
        t, f, e = b.type_block, b.field_block, b.entry_block
        yield b""
        yield bytes(1)
        yield bytes(511)
        yield bytes(512)
        yield t("A") + bytes(511)
        yield t("A") + b"\1"
        yield t("A") + t("A")
        yield t("") + t("")
        yield t("Int") + t("INT")
        yield t("A", fields=1)
        yield t("A", fields=2) + f("x", "A", 0, 0)
        yield t("A", fields=1) + f("x", "A", 0, 0)
        yield t("A", fields=1, entries=1) + f("x", "A", 0, 0) + e("y", b"\1")
        yield t("A", fields=1, entries=1) + e("y", b"\1") + f("x", "A", 0, 0)
        yield t("A", entries=1) + f("x", "A", 0, 0)
        yield t("A") + f("x", "A", 0, 0)
        yield f("x", "A", 0, 0)
        yield e("x", b"")
        for many in (0xFFFFFFFF, 0x80000000, 65536):
            yield t("A", fields=many) + f("x", "A", 0, 0)
            yield t("A", entries=many) + e("x", b"")
            yield t("A", fields=many, entries=many)
            yield t("A", fields=1, entries=many) + f("x", "A", 0, 0)
        yield t("A", fields=2) + f("x", "", 0, 0) + f("x", "", 0, 0) + t("x")
        yield t("INT") + t("INT") + b._finish(bytearray([9]) + bytes(511))
        yield b._finish(bytearray([9]) + bytes(511)) + t("A")[:508] + bytes(4)
        yield b._finish(bytearray(b"\xff" * 508 + bytes(4)))
        yield b"\xff" * 508 + u32(64004)
        for k in range(300):
            made = b.gen_book(Random(1000 + k), types=3)
            data = bytearray(made.book.bytes())
            for _ in range(rng.choice([0, 1, 1, 2])):
                place = rng.randrange(len(data))
                data[place] = rng.choice([0, 1, 2, 3, 65, 200, 201, rng.randrange(256)])
                at = place // 512 * 512
                if rng.random() < 0.8:
                    data[at + 508:at + 512] = u32(sum(data[at:at + 508]))
            if rng.random() < 0.2:
                at = 512 * rng.randrange(len(data) // 512)
                data += data[at:at + 512]
            if rng.random() < 0.1:
                del data[512 * rng.randrange(len(data) // 512):]
            yield bytes(data)

    def special(self):
        """(book, width, root): chains, wide and deep books, cycles."""
        b = self.b
        for hops in (1, 2, 30, 31, 32, 33):
            yield b.chain(hops), 8, 0
            yield b.chain(hops, "GONE"), 8, 0
        yield b.Book([b.Type("INT", "INT", b.INT16, 2)]), 8, 0
        fb, int16 = b.Type("FB", size=12), b.Type("INT", id=b.INT16, size=2)
        for names in (("GONE", "FB"), ("FB", "GONE"), ("GONE", "GONE"), ("INT", "FB"), ("FB",), ("INT",), ("",)):
            yield b.Book([b.Type("S", size=8, fields=[b.Field(n, n, 2 * i, 2) for i, n in enumerate(names)]), fb, int16]), 8, 0
        for levels in (2, 63, 64, 65, 66):
            yield b.deep(levels), 8, 0
        for count in (1, 100, 250):
            yield b.wide(count), 8, 0
        yield b.wide(300, lambda i: i > 100), 8, 0
        yield b.wide(300, lambda i: False), 8, 0
        yield b.Book([b.Type("S", size=4, fields=[b.Field("a", "S", 0, 4)])]), 8, 0

    def random(self, seed, count):
        """That many random books, none of them long, one in four drawn without sense."""
        k = 0
        while count:
            rng = Random(seed + k)
            made = self.b.gen_book(rng) if k % 4 else self.b.gen_chaos(rng)
            k += 1
            if len(made.book.bytes()) <= ROOM:
                count -= 1
                yield rng, made

    def walks(self, count=5010):
        file = CaseFile()

        def all_of(data, width, root):
            self.resolved(file, ALIAS, data, width, root)
            self.resolved(file, INDIRECTION, data, width, root)
            self.rmw(file, data, width, root)
            self.missing(file, data, width, root)
            self.fields(file, data, width, root)

        for book, width, root in self.special():
            data = book.bytes()
            add_book(file, data)
            all_of(data, width, root)
        for rng, made in self.random(20000, count):
            data = made.book.bytes()
            add_book(file, data)
            numbers = made.book.numbers()
            for root in sorted({made.root, rng.choice(numbers)}):
                all_of(data, made.width, root)
        return file

    def reads(self, count=5010):
        file, told, b = CaseFile(), {}, self.b

        def note(words):
            key = words[0] if words[0] == "ok" else words[0] + words[1]
            told[key] = told.get(key, 0) + 1

        for book, width, root in self.special():
            data = book.bytes()
            add_book(file, data)
            size = book.at(root).size
            note(self.read(file, data, width, root, bytes(size)))
            note(self.read(file, data, width, root, bytes(size + 1)))
        for rng, made in self.random(40000, count):
            data = made.book.bytes()
            memory = b.gen_memory(rng, made)
            if b.has_bom(memory) or len(memory) > 8192:
                memory = bytes(min(len(memory), 8192))
            add_book(file, data)
            words = self.read(file, data, made.width, made.root, memory)
            note(words)
            damaged = memory[:-1] if rng.random() < 0.5 and memory else memory + b"\0"
            if rng.random() < 0.6 and memory:
                damaged = bytearray(memory)
                for _ in range(rng.randrange(1, 6)):
                    damaged[rng.randrange(len(memory))] = rng.randrange(256)
                damaged = bytes(damaged)
            if not b.has_bom(damaged) and rng.random() < 0.7:
                note(self.read(file, data, made.width, made.root, damaged))
            if rng.random() < 0.25 and words[0] == "ok":
                # Rooms that just suffice, a record short, a byte short.
                t, x = self.lengths(words)
                for tape, text in ((t, x), (t - rng.choice([1, 24]), x), (t, x - 1)):
                    if tape <= TAPE and 0 <= text <= TEXT:
                        note(self.read(file, data, made.width, made.root, memory, tape, text))
            elif rng.random() < 0.1:
                note(self.read(file, data, made.width, made.root, memory, 24 * rng.randrange(8), rng.randrange(12)))
        print("reads:", dict(sorted(told.items())))
        return file


def main():
    folder, out, words = sys.argv[1], sys.argv[2], sys.argv[3:]
    rec = Recorder(folder)
    for word in words:
        {"categories": rec.categories, "checks": rec.checks, "walks": rec.walks, "reads": rec.reads}[word]().write(f"{out}/{word}")
    rec.oracle.close()


if __name__ == "__main__":
    main()
