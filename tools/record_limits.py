#!/usr/bin/env python3
"""Records the limits and edges of resolvers, walks and reader: the file `limits`.

    python3 tools/record_limits.py ORACLE FOLDER

ORACLE is the oracle's folder, built; FOLDER is crates/vectors/data. The answers are the Rust's, save those that it has none for:
refusals 5, 6 and 15 of resolve_fields and the walks, and arrays whose counts multiply past 2^64. These are document 01's, written
here as such (`document` in the names of the functions).
"""

import sys

from case_file import *
from record_books import LIST, RECORDS, SCRATCH, TAPE, TEXT, Recorder, add_book

MOST = 4096


def short(i):
    """A name of two characters, each its own up to 8,836."""
    return chr(0x21 + i // 94) + chr(0x21 + i % 94)


class Limits:
    def __init__(self, folder):
        self.rec, self.file = Recorder(folder), CaseFile()
        self.b = self.rec.b

    # -- walks

    def walks(self, data, width=8, root=0):
        """Both walks, lent just enough and more."""
        for scratch, room in ((SCRATCH, LIST), (16383, LIST), (20000, 5000)):
            self.rec.rmw(self.file, data, width, root, scratch)
            self.rec.missing(self.file, data, width, root, scratch, room)

    def chain_of_arrays(self):
        """Arrays of one element each, whose element is the next: one block for each name. What name 4,096 and name 4,097 are."""
        b = self.b
        start = b.Book([b.Type(short(i), short(i + 1), size=2, dims=(1,)) for i in range(MOST - 1)]).bytes()
        add_book(self.file, start)
        last, over = short(MOST - 1), short(MOST)
        further = b.Type(last, over, size=2, dims=(1,))
        for types in [[]] + self.ends(last) + [[further]] + [[further] + end for end in self.ends(over)]:
            self.chain_end(start, types)

    def ends(self, name):
        """Types that can stand at a name: what is not walked, a function block, chains that end, are too long, or lack a type."""
        b = self.b
        chains = [b.chain(hops, base, "CHAIN").types for hops in (1, 31, 32) for base in (None, "GONE")]
        return [[b.Type(name, id=b.INT16, size=2)], [b.Type(name, size=12)],
                [b.Type(name, size=2, fields=[b.Field("x", "GONE", 0, 2)])]] + [
                    [b.Type(name, types[0].type_name, b.INT16, 2)] + types[1:] for types in chains]

    def chain_end(self, start, types):
        more = self.b.Book(types).bytes()
        add_book(self.file, more, len(start))
        self.walks(start + more)

    def wide(self, count, name, more=()):
        """A struct of that many fields; two offsets keep it from being a union."""
        b = self.b
        fields = [b.Field("", name(i), 2 * (i == 1), 2) for i in range(count)]
        return b.Book([b.Type("ROOT", size=2 * count, fields=fields)] + list(more)).bytes()

    def wide_books(self):
        """As many fields of types that are missing as a walk meets, and one more; more fields of one type than a walk meets names."""
        data = self.wide(MOST, short)
        add_book(self.file, data)
        self.walks(data)
        fewer = self.wide(MOST - 1, short)
        assert fewer[512:] == data[512:-512]
        add_book(self.file, fewer[:512])
        add_book(self.file, b"", len(fewer))
        self.walks(fewer)
        int16 = self.b.Type("INT", id=self.b.INT16, size=2)
        data = self.wide(8200, lambda i: "INT", [int16])
        add_book(self.file, data)
        self.walks(data)

    def all_present(self):
        """A struct of 4,095 and of 4,096 fields, each of its own type, the root among the names; and the first field, which is taken
        last, a function block or too long a chain."""
        b = self.b
        types = b.Book([b.Type(short(i), id=b.INT16, size=2) for i in range(MOST)]).bytes()
        add_book(self.file, types)
        firsts = [types[:512], b.type_block(short(0), size=12), b.type_block(short(0), short(0), b.INT16, 2),
                  b.type_block(short(0), "GONE", b.INT16, 2)]
        for count in (MOST, MOST - 1):
            root = self.wide(count, short)
            add_book(self.file, root if count == MOST else root[:512], len(types))
            for first in firsts:
                add_book(self.file, first)
                add_book(self.file, b"", len(types + root))
                self.walks(first + types[512:] + root, root=MOST)

    def small_walks(self):
        """Corners of the walks' order, doubles and counts."""
        b, f, t = self.b, self.b.Field, self.b.Type
        int16, fb = t("INT", id=b.INT16, size=2), t("FB", size=12)

        def struct(*names):
            return t("S", size=2 * len(names), fields=[f(f"f{i}", n, 2 * i, 2) for i, n in enumerate(names)])

        def alias(name, to):
            return t(name, to, b.INT16, 2)

        method = t("M", size=8, flags=b.METHODS, fields=[f("x", "GONE", 0, 2)])
        books = [
            [struct("X", "X")], [struct("A", "B"), alias("A", "GONE"), alias("B", "GONE")],
            [struct("A", "B"), alias("A", "GONE"), alias("B", "A")], [struct("A"), alias("A", "GONE")],
            [struct("A"), alias("A", "INT"), int16], [struct("X", "A"), alias("A", "X")], [struct("A", "X"), alias("A", "X")],
            [struct("A", "INT"), alias("A", "INT"), int16], [struct("GONE", "FB"), fb], [struct("FB", "GONE"), fb],
            [t("S", size=12, flags=b.METHODS, fields=[f("x", "GONE", 8, 2)])], [struct("M"), method], [struct("")],
            [struct(""), t("", id=b.INT16, size=2)], [struct("S")], [struct("A"), alias("A", "S")], [fb], [int16],
            [t("A", "A", b.INT16, 2)], [t("A", "GONE", size=2, dims=(0,))], [t("REFERENCE TO X", "", size=8)]]
        books += [b.chain(hops, base).types for hops in (31, 32, 33) for base in (None, "GONE")]
        books += [[struct("A0", "GONE")] + b.chain(hops, base).types for hops in (31, 32, 33) for base in (None, "GONE")]
        for types in books:
            data = b.Book(types).bytes()
            add_book(self.file, data)
            for operation in (ALIAS, INDIRECTION):
                self.rec.resolved(self.file, operation, data, 8, 0)
            self.walks(data)
            self.rec.fields(self.file, data, 8, 0)

    def document_buffers(self):
        """5 before 6, and 6 one number short of scratch or list, which a refusal leaves as before."""
        b = self.b
        data = b.Book([b.Type("S", size=2, fields=[b.Field("x", "GONE", 0, 2)])]).bytes()
        add_book(self.file, data)
        for scratch in (0, SCRATCH - 1):
            self.rec.add_rmw(self.file, 8, 0, scratch, b"\6")
            self.rec.add_missing(self.file, 8, 0, scratch, LIST, b"\6")
        self.rec.add_missing(self.file, 8, 0, SCRATCH, LIST - 1, b"\6")
        self.rec.add_missing(self.file, 8, 0, 20000, 0, b"\6")
        for root in (1, 2, 2**32 - 1):
            for scratch in (0, SCRATCH):
                self.rec.add_rmw(self.file, 8, root, scratch, b"\5")
                self.rec.add_missing(self.file, 8, root, scratch, 0, b"\5")
            self.rec.add_fields(self.file, 8, root, RECORDS, b"\5")
            self.rec.add_read(self.file, 8, root, b"", 48, 48, b"\5\1\1")
            for operation in (ALIAS, INDIRECTION):
                self.file.add_in_order(operation, b"\x08" + u32(root), b"\5")

    def document_records(self):
        """15 of resolve_fields: tested for each field in turn before its look-up."""
        b = self.b

        def fields(*names):
            made = [b.Field("x", n, 2**32 - 1 - i, 7) for i, n in enumerate(names)]
            return b.Book([b.Type("S", size=9, fields=made)] + b.chain(32).types + [b.Type("Y", size=2)]).bytes()

        y = 3 + 33
        lacks = {n: b"\7" + u32(n) for n in (1, 2)}
        one = u32(2**32 - 1) + u32(7) + u32(y) + u32(1)
        two = u32(2**32 - 2) + u32(7) + u32(y) + u32(2)
        for names, answers in (
                (("GONE", "Y"), {0: b"\x0f", 3: b"\x0f", 4: lacks[1], 8: lacks[1]}),
                (("Y", "GONE"), {0: b"\x0f", 4: b"\x0f", 7: b"\x0f", 8: lacks[2]}),
                (("A0", "GONE"), {3: b"\x0f", 4: b"\x08"}), (("GONE", "A0"), {4: lacks[1]}),
                (("Y", "A0"), {7: b"\x0f", 8: b"\x08"}),
                (("Y", "Y"), {0: b"\x0f", 7: b"\x0f", 8: b"\0" + one + two, 9: b"\0" + one + two})):
            data = fields(*names)
            add_book(self.file, data)
            self.rec.fields(self.file, data, 8, 0)
            for records, answer in answers.items():
                self.rec.add_fields(self.file, 8, 0, records, answer)

    # -- reads

    def read(self, types, memories, widths=(8,), rooms=True):
        """Reads of type 0, and, where one succeeds, rooms that just suffice, one record short, one byte short, and none."""
        data = self.b.Book(types).bytes()
        add_book(self.file, data)
        for width in widths:
            for memory in memories:
                words = self.rec.read(self.file, data, width, 0, memory)
                if not rooms:
                    continue
                t, x = self.rec.lengths(words) if words[0] == "ok" else (24, 1)
                for tape, text in ((t, x), (t - 24, x), (t - 1, x), (t, x - 1), (0, 0)):
                    if 0 <= tape <= TAPE and 0 <= text <= TEXT:
                        self.rec.read(self.file, data, width, 0, memory, tape, text)

    def leaves(self):
        """Every id and leaf category over memories of 0 to 9 bytes: 10, 11, 12, 13 at their edges."""
        b = self.b
        lengths = [bytes(range(1, n + 1)) for n in range(10)]
        for id in b.IDS + [1, 22, 99, 0xFFFFFFFF]:
            self.read([b.Type("T", id=id, size=b.ID_SIZE.get(id, 2))], lengths + [b"\0"], rooms=False)
            self.read([b.Type("T(0..9)", "", id, b.ID_SIZE.get(id, 2))], lengths, rooms=False)
        for name in ("TIME", "__XINT", "BOOL", "PVOID", "REFERENCE TO X", "POINTER TO X"):
            self.read([b.Type(name, "X", b.BIG, 4)], lengths, (0, 1, 2, 3, 4, 7, 8, 9, 255), False)
        self.read([b.Type("I", size=8, flags=b.METHODS)], lengths, (4, 8, 3), False)
        for id, size in ((b.INT16, 2), (b.UINT8, 1), (b.UINT64, 8), (b.BIG, 2), (b.REAL32, 4)):
            entries = [b.Entry("one", (1).to_bytes(size, "little")), b.Entry("again", (1).to_bytes(size, "little")),
                       b.Entry("long", bytes(8)), b.Entry("", b"")]
            memories = [bytes([v]) + bytes(n - 1) for v in (0, 1, 2) for n in (size, size + 1, 8) if n <= 8] + [b""]
            self.read([b.Type("E", "INT", id, size, b.ENUM, entries=entries)], memories, rooms=False)
            self.read([b.Type("E", "INT", id, size, b.ENUM)], memories, rooms=False)

    def texts(self):
        """Texts with and without an end, and rooms of text to the byte."""
        b = self.b
        self.read([b.Type("STRING(5)", id=b.STRING, size=6)],
                  [b"abc\0zz", b"abcdef", b"\0bcdef", b"\x80\x81\xff\xe4\0a", b"abcde", b"abcdefg", b""])
        self.read([b.Type("WSTRING(2)", id=b.WSTRING, size=6)],
                  [b"a\0b\0\0\0", b"a\0b\0c\0", b"\x3d\xd8\x00\xde\0\0", b"\x3d\xd8a\0\0\0", b"\xac\x20\xe9\0\x16\x04", b"a\0b\0c"])
        two = b.Type("S", size=8, fields=[b.Field("a", "STRING(3)", 0, 4), b.Field("b", "STRING(3)", 4, 4)])
        self.read([two, b.Type("STRING(3)", id=b.STRING, size=4)], [b"ab\0\0xyz\0", b"\xe4\xe4\xe4\xe4\x80\x80\x80\x80", bytes(8)])

    def structs(self):
        """Offset plus size equal to the length and one more; 7 and 8 before the map's record; sizes of type and field."""
        b = self.b
        int16, int8 = b.Type("INT", id=b.INT16, size=2), b.Type("SINT", id=b.INT8, size=1)
        memory = bytes(range(1, 10))
        for offset in (0, 1, 6, 7, 8, 9, 0x7FFFFFFF, 0xFFFFFFFE, 0xFFFFFFFF):
            for size in (0, 1, 2, 3, 0xFFFFFFFF):
                root = b.Type("S", "BASE", size=8, fields=[b.Field("z", "SINT", 0, 1), b.Field("a", "INT", offset, size)])
                self.read([root, int16, int8], [memory[:n] for n in (7, 8, 9)], rooms=False)
        for names in (("GONE", "INT"), ("INT", "GONE"), ("INT", "INT"), ("A0", "GONE"), ("GONE", "A0"), ("A1", "INT")):
            fields = [b.Field(f"f{i}", n, 2 * i, 2) for i, n in enumerate(names)]
            self.read([b.Type("S", size=4, fields=fields)] + b.chain(32).types, [memory[:n] for n in (3, 4, 5)])
        self.read([b.Type("S", size=0)], [b"", b"\1"])
        self.read([b.Type("U", size=2, fields=[b.Field("a", "INT", 0, 2), b.Field("b", "SINT", 0, 1)]), int16, int8],
                  [memory[:n] for n in (1, 2, 3)])
        self.read([b.Type("S", size=4, fields=[b.Field("a", "INT", 1, 2)]), int16], [memory[:n] for n in (3, 4, 5)])

    def arrays(self):
        """Zero counts in the last and in inner dimensions, elements that lack a type, products below 2^64."""
        b = self.b
        int16, int8 = b.Type("INT", id=b.INT16, size=2), b.Type("SINT", id=b.INT8, size=1)
        hollow = b.Type("H", size=2, fields=[b.Field("x", "GONE", 0, 2)])
        empty = b.Type("E", size=0)
        memory = bytes(range(1, 14))
        for dims in ((0,), (0, 3), (3, 0), (0, 0), (2, 0, 2), (0, 2, 2), (2, 2, 0), (1,), (3,), (2, 3), (1, 1, 1, 1, 1, 1, 1, 1)):
            product = 1
            for d in dims:
                product *= d
            for name in ("INT", "GONE", "H", "E", "A0", "A1"):
                root = b.Type("T", name, size=2 * product, dims=dims)
                sizes = {0, 1, 2 * product, 2 * product + 1, max(0, 2 * product - 1)}
                self.read([root, int16, hollow, empty] + b.chain(32, int16).types[:-1], [memory[:n] for n in sorted(sizes)],
                          rooms=name in ("INT", "H"))
        for dims in ((2**32 - 1,), (2**32 - 1, 2**32 - 1), (2**32 - 1, 641, 6700417), (2**31, 2**31), (1, 2**32 - 1)):
            self.read([b.Type("T", "SINT", size=0, dims=dims), int8], [b"", b"\1", memory], rooms=False)
        self.read([b.Type("T", "E", size=0, dims=(2**32 - 1,)), empty], [b"", b"\1"], rooms=False)
        self.read([b.Type("T", "E", size=0, dims=(2, 2**32 - 1)), empty], [b"", b"\1"], rooms=False)
        self.read([b.Type("T", "SINT", size=3, dims=(3,)), int8], [memory[:n] for n in range(6)])

    def document_products(self):
        """Counts that multiply past 2^64: document 01 compares them exactly, and a zero count wins."""
        b = self.b
        int8, int16, int32 = (b.Type(n, id=i, size=s) for n, i, s in (("S", b.INT8, 1), ("I", b.INT16, 2), ("D", b.INT32, 4)))
        nothing = ("array", [])
        cases = [
            ((2**31, 2**31), "D", 0, None), ((2**16,) * 4, "S", 0, None), ((2**32 - 1,) * 8, "D", 1, None),
            ((2977518503, 3097670771), "I", 10, None), ((2**31, 2**31, 2), "I", 0, None),
            ((0, 2**32 - 1, 2**32 - 1, 2**32 - 1), "D", 0, nothing), ((0, 2**32 - 1, 2**32 - 1, 2**32 - 1), "D", 1, None),
            ((2, 0, 2**32 - 1, 2**32 - 1, 2**32 - 1), "D", 0, ("array", [nothing, nothing])),
            ((2**32 - 1, 2**32 - 1, 2**32 - 1, 0), "D", 1, None)]
        for dims, name, length, tree in cases:
            data = b.Book([b.Type("T", name, size=0, dims=dims), int8, int16, int32]).bytes()
            add_book(self.file, data)
            answer = b"\x0a\1\1" if tree is None else self.rec.read_answer(data, 0, bytes(length), tree)
            self.rec.add_read(self.file, 8, 0, bytes(length), TAPE, TEXT, answer)

    def levels(self):
        """Values on levels 64 and 65: structs, arrays and dimensions; what comes before 14 and what after."""
        b = self.b
        leaves = [b.Type("INT", id=b.INT16, size=2), b.Type("L", "GONE", size=2, dims=(1,)), b.Type("L", size=0),
                  b.Type("L", size=2, fields=[b.Field("x", "GONE", 0, 2)])]
        for levels in (63, 64, 65, 66):
            for leaf in leaves:
                types = b.deep(levels, leaf).types
                self.read(types, [bytes(leaf.size), bytes(leaf.size + 1)])
        for levels in (56, 57, 62, 63, 64, 65):
            for dims in ((1,), (1, 1), (1,) * 8, (0,), (1, 0), (0, 1)):
                size = 2 if 0 not in dims else 0
                types = b.deep(levels, b.Type("L", "INT", size=size, dims=dims)).types + [leaves[0]]
                self.read(types, [bytes(size)], rooms=False)
        self.read([b.Type("S", size=4, fields=[b.Field("a", "S", 0, 4)])], [bytes(4), bytes(3)])

    def all(self):
        for part in (self.chain_of_arrays, self.wide_books, self.all_present, self.small_walks, self.document_buffers, self.document_records,
                     self.leaves, self.texts, self.structs, self.arrays, self.document_products, self.levels):
            before = len(self.file.cases)
            part()
            print(part.__name__, len(self.file.cases) - before)
        return self.file


def main():
    limits = Limits(sys.argv[1])
    limits.all().write(f"{sys.argv[2]}/limits")
    limits.rec.oracle.close()


main()
