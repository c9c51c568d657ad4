#!/usr/bin/env python3
"""Compares what the program adswalk prints with what the Rust answers, and with document 01's corners.

    python3 tools/try_adswalk.py ORACLE [COUNT]

ORACLE is the oracle's folder, built; COUNT (2,000) is the number of random books, each with two memories. The program is
crates/adswalk/out/adswalk, which `rt run` in crates/adswalk makes. Every seed is fixed. The lines that it must print are made here, from the
events of the oracle's request `read` and the names in the book; refusals 1 to 4 are those of `check` of the oracle's book.py.
"""

import os
import subprocess
import sys
import tempfile
from random import Random

from answers import check, oracle
from document_02 import completed, has_times

TOP = os.path.join(os.path.dirname(os.path.abspath(__file__)), "..")
PROGRAM = os.path.join(TOP, "crates", "adswalk", "out", "adswalk")
GLUE = os.path.join(TOP, "examples", "glue")
BOOK, MEMORY, RECORDS, TEXT = 65536, 4096, 2730, 12288


def name_of(data, n):
    at = 512 * n
    return data[at + 54:at + 54 + data[at + 52]].decode("ascii")


def line_of(data, event, ended):
    """The line of an event of the oracle; of a text it is also known whether it was ended."""
    kind, _, rest = event.partition(":")
    if kind in ("array", "map", "bool"):
        return f"{kind} {rest}"
    if kind in ("endarray", "endmap"):
        return "end"
    if kind in ("key", "enum"):
        return f"{kind} {name_of(data, int(rest.rpartition('@')[2]))}"
    if kind == "f32":
        return f"real 4 {int(rest, 16):08X}"
    if kind == "f64":
        return f"real 8 {int(rest, 16):016X}"
    if kind == "str":
        word = "text" if ended else "clipped"
        return f"{word} {rest.upper()}" if rest else word
    if kind == "unit":
        return "unit"
    return f"{'int' if kind[0] == 'i' else 'nat'} {kind[1:]} {int(rest)}"


class Trial:
    def __init__(self, folder):
        self.b, self.oracle = oracle(folder)
        self.told, self.cases, self.wrong, self.counted = {}, 0, 0, 0

    def expected(self, data, memory):
        if len(data) > BOOK:
            return "refused 1\n"
        if number := check(self.b, data):
            return f"refused {number}\n"
        if not data:
            return "refused 5\n"
        if len(memory) > MEMORY:
            return "refused 10\n"
        words = self.oracle.ask("read", 8, data, 0, memory, RECORDS, TEXT).split(" raw=")[0].split()
        assert words[0] in ("ok", "err"), words
        if words[0] == "err":
            return f"refused {words[1]}\n"
        tape = completed(data, 0, memory, self.b.tape_from_tree(self.b.tree_from_events(words[1:]))[0])
        lines = [f"walk {name_of(data, 0)} {len(memory)}"] + [line_of(data, w, tape[24 * i + 1]) for i, w in enumerate(words[1:])]
        return "".join(line + "\n" for line in lines)

    def printed(self, data, memory):
        """What the program prints; None is an absent file, False one that can't be opened (a link to itself)."""
        with tempfile.TemporaryDirectory() as folder:
            for name, content in (("book.bin", data), ("mem.bin", memory)):
                path = os.path.join(folder, name)
                if content is False:
                    os.symlink(name, path)
                elif content is not None:
                    with open(path, "wb") as file:
                        file.write(content)
            return subprocess.run([os.path.abspath(PROGRAM)], cwd=folder, stdout=subprocess.PIPE, check=True).stdout.decode("ascii")

    def compare(self, what, data, memory, want=None):
        """Against the oracle; against the text of a corner too, where one is given."""
        got = self.printed(data, memory)
        due = self.expected(data or b"", memory or b"")
        key = got.strip() if got.startswith("refused") else "walk"
        self.told[key] = self.told.get(key, 0) + 1
        self.cases += 1
        if got != due and want is None and has_times(data or b""):
            self.counted += 1
        elif got != due or want is not None and got != want:
            self.wrong += 1
            print(f"{what}: differs\n  printed  {got[:300]!r}\n  due      {due[:300]!r}\n  by hand  {want!r}"[:1200])

    def corners(self):
        """The corners of docs/DECISIONS.md ("Program `adswalk`"), with the lines that they must print."""
        b = self.b
        T, F, E = b.Type, b.Field, b.Entry
        int16, byte = T("INT", id=b.INT16, size=2), T("BYTE", id=b.UINT8, size=1)

        def book(*types):
            return b.Book(types).bytes()

        example = book(T("S", size=4, fields=[F("A", "INT", 0, 2), F("B", "INT", 2, 2)]), int16)
        memory = bytes.fromhex("feff0500")
        lines = "walk S 4\nmap 2\nkey A\nint 16 -2\nkey B\nint 16 5\nend\n"
        self.compare("the example", example, memory, lines)
        # names that are empty
        self.compare("empty name: field", book(T("S", size=2, fields=[F("", "INT", 0, 2)]), int16), b"\1\0", "walk S 2\nmap 1\nkey \nint 16 1\nend\n")
        self.compare("empty name: root", book(T("", id=b.INT16, size=2)), b"\1\0", "walk  2\nint 16 1\n")
        self.compare("empty name: entry", book(T("E", id=b.INT16, size=2, flags=b.ENUM, entries=[E("", b"\1\0")])), b"\1\0", "walk E 2\nenum \n")
        # hex of a text; an empty text
        text = book(T("STRING(3)", id=b.STRING, size=4))
        self.compare("text: two bytes", text, b"AB\0z", "walk STRING(3) 4\ntext 4142\n")
        self.compare("text: euro", text, b"A\x80\0\0", "walk STRING(3) 4\ntext 41E282AC\n")
        self.compare("text: empty", text, bytes(4), "walk STRING(3) 4\ntext\n")
        # a text without a terminator; an empty one; a zero in the last byte; pairs, unaligned ones, an odd byte
        self.compare("end of a text: full", text, b"ABCD", "walk STRING(3) 4\nclipped 41424344\n")
        self.compare("end of a text: last byte", text, b"ABC\0", "walk STRING(3) 4\ntext 414243\n")
        self.compare("end of a text: no bytes", book(T("S0", id=b.STRING, size=0)), b"", "walk S0 0\nclipped\n")
        wide = book(T("W", id=b.WSTRING, size=5))
        self.compare("end of a text: unaligned", wide, b"A\0\0B\0", "walk W 5\nclipped 41E48880EFBFBD\n")
        self.compare("end of a text: odd byte", book(T("W1", id=b.WSTRING, size=1)), b"\0", "walk W1 1\nclipped EFBFBD\n")
        self.compare("end of a text: pair", wide, b"A\0\0\0B", "walk W 5\ntext 41\n")
        # a refusal deep in a walk
        deep = book(T("S", size=4, fields=[F("A", "INT", 0, 2), F("B", "R", 2, 2)]), int16, T("R", size=2, fields=[F("X", "GONE", 0, 2)]))
        self.compare("refusal: deep", deep, memory, "refused 7\n")
        # order of refusals, and the lengths of both files
        bad = bytearray(example)
        bad[600] ^= 1
        alias = book(T("A", "GONE", id=b.INT16, size=2))
        self.compare("order: bad sum, long memory", bytes(bad), bytes(4097), "refused 2\n")
        self.compare("order: alias to nothing, long memory", alias, bytes(4097), "refused 10\n")
        self.compare("order: alias to nothing", alias, bytes(4096), "refused 7\n")
        self.compare("order: book too long, bad sum", bytes(bad) * 32 + b"\0", memory, "refused 1\n")
        self.compare("order: a block too many", b"".join(T(f"T{i}", id=b.INT16, size=2).bytes() for i in range(129)), b"\1\0", "refused 1\n")
        self.compare("order: all blocks", b"".join(T(f"T{i}", id=b.INT16, size=2).bytes() for i in range(128)), b"\1\0", "walk T0 2\nint 16 1\n")
        self.compare("order: all bytes", book(T("STRING(4095)", id=b.STRING, size=4096)), bytes(4096), "walk STRING(4095) 4096\ntext\n")
        # absent files
        self.compare("absent: no book", None, memory, "refused 5\n")
        self.compare("absent: no book, long memory", None, bytes(4097), "refused 5\n")
        self.compare("absent: no memory", example, None, "refused 10\n")
        self.compare("absent: no memory, none type", book(T("N", size=6)), None, "walk N 0\nunit\n")
        self.compare("absent: neither", None, None, "refused 5\n")
        self.compare("absent: book can't be opened", False, memory, "refused 5\n")
        self.compare("absent: memory can't be opened", book(T("N", size=6)), False, "walk N 0\nunit\n")
        # the head's name
        self.compare("head: alias root", book(T("ALIAS", "INT", id=b.INT16, size=2), int16), b"\1\0", "walk ALIAS 2\nint 16 1\n")
        # limits
        array = lambda n: book(T("ARR", "BYTE", size=n, dims=(n,)), byte)
        self.compare("limit: 2,728 bytes", array(2728), bytes(2728), "walk ARR 2728\narray 2728\n" + "nat 8 0\n" * 2728 + "end\n")
        self.compare("limit: 2,729 bytes", array(2729), bytes(2729), "refused 15\n")
        long_text = T("STRING(4095)", id=b.STRING, size=4096)
        once = book(T("U", size=4096, fields=[F("a", "STRING(4095)", 0, 4096)]), long_text)
        twice = book(T("U", size=4096, fields=[F("a", "STRING(4095)", 0, 4096), F("b", "STRING(4095)", 0, 4096)]), long_text)
        euros = "clipped " + "E282AC" * 4096 + "\n"
        self.compare("limit: one text", once, b"\x80" * 4096, "walk U 4096\nmap 1\nkey a\n" + euros + "end\n")
        self.compare("limit: two texts", twice, b"\x80" * 4096, "refused 15\n")
        # the longest lines: names of 200 bytes as keys and entries
        enum = T("E" * 200, id=b.UINT8, size=1, flags=b.ENUM, entries=[E("V" * 200, b"\0")])
        wide = T("S" * 200, size=120, fields=[F(f"{i:03}" + "f" * 197, "E" * 200, i, 1) for i in range(120)])
        rows = T("R", "S" * 200, size=1320, dims=(11,))
        self.compare("longest lines", book(rows, wide, enum), bytes(1320))
        # numbers and reals
        for id, size, word in ((b.INT64, 8, "int 64"), (b.UINT64, 8, "nat 64"), (b.INT8, 1, "int 8"), (b.INT32, 4, "int 32")):
            for value in (0, 1, 9, 10, 99, 100, 2**(8 * size - 1) - 1, 2**(8 * size - 1), 2**(8 * size) - 1):
                self.compare(word, book(T("T", id=id, size=size)), value.to_bytes(size, "little"))
        self.compare("real", book(T("T", id=b.REAL32, size=4)), bytes.fromhex("0000803f"), "walk T 4\nreal 4 3F800000\n")
        self.compare("NaN", book(T("T", id=b.REAL64, size=8)), bytes.fromhex("010000000000f87f"), "walk T 8\nreal 8 7FF8000000000001\n")

    def glue(self):
        """The glue recipe of examples/, with the lines that stand beside it."""
        content = {}
        for name in ("book.bin", "mem.bin", "stdout"):
            with open(os.path.join(GLUE, name), "rb") as file:
                content[name] = file.read()
        self.compare("glue recipe", content["book.bin"], content["mem.bin"], content["stdout"].decode("ascii"))

    def damaged(self, rng, data):
        """The book with a bit changed, its block's sum mended or not, or with its last type there twice."""
        if rng.random() < 0.2:
            last = max(at for at in range(0, len(data), 512) if data[at] == 1)
            return bytes(data + data[last:])
        place = rng.randrange(len(data))
        data[place] ^= 1 << rng.randrange(8)
        if rng.random() < 0.7:
            at = place // 512 * 512
            data[at + 508:at + 512] = sum(data[at:at + 508]).to_bytes(4, "little")
        return bytes(data)

    def random(self, count):
        b, k = self.b, 0
        while count:
            rng = Random(70000 + k)
            made = b.gen_book(rng, width=8) if k % 4 else b.gen_chaos(rng, width=8)
            k += 1
            root = made.book.at(made.root)
            turned = b.Made(b.Book([root] + [t for t in made.book.types if t is not root]), 0, 8)
            data = turned.book.bytes()
            if len(data) > BOOK + 512:
                continue
            count -= 1
            if rng.random() < 0.08:
                data = self.damaged(rng, bytearray(data))
            memory = b.gen_memory(rng, turned)
            if b.has_bom(memory):
                memory = bytes(len(memory))
            self.compare(f"random {k}", data, memory)
            damaged = bytearray(memory[:-1] if rng.random() < 0.3 else memory)
            for _ in range(rng.randrange(4) if damaged else 0):
                damaged[rng.randrange(len(damaged))] = rng.randrange(256)
            if not b.has_bom(bytes(damaged)):
                self.compare(f"random {k}, damaged", data, bytes(damaged))


def main():
    trial = Trial(sys.argv[1])
    trial.corners()
    trial.glue()
    print("corners:", trial.cases, "cases,", trial.wrong, "differ")
    trial.random(int(sys.argv[2]) if len(sys.argv) > 2 else 2000)
    print("all:", trial.cases, "cases,", trial.wrong, "differ;", trial.counted, "more where a type has the name of a count of time, which the original doesn't know")
    print("printed:", dict(sorted(trial.told.items())))
    sys.exit(trial.wrong > 0)


main()
