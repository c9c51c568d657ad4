#!/usr/bin/env python3
"""What document 02 adds to a tape of document 01, by its text alone: the original has no tape. Nothing of the port is asked.

    python3 tools/document_02.py FILE ...    brings files of recorded cases (crates/vectors/data) up to document 02

Reads: byte 1 of each text is 1 if its bytes have a terminator, else 0, and bytes 4 to 7 of each value are the block of its type as it was named, both
worked out along the recorded tape from book and memory. Writes: a recorded 16 of a tape that now has its form becomes the answer that the original
gave to the same call with the tape of document 01, if the file has that call, else the case goes.
"""

import struct
import sys

from case_file import BOOK, READ, WRITE, CaseFile, packed, u16, u32
from tape_form import formed

BLOCK, RECORD = 512, 24
# The types that are read and written by their names (change request 7), which the original doesn't know.
TIMES = {b"TIME", b"LTIME", b"TOD", b"TIME_OF_DAY", b"DATE", b"DT", b"DATE_AND_TIME", b"LDATE", b"LDT", b"LTOD"}
ARRAY, MAP, KEY, TEXT = 1, 3, 4, 11
WSTRING = 31
# Ends and keys declare no type.
UNDECLARED = (2, 4, 5)


class Types:
    """The type blocks of a book: its names, and where aliases lead."""

    def __init__(self, data):
        self.data = data
        self.found = {}
        for n in range(len(data) // BLOCK):
            if data[BLOCK * n] == 1:
                self.found.setdefault(self.name(n), n)

    def number(self, n, at):
        return struct.unpack_from("<I", self.data, BLOCK * n + at)[0]

    def name(self, n):
        return self.data[BLOCK * n + 54:BLOCK * n + 54 + self.data[BLOCK * n + 52]]

    def named(self, n):
        """The type block that a block's type name finds."""
        return self.found[self.data[BLOCK * n + 254:BLOCK * n + 254 + self.data[BLOCK * n + 53]]]

    def is_alias(self, n):
        flags, dimensions, name = self.data[BLOCK * n + 1], self.data[BLOCK * n + 2], self.name(n)
        if flags & 7 or dimensions or name in (b"PVOID", b"PCCH", b"BOOL") or name.startswith((b"POINTER TO", b"REFERENCE TO")):
            return False
        if b".." in name and b"(" in name and b")" in name:
            return False
        return self.data[BLOCK * n + 53] > 0 and self.number(n, 12) == 0 and not flags & 8

    def resolved(self, n):
        while self.is_alias(n):
            n = self.named(n)
        return n


def has_times(book):
    """Whether a type of the book has one of those names."""
    return any(book[at] == 1 and book[at + 54:at + 54 + book[at + 52]] in TIMES for at in range(0, len(book) - BLOCK + 1, BLOCK))


def ended(wide, part):
    """Whether a STRING has a zero byte, a WSTRING an aligned zero pair."""
    return any(part[i:i + 2] == b"\0\0" for i in range(0, len(part) - 1, 2)) if wide else 0 in part


class Along:
    """A walk along the tape of an accepted read, with the bytes of each value."""

    def __init__(self, types, tape):
        self.types, self.tape, self.at = types, bytearray(tape), 0

    def declare(self, block):
        self.tape[self.at + 4:self.at + 8] = u32(block)
        self.at += RECORD

    def value(self, named, part):
        here, kind = self.at, self.tape[self.at]
        t = self.types.resolved(named)
        if kind == ARRAY:
            self.dimension(named, t, 0, part)
            return
        self.declare(named)
        if kind == MAP:
            while self.tape[self.at] == KEY:
                field = struct.unpack_from("<Q", self.tape, self.at + 8)[0]
                self.at += RECORD
                offset, size = self.types.number(field, 4), self.types.number(field, 8)
                self.value(self.types.named(field), part[offset:offset + size])
            self.at += RECORD
        elif kind == TEXT:
            self.tape[here + 1] = ended(self.types.number(t, 4) == WSTRING, part)

    def dimension(self, named, t, d, part):
        count = self.types.number(t, 20 + 4 * d)
        self.declare(named)
        for i in range(count):
            stride = len(part) // count
            inner = part[i * stride:(i + 1) * stride]
            if d + 1 == self.types.data[BLOCK * t + 2]:
                self.value(self.types.named(t), inner)
            else:
                self.dimension(t, t, d + 1, inner)
        self.at += RECORD


def completed(book, root, memory, tape):
    """Document 01's tape of an accepted read with what document 02 adds."""
    along = Along(Types(book), tape)
    along.value(root, memory)
    assert along.at == len(tape), (along.at, len(tape))
    return bytes(along.tape)


def plain(tape):
    """A tape as document 01 has it, where it has its form."""
    tape = bytearray(tape)
    for at in range(0, len(tape) - RECORD + 1, RECORD):
        if tape[at] == TEXT and tape[at + 1] == 1:
            tape[at + 1] = 0
        if tape[at] not in UNDECLARED:
            tape[at + 4:at + 8] = bytes(4)
    return bytes(tape)


# ---- files of recorded cases


def cases(path):
    """(operation, lent, input, answer) of each case."""
    with open(path, "rb") as file:
        data = file.read()
    at = 0
    while at < len(data):
        end = at + 4 + struct.unpack_from("<I", data, at)[0]
        at += 4
        while at < end:
            operation, lent, size = struct.unpack_from("<BHH", data, at)
            given = data[at + 5:at + 5 + size]
            at += 5 + size
            size = struct.unpack_from("<H", data, at)[0]
            yield operation, lent, given, data[at + 2:at + 2 + size]
            at += 2 + size


def unpacked(data, at, size):
    """(so many bytes, the place after them) of packed ones."""
    out = bytearray()
    while len(out) < size:
        if data[at]:
            out.append(data[at])
            at += 1
        else:
            out += bytes(data[at + 1])
            at += 2
    return bytes(out), at


def put_book(book, given):
    """The book after a case that puts blocks to a place."""
    out, at = bytearray(book[:struct.unpack_from("<I", given)[0]]), 4
    while at < len(given):
        if given[at]:
            out.append(given[at])
            at += 1
        elif given[at + 1]:
            out += bytes(given[at + 1])
            at += 2
        else:
            start = len(out) // BLOCK * BLOCK
            out += bytes(start + BLOCK - 4 - len(out))
            out += u32(sum(out[start:]))
            at += 2
    return bytes(out)


def read_answer(book, given, answer):
    if answer[0]:
        return answer
    records, texts = struct.unpack_from("<II", answer, 1)
    tape, at = unpacked(answer, 9, RECORD * records)
    root = struct.unpack_from("<I", given, 1)[0]
    return answer[:9] + packed(completed(book, root, given[9:], plain(tape))) + answer[at:]


def write_parts(given):
    """(what comes before the tape, the text, the tape) of a write's input."""
    image, texts = struct.unpack_from("<HH", given, 5)
    start = 9 + image + texts
    tape = bytearray()
    at = start
    while at < len(given):
        if given[at]:
            tape.append(given[at])
            at += 1
        else:
            tape += bytes(given[at + 1])
            at += 2
    return given[:start], given[9 + image:start], bytes(tape)


def bring_up(path):
    file, book, place, given_to = CaseFile(), b"", 0, {}
    changed = gone = 0
    for operation, lent, given, answer in list(cases(path)):
        if operation == BOOK:
            book, place = put_book(book, given), place + 1
        elif operation == READ:
            new = read_answer(book, given, answer)
            changed += new != answer
            answer = new
        elif operation == WRITE:
            before, text, tape = write_parts(given)
            key = (place, lent, before, plain(tape))
            if tape == plain(tape):
                given_to[key] = answer
            elif answer[0] == 16 and formed(book, tape, text):
                changed += 1
                if key not in given_to:
                    gone += 1
                    continue
                answer = given_to[key]
        file.add_in_order(operation, given, answer, lent)
    file.write(path)
    print(f"{changed} answers changed, {gone} of them left out")


if __name__ == "__main__":
    for name in sys.argv[1:]:
        bring_up(name)
