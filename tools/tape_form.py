"""Whether a tape has its form, by the text of documents 01 and 02 alone (refusal 16): the original has no tape. Used by record_writes.py,
compare_oracle.py and document_02.py; nothing of the port is asked.
"""

import struct

BLOCK, RECORD, LEVELS = 512, 24, 64
ARRAY, ARRAY_END, MAP, KEY, MAP_END, BOOL, SIGNED, UNSIGNED, SINGLE, DOUBLE, TEXT, ENTRY, UNIT = range(1, 14)
TYPE_BLOCK, FIELD_BLOCK, ENTRY_BLOCK = 1, 2, 3


class Fault(Exception):
    """The tape hasn't its form."""


def hold(fine):
    if not fine:
        raise Fault


class Form:
    def __init__(self, book, tape, text):
        self.book, self.tape, self.text, self.at = book, tape, text, 0

    def next(self):
        record = self.tape[self.at:self.at + RECORD]
        hold(len(record) == RECORD)
        self.at += RECORD
        kind, width, spare, declared, a, b = struct.unpack("<BBHIQQ", record)
        hold(spare == 0)
        if kind in (ARRAY_END, KEY, MAP_END):
            hold(declared == 0)
        else:
            self.block(declared, TYPE_BLOCK)
        hold(width in (1, 2, 4, 8) if kind in (SIGNED, UNSIGNED) else width == 0 or width == 1 and kind == TEXT)
        return kind, width, a, b

    def peek(self):
        return self.tape[self.at] if self.at < len(self.tape) else None

    def block(self, number, kind):
        hold(number * BLOCK < len(self.book) and self.book[number * BLOCK] == kind)

    def end(self, kind):
        hold(self.next() == (kind, 0, 0, 0))

    def value(self, level):
        kind, width, a, b = self.next()
        hold(level <= LEVELS)
        if kind == ARRAY:
            met = 0
            while self.peek() != ARRAY_END:
                self.value(level + 1)
                met += 1
            hold(a == met and b == 0)
            self.end(ARRAY_END)
        elif kind == MAP:
            met = 0
            while self.peek() != MAP_END:
                key, _, field, unused = self.next()
                hold(key == KEY and unused == 0)
                self.block(field, FIELD_BLOCK)
                self.value(level + 1)
                met += 1
            hold(a == met and b == 0)
            self.end(MAP_END)
        elif kind == TEXT:
            hold(a + b <= len(self.text))
            try:
                self.text[a:a + b].decode("utf-8")
            except UnicodeDecodeError:
                raise Fault from None
        elif kind == ENTRY:
            hold(b == 0)
            self.block(a, ENTRY_BLOCK)
        else:
            hold(a == 0)
            if kind == SIGNED:
                value = b - 2**64 if b >= 2**63 else b
                hold(-(1 << 8 * width - 1) <= value < 1 << 8 * width - 1)
            else:
                most = {BOOL: 1, UNSIGNED: (1 << 8 * width) - 1, SINGLE: 2**32 - 1, DOUBLE: 2**64 - 1, UNIT: 0}
                hold(kind in most and b <= most[kind])


def formed(book, tape, text):
    """Whether the tape is whole records, exactly one balanced value, with every part in its range."""
    form = Form(book, tape, text)
    try:
        form.value(1)
    except Fault:
        return False
    return form.at == len(tape)


def spoiled(rng, tape, text):
    """The tape and its text with one fault or two at random; some are none."""
    tape, text = bytearray(tape), bytearray(text)
    for _ in range(rng.choice([1, 1, 1, 2])):
        records = len(tape) // RECORD
        at = RECORD * rng.randrange(records) if records else 0
        what = rng.randrange(10) if records else 0
        if what == 0:
            del tape[rng.randrange(len(tape) + 1):]
        elif what == 1:
            tape += tape[at:at + RECORD]
        elif what == 2:
            del tape[at:at + RECORD]
        elif what == 3:
            tape[at] = rng.choice([0, *range(1, 14), 14, 255])
        elif what == 4:
            tape[at + 1] = rng.choice([0, 1, 2, 3, 4, 5, 8, 9, 16, 255])
        elif what == 5:
            k = at + rng.choice([8, 16])
            tape[k] = (tape[k] + rng.choice([1, 255, 128])) % 256
        elif what == 6:
            tape[at + rng.randrange(RECORD)] = rng.randrange(256)
        elif what == 7 and text:
            k = rng.randrange(len(text))
            text[k] ^= rng.choice([0x80, 0x40, 0x20, 1])
            if rng.random() < 0.3:
                del text[k:]
        elif what == 8:
            other = RECORD * rng.randrange(records)
            tape[at:at + RECORD], tape[other:other + RECORD] = tape[other:other + RECORD], tape[at:at + RECORD]
        else:
            k = at + rng.choice([8, 16])
            tape[k:k + 8] = bytes([rng.choice([0, 255, 128])]) * 8
    return bytes(tape), bytes(text)
