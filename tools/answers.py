"""Where the recorded answers come from.

Oracle: the published Rust, unchanged, behind a program that answers by line (its folder has book.py and client.py).
Encodings: encoding_rs itself, its plain decoders, by tools/encoding_rs.
"""

import os
import subprocess
import sys


def books(folder):
    """The module book of the oracle's folder."""
    sys.path.insert(0, os.path.abspath(folder))
    import book

    return book


def oracle(folder):
    """(the module book, a running oracle) of the oracle's folder."""
    book = books(folder)
    import client

    return book, client.Oracle()


def check(book, data):
    """The refusal of a book, 1 to 4, or 0, as the oracle's module `book` reads document 01. Change request 5 came after it: a book of no
    bytes is valid."""
    return (book.check(data) or 0) if data else 0


class Encodings:
    def __init__(self, program):
        self.p = subprocess.Popen([program], stdin=subprocess.PIPE, stdout=subprocess.PIPE)

    def _ask(self, request, data):
        self.p.stdin.write(f"{request} {data.hex() if data else '-'}\n".encode())
        self.p.stdin.flush()
        return self.p.stdout.readline().decode().strip()

    def text(self, encoding, data):
        answer = self._ask(encoding, data)
        return b"" if answer == "-" else bytes.fromhex(answer)

    def encode(self, text):
        return self.text("encode", text)

    def valid(self, text):
        return self._ask("valid", text) == "1"

    def close(self):
        self.p.stdin.close()
        self.p.wait()


def opens_with_mark(data):
    """Whether the Rust's `decode` would look at a byte order mark here."""
    return data[:2] in (b"\xff\xfe", b"\xfe\xff") or data[:3] == b"\xef\xbb\xbf"
