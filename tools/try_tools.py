#!/usr/bin/env python3
"""Tries make_recipe.py, make_upload.py and the words of tools/run: the examples made again, what can't be read, what isn't there.

    python3 tools/try_tools.py

A line that can't be read must be an error with its number, and never a traceback; a folder without a book must be told. Damage is made at
random from fixed seeds. The last line is the number of cases; the first that fails ends it with status 1.
"""

import contextlib
import io
import os
import re
import subprocess
import sys
import tempfile
from random import Random

import make_recipe
import make_upload

TOP = os.path.join(os.path.dirname(os.path.abspath(__file__)), "..")
GOOD = """struct S
    a: INT
    t: TIME
    s: STRING(4)
    w: WSTRING(2)
    r: REAL
    b: BOOL
    e: E
    x: ARRAY [1..2, -1..0] OF INT
    n: INT(0..9)
    p: POINTER TO S
    f: FB
enum E: INT
    ON = 1
function_block FB methods
    c: UDINT
alias A: S
memory
"""
# What is appended to a good description, or stands alone, the line at which it is wrong, and a part of what must be said.
BAD = [
    ("frob", 1, "a type is due first"),
    ("", 1, "there is no type"),
    ("memory", 1, "there is no type"),
    ("struct S\n    a INT", 2, "`Name: TYPE` is due here"),
    ("struct S\n    a: FOO", 2, "there is no type FOO"),
    ("struct S\n\n    # x\n    a: INT\n    a: INT", 5, "a field a already"),
    ("struct S\nstruct S", 2, "said twice"),
    ("struct S\n    a: S", 2, "holds itself"),
    ("struct S\n    a: T\nstruct T\n    b: U\nalias U: S", 5, "holds itself"),
    ("struct S\n    a: ARRAY [0..x] OF INT", 2, "bounds"),
    ("struct S\n    a: ARRAY [4..1] OF INT", 2, "bounds"),
    ("struct S\n    a: ARRAY [0..1,0..1,0..1,0..1,0..1,0..1,0..1,0..1,0..1] OF INT", 2, "8 dimensions"),
    ("struct S\n    a: ARRAY [0..99999] OF ARRAY [0..99999] OF INT", 2, "more than a type book can say"),
    ("struct S\n    a: ARRAY [0..99999] OF INT", 1, "of memory: at most"),
    ("struct S\n    a: STRING(99999999999)", 2, "more than a type book can say"),
    ("struct S\n    \xfc: INT", 2, "printable ASCII"),
    ("struct " + "x" * 201, 1, "printable ASCII"),
    ("struct S\n    a: REAL(0..4)", 2, "there is no type REAL(0..4)"),
    ("struct S\n    a: E\nenum E: REAL\n    A = 1", 3, "can't number"),
    ("struct S\n    a: E\nenum E: SINT\n    A = 128", 4, "doesn't fit"),
    ("struct S\n    a: E\nenum E: USINT\n    A = -1", 4, "doesn't fit"),
    ("struct S\n    a: E\nenum E: INT\n    A: 1", 4, "`ENTRY = 1`"),
    ("alias A: INT\n    x: INT", 2, "can't be read"),
    ("unknown A: 4", 1, "can't be unknown"),
    ("struct S\n    a: A\nunknown A: four", 3, "can't be read"),
    ("struct S\n    a: A\nstring A: four", 3, "can't be read"),
    ("struct S\n    a: INT\nstring A: 4294967296", 3, "more than a type book can say"),
    ('struct S\n    a: A\nstring A: 2\nmemory\n    a = "abc"', 5, "too long"),
    ("struct S\n    a: A\nunknown A: 4\nmemory\n    a = 1", 5, "set part by part"),
    (GOOD + "    a", 19, "`Path = value`"),
    (GOOD + "    a = x", 19, "a whole number is due"),
    (GOOD + "    a = 32768", 19, "doesn't fit 2 bytes"),
    (GOOD + "    a = 1\n    z = 1", 20, "has no field z"),
    (GOOD + "    a..b = 1", 19, "names parted by dots"),
    (GOOD + "    a[ = 1", 19, "names parted by dots"),
    (GOOD + "    x[1] = 1", 19, "takes no such index"),
    (GOOD + "    x[3,0] = 1", 19, "is outside"),
    (GOOD + "    x[1,y] = 1", 19, "a whole number is due"),
    (GOOD + "    x = 1", 19, "set part by part"),
    (GOOD + "    f = 1", 19, "set part by part"),
    (GOOD + "    n = 10", 19, "outside INT(0..9)"),
    (GOOD + "    b = 2", 19, "TRUE or FALSE"),
    (GOOD + "    e = OFF", 19, "no entry OFF"),
    (GOOD + "    r = hot", 19, "can't hold hot"),
    (GOOD + "    r = 1e99", 19, "can't hold 1e99"),
    (GOOD + "    s = abc", 19, "double quotes"),
    (GOOD + '    s = "abcdef"', 19, "too long"),
    (GOOD + '    w = "abcd"', 19, "too long"),
    (GOOD + '    s = "\u2615"', 19, "can't hold the character"),
    (GOOD + "    p = -1", 19, "doesn't fit 8 bytes"),
    (GOOD + "    t = T#1us", 19, "finer than"),
    (GOOD + "    t = T#", 19, "a whole number is due"),
    (GOOD + "    t = DT#2026-01-01-00:00:00", 19, "no duration"),
    (GOOD + "    t = T#50d", 19, "doesn't fit 4 bytes"),
    (GOOD + "    t = 12:00:00", 19, "no duration"),
    ("struct S\n    d: DT\nmemory\n    d = 2026-02-30T00:00:00", 4, "no such day"),
    ("struct S\n    d: DT\nmemory\n    d = 12:00:00", 4, "no moment"),
    ("struct S\n    d: DT\nmemory\n    d = DT#2026-02-30-00:00:00", 4, "no such day"),
    ("struct S\n    d: DT\nmemory\n    d = DT#2026-02-03-24:00:00", 4, "no such time"),
    ("struct S\n    d: DATE\nmemory\n    d = D#1969-12-31", 4, "doesn't fit"),
    ("struct S\n" + "".join(f"    f{i}: INT\n" for i in range(200)), 1, "bytes of book"),
    ("struct S0\n" + "".join(f"    x: S{i}\nstruct S{i}\n" for i in range(1, 2000)), None, "too deep"),
]
TIMES = [("TIME", "T#1d2h3m4s5ms", 93784005), ("TIME", "TIME#0s", 0), ("TIME", "77", 77), ("LTIME", "LTIME#1us1ns", 1001),
         ("TOD", "TOD#23:59:59.999", 86399999), ("TIME_OF_DAY", "TOD#0:00:01", 1000), ("LTOD", "LTOD#00:00:00.000000001", 1),
         ("DATE", "D#1970-01-02", 86400), ("DT", "DT#2000-03-01-00:00:00", 951868800), ("DATE_AND_TIME", "DT#1970-01-01-00:00:00", 0),
         ("DT", "2106-02-07T06:28:15", 2**32 - 1), ("TOD", "06:00:00.250", 21600250), ("DATE", "1970-01-02T00:00:01", 86401),
         ("LDATE", "LDATE#1970-01-02", 86400 * 10**9), ("LDT", "LDT#1970-01-01-00:00:00.5", 5 * 10**8)]
cases = 0


def case(fine, words):
    global cases
    cases += 1
    if not fine:
        sys.exit(f"tools/try_tools.py: {words}")


def made(text, use=make_recipe.Recipe.made, width=8):
    """(what is made, None) or (None, the error's words)."""
    with tempfile.NamedTemporaryFile("wb", suffix=".recipe", delete=False) as file:
        file.write(text if isinstance(text, bytes) else text.encode())
    try:
        with contextlib.redirect_stderr(io.StringIO()):
            return make_recipe.described(file.name, use, width), None
    except SystemExit as end:
        return None, str(end.code).replace(file.name, "R")
    finally:
        os.unlink(file.name)


def run(*words, folder=TOP):
    """Exit status, standard output and standard error."""
    done = subprocess.run(words, cwd=folder, capture_output=True, text=True, check=False)
    case("Traceback" not in done.stderr, f"{' '.join(words)}: {done.stderr}")
    return done.returncode, done.stdout, done.stderr


def content(*path):
    with open(os.path.join(TOP, *path), "rb") as file:
        return file.read()


def examples():
    for folder, name in (("glue", "glue"), ("clipped", "clipped"), ("pieces", "pieces"), ("ours", "ours"), ("upload", "station")):
        text = content("examples", folder, f"{name}.recipe")
        (book, memory), _ = made(text)
        case(book == content("examples", folder, "book.bin"), f"examples/{folder}/book.bin isn't what its description makes")
        case(memory == content("examples", folder, "mem.bin"), f"examples/{folder}/mem.bin isn't what its description makes")
    upload, _ = made(content("examples", "upload", "station.recipe"), make_upload.uploaded)
    case(upload == content("examples", "upload", "station.upload"), "examples/upload/station.upload isn't what its description makes")


def descriptions():
    answer, error = made(GOOD)
    case(answer and error is None, f"the good description is refused: {error}")
    for text, line, words in BAD:
        answer, error = made(text)
        case(error is not None, f"nothing is wrong with {text!r}")
        case(line is None or error.startswith(f"R:{line}: "), f"line {line} was due: {error}")
        case(words in error, f"{words!r} was due: {error}")
    case(made(b"struct S\n    a: INT\n\xff\xfe")[1] == "R:3: this line isn't UTF-8", "bytes that are no text")
    for name, text, number in TIMES:
        (_, memory), error = made(f"struct S\n    t: {name}\nmemory\n    t = {text}")
        case(int.from_bytes(memory, "little") == number, f"{text} is {int.from_bytes(memory, 'little')}, not {number} ({error})")
    (book, memory), _ = made('struct S\n    s: STRING(4) UTF-8\n    t: STRING(1)\nmemory\n    s = "\u20ac\u00e9"\n    t = "xy"')
    case(memory == "\u20ac\u00e9".encode() + b"xy" and book[3 * 512 + 1] == 32, f"a text in UTF-8, one without zero: {memory}")
    (book, memory), _ = made("struct S\n    p: POINTER TO S\n    f: FB\nfunction_block FB\n    c: INT", width=4)
    case(len(memory) == 10, f"pointers of 4 bytes: {len(memory)}")


def damaged():
    """Lines, words and characters changed: an answer or words, and for a line's error its number."""
    for seed in range(1500):
        rng = Random(seed)
        text = list(rng.choice([GOOD + "    a = 1\n    t = T#5s\n    x[1,0] = 3", content("examples", "glue", "glue.recipe").decode()]))
        for _ in range(rng.randint(1, 4)):
            at = rng.randrange(len(text))
            text[at:at + rng.choice([0, 1, 1, 5, 30])] = rng.choice(["", "\n", ":", "=", "[", "]", "..", "9" * 20, "@ 7", "#", '"', "-", "S", " OF "])
        try:
            answer, error = made("".join(text))
        except Exception as fault:  # whatever it is, it must not come so far
            case(False, f"seed {seed}: {fault!r}")
        case(answer or re.match(r"R:\d+: .", error), f"seed {seed}: {error}")


def commands():
    tool = os.path.join(TOP, "tools")
    for name in ("make_recipe.py", "make_upload.py"):
        path = os.path.join(tool, name)
        status, out, _ = run(sys.executable, path, "--help")
        case(status == 0 and out.startswith("Makes "), f"{name} --help")
        for words in ((), ("a", "b", "c"), ("--width", "3", "a"), ("--width",), ("--frob",)):
            status, _, error = run(sys.executable, path, *words)
            case(status == 2 and error, f"{name} {words}: {status} {error}")
        status, _, error = run(sys.executable, path, "/nowhere/x.recipe")
        case(status == 1 and "No such file" in error, f"{name}: {error}")
        status, _, error = run(sys.executable, path, os.path.join(TOP, "examples", "glue", "glue.recipe"), "/nowhere/at/all")
        case(status == 1 and "No such file" in error, f"{name}: {error}")
    program = os.path.join(tool, "run")
    status, out, _ = run(program, "--help")
    case(status == 0 and "tools/run FOLDER" in out and "tools/run why" in out, "tools/run --help")
    with tempfile.TemporaryDirectory() as folder:
        for words, wanted, said in (((folder,), 1, "has no book.bin"), ((folder + "/x",), 1, "is no folder"), (("--frob",), 2, "no option"),
                                    (("why", folder), 1, "has no book.bin"), (("write", folder, "a", "1"), 1, "has no book.bin"),
                                    (("plan", folder + "/x"), 1, "is no folder"), ((folder, "b"), 2, "one folder")):
            status, _, error = run(program, *words)
            case(status == wanted and said in error, f"tools/run {words}: {status} {error}")
        with open(os.path.join(folder, "book.bin"), "wb") as file:
            file.write(content("examples", "glue", "book.bin"))
        status, _, error = run(program, folder)
        case(status == 1 and "has no mem.bin" in error, f"tools/run: {error}")


def main():
    examples()
    descriptions()
    damaged()
    commands()
    print(f"tools/try_tools.py: {cases} cases")


if __name__ == "__main__":
    main()
