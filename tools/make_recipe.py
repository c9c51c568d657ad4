#!/usr/bin/env python3
"""Makes the type book and the memory of a recipe from a short description.

    python3 tools/make_recipe.py glue.recipe            # writes book.bin and mem.bin beside it
    python3 tools/make_recipe.py glue.recipe FOLDER     # writes them into FOLDER
    python3 tools/make_recipe.py --width 4 glue.recipe  # pointers of 4 bytes, not 8

A description has one thing on a line; `#` starts a comment, blank lines don't count. The first type is the root.

    struct Recipe             # fields lie one after the other, without gaps
        Name: STRING(20)      # a name and its type; `Name: STRING(20) @ 8` would put it at byte 8
        Kind: Glue
        Nozzles: ARRAY [0..2] OF Nozzle
        Pieces: FB_Count
    struct Nozzle
        Open: BOOL
        Heat: Celsius
        Flow: INT(0..400)     # a number with bounds
        Next: POINTER TO Nozzle
        Cleaned: DT
    function_block FB_Count   # as a struct, but its fields begin after a pointer of its own; that tells it from a struct
        Count: UDINT
    alias Celsius: REAL       # another name for a type
    enum Glue: INT            # entries with their numbers
        COLD = 0
        HOT = 1
    string Tag: 3             # a STRING of 3 bytes under a name of its own; one of 0 bytes has no room for its zero
    unknown Dryer: 20         # a type of 20 bytes that the book leaves out, as one that has to be fetched yet
    memory                    # what stands in the memory; what isn't named is zero
        Name = "Spine"
        Kind = HOT
        Nozzles[1].Heat = 165.5
        Nozzles[1].Cleaned = DT#2026-11-17-06:30:00

Behind a function block's name may stand `methods`, if it has any, and `implements`, if it implements an interface.

Types that need no line: BOOL, SINT, INT, DINT, LINT, USINT, UINT, UDINT, ULINT, BYTE, WORD, DWORD, LWORD, REAL, LREAL,
STRING(n) of n + 1 bytes in Windows-1252, `STRING(n) UTF-8` the same in UTF-8, WSTRING(n) of 2n + 2, ARRAY [a..b, ..] OF a type, INT(a..b)
and the like, POINTER TO, REFERENCE TO, PVOID, the times TIME, LTIME, TOD, TIME_OF_DAY, DATE, DT, DATE_AND_TIME, LDATE, LDT and LTOD.

A value is a number, TRUE or FALSE, an entry's name, a text in double quotes (one that fills its bytes to the last has no zero after it
and is read as clipped), or a time: T#1h30m, TOD#06:30:00.250, D#2026-11-17, DT#2026-11-17-06:30:00, those of 8 bytes down to the nanosecond;
dates and times of day also as 2026-11-17T06:30:00 and 06:30:00.250. Types may be used before the line that says what they are.
"""

import datetime
import os
import re
import struct
import sys

# Document 01's type ids with the bytes that they take, by name.
PLAIN = {"BOOL": (33, 1), "SINT": (16, 1), "INT": (2, 2), "DINT": (3, 4), "LINT": (20, 8), "USINT": (17, 1), "UINT": (18, 2),
         "UDINT": (19, 4), "ULINT": (21, 8), "BYTE": (17, 1), "WORD": (18, 2), "DWORD": (19, 4), "LWORD": (21, 8),
         "REAL": (4, 4), "LREAL": (5, 8)}
# The times: their form, their bytes and the nanoseconds that one of them counts.
TIMES = {"TIME": ("duration", 4, 10**6), "LTIME": ("duration", 8, 1), "TOD": ("clock", 4, 10**6), "TIME_OF_DAY": ("clock", 4, 10**6),
         "LTOD": ("clock", 8, 1), "DATE": ("date", 4, 10**9), "LDATE": ("date", 8, 1), "DT": ("moment", 4, 10**9),
         "DATE_AND_TIME": ("moment", 4, 10**9), "LDT": ("moment", 8, 1)}
UNITS = {"d": 86400 * 10**9, "h": 3600 * 10**9, "m": 60 * 10**9, "s": 10**9, "ms": 10**6, "us": 10**3, "ns": 1}
CLOCK = r"(\d\d?):(\d\d):(\d\d(?:\.\d{1,9})?)"
DAY = r"(\d{4})-(\d\d?)-(\d\d?)"
SIGNED, REALS, BIT, STRING, WSTRING, BIG = (16, 2, 3, 20), {4: "<f", 5: "<d"}, 33, 30, 31, 65
UINTS = {4: 19, 8: 21}
BLOCK, BOOK, MEMORY = 512, 65536, 4096
POINTER, REFERENCE, ENUM, METHODS, IMPLEMENTS, UTF_8 = 1, 2, 4, 8, 16, 32
RECORDS = ("struct", "function_block")
OPEN = -1  # the size of a type whose parts are being laid out
NAME = r"[^\s.\[\],:=@#\"]+"


class Wrong(Exception):
    pass


class Type:
    def __init__(self, kind, name, line, base="", flags=0):
        self.kind, self.name, self.line, self.base, self.flags = kind, name, line, base, flags
        self.counts, self.bounds = (), ()
        self.id, self.size, self.parts = BIG, None, []  # parts: fields (name, type, offset or None, line), entries (name, number, line)


def block(kind, flags, numbers, name, type_name, rest=b"", dimensions=0):
    """512 bytes: kind, flags, the numbers from byte 4 on, what stands from byte 20 on, the names, the sum."""
    for text in (name, type_name):
        if len(text) > 200 or not all(" " <= c <= "~" for c in text):
            raise Wrong(f"a name of at most 200 printable ASCII characters is due: {text!r}")
    b = bytearray(BLOCK)
    b[0], b[1], b[2] = kind, flags, dimensions
    b[4:4 + 4 * len(numbers)] = struct.pack(f"<{len(numbers)}I", *numbers)
    b[20:20 + len(rest)] = rest
    b[52], b[53] = len(name), len(type_name)
    b[54:54 + len(name)], b[254:254 + len(type_name)] = name.encode(), type_name.encode()
    b[508:512] = struct.pack("<I", sum(b[:508]))
    return bytes(b)


def integer(text):
    """A whole number, decimal or after 0x, 0o, 0b."""
    try:
        return int(text, 0)
    except ValueError:
        raise Wrong(f"a whole number is due: {text}") from None


def bytes_of(number, size, signed):
    try:
        return number.to_bytes(size, "little", signed=signed)
    except OverflowError:
        raise Wrong(f"{number} doesn't fit {size} bytes{' with a sign' if signed else ''}") from None


def clock(hours, minutes, seconds):
    """Nanoseconds since midnight."""
    whole, _, part = seconds.partition(".")
    if int(hours) > 23 or int(minutes) > 59 or int(whole) > 59:
        raise Wrong(f"there is no such time of day: {hours}:{minutes}:{seconds}")
    return (int(hours) * 3600 + int(minutes) * 60 + int(whole)) * 10**9 + int(part.ljust(9, "0"))


def day(year, month, number):
    """Nanoseconds from 1970 on to that day's beginning."""
    try:
        days = datetime.date(int(year), int(month), int(number)) - datetime.date(1970, 1, 1)
    except ValueError:
        raise Wrong(f"there is no such day: {year}-{month}-{number}") from None
    return days.days * UNITS["d"]


def nanoseconds(form, text):
    """What a time counts that is said as T#1h30m, or as 2026-11-17T06:30:00 and 06:30:00 without a mark; None if it isn't of that form."""
    said = text.partition("#")[2].replace("_", "") or text
    if form == "duration":
        parts = re.findall(r"(\d+)(ms|us|ns|d|h|m|s)", said)
        whole = "".join(n + unit for n, unit in parts) == said and parts and "#" in text
        return sum(int(n) * UNITS[unit] for n, unit in parts) if whole else None
    if form == "clock":
        m = re.fullmatch(CLOCK, said)
        return clock(*m.groups()) if m else None
    if form == "date" and (m := re.fullmatch(DAY, said)):
        return day(*m.groups())
    m = re.fullmatch(f"{DAY}[-T]{CLOCK}", said)
    return day(*m.groups()[:3]) + clock(*m.groups()[3:]) if m else None


class Recipe:
    def __init__(self, width=8):
        self.types, self.order, self.values, self.width = {}, [], [], width
        self.now = 0  # the line that is looked at: an error's

    def declare(self, kind, name, base="", flags=0):
        if name in self.types:
            raise Wrong(f"{name or 'memory'} is said twice")
        self.types[name] = Type(kind, name, self.now, base, flags)
        self.order.append(self.types[name])

    def read(self, number, text):
        """One line of the description, by its number."""
        self.now = number
        # Texts in quotes and the # of a time's literal, as in T#5s, are no comments.
        text = re.sub(r'("[^"]*"|(?<=[A-Za-z])#(?=\d))|#.*', lambda m: m[1] or "", text).strip()
        if text:
            self.line(text)

    def line(self, text):
        if m := re.fullmatch(rf"struct ({NAME})", text):
            self.declare("struct", m[1])
        elif m := re.fullmatch(rf"function_block ({NAME})((?:\s+(?:methods|implements))*)", text):
            words = m[2].split()
            self.declare("function_block", m[1],
                         flags=(METHODS if "methods" in words else 0) | (IMPLEMENTS if "implements" in words else 0))
        elif m := re.fullmatch(rf"(enum|alias) ({NAME})\s*:\s*(.+)", text):
            self.declare(m[1], m[2], m[3])
        elif m := re.fullmatch(rf"unknown ({NAME})\s*:\s*(\d+)", text):
            self.declare("unknown", m[1])
            self.types[m[1]].size = int(m[2])
        elif m := re.fullmatch(rf"string ({NAME})\s*:\s*(\d+)", text):
            if int(m[2]) >= 2**32:
                raise Wrong(f"{m[1]} has {m[2]} bytes, which is more than a type book can say")
            self.declare("text", m[1])
            self.types[m[1]].id, self.types[m[1]].size = STRING, int(m[2])
        elif text == "memory":
            self.declare("memory", "")
        elif not self.order:
            raise Wrong("a type is due first, as `struct Recipe`")
        else:
            self.part(self.order[-1], text)

    def part(self, t, text):
        """A field, an entry or a value."""
        if t.kind == "memory" and (m := re.fullmatch(r"(\S+?)\s*=\s*(.+)", text)):
            self.values.append((m[1], m[2], self.now))
        elif t.kind in RECORDS and (m := re.fullmatch(rf"({NAME})\s*:\s*([^@]+?)\s*(?:@\s*(\d+))?", text)):
            if any(p[0] == m[1] for p in t.parts):
                raise Wrong(f"{t.name} has a field {m[1]} already")
            t.parts.append((m[1], " ".join(m[2].split()), None if m[3] is None else int(m[3]), self.now))
        elif t.kind == "enum" and (m := re.fullmatch(rf"({NAME})\s*=\s*(-?\d+)", text)):
            t.parts.append((m[1], int(m[2]), self.now))
        else:
            due = {"memory": "`Path = value`", "enum": "`ENTRY = 1`"}.get(t.kind, "`Name: TYPE`" if t.kind in RECORDS else "a new type or `memory`")
            raise Wrong(f"this line can't be read; {due} is due here: {text}")

    def find(self, name):
        """The type of that name; plain types, texts, arrays and the like come to be where they are first used."""
        if name not in self.types:
            self.types[name] = self.unsaid(name)
            self.order.append(self.types[name])
        t = self.types[name]
        self.lay(t)
        return t

    def unsaid(self, name):
        """A type that needs no line."""
        t = Type("plain", name, self.now)
        if name in PLAIN:
            t.id, t.size = PLAIN[name]
        elif name in TIMES:
            t.kind, t.size = "time", TIMES[name][1]
            t.id = UINTS[t.size]
        elif m := re.fullmatch(r"(POINTER|REFERENCE) TO (.+)", name):
            t.kind, t.base, t.size = "pointer", m[2], self.width
            t.flags = POINTER if m[1] == "POINTER" else REFERENCE
        elif name == "PVOID":
            t.kind, t.size, t.flags = "pointer", self.width, POINTER
        elif m := re.fullmatch(r"STRING\((\d+)\)( UTF-8)?", name):
            t.kind, t.id, t.size, t.flags = "text", STRING, int(m[1]) + 1, UTF_8 if m[2] else 0
        elif m := re.fullmatch(r"WSTRING\((\d+)\)", name):
            t.kind, t.id, t.size = "text", WSTRING, 2 * int(m[1]) + 2
        elif (m := re.fullmatch(r"(\w+) ?\((-?\d+)\.\.(-?\d+)\)", name)) and m[1] in PLAIN and PLAIN[m[1]][0] not in (BIT, *REALS):
            (t.id, t.size), t.bounds = PLAIN[m[1]], [(int(m[2]), int(m[3]))]
        elif m := re.fullmatch(r"ARRAY ?\[([^\]]+)\] OF (.+)", name):
            bounds = [re.fullmatch(r"\s*(-?\d+)\s*\.\.\s*(-?\d+)\s*", part) for part in m[1].split(",")]
            if None in bounds or len(bounds) > 8 or any(int(b[2]) < int(b[1]) - 1 for b in bounds):
                raise Wrong(f"bounds as [0..3] are due, of 8 dimensions at most: {name}")
            t.kind, t.base, t.bounds = "array", m[2], [(int(b[1]), int(b[2])) for b in bounds]
            t.counts = [high - low + 1 for low, high in t.bounds]
        else:
            raise Wrong(f"there is no type {name}")
        return t

    def lay(self, t):
        """The type's id and size, and its fields' places."""
        if t.kind == "memory" or t.size not in (None, OPEN):
            return
        if t.size == OPEN:
            raise Wrong(f"{t.name} holds itself")
        before, t.size = self.now, OPEN
        if t.kind in ("alias", "enum"):
            self.now = t.line
            base = self.find(t.base)
            if t.kind == "enum" and (base.kind != "plain" or base.id in (BIT, *REALS)):
                raise Wrong(f"{t.base} can't number the entries of {t.name}")
            t.id, size = base.id, base.size
        elif t.kind == "array":
            size = self.find(t.base).size
            for n in t.counts:
                size *= n
        else:
            size = self.lay_fields(t)
        if size >= 2**32:
            raise Wrong(f"{t.name} has {size} bytes, which is more than a type book can say")
        t.size, self.now = size, before

    def lay_fields(self, t):
        end = size = self.width if t.kind == "function_block" else 0
        for i, (name, base, place, line) in enumerate(t.parts):
            self.now = line
            place = end if place is None else place
            t.parts[i] = (name, base, place, line)
            end = place + self.find(base).size
            size = max(size, end)
        return size

    def blocks(self, t):
        """The type's block, then those of its fields or entries."""
        self.now = t.line
        fields = len(t.parts) if t.kind in RECORDS else 0
        entries = len(t.parts) if t.kind == "enum" else 0
        if max(t.counts, default=0) >= 2**32:
            raise Wrong(f"a dimension of {t.name} has too many elements")
        flags = ENUM if t.kind == "enum" else t.flags
        type_name = t.base if t.kind in ("alias", "array", "pointer") else ""
        yield block(1, flags, (t.id, t.size, fields, entries), t.name, type_name, struct.pack(f"<{len(t.counts)}I", *t.counts),
                    len(t.counts))
        for part in t.parts:
            self.now = part[-1]
            if t.kind in RECORDS:
                yield block(2, 0, (part[2], self.find(part[1]).size), part[0], part[1])
            else:
                yield block(3, t.size, (), part[0], "", self.entry(t, part[1]))

    def entry(self, t, number):
        return bytes_of(number, t.size, t.id in SIGNED)

    def place(self, path):
        """Where a value stands, and its type with aliases resolved."""
        if not re.fullmatch(rf"(?:{NAME}|\[[^\]]*\])(?:\.{NAME}|\[[^\]]*\])*", path):
            raise Wrong(f"names parted by dots and indexes in brackets are due: {path}")
        t, at = self.order[0], 0
        for name, index in re.findall(r"([^.\[\]]+)|\[([^\]]*)\]", path):
            t = self.behind(t)
            if name:
                found = [p for p in t.parts if p[0] == name] if t.kind in RECORDS else []
                if not found:
                    raise Wrong(f"{t.name} has no field {name}")
                at, t = at + found[0][2], self.find(found[0][1])
            else:
                flat = self.element(t, index)
                t = self.find(t.base)
                at += flat * t.size
        return at, self.behind(t)

    def element(self, t, index):
        """Which element of an array's memory some indexes mean."""
        numbers = [integer(n.strip()) for n in index.split(",")]
        if t.kind != "array" or len(numbers) != len(t.bounds):
            raise Wrong(f"{t.name} takes no such index: [{index}]")
        flat = 0
        for n, (low, high), count in zip(numbers, t.bounds, t.counts):
            if not low <= n <= high:
                raise Wrong(f"[{index}] is outside {t.name}")
            flat = flat * count + n - low
        return flat

    def behind(self, t):
        while t.kind == "alias":
            t = self.find(t.base)
        return t

    def value(self, t, text):
        """A value's bytes."""
        if t.kind == "enum":
            numbers = [p[1] for p in t.parts if p[0] == text]
            if not numbers:
                raise Wrong(f"{t.name} has no entry {text}")
            return self.entry(t, numbers[0])
        if t.kind == "text":
            return self.text(t, text)
        if t.kind == "time":
            return bytes_of(self.time(t, text), t.size, False)
        if t.kind == "pointer":
            return bytes_of(integer(text), t.size, False)
        if t.kind != "plain":
            raise Wrong(f"{t.name} is set part by part")
        if t.id in REALS:
            try:
                return struct.pack(REALS[t.id], float(text))
            except (ValueError, OverflowError):
                raise Wrong(f"{t.name} can't hold {text}") from None
        number = {"TRUE": 1, "FALSE": 0}.get(text) if t.id == BIT else None
        if t.id == BIT and number is None and text not in ("0", "1"):
            raise Wrong(f"TRUE or FALSE is due: {text}")
        number = integer(text) if number is None else number
        if any(not low <= number <= high for low, high in t.bounds):
            raise Wrong(f"{number} is outside {t.name}")
        return bytes_of(number, t.size, t.id in SIGNED)

    def text(self, t, text):
        if len(text) < 2 or text[0] != '"' or text[-1] != '"':
            raise Wrong(f"a text in double quotes is due: {text}")
        try:
            raw = text[1:-1].encode("utf-16-le" if t.id == WSTRING else "utf-8" if t.flags & UTF_8 else "cp1252")
        except UnicodeEncodeError as error:
            raise Wrong(f"{t.name} can't hold the character {text[1:-1][error.start]!r}") from None
        if len(raw) > t.size:
            raise Wrong(f"{text} is too long for {t.name}")
        return raw.ljust(t.size, b"\0")

    def time(self, t, text):
        """What a time counts: a literal or a bare number."""
        form, _, unit = TIMES[t.name]
        count = nanoseconds(form, text)
        if count is None and re.search("[#:]", text):
            raise Wrong(f"{text} is no {form} as {t.name} has")
        if count is None:
            return integer(text)
        if count % unit:
            raise Wrong(f"{text} is finer than {t.name} can hold")
        return count // unit

    def laid(self):
        """All types, the first said first, with their sizes."""
        self.order = [t for t in self.order if t.kind != "memory"]
        if not self.order:
            raise Wrong("there is no type; the first one, as `struct Recipe`, is the root")
        for t in self.order:  # grows while types are found
            self.now = t.line
            self.find(t.name)
        self.now = self.order[0].line
        if self.order[0].kind == "unknown":
            raise Wrong("the first type is the root and can't be unknown")
        return [t for t in self.order if t.kind != "unknown"]

    def made(self):
        """(book, memory)."""
        book = b"".join(b for t in self.laid() for b in self.blocks(t))
        root = self.order[0]
        self.now = root.line
        if len(book) > BOOK or root.size > MEMORY:
            raise Wrong(f"{len(book)} bytes of book and {root.size} of memory: at most {BOOK} and {MEMORY} are read")
        memory = bytearray(root.size)
        for path, text, line in self.values:
            self.now = line
            at, t = self.place(path)
            memory[at:at + t.size] = self.value(t, text)
        return book, bytes(memory)


def described(source, use, width=8):
    """What `use` makes of a description. An error ends the program, with the line's number."""
    recipe = Recipe(width)
    try:
        with open(source, "rb") as file:
            lines = file.read().split(b"\n")
        for number, line in enumerate(lines, 1):
            recipe.now = number
            recipe.read(number, line.decode("utf-8"))
        return use(recipe)
    except OSError as error:
        sys.exit(f"{source}: {error.strerror}")
    except UnicodeDecodeError:
        sys.exit(f"{source}:{recipe.now}: this line isn't UTF-8")
    except RecursionError:
        sys.exit(f"{source}:{recipe.now}: the types lie in one another too deep")
    except Wrong as wrong:
        sys.exit(f"{source}:{recipe.now}: {wrong}")


def write(path, content):
    try:
        with open(path, "wb") as file:
            file.write(content)
    except OSError as error:
        sys.exit(f"{path}: {error.strerror}")


def usage(words, most, target="FOLDER"):
    """The width and the other words; --help and wrong usage end the program."""
    name = os.path.basename(sys.argv[0])
    if "--help" in words or "-h" in words:
        main = sys.modules["__main__"]
        print(main.__doc__.strip())
        sys.exit(0)
    width, rest = 8, list(words)
    if "--width" in rest:
        at = rest.index("--width")
        said = rest[at + 1] if at + 1 < len(rest) else ""
        if said not in ("4", "8"):
            print(f"{name}: --width is 4 or 8", file=sys.stderr)
            sys.exit(2)
        width, rest = int(said), rest[:at] + rest[at + 2:]
    if not 1 <= len(rest) <= most or any(word.startswith("-") for word in rest):
        print(f"usage: {name} [--width 4] DESCRIPTION [{target}]   ({name} --help tells more)", file=sys.stderr)
        sys.exit(2)
    return width, rest


def main():
    width, words = usage(sys.argv[1:], 2)
    source = words[0]
    folder = words[1] if len(words) > 1 else os.path.dirname(source) or "."
    book, memory = described(source, Recipe.made, width)
    write(os.path.join(folder, "book.bin"), book)
    write(os.path.join(folder, "mem.bin"), memory)
    print(f"{folder}: book of {len(book) // BLOCK} blocks, memory of {len(memory)} bytes")


if __name__ == "__main__":
    main()
