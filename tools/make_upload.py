#!/usr/bin/env python3
"""Makes a type list as a controller uploads it from a recipe's description: data type entries, one after the other.

    python3 tools/make_upload.py station.recipe         # writes station.upload beside it
    python3 tools/make_upload.py station.recipe FILE    # writes FILE
    python3 tools/make_upload.py --width 4 station.recipe

tools/make_recipe.py --help says what a description is. The layout is AdsDatatypeEntry of Beckhoff's public header TcAdsDef.h
(docs/UPLOAD.md), as it is publicly known; it was not taken from a controller. Beside what a type book holds, the entries have what it
can't hold, as a real list would: comments, lower bounds, hashes, GUIDs, copy masks, attributes, methods with names, a static variable
and a property in each function block. `typebook upload` must come to the book that tools/make_recipe.py makes of the same description.
"""

import hashlib
import os
import struct
import sys

from make_recipe import BIG, IMPLEMENTS, METHODS, POINTER, RECORDS, REFERENCE, UTF_8, described, usage, write

DATATYPE, DATAITEM, REFERENCE_TO, PROP_ITEM, TYPE_GUID, COPY_MASK = 0x1, 0x2, 0x4, 0x40, 0x80, 0x200
METHOD_INFOS, ATTRIBUTES, ENUM_INFOS, ALIGNED, STATIC, PLC_POINTER_TYPE = 0x800, 0x1000, 0x2000, 0x10000, 0x20000, 0x800000


def said(*texts):
    """Texts, each with the zero after it."""
    return b"".join(text.encode("cp1252") + b"\0" for text in texts)


def entry(name, type_name, comment, size, offset, type_id, flags, bounds=(), items=(), tail=b""):
    """A data type entry: of a type or of a sub item."""
    body = said(name, type_name, comment)
    body += b"".join(struct.pack("<iI", low, high - low + 1) for low, high in bounds) + b"".join(items) + tail
    lengths = [len(text.encode("cp1252")) for text in (name, type_name, comment)] + [len(bounds), len(items)]
    hashes = struct.unpack("<2I", hashlib.sha256(name.encode()).digest()[:8])
    return struct.pack("<8I5H", 42 + len(body), 1, *hashes, size, offset, type_id, flags, *lengths) + body


def method(name, index):
    """A method entry: AdsMethodEntry, without parameters, that gives nothing back."""
    body = said(name, "", "")
    return struct.pack("<6I16s2I4H", 56 + len(body), 1, index, 0, 0, 0, bytes(16), 0, 0, len(name), 0, 0, 0) + body


def attributes(pairs):
    return struct.pack("<H", len(pairs)) + b"".join(struct.pack("<2B", len(n), len(v)) + said(n, v) for n, v in pairs)


def fields(recipe, t):
    """A struct's or a function block's sub items."""
    for name, base, offset, _ in t.parts:
        found = recipe.find(base)
        pairs = attributes([("OPC.UA.DA", "1")])
        yield entry(name, base, f"{name} of {t.name}", found.size, offset, found.id, DATAITEM | ATTRIBUTES, tail=pairs)
    if t.kind == "function_block":
        yield entry("Instances", "UDINT", "one for all", 4, 0, 19, DATAITEM | STATIC)
        yield entry("Ready", "BOOL", "asked by a call", 1, 0, 33, DATAITEM | PROP_ITEM)


def data_type(recipe, t):
    """A type's entry."""
    items = list(fields(recipe, t)) if t.kind in RECORDS else []
    flags = DATATYPE | TYPE_GUID | ALIGNED
    flags |= PLC_POINTER_TYPE if t.flags & POINTER else 0
    flags |= REFERENCE_TO if t.flags & REFERENCE else 0
    tail = hashlib.sha256(b"guid" + t.name.encode()).digest()[:16]
    if t.kind in RECORDS:
        flags |= COPY_MASK
        tail += b"\xff" * t.size
    if t.flags & METHODS:
        flags |= METHOD_INFOS
        names = ["Start", "Stop"]
        tail += struct.pack("<H", len(names)) + b"".join(method(name, i) for i, name in enumerate(names))
    if t.flags & IMPLEMENTS:
        flags |= ATTRIBUTES
        tail += attributes([("TcImplements", "I_Watch"), ("no_check", "")])
    if t.flags & UTF_8:
        flags |= ATTRIBUTES
        tail += attributes([("TcEncoding", "UTF-8")])
    if t.kind == "enum":
        flags |= ENUM_INFOS
        tail += struct.pack("<H", len(t.parts))
        tail += b"".join(struct.pack("<B", len(p[0])) + said(p[0]) + recipe.entry(t, p[1]) for p in t.parts)
    type_name = t.base if t.kind in ("alias", "array", "pointer") else ""
    bounds = t.bounds if t.kind == "array" else ()
    comment = "" if t.id != BIG else f"{t.name}, caf\xe9"
    return entry(t.name, type_name, comment, t.size, 0, t.id, flags, bounds, items, tail)


def uploaded(recipe):
    return b"".join(data_type(recipe, t) for t in recipe.laid())


def main():
    width, words = usage(sys.argv[1:], 2, "FILE")
    target = words[1] if len(words) > 1 else os.path.splitext(words[0])[0] + ".upload"
    upload = described(words[0], uploaded, width)
    write(target, upload)
    print(f"{target}: {len(upload)} bytes")


if __name__ == "__main__":
    main()
