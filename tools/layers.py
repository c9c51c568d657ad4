#!/usr/bin/env python3
"""Says where a proof of one of the three layers opens a definition of a layer below, instead of citing a law that the lower crate makes public.

    python3 tools/layers.py        prints each such definition with its crate and the file that opens it (exit status 1 if there is any)

The layers are those of crates.txt, '# layer N, ..'. In specs/ and proofs/ a definition is opened by a line 'unfolding a b ..', which
may go on in lines indented deeper, or by 'unfold a b .. in'. A name comes from a 'use' line, which may rename it or its module, or is written in full.
In src/ it is opened by the attribute 'tactic', at 'unfolding(path, ..)', whose paths begin with a crate's name or 'crate'.
"""

import re
import sys
from pathlib import Path

TOP = Path(__file__).resolve().parent.parent
# `use Rattle.enc_number.specs.Le.{le_bytes as bytes, le_value}` and `use Rattle.enc_number.specs.Le as le`.
USE = re.compile(r"^\s*(?:pub )?use (Rattle\.[^\s{}]+?)(?:\.\{([^}]*)\}| as (\S+))?\s*$", re.M)
OPENS = re.compile(r"^( *)unfolding\b(.*(?:\n\1 +\S.*)*)$|\bunfold\b((?:\s+[^\s()]+)+?)\s+in\b", re.M)
ATTRIBUTE = re.compile(r"#!?\[tactic\((?:[^()]|\([^()]*\))*\)\]")


def layers():
    """The layer of each crate that has one."""
    found, layer = {}, None
    for line in (TOP / "crates.txt").read_text().splitlines():
        if line.startswith("#"):
            number = re.match(r"# layer (\d)", line)
            layer = int(number[1]) if number else None
        elif ":" in line and layer:
            found[line.partition(":")[0].split()[0]] = layer
    return found


def names(text):
    """What the `use` lines of a file bring: each name, or each module's name, with its whole path."""
    brought = {}
    for path, some, other in USE.findall(text):
        for name in filter(None, (part.strip() for part in some.split(","))):
            whole, _, here = name.partition(" as ")
            brought[here.strip() or whole] = f"{path}.{whole.strip()}"
        if not some:
            brought[other or path.rpartition(".")[2]] = path
    return brought


def opened(text):
    """The whole path of each definition that a file opens, as far as its `use` lines tell it."""
    text = re.sub(r"--.*", "", text)
    brought = names(text)
    for _, line, term in OPENS.findall(text):
        for name in (line or term).split():
            first, dot, rest = name.partition(".")
            yield brought.get(name) or brought.get(first, first) + dot + rest


def opened_in_code(text):
    """The same of the attributes in a file of src/."""
    for attribute in ATTRIBUTE.findall(text):
        for paths in re.findall(r"\bunfolding\(([^()]*)\)", attribute):
            for path in filter(None, (part.strip() for part in paths.split(","))):
                yield "Rattle." + path.replace("::", ".")


def main():
    layer = layers()
    found = set()
    for crate in layer:
        for folder, kind, read in (("specs", "antt", opened), ("proofs", "antt", opened), ("src", "rt", opened_in_code)):
            for file in (TOP / "crates" / crate / folder).rglob(f"*.{kind}"):
                for path in read(file.read_text()):
                    owner = re.match(r"Rattle\.(\w+)", path)
                    if owner and layer.get(owner[1], 9) < layer[crate]:
                        found.add(f"{file.relative_to(TOP)}: {path.rpartition('.')[2]} of {owner[1]}")
    for line in sorted(found):
        print(line)
    print(f"layers: {len(found)} definitions of a lower layer opened")
    return 1 if found else 0


if __name__ == "__main__":
    sys.exit(main())
