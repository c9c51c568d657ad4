#!/usr/bin/env python3
"""A public name stands for one thing: no two crates' specs/ define the same one, nor one that is a public type of the code elsewhere.

    python3 tools/names.py

Prints each name that stands twice, with its places, and then fails.
"""

import collections
import pathlib
import re
import sys

CRATES = pathlib.Path(__file__).resolve().parent.parent / "crates"
DEFINED = re.compile(r"(?:unfoldable |abbrev )?pub (?:record |data )?([^\s:(]+)")
DECLARED = re.compile(r"pub (?:struct|enum) (\w+)")


def names():
    """Each public name with the files that define it."""
    places = collections.defaultdict(list)
    for kind, folder, pattern in (("antt", "specs", DEFINED), ("rt", "src", DECLARED)):
        for file in sorted(CRATES.glob(f"*/{folder}/**/*.{kind}")):
            if file.name == "Lib.antt":
                continue
            for line in file.read_text().splitlines():
                found = pattern.match(line)
                if found:
                    places[found.group(1)].append(file.relative_to(CRATES))
    return places


def main():
    twice = {name: files for name, files in names().items() if len(files) > 1}
    for name, files in sorted(twice.items()):
        print(f"{name}: {', '.join(map(str, files))}")
    if twice:
        sys.exit(f"tools/names.py: {len(twice)} names stand for more than one thing")


if __name__ == "__main__":
    main()
