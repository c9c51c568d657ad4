#!/usr/bin/env python3
"""Brings the repository's own definitions and lemmas to the spelling of today's Rattle, after port.py has run.

    python3 tools/port/respell.py [--say]      at the top of the repository (--say: only prints old and new names)

What specs/ and the files of laws in proofs/ define is respelled: words in snake case in place of camelCase, a dash only between two names
of definitions (or after a fact, which is spelled as a type), else '_'. Every use follows, in .antt and .rt files and in must-fail edits.
Names that Rust code has, and those that the checker makes of it, stay: they are never camelCase, and a name with a dash is left alone after 'c.', 'tie.' and 'goal.'.
"""

import re
import sys
from pathlib import Path

TOP = Path(__file__).resolve().parents[2]
CRATES = TOP / "crates"
# Names that no line of its own defines: a word of an operator, parameters.
MORE = {"thenWrites": "then_writes", "scalarsOf": "scalars_of", "tapeRoom": "tape_room", "textRoom": "text_room", "typeName": "type_name"}
NAME = r"[^\s(){}.,;:λ\[\]\"`|]+"
DEFINES = re.compile(rf"^\s*(?:(?:pub|abbrev|unfoldable|record|data|ruleset)\s+)*({NAME})(?:\s+[({{].*)?\s+:(?=\s|$)")
RULESET = re.compile(rf"^\s*(?:pub\s+)?ruleset\s+(?:pub\s+)?({NAME})\s*=")
SHARED = re.compile(rf"^\s*(?:(?:pub|abbrev|unfoldable)\s+)*((?:{NAME}\s+)+{NAME})\s+:(?=\s|$)")
IMPORTS = re.compile(r"^\s*(?:pub\s+)?use\s+[^\s{]+\.\{([^}]*)\}", re.M)
TOKEN = re.compile(r"[A-Za-z_₀-₉α-ωμ'′0-9⊎∷≡≤<+*∸/%&|∙→ℕ-]+")


def files(pattern):
    return sorted(f for f in CRATES.glob(pattern) if "out" not in f.parts)


def laws():
    """Every file of definitions and laws: not those of one function's proof."""
    for file in files("*/specs/**/*.antt") + files("*/proofs/*.antt"):
        if file.name != "Lib.antt":
            yield file


def defined():
    found = {}
    for file in laws():
        for line in file.read_text().splitlines():
            if re.match(r"\s*(use|--|let|module|mod)\b", line):
                continue
            hit = DEFINES.match(line) or RULESET.match(line)
            if hit:
                found.setdefault(hit[1], file)
    return found


def imported():
    """Names that come from the library."""
    names = set()
    for file in files("*/specs/**/*.antt") + files("*/proofs/**/*.antt"):
        for line in re.findall(r"^\s*(?:pub\s+)?use\s+((?!Rattle\.)[^\s{]+|Rattle\.std[^\s{]*)\.\{([^}]*)\}", file.read_text(), re.M):
            for part in line[1].split(","):
                names.add(part.split(" as ")[0].strip())
    return names


def snake(word):
    """camelCase to snake_case; a word that begins with a capital is a type or a fact and stays."""
    if not re.search(r"[a-z0-9′'][A-Z]", word) or word[:1].isupper():
        return word
    return re.sub(r"(?<=[a-z0-9])([A-Z])", lambda m: "_" + m[1].lower(), word)


def respelled(name, known):
    parts = name.split("-")
    if "" in parts or not re.match(r"[A-Za-z]", name):
        return name
    parts = [snake(part) for part in parts]
    made = parts[0]
    for left, right in zip(parts, parts[1:]):
        joins = (left in known and right in known) or left[:1].isupper()
        made += ("-" if joins else "_") + right
    return made.replace("′", "'")


def turned(text, table, proof):
    """The text with each token of the table respelled; a name with a dash not where the checker's own names stand."""
    def one(hit):
        word = hit[0]
        new = table.get(word)
        if new is None:
            return word
        before = text[max(0, hit.start() - 80):hit.start()]
        if "-" in word and re.search(r"(?:^|[\s(,])(?:c|w|tie|goal)(?:\.[^\s(),]+)*\.$", before):
            return word
        return new
    return TOKEN.sub(one, text)


def contracts(text, table):
    """A .rt file: names in ghost lines and clauses alone."""
    out, depth, clause = [], 0, False
    for line in text.split("\n"):
        starts = re.match(r"\s*(ghost use|requires|ensures|ghost|pub ghost)\b", line)
        if starts or clause or line.lstrip().startswith("//"):
            out.append(turned(line, table, False))
            if line.lstrip().startswith("//"):
                continue
            code = line
            if starts or clause:
                if starts and starts[1] == "ghost use":
                    clause = ";" not in code
                    depth = 0
                else:
                    depth = (depth if clause else 0) + code.count("{") - code.count("}")
                    clause = depth > 0
        else:
            out.append(line)
    return "\n".join(out)


def main():
    found = defined()
    known = {snake(name) for name in found} | {snake(n) for n in imported()}
    known = {n for n in known if "-" not in n}
    table = dict(MORE)
    for name in sorted(found):
        new = respelled(name, known)
        if new != name:
            table[name] = new
    library = imported()
    meets, near = {}, {}
    for old, new in table.items():
        meets.setdefault(new, []).append(old)
    for new, olds in sorted(meets.items()):
        others = olds + ([new] if new in found and new not in table else [])
        # Where names fall together, a definition keeps the plain one, then what was in camelCase; the others, which are laws, end in _lem.
        others = [name for name in others if name in found]
        others.sort(key=lambda name: ("specs" not in found[name].parts, "-" in name, name == new))
        for other in others[1:]:
            (near if other == new else table)[other] = new + "_lem"
            print(f"falls together: {other} of {found[other].relative_to(CRATES)} becomes {new}_lem, beside {others[0]} of {found[others[0]].relative_to(CRATES)}")
        if new in library:
            print("as in the library:", new, olds, [str(found[o].relative_to(CRATES)) for o in olds])
    if "--say" in sys.argv:
        for old, new in sorted(table.items()):
            print(old, "->", new)
        return
    for file in files("*/specs/**/*.antt") + files("*/proofs/**/*.antt"):
        text = file.read_text()
        new = turned(nearby(text, file, near, found), table | aliases(text, table), True)
        if new != text:
            file.write_text(new)
    for file in files("*/src/**/*.rt"):
        text = file.read_text()
        new = contracts(text, table | aliases(text, table))
        if new != text:
            file.write_text(new)
    for file in files("*/must-fail/**/*.edit"):
        text = file.read_text()
        new = "\n".join(turned(line, table, False) if re.match(r"#|(old|new):\s*(ghost use|requires|ensures|ghost)\b", line) or edits_law(text) else line for line in text.split("\n"))
        if new != text:
            file.write_text(new)


def nearby(text, file, near, found):
    """The text with names of `near` respelled where it defines them or brings them by a `use` line: their old spelling is one that Rust code may have too."""
    for name, new in near.items():
        module = ".".join(("Rattle", found[name].relative_to(CRATES).parts[0], "proofs", found[name].stem))
        brought = any(re.search(rf"(?:^|[\s,]){re.escape(name)}(?:[\s,]|$)", m) for m in re.findall(rf"^\s*(?:pub )?use {re.escape(module)}\.\{{([^}}]*)\}}", text, re.M))
        if file == found[name] or brought:
            text = re.sub(rf"(?<![\w.'-]){re.escape(name)}(?![\w'-])", new, text)
    return text


def aliases(text, table):
    """Names that a file gives by 'as' in a use line, where they are in camelCase."""
    own = {}
    words = set(TOKEN.findall(text)) | set(table.values())
    for line in re.findall(r"^\s*(?:ghost use|pub use|use)\s[^\n]*", text, re.M):
        for name in re.findall(r"\bas (\w+)", line):
            new = snake(name)
            if new != name and name not in table:
                own[name] = new if new not in words else new + "'"
    return own


def edits_law(text):
    return re.search(r"^file: (specs|proofs)/", text, re.M)


if __name__ == "__main__":
    main()
