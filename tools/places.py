#!/usr/bin/env python3
"""Counts the places in src/ that an older form of the language left, point by point (docs/DESIGN-PASS.md): tools/places.py [-v] [ROOT]."""
import os, re, sys

args = [a for a in sys.argv[1:] if a != "-v"]
verbose = "-v" in sys.argv
root = args[0] if args else os.path.join(os.path.dirname(os.path.abspath(__file__)), "..")

def files(part, ending):
    for crate in sorted(os.listdir(os.path.join(root, "crates"))):
        top = os.path.join(root, "crates", crate, part)
        for folder, _, names in sorted(os.walk(top)):
            for name in sorted(names):
                if name.endswith(ending):
                    path = os.path.join(folder, name)
                    yield os.path.relpath(path, root), open(path, encoding="utf-8").read()

SOURCES = list(files("src", ".rt"))

def say(point, what, found):
    print(f"{point}  {len(found):4d}  {what}")
    if verbose:
        for place in found:
            print(f"           {place}")

def lines(pattern):
    return [f"{path}:{n}: {line.strip()}" for path, text in SOURCES for n, line in enumerate(text.split("\n"), 1)
            if re.search(pattern, line) and not line.strip().startswith("//")]

# 1. own enums with a case for nothing, or for what is refused
NO = r"Nothing|None|Full|Over|Wrong|Broken|End|Refused|Stop|NotFound|NotWhole|Lacking|TooLong|Unsupported|Size|SizeMismatch|Form"
enums = [(path, name, body) for path, text in SOURCES for name, body in re.findall(r"^(?:pub(?:\(crate\))? )?enum (\w+) \{\n(.*?)^\}", text, re.M | re.S)]
def cases(body):
    return re.findall(r"^    (\w+)", body, re.M)
say(1, "own enums with a case for nothing or for a refusal, and another", [f"{p}: {n} {{{', '.join(cases(b))}}}" for p, n, b in enums
    if any(re.fullmatch(NO, c) for c in cases(b)) and not all(re.fullmatch(NO + "|OutOfRange|TypeMismatch|Sum|Doubled", c) for c in cases(b))])
say(1, "refusals written as a number: Refused(10), Stop(10, 0)", lines(r"\b(?:Refused|Stop|Err)\(\d"))
say(1, "functions that answer a refusal's number, 0 for none", lines(r"fn (?:\w*refusal\w*|refused_before)\(.*-> u8"))

# 2. twins: bodies that are the same once types, numbers and names are left out
def functions():
    for path, text in SOURCES:
        for m in re.finditer(r"^(?:#\[[^\n]*\]\n)*(?:pub(?:\(crate\))? )?(?:extern \"C\" )?fn (\w+)(.*?)^\}", text, re.M | re.S):
            body = m.group(2)[m.group(2).find("\n{"):]
            yield path, m.group(1), body
shapes = {}
for path, name, body in functions():
    if path.startswith("crates/gateway/"):
        continue
    code = re.sub(r"//[^\n]*", "", body)
    shape = re.sub(r"\b[a-z_]\w*\b(?!\s*!)|\d\w*", lambda m: m.group(0) if m.group(0) in ("if", "else", "match", "while", "for", "return", "let", "mut") else "x", code)
    shape = re.sub(r"\s+", " ", shape)
    if shape.count("x") >= 12:
        shapes.setdefault(shape, []).append(f"{path}: {name}")
say(2, "functions whose body another has but for names and numbers (of 12 words or more; the exports of gateway aside)", [p for ps in shapes.values() if len(ps) > 1 for p in ps])

# 3. loops that count by hand
say(3, "while loops", lines(r"^\s*while "))

# 4. by hand: a match over all types or categories, a conversion from and to a number
say(4, "arms of a match over all ids or categories that only say true, false or 0", lines(r"(?:AdsTypeId|AdsTypeCategory)::\w+(?:\(_\))? => (?:true|false|0),"))
say(4, "smaller or greater of two, and equality, by functions of the repository's own", lines(r"^\s*(?:pub )?fn (?:least|higher|most|same_id|same_category|same_name|same_bytes|equal)\("))

# 5. facts and parameters that go together
say(5, "clauses that say that a book is valid", lines(r"requires \{.*ValidBook"))
signatures = [(p, m.group(1), " ".join(m.group(2).split())) for p, t in SOURCES for m in re.finditer(r"fn (\w+)(?:<[^>]*>)?\((.*?)\)", t, re.S)]
say(5, "functions that are given a book and its index apart", [f"{p}: {n}" for p, n, a in signatures if re.search(r"book: &(?:'a )?\[u8\], index: &\[u32\]", a)])
say(5, "functions that are given a tape and a text buffer apart", [f"{p}: {n}" for p, n, a in signatures if re.search(r"tape: &(?:mut )?(?:'a )?\[u8\], text: &", a)])

# 6. buffers with a length beside them
say(6, "functions that are given a buffer and how much of it is filled", [f"{p}: {n}" for p, n, a in signatures if re.search(r"\w+: &(?:mut )?(?:'a )?\[u8\], (?:len|theirs): usize", a)])

# 7. switches on which step to run
say(7, "functions that are given a truth that selects a step", [f"{p}: {n}" for p, n, a in signatures if re.search(r"references: bool|large: bool|is_double: bool", a)])

# 8. answers
answers = [(p, t) for p, t in files("proofs", "Answers.antt")]
say(8, "files of answers", [p for p, _ in answers])
say(8, "answers", [n for p, t in answers for n in re.findall(r"^pub (\S+) : goal\.", t, re.M)])
