#!/usr/bin/env python3
"""Holds the static library against the original: random books through both, line by line.

    (cd crates/gateway && rt lib)
    (cd rust && cargo build --release --offline)
    python3 tools/compare_oracle.py ORACLE target/cargo/release/ask [--cases 100000] [--seed 0] [--only plan]

ORACLE is the oracle's folder, built: its book.py makes the books, its program answers for the original. Every call is
compared on that many cases. What isn't compared is counted: memories in which a text may open with a byte order mark, array
products of 2^64 or more (there the original panics), and 14 against another answer (the original has no limit of levels).

Writes: `writedoc` is the original with the root's aliases resolved first and a unit refused, as document 01 has it; `write` is the
original as it is. A tape that hasn't its form must be 16 (tools/tape_form.py reads document 01; the original has no tape). Where
document 01 decides otherwise than the original, the case is counted with its reason, and the smallest is shown. So are reads and writes that differ
where a type of the book has a name of document 02's list of times. Answers
whose number comes from the stand-in for the unpublished conversions (CrossKind) are counted too.

Reads: what document 02 adds to the original's events is worked out by tools/document_02.py from book and memory.

Plans: the book is the controller's, ours is its root's definition alone or with some others of its, in any order. Where the controller's book
lacks none of the needed types (by the original's own list, whole), the plan's answer must be the original's read-modify-write over the whole
controller's book; else it must be refused: 7 with a name that the original lists, or 8 or 9 where its list is not whole.

Ends with 1 if anything else differs. `--only` takes some of the requests. Run by hand: all take ten to thirty minutes.
"""

import argparse
import collections
import math
import sys
import time
from random import Random

from answers import oracle
from document_02 import UNDECLARED, completed, has_times, plain as plain_tape
from tape_form import formed, spoiled

REQUESTS = ("cat", "alias", "indir", "rmw", "missing", "fields", "read")
WRITES = ("writedoc", "write")
PLAN = "plan"
REALS = (4, 5)
COUNTED = "a count of time by its type's name"


def plain(request, answer):
    """An answer without what one side alone tells."""
    answer = answer.split(" raw=")[0]
    if request == "rmw":
        answer = answer.split(" count=")[0]
    return answer


def reason(request, theirs, ours):
    """Why two answers may differ, or None."""
    if theirs.startswith("panic"):
        return "product of 2^64 or more"
    if request == "read" and ours == "err 14":
        return "level 65"
    return None


class Comparison:
    def __init__(self, folder, program, seed, requests):
        self.requests = requests
        self.book, self.original = oracle(folder)
        self.port = type(self.original)(program)
        self.rng = Random(seed)
        self.compared = collections.Counter()
        self.answers = collections.Counter()
        self.skipped = collections.Counter()
        self.differing = []
        self.decided = {}
        self.grown = 0

    def ask(self, request, made, data, *more):
        theirs = plain(request, self.original.ask(request, made.width, data, made.root, *more))
        if request == "read":
            theirs = self.by_document_02(theirs, made, data, more[0])
        ours = plain(request, self.port.ask(request, made.width, data, made.root, *more))
        words = theirs.split()
        self.answers[request, " ".join(words[:2]) if words[0] == "err" else words[0]] += 1
        if theirs == ours:
            self.compared[request] += 1
            return
        why = reason(request, theirs, ours) or (COUNTED if request == "read" and has_times(data) else None)
        if why:
            self.skipped[request, why] += 1
            return
        self.compared[request] += 1
        self.differing.append((len(data), request, made.width, data.hex(), made.root, more, theirs, ours))

    def by_document_02(self, told, made, data, memory):
        """An accepted read's events with what document 02 adds to them: `clipped` for a text without a terminator, each value's declared block."""
        words = told.split()
        if words[0] != "ok":
            return told
        tape = completed(data, made.root, memory, self.book.tape_from_tree(self.book.tree_from_events(words[1:]))[0])
        for i, at in enumerate(range(0, len(tape), 24), 1):
            if tape[at] == 11 and tape[at + 1] == 0:
                words[i] = words[i].replace("str:", "clipped:", 1)
            if tape[at] not in UNDECLARED:
                words[i] += f"^{int.from_bytes(tape[at + 4:at + 8], 'little')}"
        return " ".join(words)

    def ask_write(self, request, made, data, image, tape, text):
        """A write; document 01's own decisions are told apart from differences."""
        ours = self.port.ask("write", made.width, data, made.root, image, tape, text)
        if formed(data, tape, text):
            raw = self.original.ask(request, made.width, data, made.root, image, plain_tape(tape), text)
        else:
            raw = "err 16"
        theirs = raw.split(" raw=")[0]
        words = theirs.split()
        self.answers[request, " ".join(words[:2]) if words[0] == "err" else words[0]] += 1
        if "raw=CrossKind" in raw:
            self.skipped[request, "of these, a number by the stand-in for conversions"] += 1
        case = (len(data) + len(tape), request, made.width, data.hex(), made.root, (image, tape, text), theirs, ours)
        if theirs == ours:
            self.compared[request] += 1
            return
        why = self.why_written(request, made, data, image, tape, text, raw, ours)
        if why:
            self.skipped[request, why] += 1
            self.decided[why] = min(self.decided.get(why, case), case)
            return
        self.compared[request] += 1
        self.differing.append(case)

    def why_written(self, request, made, data, image, tape, text, raw, ours):
        """What of document 01 makes a write's answer another than the original's, or None."""
        if raw.startswith("panic") or any(math.prod(t.dims) >= 2**32 for t in made.book.types):
            return "product of 2^64 or more"
        if has_times(data):
            return COUNTED
        if request == "write":
            by_document = self.original.ask("writedoc", made.width, data, made.root, image, plain_tape(tape), text).split(" raw=")[0]
            if by_document == ours:
                unit = "note=unit" in raw and ours == "err 17"
                return "a unit is 17" if unit else "a root's aliases come first, for a bool and a unit too"
        kinds = {tape[i] for i in range(0, len(tape), 24)}
        pointers = [t for t in made.book.types if t.id in REALS
                    and self.book.category(t, made.width) in ("pointer", "reference", "interface")]
        if raw.startswith("err 17") and kinds & {9, 10} and pointers:
            return "a real goes by the type's id, into a pointer too"
        return None

    def write(self, made, data):
        """A write of a tape that was made along the root's type, or of a read one that was changed; some tapes are damaged."""
        rng, book = self.rng, self.book
        image = book.gen_memory(rng, made)
        tree = book.gen_tree(rng, made, odd=rng.choice([0.0, 0.0, 0.02, 0.1]))
        if rng.random() < 0.4:
            tree = book.mutate(rng, tree, made.book)
        elif rng.random() < 0.1:
            tree = book.gen_leaf(rng, made.book)
        tape, text = book.tape_from_tree(tree)
        if rng.random() < 0.2:
            tape, text = spoiled(rng, tape, text)
        for request in WRITES:
            self.ask_write(request, made, data, image, tape, text)

    def plan(self, made, data):
        """A plan from a part of the controller's book, against the original's walk over the whole."""
        rng, root = self.rng, made.book.at(made.root)
        share = rng.choice([0.0, 0.0, 0.2, 0.5])
        held = [t for t in made.book.types if t is root or rng.random() < share]
        rng.shuffle(held)
        ours = type(made.book)(held)
        told = self.port.ask(PLAN, made.width, ours.bytes(), ours.number(root.name), data)
        listed = self.original.ask("missing", made.width, data, made.root).split()
        rmw = plain("rmw", self.original.ask("rmw", made.width, data, made.root))
        names = {word.split("@")[0] or "-" for word in listed[1:-2]}
        whole, count = listed[-2] == "whole=1", int(listed[-1].split("=")[1])
        if whole and not names:
            self.compared[PLAN] += 1
            self.answers[PLAN, told] += 1
            self.grown += len(held) < len(made.book.types)
            fine = told == rmw
        else:
            words = told.split()
            self.skipped[PLAN, "with a premise that does not hold: " + " ".join(words[:2])] += 1
            fine = (words[:2] == ["err", "7"] and words[2] in names) or (not whole and words[1:] == ["9" if count == 4097 else "8"])
        if not fine:
            wanted = rmw if whole and not names else "7 of " + " ".join(listed)
            self.differing.append((len(data), PLAN, made.width, ours.bytes().hex(), ours.number(root.name), (data.hex(),), wanted, told))

    def memory(self, made):
        """A memory in which no text opens with a byte order mark."""
        while True:
            memory = self.book.gen_memory(self.rng, made)
            if not self.book.has_bom(memory):
                return memory
            self.skipped["read", "byte order mark"] += 1

    def one(self, cases):
        rng = self.rng
        made = self.book.gen_chaos(rng) if rng.random() < 0.2 else self.book.gen_book(rng)
        data = made.book.bytes()
        due = [request for request in self.requests if self.compared[request] < cases]
        for request in REQUESTS[:-1]:
            if request in due:
                self.ask(request, made, data)
        if PLAN in due:
            self.plan(made, data)
        if "read" in due:
            room = () if rng.random() < 0.9 else (rng.randrange(40), rng.randrange(60))
            self.ask("read", made, data, self.memory(made), *room)
        if any(request in due for request in WRITES):
            self.write(made, data)

    def plan_limits(self):
        """Plans of books at the limits: chains of 30 to 33 hops, 4,095 to 4,098 names, a chain that breaks off, deep ones."""
        book = self.book
        books = [book.chain(hops) for hops in (30, 31, 32, 33)] + [book.wide(fields) for fields in (4094, 4095, 4096, 4097)]
        for limit in books + [book.chain(5, "GONE"), book.deep(10), book.deep(80)]:
            for _ in range(3):
                self.plan(book.Made(limit, 0, 8), limit.bytes())

    def run(self, cases):
        start = time.time()
        if PLAN in self.requests:
            self.plan_limits()
        while any(self.compared[request] < cases for request in self.requests):
            self.one(cases)
        print(f"{sum(self.compared.values())} cases compared in {time.time() - start:.0f} s")

    def report(self):
        for request in self.requests:
            told = ", ".join(f"{what} {n}" for (r, what), n in sorted(self.answers.items()) if r == request)
            print(f"{request:8} {self.compared[request]:7} compared: {told}")
        for (request, why), n in sorted(self.skipped.items()):
            print(f"{request:8} {n:7} {why}" if why.startswith(("of these", "with a")) else f"{request:8} {n:7} not compared: {why}")
        for why, (_, request, width, data, root, (image, tape, text), theirs, ours) in sorted(self.decided.items()):
            print(f"smallest, {why}: {request} width {width} root {root} image {image.hex()} tape {tape.hex()} text {text.hex()}")
            print(f"  book {data[:3000]}\n  original {theirs[:100]}\n  port     {ours[:100]}")
        if PLAN in self.requests:
            print(f"{PLAN:8} {self.grown:7} of the compared began with a part of the controller's types")
        print(f"{len(self.differing)} differences")
        for size, request, width, data, root, more, theirs, ours in sorted(self.differing, key=lambda d: d[0])[:5]:
            print(f"{request} width {width} root {root} {more}\n  book {data}\n  original {theirs[:300]}\n  port     {ours[:300]}")


def main():
    words = argparse.ArgumentParser()
    words.add_argument("oracle")
    words.add_argument("program")
    words.add_argument("--cases", type=int, default=100000)
    words.add_argument("--seed", type=int, default=0)
    words.add_argument("--only", nargs="+", default=REQUESTS + WRITES + (PLAN,))
    words = words.parse_args()
    comparison = Comparison(words.oracle, words.program, words.seed, words.only)
    comparison.run(words.cases)
    comparison.report()
    sys.exit(bool(comparison.differing))


if __name__ == "__main__":
    main()
