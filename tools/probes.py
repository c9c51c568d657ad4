#!/usr/bin/env python3
"""Looks in compiled code for a stack probe that overwrites a value in use, and fails where it finds one.

    python3 tools/probes.py FILE ...        # objects, archives and programs for x86-64

A function with much stack touches it page by page before it uses it. LLVM counts down to register r11 in that loop, also where it has
moved the loop behind an early answer and keeps a value in r11 until then, as the place that the answer is to be written to: such a
function answers what its stack held before. No proof covers the compiler, so every function that has this loop is looked at: r11
must not have been written before it. objdump (binutils) is needed.
"""

import re
import subprocess
import sys

NAME = re.compile(r"^[0-9a-f]+ <(.*)>:$")
LINE = re.compile(r"^\s+[0-9a-f]+:\s+(\S.*)$")
PROBE = re.compile(r"^mov\s+%rsp,%r11$")
WRITTEN = re.compile(r"^(?!cmp|test)\S+\s.*%r11[dwb]?$")


def found(lines):
    """How many probe loops there are, and the functions in which r11 was written before one, with the instruction that wrote it."""
    loops, wrong, name, writer = 0, [], "", None
    for line in lines:
        if head := NAME.match(line):
            name, writer = head[1], None
        elif code := LINE.match(line):
            if PROBE.match(code[1].strip()):
                loops += 1
                if writer:
                    wrong.append(f"{name}: {writer}")
            elif writer is None and WRITTEN.match(code[1].strip()):
                writer = code[1].strip()
    return loops, wrong


def main():
    files = sys.argv[1:]
    if not files:
        sys.exit(__doc__)
    bad = 0
    for file in files:
        told = subprocess.run(["objdump", "-d", "--no-show-raw-insn", file], capture_output=True, text=True, check=True).stdout
        loops, wrong = found(told.splitlines())
        print(f"probes: {file}: {loops} stack probes, {len(wrong)} of them over a value in use")
        for where in wrong:
            print(f"probes: {where}", file=sys.stderr)
        bad += len(wrong)
    sys.exit(1 if bad else 0)


if __name__ == "__main__":
    main()
