#!/usr/bin/env python3
"""Tries the must-fail edits of some crates alone, those in must-fail-more/ too, which the gate leaves out.

    python3 tools/try_edits.py CRATE ...           # all edits of these crates
    python3 tools/try_edits.py --more [CRATE ...]  # only those that the gate leaves out, of these crates or of all

It puts the edits into must-fail/ of a copy of the repository among the temporary files, and runs `rt must-fail CRATE ...` there, which begins
with what `rt check` kept of the crates in this one. Of each edit rt's line is printed: refused, with the place of the first error; NOT REFUSED; or
BAD EDIT, where it can't be applied or read. The last line counts them. An edit's form is rt's: lines `file:`, `old:`, `new:`. (An edit is kept
out of must-fail/ in a folder of its own, since rt takes each file below must-fail/ for an edit of the gate.)
"""

import re
import shutil
import subprocess
import sys
import tempfile
from pathlib import Path

TOP = Path(__file__).resolve().parent.parent
FOLDERS = ("must-fail", "must-fail-more")
LINE = re.compile(r"^rt: (must-fail \S+/\S+?): (.*)")


def copied(folder, names, folders):
    """Copies what rt reads of the repository, and the edits of these crates; how many edits there are."""
    count = 0
    for name in ("crates.txt", "HANDLES"):
        if (TOP / name).exists():
            shutil.copyfile(TOP / name, folder / name)
    for crate in (TOP / "crates").iterdir():
        to = folder / "crates" / crate.name
        for part in ("src", "specs", "proofs"):
            if (crate / part).is_dir():
                shutil.copytree(crate / part, to / part)
        for part in folders if crate.name in names else ():
            for edit in sorted((crate / part).glob("*.edit")):
                (to / "must-fail").mkdir(exist_ok=True)
                # an edit of each folder may have the same name
                shutil.copyfile(edit, to / "must-fail" / (f"more-{edit.name}" if part != FOLDERS[0] else edit.name))
                count += 1
    return count


def main():
    names = sys.argv[1:]
    folders = FOLDERS
    if names[:1] == ["--more"]:
        folders = FOLDERS[1:]
        names = names[1:] or sorted(folder.parent.name for folder in (TOP / "crates").glob(f"*/{FOLDERS[1]}"))
    if not names:
        sys.exit(__doc__)
    for name in names:
        if not (TOP / "crates" / name / "src").is_dir():
            sys.exit(f"tools/try_edits.py: there is no crate {name}")
    refused = 0
    with tempfile.TemporaryDirectory(prefix="try-edits-") as place:
        count = copied(Path(place), names, folders)
        if not count:
            sys.exit(f"tools/try_edits.py: {' '.join(names)} has no such edits")
        run = subprocess.Popen(["rt", "must-fail", *names], cwd=place, stdout=subprocess.PIPE, stderr=subprocess.STDOUT, text=True, errors="replace")
        said = []
        for line in run.stdout:
            said.append(line.replace(place + "/", ""))
            if found := LINE.match(said[-1]):
                refused += found[2].startswith("refused")
                name = found[1].removeprefix("must-fail ").removesuffix(".edit").replace("/more-", "/more/")
                print(f"{name}: {found[2]}", flush=True)
        status = run.wait()
    if status and not any(LINE.match(line) for line in said):
        # a library below isn't proved, say
        print("".join(said[-40:]), end="")
    print(f"{refused} refused, {count - refused} not")
    sys.exit(status != 0 or refused < count)


if __name__ == "__main__":
    main()
