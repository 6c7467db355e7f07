#!/usr/bin/env python3
"""Tries wrong bodies: edits of the code that the proofs must refuse.

    yard/edits.py --look         says whether each edit still applies to exactly one place (a second)
    yard/edits.py [NAME ..]      tries the edits of these crates, or of all, and prints a table

An edit is a file edits/NAME/WHAT-IS-WRONG.edit of lines `file: src/..`, `old: ..` and `new: ..`; the old text stands once in the file. A few
stand in crates/NAME/must-fail/, where each gate tries them. A try takes a minute or two a crate and 10 to 60 seconds an edit; whoever changes a
contract runs it for that crate. It works on a copy of the tree, whose proofs the gate keeps.
"""

import pathlib
import re
import shutil
import subprocess
import sys
import tempfile

from common import TOP



def edits_of(name):
    """The edits of a crate that stand outside of the gate."""
    return sorted((TOP / "edits" / name).glob("*.edit"))


def all_edits():
    """Each crate that has edits, with all of them, those of the gate included."""
    names = {it.name for it in (TOP / "edits").iterdir() if it.is_dir()}
    names |= {it.parent.name for it in TOP.glob("crates/*/must-fail")}
    return {it: edits_of(it) + sorted((TOP / "crates" / it / "must-fail").glob("*.edit")) for it in sorted(names)}


def fault_of(edit, crate):
    """Why an edit does not apply to the crate in this folder, or None."""
    texts, path, old = {}, None, None
    for number, line in enumerate(edit.read_text().splitlines(), 1):
        word, _, rest = line.partition(": ")
        if word == "file":
            path = crate / rest
            if path not in texts:
                if not path.is_file():
                    return f"there is no {rest}"
                texts[path] = path.read_text()
        elif word == "old":
            old = rest
        elif word == "new":
            if path is None or old is None:
                return f"line {number} stands before what it changes"
            count = texts[path].count(old)
            if count != 1:
                return f"its old text stands {count} times in {path.relative_to(crate)}: {old}"
            texts[path] = texts[path].replace(old, rest)
            old = None
        elif line.strip():
            return f"line {number} is none of file:, old: and new:"
    return None if texts and old is None else "it changes nothing"


def look():
    """Says which edits do not apply, and answers whether all do."""
    count, faults = 0, 0
    for name, edits in all_edits().items():
        for edit in edits:
            count += 1
            fault = fault_of(edit, TOP / "crates" / name)
            if fault:
                faults += 1
                print(f"{edit.relative_to(TOP)}: {fault}")
    print(f"edits: {count} in all, {faults} that do not apply")
    return faults == 0


def copied(names, to):
    """Copies the tree, with the edits of these crates where the toolkit tries them."""
    for part in ("crates", "crates.txt", "HANDLES"):
        from_, into = TOP / part, to / part
        if from_.is_dir():
            shutil.copytree(from_, into, ignore=shutil.ignore_patterns("out"))
        else:
            shutil.copy(from_, into)
    for name in names:
        place = to / "crates" / name / "must-fail"
        place.mkdir(exist_ok=True)
        for edit in edits_of(name):
            shutil.copy(edit, place)


def try_all(names):
    """Tries the edits of these crates, prints what came of each, and answers whether all were refused."""
    with tempfile.TemporaryDirectory(prefix="edits-") as folder:
        to = pathlib.Path(folder)
        copied(names, to)
        ran = subprocess.run(["rt", "ci", *names], cwd=to, stdout=subprocess.PIPE, stderr=subprocess.STDOUT, text=True)
    told = dict(re.findall(r"must-fail (\S+)\.edit: (refused|NOT REFUSED|NOT TRIED|BAD EDIT)", ran.stdout))
    wanted = [f"{name}/{edit.stem}" for name in names for edit in all_edits()[name]]
    for name in wanted:
        print(f"{told.get(name, 'NOT TRIED'):12} {name}")
    refused = sum(told.get(it) == "refused" for it in wanted)
    print(f"{refused} of {len(wanted)} were refused")
    if refused < len(wanted):
        print(ran.stdout[-2000:], file=sys.stderr)
    return refused == len(wanted)


def main(words):
    if words == ["--look"]:
        return look()
    unknown = [it for it in words if it not in all_edits()]
    if unknown:
        print(__doc__, f"There are no edits of {unknown[0]}.", file=sys.stderr)
        return False
    return look() and try_all(words or list(all_edits()))


if __name__ == "__main__":
    sys.exit(0 if main(sys.argv[1:]) else 1)
