#!/usr/bin/env python3
"""Has the program of yard/unproved answer rows of yard/runs: ./andorra takes it for `run` where no proved program stands yet.

    yard/unproved.py [--only WORD] [--copy FOLDER]

`rt try` compiles it, which takes a minute, and runs it for the rows whose words are all of `run`, some minutes in all: what it writes, and its
status, should be what yard/runs/told says of the program. --only and --copy are those of yard/runs.py and yard/measure.py.
"""

import argparse
import pathlib
import re
import shutil
import subprocess
import sys
import tempfile

import common
import measure
import runs

UNPROVED = str(common.TOP / "yard" / "unproved")
KINDS = "run", "bytes", "large", "fronts"
STATUS = re.compile(rb"^case=(row-\d+) run=ended status=(\d+) ", re.M)
WRITTEN = re.compile(rb"^== (row-\d+)\n", re.M)


def is_run(kind, words):
    """Whether a row has runs alone, and nothing of the system is refused to them."""
    return kind in KINDS and all(it.split()[:1] == ["run"] for it in words.split(";"))


class Tried(runs.Program):
    """A program that `rt try` compiles once, for all that was asked of it."""

    def __init__(self, program, folder):
        super().__init__(program, folder)
        self.names, self.came = {}, {}

    def reply(self, words, text):
        """What is written, and the status; nothing before the program was tried."""
        name = self.names.setdefault((words, text), f"row-{len(self.names)}")
        return self.came.get(name, "")

    def try_all(self):
        """Tries what was asked so far. Whether the program was compiled."""
        for (words, text), name in self.names.items():
            case = pathlib.Path(self.folder) / name
            case.write_bytes(text)
            case.with_suffix(".args").write_text("".join(f"{word}\n" for word in words.split()), encoding="utf-8")
        ran = subprocess.run(["rt", "try", "--seconds", str(runs.SECONDS), "--cases", self.folder], cwd=self.program, capture_output=True, check=False)
        statuses = dict(STATUS.findall(ran.stderr))
        parts = WRITTEN.split(ran.stdout)
        for name, written in zip(parts[1::2], parts[2::2]):
            self.came[name.decode()] = f"{runs.shown(written)}= {runs.shown(statuses.get(name, b'none'))}\n"
        if not self.came:
            print(runs.shown(ran.stderr))
        return bool(self.came)


def main():
    options = argparse.ArgumentParser(description=__doc__, formatter_class=argparse.RawDescriptionHelpFormatter)
    options.add_argument("--only", default="", metavar="WORD", help="the rows with this word in their first line")
    options.add_argument("--copy", metavar="FOLDER")
    given = options.parse_args()
    every = list(runs.rows())
    told = runs.told_of_rows([head for head, *_ in every])
    chosen = [row for row in every if given.only in row[0] and is_run(row[1], row[2])]
    with measure.laid_out(given.copy, UNPROVED) as folder, tempfile.TemporaryDirectory(prefix="runs-") as cases:
        crates = pathlib.Path(folder) / "crates"
        shutil.copy(crates / "andorra" / "src" / "words.rt", crates / "and_run" / "src")
        tried = Tried(crates / "and_run", cases)
        for row in chosen:
            tried.told(*row[1:])
        if not tried.try_all():
            return 1
        found = [tried.told(*row[1:]) for row in chosen]
    return int(runs.compare("and_run", chosen, told, found) > 0)


if __name__ == "__main__":
    sys.exit(main())
