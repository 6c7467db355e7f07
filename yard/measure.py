#!/usr/bin/env python3
"""Builds and runs a program that measures: and_bench (unification and printing), and_proof_bench (proofs), and_store_bench (a store of several workers) or and_tree_bench
(a tree of several teams). Their sources lie in yard/measure, each file with `.txt` behind its name, so that no gate proves them.

    yard/measure.py [--copy FOLDER] [--unproved] NAME [-- words for the program]

The crates of the tree and those of yard/measure are laid into a folder that is removed at the end, or into FOLDER, which is kept and can be
given again; there `rt run` proves, builds and runs the program, and with --unproved `rt try` runs it as it is. What a program reads from
standard input it is given. `figures` serves yard/store_figures.py and yard/tree_figures.py.
"""

import argparse
import contextlib
import os
import shutil
import subprocess
import sys
import tempfile

HERE = os.path.dirname(os.path.abspath(__file__))
TREE = os.path.dirname(HERE)
MEASURE = os.path.join(HERE, "measure")


def lay_out(folder, own=MEASURE):
    """Lays the tree's crates, and programs whose files have `.txt` behind their names, into a folder, over what lies there."""
    crates = os.path.join(folder, "crates")
    left_out = shutil.ignore_patterns("out", "must-fail")
    shutil.copytree(os.path.join(TREE, "crates"), crates, ignore=left_out, dirs_exist_ok=True)
    shutil.copy(os.path.join(TREE, "HANDLES"), folder)
    with open(os.path.join(folder, "crates.txt"), "w", encoding="utf-8") as lines:
        for listed in (os.path.join(TREE, "crates.txt"), os.path.join(own, "listed.txt")):
            with open(listed, encoding="utf-8") as part:
                lines.write(part.read())
    for place, _, names in os.walk(own):
        for name in names:
            if name.endswith(".txt") and place != own:
                into = os.path.join(crates, os.path.relpath(place, own))
                os.makedirs(into, exist_ok=True)
                shutil.copy(os.path.join(place, name), os.path.join(into, name[: -len(".txt")]))


@contextlib.contextmanager
def laid_out(copy, own=MEASURE):
    """The folder where all crates lie: the one that is given, or one that is removed at the end."""
    with contextlib.ExitStack() as until_end:
        folder = copy or until_end.enter_context(tempfile.TemporaryDirectory(prefix="measure-"))
        os.makedirs(folder, exist_ok=True)
        lay_out(folder, own)
        yield folder


@contextlib.contextmanager
def program(name, words, copy=None):
    """The path of a program that was built, and run once with these words."""
    with laid_out(copy) as folder:
        crate = os.path.join(folder, "crates", name)
        subprocess.run(["rt", "run", "--", *words], cwd=crate, check=True, stdin=subprocess.DEVNULL, stdout=subprocess.DEVNULL)
        yield os.path.join(crate, "out", name)


def figures(description, name, words, compared):
    """What a script does that compares runs of a program: `compared` is given the program and the options, and gives the status."""
    options = argparse.ArgumentParser(description=description, formatter_class=argparse.RawDescriptionHelpFormatter)
    options.add_argument("--runs", type=int, default=20)
    options.add_argument("--only", default="")
    options.add_argument("--copy", metavar="FOLDER")
    given = options.parse_args()
    with program(name, words, given.copy) as built:
        return compared(built, given)


def main():
    options = argparse.ArgumentParser(description=__doc__, formatter_class=argparse.RawDescriptionHelpFormatter)
    options.add_argument("--copy", metavar="FOLDER")
    options.add_argument("--unproved", action="store_true")
    options.add_argument("name")
    options.add_argument("words", nargs="*")
    given = options.parse_args()
    with laid_out(given.copy) as folder:
        command = ["rt", "try" if given.unproved else "run", "--", *given.words]
        return subprocess.run(command, cwd=os.path.join(folder, "crates", given.name), check=False).returncode


if __name__ == "__main__":
    sys.exit(main())
