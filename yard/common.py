"""Where the tree and its program lie, and how SWI-Prolog is given a text: for the other scripts of the yard."""

import contextlib
import os
import pathlib
import tempfile

TOP = pathlib.Path(__file__).resolve().parent.parent
PROGRAM = str(TOP / "crates" / "andorra" / "out" / "andorra")


def add_program(options):
    """Gives a script the option --program: else the program that the environment names, else that of this tree."""
    options.add_argument("--program", metavar="FILE", default=os.environ.get("ANDORRA", PROGRAM))


def stands(program):
    """Whether the program is there; where it is not, that is told."""
    if os.access(program, os.X_OK):
        return True
    print(f"{program} does not stand yet: ./andorra build makes it")
    return False


@contextlib.contextmanager
def swi_words(text, waits):
    """The words by which SWI-Prolog answers a text, with its occurs check; where it `waits`, tests may stand before what they test."""
    with tempfile.NamedTemporaryFile("w", suffix=".pl", encoding="utf-8") as source:
        source.write(text)
        source.flush()
        yield swi_of(source.name, waits)


def swi_of(path, waits):
    """The same of a file."""
    return ["swipl", "-q", str(TOP / "yard" / "swi.pl"), "--", "wait" if waits else "plain", str(path)]
