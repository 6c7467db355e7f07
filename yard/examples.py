#!/usr/bin/env python3
"""Runs every file of examples/, and what docs/tutorial.md and docs/from-prolog.md say is typed, and compares what comes back.

    yard/examples.py [--only WORD] [--program FILE] [--swi] [--write]

What an example writes stands in examples/NAME.out; a line `% run: ..` in it has the words of `run`. In a document an indented line that begins with `$ `
is typed, and what is indented behind it comes back, up to the next empty line or `$ `. With --swi each example is compared with SWI-Prolog, too,
where swipl is installed; with --write the files examples/NAME.out are written anew.
"""

import argparse
import os
import re
import shutil
import subprocess
import sys

import common

DOCUMENTS = ("docs/tutorial.md", "docs/from-prolog.md")
SECONDS = 300


def written_by(program, example):
    """What the program writes for an example."""
    text = example.read_text(encoding="utf-8")
    words = re.search(r"^% run: (.*)$", text, re.MULTILINE)
    command = [program, "run", *(words.group(1).split() if words else [])]
    return subprocess.run(command, input=text, capture_output=True, text=True, check=False, timeout=SECONDS).stdout


def written_by_swi(example):
    """What SWI-Prolog writes, or None where it finds no end: it takes the leftmost goal always."""
    command = common.swi_of(example, True)
    try:
        return subprocess.run(command, stdin=subprocess.DEVNULL, capture_output=True, text=True, check=False, timeout=20).stdout
    except subprocess.TimeoutExpired:
        print(f"{example.name}: SWI-Prolog has found no end in 20 seconds")
        return None


def compare(name, expected, found):
    """Whether the two are the same; the first line in which they differ is told."""
    if expected == found:
        return True
    ours, theirs = found.splitlines() + ["(the end)"], expected.splitlines() + ["(the end)"]
    place = next((k for k, (a, b) in enumerate(zip(ours, theirs)) if a != b), 0)
    print(f"{name}: line {place + 1}\n  expected {theirs[place]}\n  came     {ours[place]}")
    return False


def typed_in(document):
    """Each line that is typed in a document, with its number and the lines that come back."""
    command, number, lines = None, 0, []
    for at, line in enumerate(document.read_text(encoding="utf-8").splitlines() + [""], 1):
        if line.startswith("    $ "):
            if command:
                yield number, command, lines
            command, number, lines = line[6:], at, []
        elif command and line.startswith("    "):
            lines.append(line[4:])
        elif command:
            yield number, command, lines
            command = None


def is_document_right(document, environment):
    """Runs what is typed; a line `..` stands for lines that are left out."""
    right, count = True, 0
    for number, command, lines in typed_in(document):
        done = subprocess.run(
            ["bash", "-c", command], cwd=common.TOP, env=environment, stdout=subprocess.PIPE, stderr=subprocess.STDOUT, text=True, check=False, timeout=SECONDS
        )
        count += 1
        pattern = r"(?:.*\n)*".join(re.escape(part) for part in re.split(r"^\.\.\n", "\n".join(lines), flags=re.MULTILINE))
        if not re.fullmatch(pattern + "\n?", done.stdout):
            right = compare(f"{document.name}, line {number}: {command}", "\n".join(lines) + "\n", done.stdout) and False
    print(f"{document.name}: {count} commands {'as they are told' if right else ''}")
    return right


def main():
    options = argparse.ArgumentParser(description=__doc__, formatter_class=argparse.RawDescriptionHelpFormatter)
    options.add_argument("--only", default="")
    common.add_program(options)
    options.add_argument("--swi", action="store_true")
    options.add_argument("--write", action="store_true")
    given = options.parse_args()
    if not common.stands(given.program):
        return 1
    right, count = True, 0
    for example in sorted((common.TOP / "examples").glob("*.pl")):
        if given.only not in example.name:
            continue
        count += 1
        found, out = written_by(given.program, example), example.with_suffix(".out")
        if given.write:
            out.write_text(found, encoding="utf-8")
        right &= compare(example.name, out.read_text(encoding="utf-8") if out.exists() else "", found)
        if given.swi and shutil.which("swipl"):
            theirs = written_by_swi(example)
            right &= theirs is None or compare(f"{example.name} by SWI-Prolog", theirs, found)
    print(f"{count} examples {'as they are told' if right else ''}")
    environment = {**os.environ, "ANDORRA": given.program, "ANDORRA_PROGRESS": "0", "ANDORRA_BUILD": "never"}
    for name in DOCUMENTS:
        if given.only in name and (common.TOP / name).exists():
            right &= is_document_right(common.TOP / name, environment)
    return 0 if right else 1


if __name__ == "__main__":
    sys.exit(main())
