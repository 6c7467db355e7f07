#!/usr/bin/env python3
"""Runs the program over rows of whole runs, and compares what comes of each with what should.

    yard/runs.py [--both] [--only WORD] [--program FILE] [--write]

A row is a block of yard/runs/rows: a line `# KIND NAME`, a line with the words of runs, with a semicolon between those of two, and a text. What comes
of it stands behind the same first line in yard/runs/told. Kinds:

run     what is written by the first of the words, with the status, and what else by which of the others
bytes   the same, of a text whose bytes are told by their numbers in base 16
large   the same, of a text of as many bytes as the next line says: the lines behind that one, and line breaks
fronts  the same of the first of the words, for each front of the text
faults  of each run, behind a bar: the read that fails (0: none; reads take ten bytes), and how many bytes writes take in all. The status, how many reads and
        writes there were, how many bytes were written, the front of these, and the last 30 behind it
held    what is written, with the status, where the first reduction is held: whether another came meanwhile, and whether a branch was handed on

With --both it is run as LLVM and as Rattle's own compiler builds it, which `rt ci` leaves side by side. With --write what comes of all rows is written as
what should. What is refused or held is so by yard/refusing.c, which gcc compiles, in a program that is as it is shipped.
"""

import argparse
import concurrent.futures
import os
import pathlib
import re
import struct
import subprocess
import sys
import tempfile

import common

ROWS = common.TOP / "yard" / "runs" / "rows"
TOLD = common.TOP / "yard" / "runs" / "told"
# how the name of what Rattle's own compiler builds ends
BY_RATTLE = ".by-rattle"
SECONDS = 300
STATUSES = "Answers", "NoAnswer", "Usage", "Refused", "ReadFault", "WriteFault", "Limit", "Memory", "Floundered"
# for how many thousandths of a second the first reduction is held, first and where no other one came
HOLDS = 100, 1_000, 20_000
PROGRESS = re.compile(rb"\r *\d+ s +(\d+) reductions .* (\d+) shared")
# what yard/refusing.c counts
COUNTS = struct.Struct("4q")
FRONT, END = 1_000, 30


def rows():
    """The rows: the first line of each, its kind, its words and its text."""
    for block in ("\n" + ROWS.read_text(encoding="utf-8").removesuffix("\n")).split("\n# ")[1:]:
        head, _, rest = block.partition("\n")
        words, _, text = rest.partition("\n")
        yield f"# {head}\n", head.split()[0], words, text


def told_of_rows(heads):
    """What should come of each row."""
    told, rest = {}, TOLD.read_text(encoding="utf-8")
    for head, behind in zip(heads, [*heads[1:], None]):
        part, _, rest = rest.removeprefix(head).partition(behind) if behind else (rest.removeprefix(head), "", "")
        told[head], rest = part, (behind or "") + rest
    return told


class Program:
    """A program, and the folder of what is made for its runs."""

    def __init__(self, program, folder):
        self.program, self.folder = os.path.abspath(program), folder
        self.refusing = os.path.join(folder, "refusing.so")

    def run(self, words, text, **refusals):
        """How the words end over a text, where these calls of the system are refused."""
        environment = dict(os.environ, LD_PRELOAD=self.refusing, **refusals) if refusals else None
        typed = [self.program, *words.split()]
        return subprocess.run(typed, input=text, capture_output=True, env=environment, check=False, timeout=SECONDS)

    def reply(self, words, text):
        """What is written, and the status."""
        ran = self.run(words, text)
        return shown(ran.stdout) + f"= {ran.returncode}\n"

    def replies(self, words, text):
        """What the first of the words come to, and what else the others do."""
        runs = words.split(";")
        first = self.reply(runs[0], text)
        others = [(other, self.reply(other, text)) for other in runs[1:]]
        return first + "".join(f"with{other}:\n{reply}" for other, reply in others if reply != first)

    def fronts(self, words, text):
        """What the words come to for each front of a text, and for how long fronts the same."""
        told, first, same = "", 0, self.reply(words, b"")
        for length in range(1, len(text) + 2):
            reply = self.reply(words, text[:length]) if length <= len(text) else None
            if reply != same:
                told += f"{first} to {length - 1}:\n{same}"
                first, same = length, reply
        return told

    def fault(self, run, text):
        """What a run comes to whose reads or writes fail."""
        numbers, _, words = run.partition("|")
        call, room = numbers.split()
        with tempfile.NamedTemporaryFile(dir=self.folder) as counts:
            ran = self.run(words, text, PIECE="10", REFUSE_READ=str(int(call) - 1), ROOM=room, REFUSE_COUNTS=counts.name)
            told = counts.read(COUNTS.size)
        if len(told) < COUNTS.size:
            return "nothing was counted\n"
        _, _, reads, writes = COUNTS.unpack(told)
        front, end = ran.stdout[:FRONT], ran.stdout[FRONT:][-END:]
        return f"(({status_name(ran.returncode)}, {reads}, {writes}), {len(ran.stdout)}, {quoted(front)}, {quoted(end)})\n"

    def held(self, words, text):
        """What the words come to where the first reduction is held until another comes, or for long."""
        for hold in HOLDS:
            ran = self.run(words, text, ANDORRA_PROGRESS="1", HOLD=str(hold))
            found = PROGRESS.match(ran.stderr)
            reductions, shared = map(int, found.groups()) if found else (0, 0)
            if reductions > 1:
                break
        return f"{shown(ran.stdout)}= {ran.returncode}\njoined: {truth(reductions > 1)}, shared: {truth(shared > 0)}\n"

    def told(self, kind, words, text):
        """What comes of a row."""
        if kind == "run":
            return self.replies(words, text.encode())
        if kind == "bytes":
            return self.replies(words, bytes.fromhex(text))
        if kind == "large":
            size, _, front = text.partition("\n")
            return self.replies(words, front.encode().ljust(int(size), b"\n"))
        if kind == "fronts":
            return self.fronts(words, f"{text}\n".encode())
        if kind == "faults":
            return "".join(self.fault(run, text.encode()) for run in words.split(";"))
        if kind == "held":
            return self.held(words, text.encode())
        return "malformed\n"


def truth(holds):
    return "true" if holds else "false"


def status_name(code):
    """The name of a status; of what is none, as where a signal ended the run, its number."""
    return STATUSES[code] if 0 <= code < len(STATUSES) else str(code)


def shown(written):
    return written.decode(errors="replace")


def quoted(written):
    """Bytes on one line, in quotes."""
    return '"' + shown(written).replace("\\", "\\\\").replace('"', '\\"').replace("\n", "\\n") + '"'


def told_by(program, chosen):
    """What comes of these rows by a program, several at a time."""
    with tempfile.TemporaryDirectory(prefix="runs-") as folder:
        ran = Program(program, folder)
        subprocess.run(["gcc", "-O2", "-shared", "-fPIC", "-o", ran.refusing, str(common.TOP / "yard" / "refusing.c"), "-ldl"], check=True)
        with concurrent.futures.ThreadPoolExecutor(os.cpu_count()) as hands:
            return list(hands.map(lambda row: ran.told(*row[1:]), chosen))


def compare(program, chosen, told, found):
    """How many rows came to something else, each of which is told."""
    broken = [(head, came) for (head, *_), came in zip(chosen, found) if came != told[head]]
    for head, came in broken:
        due, lines = told[head].splitlines() + ["(the end)"], came.splitlines() + ["(the end)"]
        place = next(k for k, (a, b) in enumerate(zip(due, lines)) if a != b)
        name = f"{os.path.basename(program)}, {head[2:-1]}"
        print(f"{name}: line {place + 1}\n  should be {due[place][:400]}\n  came      {lines[place][:400]}")
    print(f"{os.path.basename(program)}: {len(chosen) - len(broken)} of {len(chosen)} rows came to what they should")
    return len(broken)


def main():
    options = argparse.ArgumentParser(description=__doc__, formatter_class=argparse.RawDescriptionHelpFormatter)
    options.add_argument("--both", action="store_true", help="what Rattle's own compiler built, too")
    options.add_argument("--only", default="", metavar="WORD", help="the rows with this word in their first line")
    options.add_argument("--write", action="store_true", help="write what comes of all rows as what should")
    common.add_program(options)
    given = options.parse_args()
    programs = [given.program] + [given.program + BY_RATTLE] * given.both
    if not all([common.stands(program) for program in programs]):
        return 1
    every = list(rows())
    if given.write:
        TOLD.write_text("".join(head + came for (head, *_), came in zip(every, told_by(programs[0], every))), encoding="utf-8")
    told = told_of_rows([head for head, *_ in every])
    chosen = [row for row in every if given.only in row[0]]
    return int(any([compare(program, chosen, told, told_by(program, chosen)) for program in programs]))


if __name__ == "__main__":
    sys.exit(main())
