#!/usr/bin/env python3
"""Answers the queries of a text on several machines: writes what `andorra batch < TEXT` would write, and ends with its status.

    yard/cluster.py TEXT [--on HOST,HOST..] [--slurm] [--queries N] [--at-once J] [--limit N] [--many] [--program FILE] [--folder DIR] [--resume]

The text is split into parts of N queries each (else 8), with all clauses in each part, and each part is answered by `andorra batch`: by GNU parallel, J at a time
on each host (else one for each processor), a host being what ssh takes, or `:` for this machine, which is what is taken where none is named; or by Slurm, as an
array of jobs, with a folder that all nodes have. The program stands at the same place on all of them. What the parts write is joined in the order of the text.

A part that fails is run again, twice. What is answered is kept in DIR (else TEXT.parts), so that --resume runs what is left after parts were missing or the
whole was stopped. A text of more than 256 queries is refused, as `batch` refuses it, unless --many is there. Status 70 is that of a part that is missing, or of
a folder that is of another text.
"""

import argparse
import hashlib
import json
import pathlib
import re
import secrets
import shlex
import subprocess
import sys

TOP = pathlib.Path(__file__).resolve().parent.parent
PROGRAM = TOP / "crates" / "andorra" / "out" / "andorra"
MOST_BYTES, MOST_QUERIES, TIMES, FAILED = 1_048_576, 256, 3, 70
LAYOUT, NOT_PURE = " \t\n\r", (r"\+", "->")
TOKEN = re.compile(
    rf"""(?P<layout>[{LAYOUT}]+|%[^\n]*|/\*.*?\*/)|(?P<end>\.(?=[{LAYOUT}%]|\Z))|(?P<symbol>(?!/\*)[-+*/\\^<>=~:.?@#&$]+)
      |(?P<number>[0-9]{{1,18}}(?![0-9A-Za-z_'])(?!\.[0-9]))|(?P<word>[A-Za-z_][A-Za-z0-9_]*)
      |(?P<quoted>'(?:''|\\['\\n]|[^'\\\n])*')|(?P<mark>[()\[\]{{}},;|])""",
    re.VERBOSE | re.DOTALL | re.ASCII,
)
HEADER = re.compile(rb"^% query [0-9]+\n", re.MULTILINE)


class Missing(Exception):
    """Why the whole is not answered."""


def queries_of(text):
    """Where the queries of a text begin and end; None where it has a token that is not one of the language for sure."""
    spans, place, first, start = [], 0, True, None
    while place < len(text):
        found = TOKEN.match(text, place)
        if not found or found.group() in NOT_PURE:
            return None
        place = found.end()
        if found.lastgroup == "layout":
            continue
        if first and found.lastgroup == "symbol" and found.group() == "?-":
            start = found.start()
        first = found.lastgroup == "end"
        if first and start is not None:
            spans.append((start, place))
            start = None
    return spans if start is None else spans + [(start, place)]


def without(text, spans):
    """The text with blanks in place of these spans, but for their newlines."""
    pieces, place = [], 0
    for start, end in spans:
        pieces += [text[place:start], re.sub(r"[^\n]", " ", text[start:end])]
        place = end
    return "".join(pieces) + text[place:]


def parts_of(source, size, many):
    """The parts of a text and how many queries each has. One that is refused for sure, or that may be, is a part as it stands."""
    try:
        text = source.decode()
    except UnicodeDecodeError:
        return [(source, None)]
    spans = queries_of(text) if len(source) <= MOST_BYTES else None
    if not spans or (len(spans) > MOST_QUERIES and not many):
        return [(source, None)]
    firsts = range(0, len(spans), size)
    return [(without(text, spans[:first] + spans[first + size:]).encode(), len(spans[first:first + size])) for first in firsts]


class Part:
    """A part of the text, and where what it is answered with is kept."""

    def __init__(self, folder, number, text, count):
        self.number, self.count = number, count
        self.text, self.kept = folder / f"{number:05}.pl", folder / f"{number:05}.out"
        if not self.text.exists():
            self.text.write_bytes(text)

    def take(self, written):
        """Keeps what a run of the part wrote, with its status in a last line, where it is whole; else tells what was wrong with it."""
        body, _, last = written.rpartition(b"% status ")
        if not last.strip().isdigit():
            return "it was stopped"
        status = int(last)
        if status not in (0, 1, 3, 6, 8):
            return f"its status was {status}"
        whole = body.startswith(b"error: ") if status == 3 else self.count in (None, len(HEADER.findall(body)))
        if not whole or not body.endswith(b"\n"):
            return "what it wrote is not whole"
        new = self.kept.with_suffix(".new")
        new.write_bytes(written)
        new.rename(self.kept)
        return None

    def answer(self):
        """What the part was answered with, and the status."""
        body, _, last = self.kept.read_bytes().rpartition(b"% status ")
        return body, int(last)


class Runner:
    """Runs parts, each by a command that reads the part and writes what comes of it and then its status, into a file for each of a round."""

    def __init__(self, folder, words):
        self.folder, self.round, self.written = folder, folder / "round", folder / "written"
        command = shlex.join(words)
        self.command = f"{command}; echo '% status '$?"

    def collect(self, parts):
        """Takes what the last round wrote, of whose parts `round` has the numbers, one a line."""
        numbers = self.round.read_text().split() if self.round.exists() else []
        for place, number in enumerate(numbers, 1):
            part, file = parts[int(number)], self.written / str(place)
            fault = part.take(file.read_bytes()) if file.exists() else "it was not run"
            if fault and not part.kept.exists():
                print(f"cluster: part {number} failed: {fault}", file=sys.stderr)
        self.round.unlink(missing_ok=True)

    def run(self, parts):
        """Runs these parts, all in one round."""
        self.written.mkdir(exist_ok=True)
        for file in self.written.iterdir():
            file.unlink()
        new = self.round.with_suffix(".new")
        new.write_text("".join(f"{part.number}\n" for part in parts))
        new.rename(self.round)
        self.start(parts)


class Parallel(Runner):
    """GNU parallel hands each part to a host's command as what that reads, and keeps what it writes here."""

    def __init__(self, folder, words, hosts, at_once):
        super().__init__(folder, words)
        self.options = ["--sshlogin", hosts, "--jobs", at_once]

    def start(self, parts):
        # a part is ended by bytes that no text has
        end = secrets.token_hex(32)
        line = ["parallel", "--will-cite", "--pipe", "--recend", end, "--rrs", "-N1", "--block", "4M", "--results", f"{self.written}/{{#}}", *self.options]
        with subprocess.Popen([*line, self.command], stdin=subprocess.PIPE, stdout=subprocess.DEVNULL, stderr=subprocess.DEVNULL) as running:
            for part in parts:
                running.stdin.write(part.text.read_bytes() + end.encode())
            running.stdin.close()


class Slurm(Runner):
    """A job of an array finds its part by its place in the round."""

    def start(self, parts):
        script = self.folder / "job.sh"
        folder = shlex.quote(str(self.folder))
        lines = ["#!/bin/sh", f"cd {folder} || exit", 'part=$(sed -n "${SLURM_ARRAY_TASK_ID}p" round)',
                 'exec < "$(printf %05d "$part").pl" > "written/$SLURM_ARRAY_TASK_ID"', self.command, ""]
        script.write_text("\n".join(lines))
        command = ["sbatch", "--wait", "--quiet", f"--array=1-{len(parts)}", "--output=/dev/null", str(script)]
        subprocess.run(command, stdout=subprocess.DEVNULL, check=False)


def joined(parts):
    """What one batch of the whole text would write, and its status: the first refusal, or all parts with their queries numbered through."""
    answers = [part.answer() for part in parts]
    for body, status in answers:
        if status == 3:
            return body, 3
    pieces, number = [], 0
    for body, _ in answers:
        for piece in HEADER.split(body)[1:]:
            number += 1
            pieces.append(b"%% query %d\n" % number + piece)
    statuses = {status for _, status in answers}
    return b"".join(pieces), next(status for status in (6, 8, 1, 0) if status in statuses)


def prepared(asked, source):
    """The folder of this text and these words, which holds what was answered before, if that is to be gone on with."""
    folder = pathlib.Path(asked.folder or asked.text + ".parts").resolve()
    about = {"text": hashlib.sha256(source).hexdigest(), "queries": asked.queries, "limit": asked.limit, "many": asked.many}
    note = folder / "about"
    if folder.exists() and not asked.resume:
        raise Missing(f"{folder} is there already: --resume goes on with it, --folder names another")
    if asked.resume and (not note.exists() or json.loads(note.read_text()) != about):
        raise Missing(f"{folder} is not of this text and these words")
    folder.mkdir(parents=True, exist_ok=True)
    note.write_text(json.dumps(about))
    return folder


def answered(asked):
    """What the text is answered with, and the status."""
    source = pathlib.Path(asked.text).read_bytes()
    folder = prepared(asked, source)
    split = parts_of(source, asked.queries, asked.many)
    parts = {number: Part(folder, number, text, count) for number, (text, count) in enumerate(split, 1)}
    words = [str(asked.program), "batch", "--jobs", "1"] + (["--limit", str(asked.limit)] if asked.limit else [])
    runner = Slurm(folder, words) if asked.slurm else Parallel(folder, words, asked.on, asked.at_once)
    runner.collect(parts)
    for _ in range(TIMES):
        left = [part for part in parts.values() if not part.kept.exists()]
        if left:
            runner.run(left)
            runner.collect(parts)
    left = [str(part.number) for part in parts.values() if not part.kept.exists()]
    if left:
        raise Missing(f"of {len(parts)} parts these are missing: {', '.join(left)}; the same words with --resume run them again")
    return joined(list(parts.values()))


def main():
    words = argparse.ArgumentParser(description=__doc__, formatter_class=argparse.RawDescriptionHelpFormatter)
    words.add_argument("text", metavar="TEXT")
    words.add_argument("--on", metavar="HOST,HOST..", default=":")
    words.add_argument("--slurm", action="store_true")
    words.add_argument("--queries", metavar="N", type=int, default=8, choices=range(1, MOST_QUERIES + 1))
    words.add_argument("--at-once", metavar="J", default="100%")
    words.add_argument("--limit", metavar="N", type=int)
    words.add_argument("--many", action="store_true")
    words.add_argument("--program", metavar="FILE", type=pathlib.Path, default=PROGRAM)
    words.add_argument("--folder", metavar="DIR")
    words.add_argument("--resume", action="store_true")
    try:
        text, status = answered(words.parse_args())
    except (Missing, OSError) as why:
        print(f"cluster: {why}", file=sys.stderr)
        return FAILED
    sys.stdout.buffer.write(text)
    sys.stdout.flush()
    return status


if __name__ == "__main__":
    sys.exit(main())
