#!/usr/bin/env python3
"""Uses the program as no friend would, and says what broke: each run has to end with a status of the table and the bytes that are due.

    yard/hostile.py [PART ..] [--quick] [--program FILE] [--seed S] [--from N] [--count N]

Parts: streams (reads and writes that fail, come in pieces, are closed or full; texts cut at each byte), memory (each allocation refused in
turn, and a bounded address space), threads (each refused in turn), crowd (16 teams of 8 workers, on all processors, on one, on busy ones),
system (control groups of few bytes or threads, a user of few threads, small stacks), checked (memory as valgrind sees it), ends (each limit
at its last allowed value and one beyond), mutation (texts of examples and rows, changed by bytes and tokens), random (random programs
beside yard/evaluate.py).
--quick takes a sample of each. --from and --count tell which of the numbered texts of mutation and random are made, which rounds of crowd
are run, and over which programs allocations are refused: each number is made by itself, so that a run can go on where another ended.
Refusals are made by yard/refusing.c, which gcc compiles, in a program that is as it is shipped.
"""
import argparse
import atexit
import contextlib
import os
import random
import re
import resource
import shutil
import signal
import struct
import subprocess
import sys
import tempfile
import time

import common
import evaluate
import hostile_ends
import hostile_random
import hostile_system
from hostile_system import least_space, limited
from hostile_texts import crowd_texts, crowded

HERE = os.path.dirname(os.path.abspath(__file__))
# seconds of the clock after which a run is taken to hang
WAIT = 1_200
STATUSES_OF_TEXTS = (0, 1, 3, 6, 8)


def used_seconds():
    """Processor seconds of the runs that have ended."""
    usage = resource.getrusage(resource.RUSAGE_CHILDREN)
    return usage.ru_utime + usage.ru_stime


def as_bytes(text):
    return text if isinstance(text, bytes) else text.encode(errors="surrogateescape")


class Trial:
    """The program, what stands before it, and what broke so far."""

    def __init__(self, given):
        self.program, self.quick = os.path.abspath(given.program), given.quick
        self.seed, self.first, self.count = given.seed, given.first, given.count
        self.dice = random.Random(given.seed)
        self.broken, self.runs, self.took = 0, 0, 0.0
        self.folder = tempfile.mkdtemp(prefix="hostile-")
        atexit.register(shutil.rmtree, self.folder, ignore_errors=True)
        self.refusing = os.path.join(self.folder, "refusing.so")
        subprocess.run(["gcc", "-O2", "-shared", "-fPIC", "-o", self.refusing, os.path.join(HERE, "refusing.c"), "-ldl"], check=True)

    def run(self, words, text, before=(), seconds=300, **more):
        """Status, what was written and what was told; status None where it did not end, or wanted a processor for so many seconds.
        How long it had one is in `took`."""
        self.runs += 1
        refusals = {key: str(value) for key, value in more.items()}
        environment = dict(os.environ, LD_PRELOAD=self.refusing, **refusals) if refusals else None
        start = used_seconds()
        with subprocess.Popen([*before, self.program, *words], stdin=subprocess.PIPE, stdout=subprocess.PIPE, stderr=subprocess.PIPE,
                              env=environment) as child:
            with contextlib.suppress(ProcessLookupError, PermissionError):
                resource.prlimit(child.pid, resource.RLIMIT_CPU, (seconds, seconds + 1))
            is_hung = False
            try:
                written, told = child.communicate(as_bytes(text), timeout=WAIT)
            except subprocess.TimeoutExpired:
                is_hung = True
                child.kill()
                written, told = child.communicate()
        self.took = used_seconds() - start
        is_ended = child.returncode != -signal.SIGXCPU and self.took < seconds and not is_hung
        return child.returncode if is_ended else None, written, told

    def counts(self, words, text):
        """How often memory, threads, reads and writes were asked for in a run."""
        file = os.path.join(self.folder, "counts")
        if os.path.exists(file):
            os.remove(file)
        self.run(words, text, REFUSE_COUNTS=file)
        with open(file, "rb") as counts:
            return struct.unpack("4q", counts.read(32))

    def broke(self, what, words, text, found):
        """Tells of a failure, with the whole text, or with a file that has it where it is long."""
        self.broken += 1
        told = as_bytes(text)
        if len(told) > 16_384:
            with tempfile.NamedTemporaryFile(prefix="broken-", suffix=".pl", delete=False) as kept:
                kept.write(told)
            told = kept.name
        print(f"BROKEN {what}: {' '.join(words)[:400]!a}: status {found[0]}, {found[1][:120]!r}, {found[2][-160:]!r}\n{told!r}", flush=True)

    def some(self, many, few):
        """The numbers below, or a sample of them."""
        return range(many) if not self.quick or many <= few else sorted(self.dice.sample(range(many), few))

    def numbers(self, few, many):
        """The numbers of the texts or rounds that are due: few of the quick form, or as many as there are. Tells how far it has come."""
        count = few if self.quick else self.count or many - self.first
        for number in range(self.first, self.first + count):
            yield number
            if not self.quick and (number + 1) % max(1, many // 50) == 0:
                print(f"up to {number}: {self.runs} runs, {self.broken} broken", flush=True)

    def dice_of(self, part, number):
        """The dice of one text, whatever was thrown before it."""
        return random.Random(f"{self.seed} {part} {number}")


def streams(trial):
    for name, words, text in crowded((2,)):
        due = trial.run(words, text)
        refuse_calls(trial, name, words, text, due)
        pieces(trial, name, words, text, due)
        for number in trial.some(len(text), 25):
            cut(trial, name, words, text[:number])
        if words[0] != "demo":
            outside(trial, name, words, text, due)
    pipes(trial)
    unready(trial)
    if not trial.quick:
        telling(trial)


def refuse_calls(trial, name, words, text, due):
    """Each read fails in turn, each write, and the sink after each byte."""
    _, _, reads, writes = trial.counts(words, text)
    for number in range(reads + 1):
        found = trial.run(words, text, REFUSE_READ=number)
        if found[:2] != ((4, b"") if number < reads else due[:2]):
            trial.broke(f"{name}, read {number} fails", words, text, found)
    for number in range(writes + 1):
        found = trial.run(words, text, REFUSE_WRITE=number)
        if found[:2] != due[:2] and not (found[0] == 5 and due[1].startswith(found[1])):
            trial.broke(f"{name}, write {number} fails", words, text, found)
    for number in trial.some(len(due[1]), 8):
        found = trial.run(words, text, PIECE=1, REFUSE_WRITE=f"{number}+")
        if found[:2] != (5, due[1][:number]):
            trial.broke(f"{name}, sink full after {number}", words, text, found)
    for number in trial.some(len(text) + 1 if reads else 0, 8):
        found = trial.run(words, text, PIECE=1, REFUSE_READ=number)
        if found[:2] != (4, b""):
            trial.broke(f"{name}, read {number} of single bytes fails", words, text, found)


def pieces(trial, name, words, text, due):
    """Reads and writes of each size, up to one that takes all."""
    for piece in (size + 1 for size in trial.some(max(len(text), len(due[1])) + 1, 6)):
        found = trial.run(words, text, PIECE=piece)
        if found[:2] != due[:2]:
            trial.broke(f"{name}, pieces of {piece}", words, text, found)


def cut(trial, name, words, text):
    """A text that ends too early: its refusal, or its run, whose lines are those of the definitions."""
    found = trial.run(words, text)
    is_refused = re.fullmatch(rb"error: line (\d+): [^\n]+\n", found[1])
    last = text.count("\n") + 1
    if found[0] not in STATUSES_OF_TEXTS or (found[0] == 3) != bool(is_refused) or (is_refused and not 1 <= int(is_refused[1]) <= last):
        trial.broke(f"{name}, cut after {len(text)}", words, text, found)
    if words[0] == "run" and found[0] != 3:
        lines = evaluate.Search(evaluate.read(text), 262_144).run().lines
        if found[1].decode().split("% ")[0].splitlines() != lines:
            trial.broke(f"{name}, cut after {len(text)}, is not what the definitions say", words, text, found)


def outside(trial, name, words, text, due):
    """Streams that are closed, full, or not what they should be."""
    ways = [("<&-", (4, b"")), ("< /", (4, b"")), (">&-", (5, b"")), ("> /dev/full", (5, b"")), ("2>&-", due[:2]), ("2> /dev/full", due[:2]),
            ("1< /dev/null", (5, b"")), ("0> /dev/null", (4, b"")), ("<&- >&- 2>&-", (4, b"")), ("<&- 2> /dev/full", (4, b""))]
    for way, expected in ways:
        for told in ([], ["env", "ANDORRA_HINTS=1", "ANDORRA_PROGRESS=1"]):
            found = trial.run(words, text, before=[*told, "sh", "-c", f'exec "$0" "$@" {way}'])
            if found[:2] != expected:
                trial.broke(f"{name}, {' '.join(told)} {way}", words, text, found)


def pipes(trial):
    """A pipe whose reader goes before anything is written, or after some bytes; one that takes nothing for a while; a source that dawdles."""
    line = "?- X = [" + ",".join(["a"] * 200_000) + "].\n"
    for taken in (0, 1, 4_096, 65_536, 100_000, 300_000):
        status, read = through(trial, line, taken)
        if (status, read) != (5, ("X = [" + "a," * taken)[:taken].encode()):
            trial.broke(f"a pipe that closes after {taken} bytes", ["run"], line, (status, read, b""))
    due = trial.run(["run"], line)
    for before in ('(sleep 0.2; cat) | "$0" "$@"', '"$0" "$@" | (sleep 0.2; cat)', 'dd bs=1000 status=none | "$0" "$@" | dd bs=7000 status=none'):
        found = trial.run(["run"], line, before=["sh", "-c", before])
        if found[:2] != due[:2]:
            trial.broke(before, ["run"], line, found)


def telling(trial):
    """A run of some seconds that tells how far it is, where nobody takes what it tells."""
    text = "".join(f"d({digit}). " for digit in range(10)) + "?- d(A), d(B), d(C), d(D), d(E), d(F), A+B+C+D+E+F > 53."
    due = trial.run(["run"], text)
    for way in ("2> /dev/null", "2> /dev/full", "2>&-", "2> >(true)"):
        found = trial.run(["run"], text, before=["env", "ANDORRA_HINTS=1", "ANDORRA_PROGRESS=1", "bash", "-c", f'exec "$0" "$@" {way}'])
        if found[:2] != due[:2]:
            trial.broke(f"told, {way}", ["run"], text, found)


def unready(trial):
    """A source that has nothing yet, and a sink that takes no more, where neither is waited for: each is a failure."""
    trial.runs += 2
    source, late = os.pipe()
    os.set_blocking(source, False)
    done = subprocess.run([trial.program, "run"], stdin=source, capture_output=True, check=False)
    if (done.returncode, done.stdout) != (4, b""):
        trial.broke("a source that has nothing yet", ["run"], "", (done.returncode, done.stdout, done.stderr))
    taken, sink = os.pipe()
    os.set_blocking(sink, False)
    line = "?- X = [" + ",".join(["a"] * 200_000) + "].\n"
    done = subprocess.run([trial.program, "run"], input=line.encode(), stdout=sink, stderr=subprocess.PIPE, check=False)
    written = os.read(taken, 1 << 20)
    if done.returncode != 5 or not f"X = [{'a,' * 200_000}".encode().startswith(written):
        trial.broke("a sink that takes no more", ["run"], line, (done.returncode, written, done.stderr))
    for end in (source, late, taken, sink):
        os.close(end)


def through(trial, text, taken):
    """The status of a run whose reader takes so many bytes and goes; and what it has read."""
    trial.runs += 1
    with subprocess.Popen([trial.program, "run"], stdin=subprocess.PIPE, stdout=subprocess.PIPE, stderr=subprocess.DEVNULL) as run:
        if taken == 0:
            run.stdout.close()
        run.stdin.write(text.encode())
        run.stdin.close()
        read = b""
        if taken:
            read = run.stdout.read(taken)
            run.stdout.close()
        return run.wait(timeout=300), read


def memory(trial):
    programs = list(crowded((3,) if trial.quick else (8, 2, 1)))
    for place in trial.numbers(len(programs), len(programs)):
        name, words, text = programs[place]
        due = trial.run(words, text)
        many = trial.counts(words, text)[0]
        for number in trial.some(many + 3, 15):
            for form in (f"{number}", f"{number}+"):
                found = trial.run(words, text, REFUSE_MEMORY=form)
                if found[:2] not in (due[:2], (7, b"")):
                    trial.broke(f"{name}, allocation {form} refused", words, text, found)
    spaces(trial)


def spaces(trial):
    """An address space of so many KB: from the least in which the program is loaded, up to where all is had."""
    least = least_space(trial)
    steps = [*range(least, least + 40_000, 20_000 if trial.quick else 500), 64_000, 128_000, 512_000]
    for name, words, text in crowded((2,) if trial.quick else (1, 2, 8)):
        due = trial.run(words, text)
        for kilobytes in steps:
            found = trial.run(words, text, before=limited(kilobytes))
            if found[:2] not in (due[:2], (7, b"")):
                trial.broke(f"{name}, {kilobytes} KB", words, text, found)


def threads(trial):
    for name, words, text in crowded((3,) if trial.quick else (2, 3, 8, 16)):
        due = trial.run(words, text)
        many = trial.counts(words, text)[1]
        for number in trial.some(many + 1, 8):
            for form in (f"{number}", f"{number}+"):
                found = trial.run(words, text, REFUSE_THREAD=form)
                if found[:2] != due[:2]:
                    trial.broke(f"{name}, thread {form} refused", words, text, found)


def crowd(trial):
    """Each example, row and edge by 16 teams of 8 workers: on all processors, on one, and on ones that are busy, a thousand times in all."""
    due = {name: trial.run([*words, "--teams", "1", "--workers", "1"], text) for name, words, text in crowd_texts()}
    for number in trial.numbers(1, 334):
        for busy, before in ((0, ()), (0, ("taskset", "-c", "0")), (8, ())):
            with hostile_system.Busy(busy):
                for name, words, text in crowd_texts():
                    found = trial.run([*words, "--teams", "16", "--workers", "8"], text, before=before)
                    if found[:2] != due[name][:2]:
                        trial.broke(f"{name}, round {number}, {' '.join(before)}, {busy} others", words, text, found)


PARTS = {"streams": streams, "memory": memory, "threads": threads, "crowd": crowd, "system": hostile_system.system,
         "checked": hostile_system.checked, "ends": hostile_ends.ends, "mutation": hostile_random.mutation,
         "random": hostile_random.beside_definitions}


def main():
    words = argparse.ArgumentParser(description=__doc__, formatter_class=argparse.RawDescriptionHelpFormatter)
    words.add_argument("parts", nargs="*", metavar="PART")
    words.add_argument("--quick", action="store_true")
    common.add_program(words)
    words.add_argument("--seed", type=int, default=1)
    words.add_argument("--from", dest="first", type=int, default=0)
    words.add_argument("--count", type=int, default=0)
    trial = Trial(words.parse_args())
    for name in words.parse_args().parts or PARTS:
        start, used, runs, broken = time.monotonic(), used_seconds() + time.process_time(), trial.runs, trial.broken
        PARTS[name](trial)
        took, used = time.monotonic() - start, used_seconds() + time.process_time() - used
        print(f"{name:9} {trial.runs - runs:7} runs, {trial.broken - broken} broken, {took:.0f} s, {used:.0f} s of a processor", flush=True)
    return 1 if trial.broken else 0


if __name__ == "__main__":
    sys.exit(main())
