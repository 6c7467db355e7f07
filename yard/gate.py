#!/usr/bin/env python3
"""Runs the gate and tells what it took, crate by crate.

    yard/gate.py [WORD ..]           runs `rt ci WORD ..` here, and prints a table: seconds of a processor for the proof of each crate, its tests and its edits,
                                     its lines, and when it was done; and last the whole time, and the longest chain of crates
    yard/gate.py --write [WORD ..]   puts the table into docs/proving.md, between its two marks

What was kept from an earlier run takes no time: on a machine where the gate has run, `--anew` measures it from nothing. The toolkit's checker is a
process for each crate, of which the time of a processor is read every second.
"""

import os
import pathlib
import re
import subprocess
import sys
import threading
import time

from common import TOP

PAPER = TOP / "docs" / "proving.md"
MARKS = "<!-- the gate's times -->", "<!-- end of the gate's times -->"
KINDS = "proof", "tests", "edits"


class Sampler(threading.Thread):
    """Reads every second how much of a processor each check of a session of processes has taken."""

    def __init__(self, root):
        super().__init__(daemon=True)
        self.root, self.taken, self.is_over = root, {}, threading.Event()

    def run(self):
        while not self.is_over.wait(1):
            for process in pathlib.Path("/proc").iterdir():
                if process.name.isdigit():
                    try:
                        self.read(process)
                    except (OSError, ValueError, IndexError):
                        pass  # it ended meanwhile

    def read(self, process):
        words = (process / "cmdline").read_bytes().decode(errors="replace").split("\0")
        if not words[0].endswith("/rattle") or "--crate-name" not in words or os.getsid(int(process.name)) != self.root:
            return
        fields = (process / "stat").read_text().rsplit(")", 1)[1].split()
        place = os.readlink(process / "cwd")
        kind = "edits" if "rt-edit" in place or "rt-seed" in place else "tests" if "--test" in words else "proof"
        seconds = (int(fields[11]) + int(fields[12])) / os.sysconf("SC_CLK_TCK")
        self.taken[process.name, fields[19]] = words[words.index("--crate-name") + 1], kind, seconds

    def by_crate(self):
        sums = {}
        for name, kind, seconds in self.taken.values():
            sums.setdefault(name, dict.fromkeys(KINDS, 0.0))[kind] += seconds
        return sums


def crates():
    """The crates of crates.txt, each with those of the repository that it stands on."""
    lines = [it.split("#")[0].replace(":", " ").split() for it in (TOP / "crates.txt").read_text().splitlines()]
    names = {it[0] for it in lines if it}
    return {it[0]: [below for below in it[1:] if below in names] for it in lines if it}


def lines_of(name):
    return sum(len(it.read_text().splitlines()) for it in (TOP / "crates" / name).rglob("*") if it.suffix in (".rt", ".antt") and "out" not in it.parts)


def longest_chain(taken):
    """The crates that follow one on another for the longest time, and that time."""
    found = {}

    def chain(name):
        if name not in found:
            behind = max((chain(it) for it in crates()[name]), default=(0, []))
            found[name] = behind[0] + taken.get(name, {}).get("proof", 0), [*behind[1], name]
        return found[name]

    return max(chain(it) for it in crates())


def gate(words):
    """Runs the gate; gives its status, the seconds of each crate, when each was done, and the whole time."""
    begun, done = time.time(), {}
    ran = subprocess.Popen(["rt", "ci", *words], cwd=TOP, stdout=subprocess.PIPE, stderr=subprocess.STDOUT, text=True, errors="replace", start_new_session=True)
    sampler = Sampler(ran.pid)
    sampler.start()
    for line in ran.stdout:
        told = re.match(r"rt: (\w+)(: its tests)? (proved|is kept|NOT PROVED)", line)
        if told:
            done[told[1]] = time.time() - begun
        if told or re.match(r"rt: |\d+ passed", line):
            print(line, end="", file=sys.stderr, flush=True)
    sampler.is_over.set()
    return ran.wait(), sampler.by_crate(), done, time.time() - begun


def table(taken, done, whole):
    rows = ["| Crate | Proof | Tests | Edits | Lines | Done after |", "|---|---:|---:|---:|---:|---:|"]
    number = lambda seconds: f"{seconds:.0f}" if seconds else "–"
    for name in crates():
        sums = taken.get(name, {})
        rows.append(f"| {name} | " + " | ".join(number(sums.get(it, 0)) for it in KINDS) + f" | {lines_of(name)} | {done.get(name, 0):.0f} |")
    all_of = {kind: sum(it[kind] for it in taken.values()) for kind in KINDS}
    seconds, chain = longest_chain(taken)
    rows.append(f"\nSeconds of a processor in all: {all_of['proof']:.0f} for proofs, {all_of['tests']:.0f} for tests, {all_of['edits']:.0f} for edits.")
    rows.append(f"The whole took {whole:.0f} seconds on {os.cpu_count()} processors ({time.strftime('%Y-%m-%d')}). The longest chain, of {seconds:.0f} seconds: {', '.join(chain)}.")
    return "\n".join(rows)


def main(words):
    is_to_write = words[:1] == ["--write"]
    status, taken, done, whole = gate(words[is_to_write:])
    text = table(taken, done, whole)
    if is_to_write and status == 0:
        paper = PAPER.read_text()
        before, after = paper.index(MARKS[0]) + len(MARKS[0]), paper.index(MARKS[1])
        PAPER.write_text(f"{paper[:before]}\n{text}\n{paper[after:]}")
    print(text)
    return status


if __name__ == "__main__":
    sys.exit(main(sys.argv[1:]))
