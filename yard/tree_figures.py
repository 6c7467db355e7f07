#!/usr/bin/env python3
"""Runs and_tree_bench: one team that publishes a branch and claims it back a million times, and 2 and 4 teams that do so against each other.
It writes for each case the processor time of all threads and the wall time (the least of the runs), how often the teams claimed a branch and
the wall time by that number, and the peak of memory. It compares with what is due how many branches ended, and for one team the claims.

    yard/tree_figures.py [--runs N] [--only WORD] [--copy FOLDER]

yard/measure.py builds the program, in a folder of its own or in FOLDER, which is kept. docs/figures.md has what was measured.
"""

import sys
import time

import measure
from figures import megabytes, run

TURNS = 1_000_000

# name, words, and what is due: how many branches end, and how often one team claims
CASES = [("one team", ["one"], 1, TURNS)] + [(f"{n} teams against each other", ["against", str(n)], n, None) for n in (2, 4)]


def measured(program, words):
    """How often the teams claimed and how many branches ended, the processor time and the wall time in ms, and the peak of memory of a run."""
    begun = time.perf_counter()
    lines, _, processor, memory = run([program, *words], "")
    wall = (time.perf_counter() - begun) * 1000
    claims, ended = (int(line.split(": ")[1]) for line in lines)
    return claims, ended, processor, wall, memory


def compared(program, given):
    """Runs the cases and writes what they took. The status is 1 where a count is not the one that is due."""
    print(f"{'teams':28} {'processor':>9} {'wall':>8} {'claims':>9} {'a claim':>8} {'MB':>5}")
    differ = False
    for name, words, teams, due in CASES:
        if given.only not in name:
            continue
        _, _, _, floor = run(["true"], "")
        results = [measured(program, words) for _ in range(given.runs)]
        is_due = all(ended == teams and due in (None, claims) for claims, ended, *_ in results)
        differ = differ or not is_due
        claims, _, processor, wall, _ = min(results, key=lambda r: r[3] / r[0])
        print(f"{name:28} {processor:7.0f}ms {wall:6.0f}ms {claims:9} {wall * 1e6 / claims:6.0f}ns"
              f" {megabytes(max(r[4] for r in results), floor):>5}  {'' if is_due else 'DIFFERENT'}", flush=True)
    return 1 if differ else 0


if __name__ == "__main__":
    sys.exit(measure.figures(__doc__, "and_tree_bench", ["one"], compared))
