#!/usr/bin/env python3
"""Runs and_store_bench on a million plain cells, and on stores of 1, 2 and 4 workers, each with a million cells of its own or all with the
same, and writes for each case the processor time of all threads and the wall time (the least of the runs), the same net of the run that does
nothing with its cells, and the peak of memory. It compares the counts with those that are due.

    yard/store_figures.py [--runs N] [--only WORD] [--copy FOLDER]

yard/measure.py builds the program, in a folder of its own or in FOLDER, which is kept. docs/figures.md has what was measured.
"""

import sys
import time

import measure
from figures import megabytes, run

COUNT = 1_000_000

# name, words, how many workers look at a million cells, and how many times a million cells are there to be set
CASES = (
    [("plain cells", ["plain"], 1, 1), ("a store, 1 worker", ["store", "1", "own"], 1, 1)]
    + [(f"a store, {n} workers, own cells", ["store", str(n), "own"], n, n) for n in (2, 4)]
    + [(f"a store, {n} workers, the same", ["store", str(n), "same"], n, 1) for n in (2, 4)]
)


def measured(program, words):
    """The lines, the processor time and the wall time in milliseconds, and the peak of memory in MB of a run."""
    begun = time.perf_counter()
    lines, _, processor, memory = run([program, *words], "")
    return lines, processor, (time.perf_counter() - begun) * 1000, memory


def runs_of(program, words, works, runs):
    """The runs of each work, taken in turns, so that what else the machine does meets all of them."""
    results = {work: [] for work in works}
    for _ in range(runs):
        for work in works:
            results[work].append(measured(program, [*words, work]))
    return results


def least(results):
    return min(r[1] for r in results), min(r[2] for r in results)


def compared(program, given):
    """Runs the cases and writes what they took. The status is 1 where a count is not the one that is due."""
    print(f"{'cells':32} {'work':8} {'processor':>9} {'wall':>8} {'net':>8} {'net wall':>8} {'MB':>5}  count")
    differ = False
    for name, words, looking, ranges in CASES:
        if given.only not in name:
            continue
        _, _, _, floor = run(["true"], "")
        due = {"nothing": 0, "looks": looking * COUNT, "sets": ranges * (COUNT - 1)}
        results = runs_of(program, words, due, given.runs)
        idle, idle_wall = least(results["nothing"])
        for work, count in due.items():
            processor, wall = least(results[work])
            is_due = all(r[0] == [f"free: {count}"] for r in results[work])
            differ = differ or not is_due
            print(f"{name:32} {work:8} {processor:7.0f}ms {wall:6.0f}ms {max(processor - idle, 0):6.1f}ms {max(wall - idle_wall, 0):6.1f}ms"
                  f" {megabytes(max(r[3] for r in results[work]), floor):>5}  {count if is_due else 'DIFFERENT'}", flush=True)
    return 1 if differ else 0


if __name__ == "__main__":
    sys.exit(measure.figures(__doc__, "and_store_bench", ["plain", "looks"], compared))
