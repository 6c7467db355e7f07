#!/usr/bin/env python3
"""Measures how searches grow: each program at n, 2n and 4n, by one team and by two, beside SWI-Prolog with its occurs check.

    yard/growth.py [--only WORD] [--runs N] [--program FILE] [--skip-swi]

Writes for each size the processor time (the least of the runs, without that of a query that is true at once) and the peak of memory, the
exponent with which time grows from n to 4n (1 is linear in n; what is written grows as the column says), SWI-Prolog's time without its start, and
what its search and writing alone took. Behind that, for programs that find answers without an end, the peak of memory after so many seconds of a
processor. docs/figures.md has what was measured.
"""
import argparse
import math
import os
import resource
import shutil
import subprocess
import sys
import tempfile

import common
from figures import EMPTY, listed


MEMBER = "member(X, [X|_]).\nmember(X, [_|T]) :- member(X, T).\n"
LIMIT = ["--limit", "4194304"]


def member(n):
    return MEMBER + f"?- member(X, {listed(range(n))})."


def member_told(n):
    """Every answer but the last fails, so that little is written."""
    return MEMBER + f"?- member(X, {listed(range(n))}), X > {n - 2}."


def splits(n):
    return "app([], L, L).\napp([H|T], L, [H|R]) :- app(T, L, R).\n" + f"?- app(_X, [Y], {listed(range(n))})."


def select(n):
    return ("select(X, [X|T], T).\nselect(X, [H|T], [H|R]) :- select(X, T, R).\n"
            f"?- select(X, {listed(range(n))}, _).")


def between(n):
    return ("between(L, H, L) :- L =< H.\nbetween(L, H, X) :- L < H, M is L+1, between(M, H, X).\n"
            f"?- between(1, {n}, X).")


def path(n):
    edges = "".join(f"edge({k}, {k + 1}).\n" for k in range(n))
    return edges + f"path(X, X).\npath(X, Z) :- edge(X, Y), path(Y, Z).\n?- path(0, {n})."


def numbers(_):
    return "nat(z).\nnat(s(N)) :- nat(N).\n?- nat(_X)."


def backwards(_):
    return "p(X) :- p(X).\np(1).\n?- p(X)."


def states(n):
    return ("steps(0, S, S).\nsteps(N, S, T) :- N > 0, M is N-1, s(S, R), steps(M, R, T).\ns(st(K,L), st(J,[K|L])) :- J is K+1.\n"
            f"?- steps({n}, st(0,[]), st(K,_)).")


def shared(n):
    return f"d(0, 1).\nd(N, E-E) :- N > 0, M is N-1, d(M, E).\n?- d({n}, _E), 0 =:= _E."


def behind(n):
    """Waiting goals of which each second one stands behind its recursion."""
    return ("list(0, []).\nlist(N, [_|T]) :- N > 0, M is N-1, list(M, T).\nlen([], 0).\n"
            "len([_], 1).\nlen([_,_|T], N) :- N is M+1, len(T, K), M is K+1.\n"
            f"?- list({n}, _L), len(_L, N).")


BITS = "bits([]).\nbits([B|T]) :- bit(B), bits(T).\nbit(0).\nbit(1).\n?- bits(L)."

# name, text by size, sizes, words by size, and whether arithmetic waits in SWI-Prolog (None: it is not asked)
PROGRAMS = [
    ("member", member, (7_500, 15_000, 30_000), None, False),
    ("member, one answer", member_told, (7_500, 15_000, 30_000), None, False),
    ("splits", splits, (7_500, 15_000, 30_000), None, False),
    ("select", select, (7_500, 15_000, 30_000), None, False),
    ("between", between, (7_500, 15_000, 30_000), None, False),
    ("path", path, (7_500, 15_000, 30_000), None, False),
    ("nat to a limit", numbers, (20_000, 65_536, 262_144), lambda n: ["--limit", str(n)], None),
    ("a loop before an answer", backwards, (20_000, 65_536, 262_144), lambda n: ["--limit", str(n)], None),
    ("states in a list", states, (5_000, 10_000, 20_000), None, False),
    ("a shared expression", shared, (12, 24, 48), None, None),
    ("sums behind calls", behind, (4_000, 8_000, 16_000), None, True),
]

# name, text and the seconds of a processor after which the search is stopped
ENDLESS = [("bits", BITS, (5, 15, 60))]


def measured(command, text, most=None):
    """Seconds of a processor, megabytes, status; of a run that is stopped after so many seconds, if a number is given."""
    def bounded():
        if most is not None:
            resource.setrlimit(resource.RLIMIT_CPU, (most, most))

    with tempfile.TemporaryFile() as source, open(os.devnull, "wb") as nowhere:
        source.write(text.encode())
        source.seek(0)
        process = subprocess.Popen(command, stdin=source, stdout=nowhere, stderr=subprocess.DEVNULL, preexec_fn=bounded)
        _, status, used = os.wait4(process.pid, 0)
        process.returncode = os.waitstatus_to_exitcode(status)
    return used.ru_utime + used.ru_stime, used.ru_maxrss / 1024, process.returncode


def least(command, text, runs):
    found = [measured(command, text) for _ in range(runs)]
    return min(found)


def swi_once(words):
    """Seconds of a processor that SWI-Prolog took, and of them those of its search and writing; None where it did not end well."""
    with tempfile.TemporaryFile() as told, open(os.devnull, "wb") as nowhere:
        process = subprocess.Popen(words, stdin=subprocess.DEVNULL, stdout=nowhere, stderr=told)
        _, _, used = os.wait4(process.pid, 0)
        told.seek(0)
        try:
            return used.ru_utime + used.ru_stime, float(told.read().split()[-1]) / 1000
        except (ValueError, IndexError):
            return None


def swi(text, waits, runs):
    """The least seconds of SWI-Prolog, and of its search alone; None where it did not end well."""
    with common.swi_words(text, waits) as words:
        found = [swi_once(words) for _ in range(runs)]
    if None in found:
        return None
    return min(whole for whole, _ in found), min(alone for _, alone in found)


def main():
    options = argparse.ArgumentParser(description=__doc__, formatter_class=argparse.RawDescriptionHelpFormatter)
    options.add_argument("--only", default="")
    options.add_argument("--runs", type=int, default=1)
    common.add_program(options)
    options.add_argument("--skip-swi", action="store_true")
    given = options.parse_args()
    with_swi = not given.skip_swi and shutil.which("swipl") is not None
    start = (swi(EMPTY, False, given.runs) or (0, 0))[0] if with_swi else 0
    print("| Program | Size | One team, s | MB | Two teams, s | MB | Growth | SWI-Prolog, s | Its search alone, s |")
    print("|---|---:|---:|---:|---:|---:|---:|---:|---:|")
    for name, text_of, sizes, words_of, waits in PROGRAMS:
        if given.only not in name:
            continue
        times = []
        for size in sizes:
            words = ["run", *(words_of(size) if words_of else LIMIT)]
            cells = []
            for teams in ("1", "2"):
                command = [given.program, *words, "--teams", teams, "--workers", "1"]
                idle = least(command, EMPTY, given.runs)[0]
                seconds, memory, status = least(command, text_of(size), given.runs)
                told = f"{max(0.0, seconds - idle):.2f}" if status in (0, 1, 6, 8) else f"status {status}"
                cells += [told, f"{memory:.0f}"]
                if teams == "1":
                    times.append(max(0.001, seconds - idle))
            other = swi(text_of(size), waits, given.runs) if with_swi and waits is not None else None
            beside = f"{max(0.0, other[0] - start):.2f} | {other[1]:.2f}" if other else " | "
            growth = f"{math.log(times[-1] / times[0], sizes[-1] / sizes[0]):.2f}" if size == sizes[-1] else ""
            print(f"| {name} | {size:,} | {' | '.join(cells)} | {growth} | {beside} |", flush=True)
    print("\n| Without an end | Seconds | One team, MB | Two teams, MB |\n|---|---:|---:|---:|")
    for name, text, stops in ENDLESS:
        if given.only not in name:
            continue
        for most in stops:
            peaks = [measured([given.program, "run", "--teams", teams, "--workers", "1"], text, most)[1] for teams in ("1", "2")]
            print(f"| {name} | {most} | {' | '.join(f'{peak:.0f}' for peak in peaks)} |", flush=True)
    return 0


if __name__ == "__main__":
    sys.exit(main())
