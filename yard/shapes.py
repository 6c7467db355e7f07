#!/usr/bin/env python3
"""Runs the shapes of texts that were slow once, and counts the instructions of each beside what it may take.

    yard/shapes.py [--only WORD] [--program FILE] [--measure]

Instructions are counted by valgrind's callgrind (Debian's valgrind), by one team of one worker, so that a count is the same on every machine
of this kind, however busy. A shape that takes more than it may has become slow again: the last line says how many. --measure writes what each
takes, to be put into the table below with a quarter more.
"""
import argparse
import os
import re
import subprocess
import sys
import tempfile

import common
import growth
from figures import listed
from hostile_ends import DIGITS, LATER, threaded

LARGEST = ["--limit", "4194304"]


def facts(n):
    return "".join(f"k({number}).\n" for number in range(n)) + f"?- k({n - 1})."


def clauses_of_variables(n):
    variables = ",".join(f"V{number}" for number in range(254))
    return f"c({variables}).\n" * n + "?- true."


def predicates(n):
    return "".join(f"p{number} :- p{number + 1}.\n" for number in range(n)) + f"p{n}.\n?- p0."


def brackets(n):
    return "?- X = " + "(" * 250 + "a" + ")" * 250 + ".\n" + ("%" + " " * 60 + "\n") * n


def quoted(n):
    return "?- X = '" + "a''" * n + "'."


def comment(n):
    return "/*" + "/*" * n + "*/ ?- true."


def body(n):
    return "p.\n?- " + ", ".join(["p"] * n) + "."


def waiting(n):
    tests = ", ".join(f"X > {number}" for number in range(n))
    return f"v({n + 1}).\n?- {tests}, v(X)."


def one_variable(n):
    return "q(_).\n?- " + ", ".join(["q(X)"] * n) + "."


def ones(n):
    return "?- 0 =:= " + " + ".join(["1"] * n) + f" - {n}."


def chained(n):
    return "?- " + ", ".join(f"_X{number} = f(_X{number + 1},_X{number + 1})" for number in range(n)) + f", _X{n} = a, Y = _X{n - 2}."


def circle(n):
    """An equation of two large terms that differ in a circle at their ends."""
    return f"?- X = {listed(range(n))[:-1]}|A], X = {listed(range(n))[:-1]}|[A]]."


def handed_on(n):
    """Lists of 1,000 times n that are built by calls which hand their rest on, and walked by such calls at the same time."""
    return threaded(4, "t0([a|T],T).", n) + "?- t4(_X,[]), t4(_X,[])."


def same_terms(n):
    """Two lists of 1,000 times n, which are made one once both of them stand."""
    return threaded(4, "t0([a|T],T).", n) + LATER + "?- t4(_X,[]), t4(_Y,[]), way(Z), same(Z,_X,_Y)."


def rules_over(n):
    """A grammar over a list that stands, word by word."""
    return (threaded(4, "t0([a|T],T).", n) + "s --> []. s --> w, s. w --> [a]. way(1). way(2). go(1,X) :- s(X,[]). go(2,_).\n"
            "?- t4(_X,[]), way(Z), go(Z,_X).")


def asleep(n):
    """Twenty goals, each of which sleeps on n cells, above a thousand branches."""
    zeros, ones, free = (",".join([item] * n) for item in ("0", "1", "_"))
    return (f"w([{zeros}]).\nw([{ones}]).\n{DIGITS}\nm(0).\nm(N) :- N > 0, w([{free}]), M is N-1, m(M).\n"
            "?- d(A), d(B), d(C), m(20), A+B+C > 27.")


def doubled(n):
    """Five terms of forty doublings, one after the other, beside a list of n that stands."""
    return ("l(0,[]). l(N,[N|T]) :- N > 0, M is N-1, l(M,T).\nu(0,T,T). u(N,T,R) :- N > 0, M is N-1, u(M,f(T,T),R).\n"
            "c(0). c(N) :- N > 0, M is N-1, u(40,a,_), c(M).\nway(1). way(2). go(1) :- c(5). go(2).\n"
            f"?- l({n},_L), way(Z), go(Z).")


def unreadable(n):
    return "a:-b,c.\n" * n + "?- ."


def unknown(n):
    return "".join(f"p{number}.\n" for number in range(n)) + "?- p."


# name, text, words, and how many million instructions it may take
SHAPES = [
    ("65,535 facts", facts(65_535), [], 901),
    ("clauses of 254 variables", clauses_of_variables(900), [], 1119),
    ("20,000 predicates", predicates(20_000), LARGEST, 485),
    ("brackets and comments", brackets(16_000), [], 24),
    ("a long quoted name", quoted(300_000), [], 180),
    ("a comment of comments", comment(500_000), [], 100),
    ("a body of 50,000 goals", body(50_000), [], 473),
    ("200 tests that wait", waiting(200), [], 3),
    ("5,000 goals of one variable", one_variable(5_000), LARGEST, 69),
    ("a sum of 250 numbers", ones(250), [], 2),
    ("a term that doubles", chained(120), [], 4),
    ("a circle at the end", circle(50_000), LARGEST, 623),
    ("a fault at the end", unreadable(60_000), [], 1097),
    ("a name that is not there", unknown(40_000), [], 391),
    ("member", growth.member(4_000), LARGEST, 172),
    ("member, one answer", growth.member_told(8_000), LARGEST, 342),
    ("splits", growth.splits(8_000), LARGEST, 191),
    ("select", growth.select(500), LARGEST, 75),
    ("between", growth.between(4_000), LARGEST, 186),
    ("path", growth.path(4_000), LARGEST, 137),
    ("a loop before an answer", growth.backwards(0), ["--limit", "20000"], 304),
    ("states in a list", growth.states(1_000), LARGEST, 37),
    ("a list handed on, twice", handed_on(2), LARGEST, 46),
    ("two lists made one", same_terms(20), LARGEST, 333),
    ("rules over a list", rules_over(2), LARGEST, 72),
    ("goals that sleep on 40 cells", asleep(40), LARGEST, 71),
    ("terms that double, and a list", doubled(4_000), LARGEST, 1060),
    ("a shared expression", growth.shared(14), LARGEST, 33),
    ("sums behind calls", growth.behind(1_000), LARGEST, 142),
]


def counted(program, words, text):
    """Instructions and status of a run, counted by callgrind; no instructions where valgrind did not say."""
    with tempfile.NamedTemporaryFile("w", suffix=".pl") as source:
        source.write(text)
        source.flush()
        command = ["valgrind", "--tool=callgrind", f"--callgrind-out-file={os.devnull}", program, *words]
        with open(source.name, "rb") as opened:
            done = subprocess.run(command, stdin=opened, stdout=subprocess.DEVNULL, stderr=subprocess.PIPE, text=True, check=False)
    told = re.search(r"Collected : (\d+)", done.stderr)
    return (int(told.group(1)) if told else None), done.returncode


def main():
    options = argparse.ArgumentParser(description=__doc__, formatter_class=argparse.RawDescriptionHelpFormatter)
    options.add_argument("--only", default="")
    common.add_program(options)
    options.add_argument("--measure", action="store_true")
    given = options.parse_args()
    slow = tried = 0
    for name, text, words, most in SHAPES:
        if given.only not in name:
            continue
        took, status = counted(given.program, ["run", *words, "--teams", "1", "--workers", "1"], text)
        tried += 1
        if took is None or status not in (0, 1, 3, 6, 8):
            slow += 1
            print(f"{name:28} status {status}, not counted", flush=True)
            continue
        millions = took / 1e6
        if given.measure:
            print(f"{name:28} {millions:10.1f}", flush=True)
        elif millions > most:
            slow += 1
            print(f"{name:28} {millions:10.1f} million instructions, more than {most}", flush=True)
    print(f"{tried} shapes, {slow} slower than they may be")
    return 1 if slow else 0


if __name__ == "__main__":
    sys.exit(main())
