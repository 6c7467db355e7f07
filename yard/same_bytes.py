#!/usr/bin/env python3
"""Runs every example, and the worked rows below, by 1, 2, 4 and 16 teams of 1, 2 and 8 workers, again and again, and compares what is written,
byte by byte, and the exit status.

    yard/same_bytes.py [--times N] [--only WORD] [--program FILE] [--random COUNT [--seed S]]

Each is run N times with each pair of numbers, 100 times unless it is said otherwise. The program has to be built (./andorra builds it). With --random so many texts
are made and run in place of the examples and rows: in each some goals fail after a while beside others that outgrow the limit, in any order.
"""

import argparse
import random
import re
import subprocess
import sys

import common

TEAMS = (1, 2, 4, 16)
WORKERS = (1, 2, 8)

QUEENS = r"""d(1). d(2). d(3). d(4).
ok(_,_,[]).
ok(Q,N,[X|Xs]) :- Q =\= X, Q =\= X+N, X =\= Q+N, M is N+1, ok(Q,M,Xs).
all([]).
all([Q|Qs]) :- ok(Q,1,Qs), all(Qs).
?- Q = [A,B,C,D], all(Q), d(A), d(B), d(C), d(D).
"""

# name, words and text
ROWS = [
    ("append", [], "app([],L,L). app([H|T],L,[H|R]) :- app(T,L,R). ?- app(X,Y,[1,2]).\n"),
    ("two forks", [], "p(1). p(2). q(3). q(4). ?- p(X), q(Y).\n"),
    ("two teams", [], "p(1). p(2). r(1,a). r(2,b). ?- p(X), r(X,Y).\n"),
    ("four queens", [], QUEENS),
    ("equal answers", [], "p(a). p(a). ?- p(X).\n"),
    ("no fact", [], "p(a). ?- p(b).\n"),
    ("early filter", [], "p(1). p(2). q(2). ?- p(X), q(X).\n"),
    ("floundered", [], "?- X is X + 0.\n"),
    ("numbers below a limit", ["--limit", "6"], "nat(z). nat(s(N)) :- nat(N). ?- nat(X).\n"),
    ("pairs below a limit", ["--limit", "40"], "nat(z). nat(s(N)) :- nat(N). ?- nat(X), nat(Y).\n"),
    ("heavy query", ["--limit", "1"], "?- X = 1.\n"),
    ("endless", ["--limit", "2000"], "loop(X) :- loop(X). ?- loop(a).\n"),
    ("permutations", [], "s(X,[X|T],T). s(X,[H|T],[H|R]) :- s(X,T,R). p([],[]). p(L,[H|T]) :- s(H,L,R), p(R,T). ?- p([1,2,3,4,5],P).\n"),
    ("refused", [], "p(a) ?- p(X).\n"),
    ("two workers", [], "a(1). b(2). ?- a(X), b(Y).\n"),
    ("racing circle", [], "a(X,Y) :- X = f(Y). b(X,Y) :- Y = f(X). ?- a(X,Y), b(X,Y).\n"),
    ("late comparison", [], "a(2). b(3). ?- X < Y, a(X), b(Y).\n"),
    ("hung goals", [], "a(X,Y) :- X < 3, Y = 1. b(2). ?- a(X,Y), b(X).\n"),
    ("loop, then failure", ["--limit", "2"], "l :- l. f :- fail. ?- l, f.\n"),
    ("loop, then failure, more", ["--limit", "1000"], "l :- l. f :- fail. ?- l, f.\n"),
    ("failure, then loop", ["--limit", "2"], "l :- l. f :- fail. ?- f, l.\n"),
    ("failure, then loop, more", ["--limit", "1000"], "l :- l. f :- fail. ?- f, l.\n"),
    (
        "failures beside loops under forks",
        ["--limit", "500"],
        "c(1). c(2). c(3). l(X) :- l(X). l(3). f :- fail. g(1) :- f. g(2) :- f. g(3). h(1) :- k. h(2) :- k. h(3). k :- k. ?- c(X), h(X), g(X).\n",
    ),
    ("two counts", [], "n(0,z). n(K,s(T)) :- K > 0, J is K-1, n(J,T). ?- n(40,X), n(30,Y).\n"),
    ("two reverses", [], "a([],L,L). a([H|T],L,[H|R]) :- a(T,L,R). r([],[]). r([H|T],R) :- r(T,S), a(S,[H],R). ?- r([1,2,3,4,5,6,7,8,9],X), r([a,b,c,d],Y).\n"),
]


def texts():
    """A name, words and a text for each."""
    for file in sorted((common.TOP / "examples").glob("*.pl")):
        text = file.read_text(encoding="utf-8")
        words = re.search(r"^% run: (.*)$", text, re.M)
        yield file.name, words.group(1).split() if words else [], text
    yield from ROWS


def chain(name, length, end):
    """Clauses of a chain of so many calls with this end."""
    heads = [name, *(f"{name}{i}" for i in range(1, length))]
    return " ".join(f"{head} :- {below}." for head, below in zip(heads, [*heads[1:], end]))


def races(count, seed):
    """Texts in which chains that fail, chains that never end, and chains that end race each other, some under forks."""
    dice = random.Random(seed)
    for number in range(count):
        clauses, goals = [], []
        for place in range(dice.randint(2, 6)):
            name, length = f"p{place}x", dice.choice((1, 1, 2, 3, 5, 20, 80))
            end = dice.choice(("fail", "fail", name, name, "true"))
            clauses.append(chain(name, length, end))
            if dice.random() < 0.4:
                keys = [name if dice.random() < 0.6 else "true" for _ in range(3)]
                clauses += [f"q{place}({key}) :- {below}." for key, below in enumerate(keys)]
                goals.append(f"q{place}(X{dice.randint(0, 1)})")
            else:
                goals.append(name)
        if dice.random() < 0.5:
            clauses.append("c(0). c(1). c(2).")
            goals.insert(dice.randint(0, len(goals)), "c(X0)")
        limit = dice.choice((2, 5, 12, 60, 200, 500, 2000))
        yield f"race {number}", ["--limit", str(limit)], " ".join(clauses) + "\n?- " + ", ".join(goals) + ".\n"


def run(program, words, text):
    """What is written, and the exit status."""
    done = subprocess.run([program, "run", "--stats", *words], input=text.encode(), capture_output=True, check=False)
    return done.stdout, done.stderr, done.returncode


def first_different(program, words, text, times):
    """The words of the first run that writes something else than the first one; how many were run."""
    expected = run(program, [*words, "--teams", "1", "--workers", "1"], text)
    count = 1
    for teams in TEAMS:
        for workers in WORKERS:
            more = [*words, "--teams", str(teams), "--workers", str(workers)]
            for _ in range(times):
                count += 1
                if run(program, more, text) != expected:
                    return more, count
    return None, count


def main():
    options = argparse.ArgumentParser(description=__doc__, formatter_class=argparse.RawDescriptionHelpFormatter)
    options.add_argument("--times", type=int, default=100)
    options.add_argument("--only", default="")
    common.add_program(options)
    options.add_argument("--random", type=int, default=0)
    options.add_argument("--seed", type=int, default=1)
    given = options.parse_args()
    differ = False
    for name, words, text in races(given.random, given.seed) if given.random else texts():
        if given.only not in name:
            continue
        different, count = first_different(given.program, words, text, given.times)
        print(f"{name:24} {count:5} runs  {'DIFFERENT: ' + ' '.join(different) if different else 'the same'}", flush=True)
        differ = differ or different is not None
    return 1 if differ else 0


if __name__ == "__main__":
    sys.exit(main())
