#!/usr/bin/env python3
"""Runs the programs of the yard on andorra and on SWI-Prolog with the occurs check, compares their answers line by line, and writes for each
the processor time (the least of the runs; without that of a query that is true at once) and the peak of memory; and for SWI-Prolog also what the search and
the writing alone took, without the reading of the text.

    yard/figures.py [--runs N] [--only WORD] [--skip-swi] [--program FILE] [-- words for `andorra run`]

With `--teams` it runs long searches by so many teams instead, and writes for each the wall time and the processor time (the least of the
runs, the start included), and whether all wrote the same.

    yard/figures.py --teams 1 2 4 [--runs N] [--only WORD]

With `--workers` it runs wide determinate programs, and then all of the first table, by one team of so many workers, and writes the same of them.

    yard/figures.py --workers 1 2 4 [--runs N] [--only WORD]

The program has to be built (./andorra builds it), and `swipl` is looked for on the path. docs/figures.md has what was measured.
"""

import argparse
import os
import shutil
import subprocess
import sys
import tempfile
import time

import common

EMPTY = "?- true.\n"

APPEND = "app([], L, L).\napp([H|T], L, [H|R]) :- app(T, L, R).\n"


def listed(items):
    return "[" + ",".join(str(item) for item in items) + "]"


def reverse(n):
    return APPEND + f"rev([], []).\nrev([H|T], R) :- rev(T, S), app(S, [H], R).\n?- rev({listed(range(n))}, R).\n"


def peano(n):
    number = "s(" * n + "z" + ")" * n
    return ("plus(z, N, N).\nplus(s(M), N, s(K)) :- plus(M, N, K).\n"
            "times(z, _, z).\ntimes(s(M), N, K) :- times(M, N, J), plus(N, J, K).\n"
            f"?- times({number}, {number}, _X), _X = s(Y), Y = s(_).\n")


def permutations(n):
    return ("select(X, [X|T], T).\nselect(X, [H|T], [H|R]) :- select(X, T, R).\n"
            "permutation([], []).\npermutation(L, [H|T]) :- select(H, L, R), permutation(R, T).\n"
            f"?- permutation({listed(range(n))}, P).\n")


def graph(n):
    edges = [f"edge(n({r},{k}),n({r},{k + 1}))." for r in range(3) for k in range(n)]
    edges += [f"edge(n({r},{k}),n({r + 1},{k}))." for r in range(2) for k in range(n + 1)]
    return "\n".join(edges) + ("\npath(X,X,[X]).\npath(X,Z,[X|P]) :- edge(X,Y), path(Y,Z,P).\n"
                               f"?- path(n(0,0),n(2,{n}),P).\n")


def queens_placed_first(n):
    return queens(n).replace("safe(Qs), placed(Qs)", "placed(Qs), safe(Qs)")


def hamilton(columns, rows=3):
    """The ways of a king over a board that come to each place once, from a corner."""
    places = [(c, r) for c in range(columns) for r in range(rows)]
    near = [(a, b) for a in places for b in places if a != b and abs(a[0] - b[0]) < 2 and abs(a[1] - b[1]) < 2]
    name = "n({0[0]},{0[1]})".format
    return ("\n".join(f"edge({name(a)},{name(b)})." for a, b in near) + "\n"
            "select(X, [X|T], T).\nselect(X, [H|T], [H|R]) :- select(X, T, R).\n"
            "way(_, [], []).\nway(X, [Z|Zs], [Y|P]) :- edge(X, Y), select(Y, [Z|Zs], Rest), way(Y, Rest, P).\n"
            f"?- way({name(places[0])}, {listed(name(p) for p in places[1:])}, P).\n")


def queens(n):
    places = " ".join(f"place({k})." for k in range(1, n + 1))
    return ("queens(Qs) :- safe(Qs), placed(Qs).\nsafe([]).\nsafe([Q|Qs]) :- apart(Q, Qs, 1), safe(Qs).\napart(_, [], _).\n"
            "apart(Q, [P|Ps], N) :- Q =\\= P, Q =\\= P + N, Q =\\= P - N, M is N + 1, apart(Q, Ps, M).\n"
            "placed([]).\nplaced([Q|Qs]) :- place(Q), placed(Qs).\n" + places +
            f"\n?- Board = {listed(['_'] * n)}, queens(Board).\n")


def pigeons(n):
    holes = " ".join(f"hole({k})." for k in range(1, n))
    return ("apart([]).\napart([P|Ps]) :- outside(P, Ps), apart(Ps).\noutside(_, []).\noutside(P, [Q|Qs]) :- P =\\= Q, outside(P, Qs).\n"
            "housed([]).\nhoused([P|Ps]) :- hole(P), housed(Ps).\n" + holes +
            f"\n?- Pigeons = {listed(['_'] * n)}, housed(Pigeons), apart(Pigeons).\n")


def deep(n):
    return f"n(0, z).\nn(K, s(T)) :- K > 0, J is K - 1, n(J, T).\n?- n({n}, _T), _T = s(s(_)).\n"


def count(n):
    return f"count(0).\ncount(N) :- N > 0, M is N - 1, count(M).\n?- count({n}).\n"


def count_of_large_numbers(n):
    """The same with numbers of nineteen digits."""
    least = 10 ** 18
    return f"down({least}).\ndown(N) :- N > {least}, M is N - 1, down(M).\n?- down({least + n}).\n"


def length(n):
    """A length whose sums stand first, so that each waits for the one behind it."""
    return ("list(0, []).\nlist(N, [_|T]) :- N > 0, M is N - 1, list(M, T).\nlen([], 0).\nlen([_|T], N) :- N is M + 1, len(T, M).\n"
            f"?- list({n}, _L), len(_L, N).\n")


def facts(n):
    return "".join(f"p(k{k}, v{k}).\n" for k in range(n)) + f"?- p(k{n - 1}, X), p(k{n // 2}, Y), p(k0, Z).\n"


def facts_below(n, words):
    """A fork of n facts, all but one of which fail, below a row of so many words."""
    places = ",".join(["_"] * 250)
    kept = ",".join(f"A{k}" for k in range(250))
    return (f"wide(0).\nwide(N) :- N > 0, M is N - 1, held({places}), wide(M).\nheld({kept}).\n"
            + "".join(f"p({k}).\n" for k in range(n)) + f"?- wide({words // 500}), p(X), X > {n - 2}.\n")


def colours():
    lands = ["WA", "NT", "SA", "Q", "NSW", "V", "T"]
    borders = [("WA", "NT"), ("WA", "SA"), ("NT", "SA"), ("NT", "Q"), ("SA", "Q"), ("SA", "NSW"), ("SA", "V"), ("Q", "NSW"), ("NSW", "V")]
    names = ["red", "green", "blue", "white"]
    different = " ".join(f"different({a}, {b})." for a in names for b in names if a != b)
    goals = ", ".join(f"different({a}, {b})" for a, b in borders)
    return different + "\n" + " ".join(f"colour({a})." for a in names) + f"\n?- {goals}, colour({lands[-1]}).\n"


def example(name):
    with open(common.TOP / "examples" / name, encoding="utf-8") as text:
        return text.read()


BLOCKS = """% Three blocks; a state is a list of what stands on what.
move(state([X|A], B, C), put(X, 1, 2), state(A, [X|B], C)).
move(state([X|A], B, C), put(X, 1, 3), state(A, B, [X|C])).
move(state(A, [X|B], C), put(X, 2, 1), state([X|A], B, C)).
move(state(A, [X|B], C), put(X, 2, 3), state(A, B, [X|C])).
move(state(A, B, [X|C]), put(X, 3, 1), state([X|A], B, C)).
move(state(A, B, [X|C]), put(X, 3, 2), state(A, [X|B], C)).
plan(Goal, Goal, []).
plan(From, Goal, [Move|Moves]) :- move(From, Move, Next), plan(Next, Goal, Moves).
?- Moves = [_,_,_,_,_,_], plan(state([a,b,c],[],[]), state([],[],[c,b,a]), Moves).
"""

ZEBRA = """member(X, [X|_]).
member(X, [_|T]) :- member(X, T).
right(A, B, [A,B|_]).
right(A, B, [_|T]) :- right(A, B, T).
next(A, B, L) :- right(A, B, L).
next(A, B, L) :- right(B, A, L).
?- Houses = [house(_,norwegian,_,_,_), _, house(_,_,_,milk,_), _, _],
   member(house(red,english,_,_,_), Houses), member(house(green,_,_,coffee,_), Houses),
   member(house(_,spanish,dog,_,_), Houses), member(house(_,ukrainian,_,tea,_), Houses),
   right(house(ivory,_,_,_,_), house(green,_,_,_,_), Houses), member(house(_,_,snails,_,oldgold), Houses),
   member(house(yellow,_,_,_,kools), Houses), next(house(_,_,_,_,chesterfield), house(_,_,fox,_,_), Houses),
   next(house(_,_,_,_,kools), house(_,_,horse,_,_), Houses), member(house(_,_,_,juice,luckystrike), Houses),
   member(house(_,japanese,_,_,parliament), Houses), next(house(_,norwegian,_,_,_), house(blue,_,_,_,_), Houses),
   member(house(_,Owner,zebra,_,_), Houses).
"""

MONEY_TESTS_LAST = """% The digits of a column are chosen, and then its sum is tested.
select(X, [X|T], T).
select(X, [H|T], [H|R]) :- select(X, T, R).
column(A, B, From, C, To) :- S is A + B + From, C is S mod 10, To is S // 10.
?- select(D, [0,1,2,3,4,5,6,7,8,9], _P), select(E, _P, _Q), select(Y, _Q, _R), column(D, E, 0, Y, _U),
   select(N, _R, _S), select(R, _S, _T), column(N, R, _U, E, _V), select(O, _T, _W), column(E, O, _V, N, _X),
   select(S, _W, _Y), S > 0, select(M, _Y, _Z), M > 0, column(S, M, _X, O, M).
"""

# name, text, and whether arithmetic has to wait in SWI-Prolog
PROGRAMS = (
    [(f"naive reverse of {n}", reverse(n), False) for n in (30, 100, 400)]
    + [("Peano product of 60 and 60", peano(60), False)]
    + [(f"generated graph, {n}", graph(n), False) for n in (16, 32, 64)]
    + [(f"queens with tests first, {n}", queens(n), True) for n in (6, 8)]
    + [("SEND + MORE = MONEY, tests first", example("money.pl"), True), ("SEND + MORE = MONEY, tests last", MONEY_TESTS_LAST, False)]
    + [("zebra", ZEBRA, False), ("a map of colours", colours(), False), ("blocks, a planner", BLOCKS, False)]
    + [("crossing, a planner", example("crossing.pl"), False)]
    + [("20,000 facts, three calls", facts(20000), False)]
    + [("20,000 facts below 100,000 words", facts_below(20000, 100000), False)]
    + [("permutations of 7", permutations(7), False), ("Hamilton paths of 9 places", hamilton(3), False)]
    + [("7 pigeons in 6 holes, tests last", pigeons(7), False)]
    + [(f"a term of {n} levels", deep(n), False) for n in (5000, 10000, 20000)]
    + [("a count down from 100,000", count(100000), False)]
    + [("a count down of 50,000 large numbers", count_of_large_numbers(50000), False)]
    + [(f"a length of {n}, sums first", length(n), True) for n in (4000, 16000)]
)


# name and text of searches that are long enough for several teams
LONG = [
    ("generated graph, 64", graph(64)),
    ("queens placed first, 8", queens_placed_first(8)),
    ("8 pigeons in 7 holes, tests last", pigeons(8)),
    ("Hamilton paths of 12 places", hamilton(4)),
]


def many_reverses(lists, n):
    return (reverse(n).split("?-")[0] + "many(0, _, []).\nmany(K, L, [R|Rs]) :- K > 0, J is K - 1, rev(L, R), many(J, L, Rs).\n"
            f"?- _L = {listed(range(n))}, many({lists}, _L, [X|_]).\n")


def tree_sum(depth):
    return ("tree(0, leaf(1)).\ntree(N, node(L,R)) :- N > 0, M is N - 1, tree(M, L), tree(M, R).\n"
            "sum(leaf(X), X).\nsum(node(L,R), S) :- sum(L, A), sum(R, B), S is A + B.\n"
            f"?- tree({depth}, _T), sum(_T, S).\n")


# name and text of determinate programs with goals for several workers, and of two in which each phase is short
WIDE = [
    ("naive reverse of 40 lists of 200", many_reverses(40, 200)),
    ("a sum over 2^14 leaves", tree_sum(14)),
    ("naive reverse of 400", reverse(400)),
    ("generated graph, 64", graph(64)),
    ("queens with tests first, 8", queens(8)),
]


def run(words, text):
    """The lines, what was written on standard error, the processor time in milliseconds and the peak of memory in MB of a run."""
    with tempfile.TemporaryFile("w+") as source, tempfile.TemporaryFile("w+") as sink, tempfile.TemporaryFile("w+") as said:
        source.write(text)
        source.seek(0)
        child = subprocess.Popen(words, stdin=source, stdout=sink, stderr=said)
        _, _, usage = os.wait4(child.pid, 0)
        sink.seek(0)
        said.seek(0)
        lines = sink.read().splitlines()
        told = said.read()
    return lines, told, (usage.ru_utime + usage.ru_stime) * 1000, usage.ru_maxrss / 1024


def least_on_andorra(words, text, runs):
    results = [run(words, text) for _ in range(runs)]
    return results[0][0], min(r[2] for r in results), min(r[3] for r in results)


def least_on_swi(text, waits, runs):
    """The lines, the processor time in milliseconds of the whole and of the search and the writing alone, and the peak of memory in MB."""
    with common.swi_words(text, waits) as words:
        results = [run(words, "") for _ in range(runs)]
    return results[0][0], min(r[2] for r in results), min(float(r[1].split()[-1]) for r in results), min(r[3] for r in results)


def answers_of(lines):
    return [line for line in lines if not line.startswith("% ")]


def repeated(words, text, runs):
    """The lines of the runs, whether they were the same in each, and the least wall time and processor time in milliseconds."""
    results = []
    for _ in range(runs):
        begun = time.monotonic()
        lines, _, processor, _ = run(words, text)
        results.append((lines, (time.monotonic() - begun) * 1000, processor))
    same = all(lines == results[0][0] for lines, _, _ in results)
    return results[0][0], same, min(wall for _, wall, _ in results), min(processor for _, _, processor in results)


def compare(program, texts, option, numbers, only, runs, words):
    """Writes a row for each text and value of the option. Answers whether all wrote the same."""
    print(f"{'program':34} {option[2:]:>7} {'wall':>9} {'processor':>10}  answers")
    are_same = True
    for name, text in texts:
        if only not in name:
            continue
        first = None
        for number in numbers:
            andorra = [program, "run", "--stats", "--limit", "4194304", option, str(number), *words]
            lines, same, wall, processor = repeated(andorra, text, runs)
            first = first or lines
            same = same and lines == first
            are_same = are_same and same
            told = "the same" if same else "DIFFERENT"
            print(f"{name:34} {number:7} {wall:7.0f}ms {processor:8.0f}ms  {len(answers_of(lines))} {told}", flush=True)
    return are_same


def megabytes(peak, floor):
    """A peak as it is shown: a child's is never told below that of this script."""
    return f"{peak:.0f}" if peak > floor + 1 else f"<{floor:.0f}"


def main():
    options = argparse.ArgumentParser(description=__doc__, formatter_class=argparse.RawDescriptionHelpFormatter)
    options.add_argument("--runs", type=int, default=5)
    options.add_argument("--only", default="")
    options.add_argument("--skip-swi", action="store_true")
    options.add_argument("--teams", type=int, nargs="+")
    options.add_argument("--workers", type=int, nargs="+")
    common.add_program(options)
    options.add_argument("words", nargs="*")
    given = options.parse_args()
    if not common.stands(given.program):
        return 1
    if given.teams:
        return 0 if compare(given.program, LONG, "--teams", given.teams, given.only, given.runs, given.words) else 1
    if given.workers:
        others = [(name, text) for name, text, _ in PROGRAMS if name not in dict(WIDE)]
        return 0 if compare(given.program, WIDE + others, "--workers", given.workers, given.only, given.runs, ["--teams", "1", *given.words]) else 1
    has_swi = shutil.which("swipl") is not None and not given.skip_swi
    andorra = [given.program, "run", "--limit", "4194304", *given.words]
    _, start, _ = least_on_andorra(andorra, EMPTY, given.runs)
    swi_start = least_on_swi(EMPTY, False, given.runs)[1] if has_swi else 0
    print(f"{'program':34} {'andorra':>9} {'MB':>5} {'SWI':>9} {'search':>9} {'MB':>5}  answers")
    differ = False
    for name, text, waits in PROGRAMS:
        if given.only not in name:
            continue
        _, _, _, floor = run(["true"], "")
        lines, time, memory = least_on_andorra(andorra, text, given.runs)
        row = f"{name:34} {max(time - start, 0):7.0f}ms {megabytes(memory, floor):>5}"
        same = ""
        if has_swi:
            theirs, swi_time, search, swi_memory = least_on_swi(text, waits, given.runs)
            row += f" {max(swi_time - swi_start, 0):7.0f}ms {search:7.0f}ms {megabytes(swi_memory, floor):>5}"
            same = "the same" if answers_of(lines) == answers_of(theirs) else "DIFFERENT"
            differ = differ or same == "DIFFERENT"
        print(f"{row}  {len(answers_of(lines))} {same}", flush=True)
    return 1 if differ else 0


if __name__ == "__main__":
    sys.exit(main())
