#!/usr/bin/env python3
"""Runs calls of the predicates of lib/, and compares their answers with SWI-Prolog's own predicates, line by line.

    yard/lib_tests.py [--only WORD] [--program FILE]

A row is a query, and behind `<=>` what SWI-Prolog is asked, where that has another form or no such predicate. Marks before a query:
`=` it makes no fork; `~` the answers are compared without their order; a number: it has no end, and so many first answers are compared.
It skips, with status 0, where swipl is not installed.
"""

import argparse
import re
import shutil
import subprocess
import sys
import tempfile

import common

MOST = 4194304

# what SWI-Prolog knows beside its own library: predicates that it does not have, written with its cuts and negation
BESIDE = r"""
zip([], [], []).
zip([X|Xs], [Y|Ys], [X-Y|Zs]) :- zip(Xs, Ys, Zs).
code(red, 1). code(green, 2). code(blue, 3). code(white, 4).
names_differ(X, Y) :- code(X, _), code(Y, _), X \== Y.
all_apart(Xs) :- maplist([X]>>code(X, _), Xs), length(Xs, N), sort(Xs, S), length(S, N).
edge(a, b). edge(b, c). edge(c, a). edge(a, d). edge(d, c). edge(c, e).
route(To, To, Seen, Path) :- reverse(Seen, Path).
route(From, To, Seen, Path) :- edge(From, Next), \+ memberchk(Next, Seen), route(Next, To, [Next|Seen], Path).
simple(From, To, Path) :- member(From, [a,b,c,d,e]), route(From, To, [From], Path).
tour(From, [From|Path]) :- edge(From, Next), ( Next == From -> Path = [From] ; route(Next, From, [Next], Path) ).
ways(To, To, 0, [To]).
ways(From, To, N, [From|P]) :- N > 0, edge(From, Next), M is N - 1, ways(Next, To, M, P).
step(N, M) :- N < 12, M is N + 1.
step(N, M) :- N < 7, M is 2 * N.
plan(From, To, Bound, P) :- between(0, Bound, N), reach(N, From, To, P).
reach(0, To, To, [To]).
reach(N, From, To, [From|P]) :- N > 0, step(From, Next), M is N - 1, reach(M, Next, To, P).
first_value(K, Ps, V) :- memberchk(K-W, Ps), V = W.
flipped(Ps, Qs) :- pairs_keys_values(Ps, Ks, Vs), pairs_keys_values(Qs, Vs, Ks).
"""

# what a program gives to the files of lib that ask for predicates
GIVEN = {
    "names": "numbered(red, 1). numbered(green, 2). numbered(blue, 3). numbered(white, 4).\n",
    "graphs": "edge(a, b). edge(b, c). edge(c, a). edge(a, d). edge(d, c). edge(c, e).\n",
    "states": "step(N, M) :- N < 12, M is N + 1.\nstep(N, M) :- N < 7, M is 2 * N.\n",
}

ROWS = {
    "lists": r"""
= append([], [], X)
= append([a], [b,c], X)
= append([a,b|[]], Y, [a,b,c,d])
= append([a,b], Y, Z)
append(X, Y, [])
append(X, Y, [a])
append(X, Y, [a,b,c])
append(X, [c], [a,b,c])
append(X, [b|_], [a,b,c])
append([X|Y], Z, [a,b])
append(X, X, [a,b,a,b])
append(X, X, [a,b,a])
append(_, [X], [1,2,3])
append(_, [X,Y|_], [1,2,3,4])
append([a|X], Y, [b,c])
5 append(X, [a], Y)
4 append(X, Y, Z)
append([f(A)], [B], [f(1),g(A)])
member(a, [])
= member(a, [a])
member(X, [a,b,c])
member(a, [a,b,a])
member(b, [a,b,c])
member(d, [a,b,c])
member(f(X), [f(1),g(2),f(3)])
member(X-Y, [1-a,2-b])
member(X, [Y,Z])
3 member(a, X)
member(X, [1,2,3]), X > 1
select(a, [a], X)
select(X, [a,b,c], Y)
select(b, [a,b,c,b], Y)
select(X, [], Y)
select(x, Y, [a,b])
select(X, [a,b], [b])
select(f(X), [f(1),f(2)], Y)
select(X, [A,B], Y)
permutation([], X)
permutation([a], X)
permutation([a,b], X)
permutation([a,b,c], X)
permutation([1,2,3,4], X)
permutation([a,a], X)
permutation(X, [a,b])
permutation(X, [])
permutation([a,b,c], [c,A,B])
permutation([a,b], [a,c])
permutation([a,b], [X])
permutation([3,1,2], [X,Y,Z]), X < Y, Y < Z <=> permutation([3,1,2], [X,Y,Z]), X < Y, Y < Z
= same_length([a,b], X)
= same_length(X, [a])
= same_length([a], [])
3 same_length(X, Y)
= reverse([], X)
= reverse([a,b,c], X)
= reverse(X, [a,b,c])
= reverse([A,b|[]], [c,B])
= reverse([a], [])
= reverse([a,b|[c]], [c|X])
3 reverse(X, Y)
= length([], N)
= length([a,b,c], N)
= length(L, 3)
= length(L, 0)
= length([a|L], 3)
= length([a,b], 1)
= length([a], 2)
= length([a,b|L], 2)
= length([a,b,c|L], 2)
4 length(L, N)
3 length([a|L], N)
= length([[a,b],c], N)
= nth0(0, [a,b,c], X)
= nth0(2, [a,b,c], X)
= nth0(3, [a,b,c], X)
= nth0(-1, [a,b,c], X) <=> fail
nth0(N, [a,b,c], X)
nth0(N, [a,b,a], a)
nth0(N, [a,b,c], d)
= nth0(1, L, x), length(L, 2)
= nth1(1, [a,b], X)
= nth1(2, [a,b], X)
= nth1(0, [a,b], X)
nth1(N, [a,b], X)
nth1(N, [a,b,a], a)
= last([a], X)
= last([a,b,c], X)
last([], X)
= last([X,Y], b)
= last([a,b], c)
3 last(L, a)
= delete([], 1, X)
= delete([1,2,1,3], 1, X)
= delete([1,2,3], 4, X)
= delete([1,1], 1, X)
= delete([5,6,7,6], 6, [5,7])
= delete([5,6,7,6], 6, [5,6,7])
subset([], [a])
subset([a], [a,b])
subset([b,a], [a,b,c])
subset([d], [a,b])
subset([X], [a,b]) <=> member(X, [a,b])
subset([X,Y], [a,b]) <=> member(X, [a,b]), member(Y, [a,b])
= zip([a,b], [1,2], X)
= zip(X, Y, [a-1,b-2])
= zip([a,b], X, [Y,c-d])
= zip([a,b], X, [a-1,Y])
= zip([a], [], X)
= zip([], [], X)
= msort([], X)
= msort([1], X)
= msort([3,1,2], X)
= msort([2,1,2,1,0,-5], X)
= msort([5,4,3,2,1,0], X)
= msort([1,2,3,4,5,6,7], X)
= msort([9,8,7,1,2,3,4,4], [1|X])
= msort([2,1], [2,1])
= sum_list([], X)
= sum_list([1,2,3], X)
= sum_list([-1,1], X)
= sum_list([2,2], 5)
= sum_list([2,2], 4)
= sum_list([1+1,2*3], X)
= sum_list([X,2], S), X = 5 <=> X = 5, S = 7
= max_list([1], X)
= max_list([1,3,2], X)
= max_list([-1,-3], X)
= max_list([], X)
= min_list([1], X)
= min_list([2,1,3], X)
= min_list([], X)
= max_list([1,2], 1)
""",
    "arith": r"""
between(1, 5, X)
between(-3, 3, X)
between(-4, -2, X)
between(0, 0, X)
between(2, 1, X)
between(1, 100, X)
= between(1, 10, 1)
= between(1, 10, 10)
= between(1, 10, 5)
= between(1, 10, 0)
= between(1, 10, 11)
= between(-7, -3, -5)
= between(1, 1000000000, 123456789)
between(1, 3, X), between(X, 3, Y)
between(1, 20, X), X * X =:= 144
between(1, 20, X), between(1, 20, Y), X < Y, X * X + Y * Y =:= 169
= plus(1, 2, X)
= plus(1, X, 3)
= plus(X, 2, 3)
= plus(1, 2, 4)
= plus(-5, X, -7)
= succ(1, X)
= succ(X, 1)
= succ(0, X)
= succ(3, 4)
= succ(3, 5)
= gcd(12, 18, X) <=> X is gcd(12, 18)
= gcd(18, 12, X) <=> X is gcd(18, 12)
= gcd(0, 5, X) <=> X is gcd(0, 5)
= gcd(5, 0, X) <=> X is gcd(5, 0)
= gcd(-12, 18, X) <=> X is gcd(-12, 18)
= gcd(12, -18, X) <=> X is gcd(12, -18)
= gcd(-5, -5, X) <=> X is gcd(-5, -5)
= gcd(-5, 0, X) <=> X is gcd(-5, 0)
= gcd(17, 5, X) <=> X is gcd(17, 5)
= gcd(2880067194370816120, 4660046610375530309, X) <=> X is gcd(2880067194370816120, 4660046610375530309)
= power(2, 10, X) <=> X is 2 ** 10
= power(2, 62, X) <=> X is 2 ** 62
= power(2, 63, X) <=> fail
= power(-2, 63, X) <=> X is (-2) ** 63
= power(3, 0, X) <=> X is 3 ** 0
= power(0, 0, X) <=> X is 0 ** 0
= power(0, 5, X) <=> X is 0 ** 5
= power(-3, 3, X) <=> X is (-3) ** 3
= power(10, 18, X) <=> X is 10 ** 18
= power(7, 1, X) <=> X is 7 ** 1
= absolute(-3, X) <=> X is abs(-3)
= absolute(3, X) <=> X is abs(3)
= divides(3, 12) <=> 12 mod 3 =:= 0
= divides(5, 12) <=> 12 mod 5 =:= 0
""",
    "differ": r"""
= differ(1, 2) <=> 1 \= 2
= differ(2, 2) <=> 2 \= 2
= differ(X, 2), X = 1 <=> X = 1
= outside(1, [2,3]) <=> \+ memberchk(1, [2,3])
= outside(2, [1,2]) <=> \+ memberchk(2, [1,2])
= all_different([]) <=> true
= all_different([1,2,3]) <=> sort([1,2,3], [_,_,_])
= all_different([1,2,1]) <=> sort([1,2,1], [_,_,_])
= index_of(3, [1,3,2,3], N) <=> once(nth0(N, [1,3,2,3], 3))
= index_of(4, [1,3], N) <=> once(nth0(N, [1,3], 4))
= occurrences(1, [1,2,1], N) <=> aggregate_all(count, member(1, [1,2,1]), N)
""",
    "names": r"""
= differ_names(red, blue) <=> names_differ(red, blue)
= differ_names(red, red) <=> names_differ(red, red)
differ_names(X, blue) <=> names_differ(X, blue)
differ_names(X, Y) <=> names_differ(X, Y)
= outside_names(red, [blue,green]) <=> \+ memberchk(red, [blue,green])
= outside_names(red, [blue,red]) <=> \+ memberchk(red, [blue,red])
= all_names_different([red,blue,green]) <=> all_apart([red,blue,green])
= all_names_different([red,blue,red]) <=> all_apart([red,blue,red])
= delete_name([red,blue,red], red, X) <=> delete([red,blue,red], red, X)
= delete_name([green,blue], red, X) <=> delete([green,blue], red, X)
""",
    "pairs": r"""
= pairs_keys_values(X, [a,b], [1,2])
= pairs_keys_values([a-1,b-2], X, Y)
= pairs_keys_values(X, [a], [])
= pairs_keys([a-1,b-2], X)
= pairs_values([a-1,b-2], X)
= pairs_keys(X, [a,b])
= flip_pairs([a-1,b-2], X) <=> flipped([a-1,b-2], X)
paired(b, [a-1,b-2,b-3], X) <=> member(b-X, [a-1,b-2,b-3])
paired(X, [a-1,b-2], Y) <=> member(X-Y, [a-1,b-2])
= value_of(2, [1-a,2-b,2-c], X) <=> first_value(2, [1-a,2-b,2-c], X)
= value_of(3, [1-a], X) <=> first_value(3, [1-a], X)
= keysort([], X)
= keysort([2-a,1-b,2-c,1-d], X)
= keysort([3-c,2-b,1-a], X)
= keysort([1-a,2-b,3-c], X)
= keysort([1-a,0-b,1-c,0-d,1-e,0-f,1-g], X)
= keysort([2-X,1-Y], Z)
""",
    "graphs": r"""
path(a, e, [a,b,c,d,e], P) <=> simple(a, e, P)
path(a, a, [a,b,c,d,e], P) <=> simple(a, a, P)
path(e, a, [a,b,c,d,e], P) <=> simple(e, a, P)
path(X, Y, [a,b,c,d,e], P) <=> simple(X, Y, P)
path(a, Y, [a,b,c,d,e], P) <=> simple(a, Y, P)
path(a, e, [a,b,e], P) <=> fail
~ cycle(a, [a,b,c,d,e], P) <=> tour(a, P)
~ cycle(e, [a,b,c,d,e], P) <=> tour(e, P)
walk(a, X, 3, P) <=> ways(a, X, 3, P)
walk(a, c, 5, P) <=> ways(a, c, 5, P)
walk(a, X, 0, P) <=> ways(a, X, 0, P)
""",
    "states": r"""
plan(1, 12, 6, P)
plan(1, 3, 3, P)
plan(3, 1, 5, P)
plan(1, X, 2, P)
steps(4, 1, X, P) <=> reach(4, 1, X, P)
steps(0, 1, X, P) <=> reach(0, 1, X, P)
""",
}

SWI = r"""
:- initialization(main, main).
:- set_prolog_flag(occurs_check, true).
:- style_check(-singleton).
:- style_check(-discontiguous).

main :- read_term(Term, [variable_names(Names)]), main(Term, Names).
main(end_of_file, _) :- !.
main(row(Most, Goal), Names) :-
    exclude([N = _]>>sub_atom(N, 0, 1, _, '_'), Names, Shown),
    ( catch(forall(limit(Most, Goal), line(Shown)), Error, ( print_message(error, Error), writeln('% error') )) -> true ; true ),
    writeln('% end'),
    main.

line([]) :- !, writeln(true).
line(Shown) :- \+ \+ ( term_variables(Shown, Variables), numbered(Variables, 0), bindings(Shown) ), nl.

numbered([], _).
numbered(['$UNBOUND'(N)|Rest], N) :- M is N + 1, numbered(Rest, M).

bindings([Name = Value]) :- !, binding(Name, Value).
bindings([Name = Value|Rest]) :- binding(Name, Value), write(', '), bindings(Rest).
binding(Name, Value) :- format("~w = ", [Name]), shown(Value).

shown('$UNBOUND'(N)) :- !, format("_~d", [N]).
shown([X|Xs]) :- !, write('['), shown(X), rest(Xs), write(']').
shown(T) :- compound(T), !, T =.. [Name|Arguments], writeq(Name), write('('), separated(Arguments), write(')').
shown(T) :- writeq(T).
rest([]) :- !.
rest([X|Xs]) :- !, write(','), shown(X), rest(Xs).
rest(T) :- write('|'), shown(T).
separated([X]) :- !, shown(X).
separated([X|Xs]) :- shown(X), write(','), separated(Xs).
"""


def rows():
    """The lib, the marks, the query and what SWI-Prolog is asked, of each row."""
    for lib, lines in ROWS.items():
        for line in lines.strip().splitlines():
            marks, rest = re.match(r"((?:[=~] |\d+ )*)(.*)", line).groups()
            query, _, asked = rest.partition(" <=> ")
            yield lib, marks.split(), query, asked or query


def defined_twice():
    """The predicates that two files of lib define, which would then have each answer twice."""
    places = {}
    for lib in ROWS:
        with open(common.TOP / "lib" / f"{lib}.pl", encoding="utf-8") as file:
            for line in file:
                head = re.match(r"([a-z]\w*)\((.*)", line)
                if head:
                    places.setdefault(f"{head.group(1)}/{arity_of(head.group(2))}", set()).add(lib)
    return sorted(it for it, libs in places.items() if len(libs) > 1)


def arity_of(arguments):
    """How many arguments stand before the bracket that closes them."""
    depth, count = 1, 1
    for sign in arguments:
        depth += (sign in "([") - (sign in ")]")
        count += sign == "," and depth == 1
        if depth == 0:
            break
    return count


def number_of(marks):
    return next((int(it) for it in marks if it.isdigit()), None)


def swi_answers(all_rows):
    """The lines that SWI-Prolog answers to each row."""
    with tempfile.NamedTemporaryFile("w", suffix=".pl") as script:
        script.write(SWI + BESIDE)
        script.flush()
        asked = "".join(f"row({number_of(marks) or 100000}, ({goal})).\n" for _, marks, _, goal in all_rows)
        done = subprocess.run(["swipl", script.name], input=asked, capture_output=True, text=True, check=False)
    sys.stderr.write(done.stderr)
    return [it.splitlines() for it in done.stdout.split("% end\n")[:-1]]


def our_answers(program, lib, marks, query):
    """The lines of a row's answers, and what is wrong with how they end."""
    words = ["--limit", "300" if number_of(marks) else str(MOST), "--stats"]
    with open(common.TOP / "lib" / f"{lib}.pl", encoding="utf-8") as file:
        text = file.read()
    done = subprocess.run([program, "run", *words], input=f"{text}{GIVEN.get(lib, '')}?- {query}.\n", capture_output=True, text=True, check=False)
    lines = done.stdout.splitlines()
    if number_of(marks):
        return lines[: number_of(marks)], None if lines[-1:] == ["% limit met"] else "it should have no end"
    if len(lines) < 2 or lines[-2] != "% complete":
        return lines, "it should be complete"
    return lines[:-2], "it should make no fork" if "=" in marks and not lines[-1].startswith("% forks 0 ") else None


def main():
    options = argparse.ArgumentParser(description=__doc__, formatter_class=argparse.RawDescriptionHelpFormatter)
    options.add_argument("--only", default="")
    common.add_program(options)
    given = options.parse_args()
    if not common.stands(given.program):
        return 1
    if not shutil.which("swipl"):
        print("skipped: swipl is not installed, so there is nothing to compare with")
        return 0
    twice = defined_twice()
    for predicate in twice:
        print(f"{predicate} stands in two files of lib")
    chosen = [it for it in rows() if given.only in it[2]]
    theirs = swi_answers(chosen)
    if len(theirs) != len(chosen):
        print(f"SWI-Prolog answered {len(theirs)} of {len(chosen)} calls")
        return 1
    wrong = len(twice)
    for (lib, marks, query, _), expected in zip(chosen, theirs):
        lines, fault = our_answers(given.program, lib, marks, query)
        order = sorted if "~" in marks else list
        if fault or order(lines) != order(expected):
            wrong += 1
            print(f"{lib}: {query}: {fault or 'other answers'}\n  ours   {lines[:6]}\n  theirs {expected[:6]}")
    print(f"{len(chosen)} calls, {wrong} of them wrong")
    return 1 if wrong else 0


if __name__ == "__main__":
    sys.exit(main())
