#!/usr/bin/env python3
"""Runs textbook programs with disjunctions, and grammars, and compares their answers with SWI-Prolog's, line by line and in order.

    yard/textbook.py [--only WORD] [--program FILE]

A program is written as a textbook has it, where it is pure. It is asked with one team and with three. SWI-Prolog runs it by yard/swi.pl, with the
occurs check; where a name ends with `(waits)`, arithmetic waits there as it does in the language. It skips, with status 0, where swipl is not installed.
"""
import argparse
import shutil
import subprocess
import sys

import common


PROGRAMS = {
    "siblings": """
parent(ann, bob). parent(ann, cid). parent(tom, bob). parent(eve, ann). parent(eve, tom).
related(X, Y) :- parent(X, Y) ; parent(Y, X).
near(X, Y) :- related(X, Z), ( Y = Z ; related(Z, Y) ).
?- near(bob, X).
""",
    "member by a disjunction": """
member(X, [Y|Ys]) :- X = Y ; member(X, Ys).
?- member(X, [a,b,c]), ( X = b ; X = c ; X = d ).
""",
    "maximum (waits)": """
max(X, Y, M) :- ( X >= Y, M = X ; X < Y, M = Y ).
?- max(3, 5, A), max(7, 2, B), max(A, B, C).
""",
    "partition (waits)": """
part([], _, [], []).
part([X|Xs], P, Ls, Gs) :- ( X =< P, Ls = [X|Ls1], Gs = Gs1 ; X > P, Ls = Ls1, Gs = [X|Gs1] ), part(Xs, P, Ls1, Gs1).
app([], L, L). app([X|Xs], L, [X|Ys]) :- app(Xs, L, Ys).
qsort([], []).
qsort([X|Xs], S) :- part(Xs, X, Ls, Gs), qsort(Ls, SL), qsort(Gs, SG), app(SL, [X|SG], S).
?- qsort([3,1,4,1,5,9,2,6], S).
""",
    "merge (waits)": """
merge([], Ys, Ys). merge([X|Xs], [], [X|Xs]).
merge([X|Xs], [Y|Ys], Zs) :- ( X =< Y, Zs = [X|Ws], merge(Xs, [Y|Ys], Ws) ; X > Y, Zs = [Y|Ws], merge([X|Xs], Ys, Ws) ).
?- merge([1,4,6], [2,3,7], Zs).
""",
    "colours": """
colour(X) :- X = red ; X = green ; X = blue.
differ(X, Y) :- ( X = red, ( Y = green ; Y = blue ) ; X = green, ( Y = red ; Y = blue ) ; X = blue, ( Y = red ; Y = green ) ).
?- colour(A), differ(A, B), differ(B, C), differ(A, C).
""",
    "liars": """
knight_or_liar(Who, Says) :- ( Who = knight, Says = true ; Who = liar, Says = false ).
is(liar, liar, true). is(knight, knight, true). is(liar, knight, false). is(knight, liar, false).
both(true, true, true). both(true, false, false). both(false, true, false). both(false, false, false).
?- knight_or_liar(A, Says), is(A, liar, AL), is(B, liar, BL), both(AL, BL, Says), knight_or_liar(B, _Any).
""",
    "trees": """
tree(leaf, []). tree(node(L, X, R), Xs) :- app(Ls, [X|Rs], Xs), tree(L, Ls), tree(R, Rs).
app([], L, L). app([X|Xs], L, [X|Ys]) :- app(Xs, L, Ys).
in(X, node(L, Y, R)) :- X = Y ; in(X, L) ; in(X, R).
?- tree(T, [a,b,c]), in(b, T), ( T = node(leaf, _, _) ; T = node(_, _, leaf) ).
""",
    "crossings": """
move(s(A,B), s(C,D)) :- ( A = left, C = right, D = B ; A = right, C = left, D = B ; B = left, D = right, C = A ; B = right, D = left, C = A ).
path(S, S, [S]). path(S, T, [S|P]) :- P = [R|_], move(S, R), path(R, T, P).
?- P = [_,_,_], path(s(left,left), s(right,right), P).
""",
    "a query of alternatives": """
p(1). p(2). q(3).
?- ( p(X), Y = a ; q(X), ( Y = b ; Y = c ) ), ( X = 2 ; X = 3 ; fail ).
""",
    "a greeting": """
greeting --> [hello], name. greeting --> [good, Time], { time(Time) }, name.
name --> [anna] ; [ben].
time(morning). time(evening).
?- greeting(Words, []).
""",
    "a sentence with its tree": """
s(s(N,V)) --> np(N, P), vp(V, P).
np(np(D,N), P) --> det(D, P), n(N, P).
vp(v(V), P) --> v(V, P). vp(vp(V,N), P) --> v(V, P), np(N, _).
det(the, _) --> [the]. det(a, one) --> [a].
n(cat, one) --> [cat]. n(cats, many) --> [cats].
v(sees, one) --> [sees]. v(see, many) --> [see].
?- s(T, [the,cats,see,a,cat], []).
""",
    "balanced brackets": """
b --> [] ; ['('], b, [')'], b.
?- b(['(','(',')',')','(',')'], R).
""",
    "a^n b^n c^n": """
s --> a(N), b(N), c(N).
a(z) --> []. a(s(N)) --> [a], a(N).
b(z) --> []. b(s(N)) --> [b], b(N).
c(z) --> []. c(s(N)) --> [c], c(N).
?- s([a,a,b,b,c,c], []), L = [_,_,_], s(L, []).
""",
    "sums (waits)": """
sum(V) --> number(A), rest(A, V).
rest(A, V) --> [+], number(B), { C is A + B }, rest(C, V).
rest(A, V) --> [-], number(B), { C is A - B }, rest(C, V).
rest(V, V) --> [].
number(N) --> [n(N)].
?- sum(V, [n(7),+,n(5),-,n(2)], []).
""",
    "digits (waits)": """
digits([D|Ds]) --> digit(D), ( digits(Ds) ; { Ds = [] } ).
digit(D) --> [C], { C >= 48, C =< 57, D is C - 48 }.
?- digits(Ds, [52,50,55], R).
""",
}


def by_program(program, text, words):
    done = subprocess.run([program, "run", *words], input=text, capture_output=True, text=True, timeout=120, check=False)
    return done.stdout


def by_swi(text, waits):
    with common.swi_words(text, waits) as words:
        done = subprocess.run(words, capture_output=True, text=True, timeout=120, check=False)
    return done.stdout


def main():
    options = argparse.ArgumentParser(description=__doc__, formatter_class=argparse.RawDescriptionHelpFormatter)
    options.add_argument("--only", default="")
    common.add_program(options)
    given = options.parse_args()
    if shutil.which("swipl") is None:
        print("swipl is not installed")
        return 0
    tried = differ = 0
    for name, text in PROGRAMS.items():
        if given.only not in name:
            continue
        tried += 1
        due = by_swi(text, name.endswith("(waits)"))
        for words in (["--teams", "1", "--workers", "1"], ["--teams", "3"]):
            found = by_program(given.program, text, words)
            if found != due:
                differ += 1
                print(f"{name} {' '.join(words)}: {found!r} where SWI-Prolog has {due!r}")
    print(f"{tried} programs, {differ} runs differ")
    return 1 if differ else 0


if __name__ == "__main__":
    sys.exit(main())
