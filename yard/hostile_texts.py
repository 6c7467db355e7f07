"""The texts that hostile use is tried on: programs, by any number of teams and workers, what takes none, and edges with what is due."""
from typing import NamedTuple

import same_bytes

APPEND, FORKS = same_bytes.ROWS[0][2], same_bytes.ROWS[1][2]
CHECK = "p(1). p(2). q(X,Y) :- p(X), Y is X+1. ?- q(A,B), B < 3.\n"
SPLITS = "app([],L,L). app([H|T],L,[H|R]) :- app(T,L,R). ?- app(X,Y,[1,2,3,4,5,6,7,8,9]), app(_,[Z],X).\n"
REVERSES = same_bytes.ROWS[-1][2]
SUMS = "len([],0). len([_|T],N) :- len(T,M), N is M+1. ?- len([a,b,c,d,e,f,g,h],N), N > M, M is 3.\n"

# name, words and text of programs that teams and workers run
SEARCHES = [
    ("append", ["run"], APPEND),
    ("two forks", ["run", "--stats"], FORKS),
    ("floundered", ["run"], "?- X is X + 0.\n"),
    ("four queens", ["run", "--stats"], same_bytes.QUEENS),
    ("two workers", ["run"], "a(1). b(2). ?- a(X), b(Y).\n"),
    ("a circle", ["run"], "a(X,Y) :- X = f(Y). b(X,Y) :- Y = f(X). ?- a(X,Y), b(X,Y).\n"),
    ("two reverses", ["run"], REVERSES),
    ("splits", ["run"], SPLITS),
    ("sums", ["run"], SUMS),
    ("explain", ["explain", "2"], APPEND),
    ("first", ["first", "2"], APPEND),
    ("batch", ["batch"], "p(1). p(2).\n?- p(X).\n?- p(X), X > 1.\n?- X = 'a b'.\n"),
    ("demo", ["demo", "2"], ""),
]
# and of what takes no teams
ALONE = [
    ("check", ["check"], CHECK),
    ("lint", ["lint"], CHECK),
    ("tree", ["tree"], same_bytes.QUEENS),
    ("verify", ["verify"], "p(a). p(b). ?- p(X).\n%% proof\n%% 1 2 p(b)\n%% line X = b\n"),
    ("refused", ["run"], "p(a) ?- p(X).\n"),
]

class Edge(NamedTuple):
    """A text at an edge of the language: what is written for it, and the status."""
    name: str
    words: list
    text: str
    output: str
    status: int


COMPLETE = "% complete\n"
FACTS = "".join(f"k({number}). " for number in range(1, 66))
EDGES = [
    Edge("an equation behind", ["run", "--stats"], "p(1). p(2). ?- p(X), X = 2.", "X = 2\n% complete\n% forks 0 failed 0\n", 0),
    Edge("lightest query", ["run", "--limit", "1"], "?- true.", "true\n% complete\n", 0),
    Edge("occurs check", ["run"], "?- X = f(X).", COMPLETE, 1),
    Edge("fresh names", ["run"], "?- X = f(A,B), Y = B.", "X = f(_0,_1), A = _0, B = _1, Y = _1\n% complete\n", 0),
    Edge("open list", ["run"], "?- X = [1,2|T].", "X = [1,2|_0], T = _0\n% complete\n", 0),
    Edge("late number", ["run"], "?- X < 3, X = 2.", "X = 2\n% complete\n", 0),
    Edge("a goal left", ["run"], "?- _X < 3.", "true with <(_0,3)\n% complete\n", 8),
    Edge("overflow", ["run"], "?- X is 9223372036854775807 + 1.", COMPLETE, 1),
    Edge("signs", ["run"], "?- X is -7 // 2, Y is -7 mod 2, Z is -7 rem 2.", "X = -3, Y = 1, Z = -1\n% complete\n", 0),
    Edge("least divided", ["run"], "?- X is -9223372036854775808 // -1.", COMPLETE, 1),
    Edge("least modulo", ["run"], "?- X is -9223372036854775808 mod -1.", "X = 0\n% complete\n", 0),
    Edge("least remainder", ["run"], "?- X is -9223372036854775808 rem -1.", "X = 0\n% complete\n", 0),
    Edge("least negated", ["run"], "?- X is -9223372036854775808, Y is -X.", COMPLETE, 1),
    Edge("least times", ["run"], "?- X is -9223372036854775808 * -1.", COMPLETE, 1),
    Edge("numbers at their ends", ["run"], "?- X = 9223372036854775807, Y = -9223372036854775808.",
         "X = 9223372036854775807, Y = -9223372036854775808\n% complete\n", 0),
    Edge("nothing divided", ["run"], "?- X is 1 // 0. ", COMPLETE, 1),
    Edge("guarded max", ["run", "--stats"], "max(X,Y,X) :- X >= Y. max(X,Y,Y) :- X < Y. ?- max(3,5,M).",
         "M = 5\n% complete\n% forks 0 failed 0\n", 0),
    Edge("operators", ["run"], "?- X = 1-2-3, Y = 2+3*4, Z = - (1).", "X = -(-(1,2),3), Y = +(2,*(3,4)), Z = -(1)\n% complete\n", 0),
    Edge("quoted names", ["run"], "p('it''s'). p([]). p('A b'). ?- p(X).", "X = 'it\\'s'\nX = []\nX = 'A b'\n% complete\n", 0),
    Edge("65 keys", ["run", "--stats"], FACTS + "?- k(65).", "true\n% complete\n% forks 0 failed 0\n", 0),
    Edge("a deep term", ["run", "--stats"], "n(0,z). n(K,s(T)) :- K > 0, J is K-1, n(J,T). ?- n(2000,X).",
         f"X = {'s(' * 2000}z{')' * 2000}\n% complete\n% forks 0 failed 0\n", 0),
    Edge("a disjunction", ["run"], "?- (X = 1 ; X = 2), (X > 1 ; X < 0).", "X = 2\n% complete\n", 0),
    Edge("a whole body", ["run"], "?- X = 1 ; X = 2.", "X = 1\nX = 2\n% complete\n", 0),
    Edge("a rule", ["run"], "s --> [a], s. s --> {1 > 0}, []. ?- s([a,a],R).", "R = []\nR = [a]\nR = [a,a]\n% complete\n", 0),
    Edge("unknown", ["run"], "p(X) :- q(X). ?- p(1).", "error: line 1: unknown q/1\n", 3),
    Edge("cut", ["run"], "p(X) :- q(X", "error: line 1: syntax\n", 3),
    Edge("nothing", ["run"], "", "error: line 1: no query\n", 3),
    Edge("no point", ["run"], "p(a).\n?- p(X)", "error: line 2: syntax\n", 3),
    Edge("a cut", ["run"], "p :- q, !.", "error: line 1: not pure\n", 3),
    Edge("too wide", ["run"], "?- X = 9223372036854775808.", "error: line 1: number too wide\n", 3),
    Edge("redefined", ["run"], "X = Y. ?- true.", "error: line 1: redefines =/2\n", 3),
    Edge("asked twice", ["run"], "?- true.\n?- fail.", "error: line 2: second query\n", 3),
    Edge("no text", ["run"], "\udcff", "error: line 1: not text\n", 3),
    Edge("one symbol", ["run"], "?- X=-1.", "error: line 1: syntax\n", 3),
]


def crowded(crowds):
    """The searches, each by so many teams of as many workers, and what takes none."""
    for crowd in crowds:
        for name, words, text in SEARCHES:
            yield f"{name}, {crowd} teams", [*words, "--teams", str(crowd), "--workers", str(min(crowd, 8))], text
    yield from ALONE


def crowd_texts():
    """Name, words and text of each example, row and edge."""
    for name, words, text in same_bytes.texts():
        yield name, ["run", *words], text
    for edge in EDGES:
        yield edge.name, edge.words, edge.text


