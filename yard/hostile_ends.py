"""Each limit of the language and of the command line at its last allowed value and one beyond, texts as large as a text may be, and terms,
lists, bodies and chains of a million."""
from typing import NamedTuple

from hostile_texts import EDGES

SIZE = 1_048_576
COMPLETE, MET, TRUE = b"% complete\n", b"% limit met\n", b"true\n% complete\n"
LARGEST = ["run", "--limit", "4194304"]
# the same terms, or not, once nothing else is left to be done
LATER = "way(1). way(2). same(1,X,X). same(2,_,_). "
DIGITS = "".join(f"d({digit}). " for digit in range(10))


class End(NamedTuple):
    """A text at the end of what may be: the status that is due, how the output ends, and how long it is where that is known."""
    name: str
    words: list
    text: str
    status: int
    end: bytes
    length: int = None


def refused(cause, line=1):
    return 3, f"error: line {line}: {cause}\n".encode()


def sides(name, words, last, beyond, found, cause, line=1):
    """A text at the last allowed value, with what is found, and one beyond."""
    yield End(name, words, last, *found)
    yield End(f"{name}, one beyond", words, beyond, *refused(cause, line))


def listed(count, item="a"):
    return "[" + ",".join([item] * count) + "]"


def counts():
    """The limits on what a text has."""
    arguments = ",".join(["a"] * 255)
    yield from sides("255 arguments", ["run"], f"?- X = f({arguments}).", f"?- X = f({arguments},a).", (0, COMPLETE), "too big: arguments")
    arguments = ",".join(["a"] * 253)
    yield from sides("253 arguments of a rule", ["run"], f"s({arguments}) --> []. ?- s({arguments},[],R).",
                     f"s({arguments},a) --> []. ?- true.", (0, b"R = []\n% complete\n"), "too big: arguments")
    variables = ",".join(f"X{place}" for place in range(254))
    yield from sides("255 variables", ["run"], f"?- Y = f({variables}).", f"?- Y = f({variables}), Z = Z.", (0, COMPLETE), "too big: variables")
    facts = "\n".join(f"k({place})." for place in range(65_535))
    yield from sides("65,535 clauses", ["run", "--stats"], f"{facts}\n?- k(65534).", f"{facts} k(65535).\n?- k(1).",
                     (0, b"true\n% complete\n% forks 0 failed 0\n"), "too big: clauses", 65_535)
    ways = "(" + ";".join(["fail"] * 65_533) + ";true)"
    yield from sides("65,534 alternatives and a clause", ["run"], f"p. ?- p, {ways}.", f"p. q. ?- p, {ways}.", (0, TRUE), "too big: clauses")
    row = "k(" + listed(1_022) + ").\n"
    full, short = row * 256, "c. k(" + listed(253) + ").\n"
    yield from sides("524,288 nodes", ["run"], f"{full}{short}?- k(b).", f"{full}{short}?- k(b(c)).", (1, COMPLETE), "too big: nodes", 258)
    queries = "p(1).\n" + "?- p(X).\n" * 256
    yield End("256 queries", ["batch"], queries, 0, b"% query 256\nX = 1\n% complete\n")
    yield End("257 queries", ["batch"], queries + "?- p(X).\n", *refused("second query", 258))


def nested():
    """256 brackets and prefix minuses open at once, of each kind, and one more."""
    for name, opening, inner, closing in (("round", "(", "a", ")"), ("square", "[", "a", "]"), ("curly", "{", "a", "}"),
                                          ("of arguments", "s(", "z", ")"), ("prefix minuses", "- ", "a", "")):
        last, beyond = (f"?- X = {opening * depth}{inner}{closing * depth}." for depth in (256, 257))
        yield from sides(f"nesting, {name}", ["run"], last, beyond, (0, COMPLETE), "too big: nesting")
    half = "(" * 128 + "- " * 128
    yield from sides("nesting, mixed", ["run"], f"?- X = {half}a{')' * 128}.", f"?- X = {half}- a{')' * 128}.", (0, COMPLETE), "too big: nesting")


def options():
    """The first and last value of each option, and those beyond."""
    for words, least, most in ((["run", "--limit"], 1, 4_194_304), (["run", "--teams"], 1, 16), (["run", "--workers"], 1, 8),
                               (["batch", "--jobs"], 1, 8), (["first"], 1, 1_000_000), (["explain"], 1, 1_000_000), (["demo"], 0, 64)):
        for value, is_allowed in ((least, True), (most, True), (least - 1, False), (most + 1, False), (18_446_744_073_709_551_617, False)):
            status, end = (2, b"") if not is_allowed else (1, COMPLETE) if words == ["explain"] and value > 1 else (0, b"")
            yield End(f"{' '.join(words)} {value}", [*words, str(value)], "?- true.", status, end)
    many = [word for number in range(5_000) for word in ("--limit", str(number + 1))]
    for words in ([], ["run", "--stats", "--stats"], ["run", "--"], ["run", ""], ["run", "--limit"], ["run", "--limit", "00000001"],
                  ["run", "--limit=" + "9" * 100_000], ["run", *many], ["x" * 100_000], ["run", "\udcff"]):
        yield End(f"words {' '.join(words)[:30]}", words, "?- true.", 2, b"")


def filled(before, filler, after):
    """A text as large as may be, with as much of the filler as there is room for, and blanks."""
    text = before + filler * ((SIZE - size(before + after)) // size(filler))
    return text + " " * (SIZE - size(text + after)) + after


def size(text):
    """How many bytes a text has, where \\udcff stands for the byte 255."""
    return len(text.encode(errors="surrogateescape"))


# name, how the text begins, what fills it, how it ends; status, end of the output, and its length where it is not one line
MEGABYTES = [
    ("blanks", "?- true.", " ", "", 0, TRUE, 16),
    ("newlines", "", "\n", "", *refused("no query", SIZE + 1), None),
    ("a comment to the end of a line", "?- true.\n%", "x", "", 0, TRUE, 16),
    ("a comment in brackets", "/*", "*", "*/?- true.", 0, TRUE, 16),
    ("a comment that is open", "?- true. /*", "*", "", *refused("syntax"), None),
    ("a quoted name", "?- X = 'A", "a", "'.", 0, b"a'\n% complete\n", SIZE + 8),
    ("a name of quotes", "?- X = '", "''", "'.", 0, b"\\''\n% complete\n", SIZE + 8),
    ("a name of newlines", "?- X = '", "\\n", "'.", 0, b"\\n'\n% complete\n", SIZE + 8),
    ("a name of letters of two bytes", "?- X = '", "é", "'.", 0, b"'\n% complete\n", SIZE + 8),
    ("a quoted name that is open", "?- X = '", "a", "", *refused("syntax"), None),
    ("a variable", "?- X", "x", " = a.", 0, b"x = a\n% complete\n", SIZE + 8),
    ("a name", "?- X = n", "x", ".", 0, b"xx\n% complete\n", SIZE + 8),
    ("a symbol", "?- X = +", "+", " .", 0, b"++\n% complete\n", SIZE + 7),
    ("digits", "?- X = 1", "0", ".", *refused("number too wide"), None),
    ("zeros", "?- X = 0", "0", ".", 0, b"X = 0\n% complete\n", 17),
    ("round brackets", "?- X = ", "(", "", *refused("too big: nesting"), None),
    ("square brackets", "?- X = ", "[", "", *refused("too big: nesting"), None),
    ("curly brackets", "s --> ", "{", "", *refused("too big: nesting"), None),
    ("prefix minuses", "?- X = ", "- ", "", *refused("too big: nesting"), None),
    ("brackets and alternatives", "p. ?- ", "(p;", "", *refused("too big: nesting"), None),
    ("a list", "?- X = [a", ",a", "].", *refused("too big: nodes"), None),
    ("a body", "p. ?- p", ",p", ".", *refused("too big: nodes"), None),
    ("a body of long names", "ppp. ?- ppp", ",ppp", ".", 0, TRUE, 16),
    ("equations", "?- X = Y", ",X=Y", ".", *refused("too big: nodes"), None),
    ("a sum", "?- X is 1", "+1", ".", *refused("too big: nodes"), None),
    ("a sum of wide numbers", "?- X is 1", "+100000", ".", 0, b"X = 14979500001\n% complete\n", None),
    ("alternatives", "p. ?- (p", ";p", ").", *refused("too big: nodes"), None),
    ("variables", "?- true", ",_=_", ".", *refused("too big: variables"), None),
    ("facts", "", "a. ", "", *refused("too big: clauses"), None),
    ("rules", "a --> a. ", "a-->a. ", "", *refused("too big: clauses"), None),
    ("terminals", "?- s([],[]). s --> [a", ",a", "].", *refused("too big: nodes"), None),
    ("parts of a rule", "?- s([],[]). s --> []", ",[]", ".", 0, TRUE, 16),
    ("a byte that is no text, at the end", "?- true. %", "x", "\udcff", *refused("not text"), None),
    ("bytes of zero", "?- true.", "\0", "", *refused("syntax"), None),
    ("cuts", "p :- a", ",!", ".", *refused("not pure"), None),
    ("points", "?- true", ".", "", *refused("syntax"), None),
    ("points and blanks", "?- true", ". ", "", *refused("syntax"), None),
    ("queries", "", "?- true. ", "", *refused("second query"), None),
    ("bars", "?- X = [a", "|a", "].", *refused("syntax"), None),
    ("equals", "?- X = a", "=a", ".", *refused("syntax"), None),
    ("negations", "?- ", "\\+ ", "", *refused("not pure"), None),
    ("a string", "?- X = \"", "a", "\".", *refused("not pure"), None),
]


def megabytes(is_quick):
    """Texts of 1,048,576 bytes of each kind, and each by other commands, which refuse what `run` refuses."""
    blank = filled("?- true.", " ", "")
    yield End("one byte more", ["run"], blank + " ", *refused("too big: source"))
    document = "?- true.\n%% proof\n"
    document += "%" * (16 * SIZE - len(document))
    yield End("a document of 16 MB", ["verify"], document, 1, b"fails\n", 6)
    yield End("a document of 16 MB and a byte", ["verify"], document + "%", *refused("too big: source", 3))
    for name, before, filler, after, status, end, length in MEGABYTES[::4] if is_quick else MEGABYTES:
        text = filled(before, filler, after)
        yield End(f"a megabyte of {name}", ["run"], text, status, end, length)
        for words in ([] if is_quick else (["check"], ["lint"], ["tree"], ["first", "1"], ["explain", "1"], ["batch"])):
            if words != ["batch"] or b"second query" not in end:
                yield End(f"a megabyte of {name}, {words[0]}", words, text, *((3, end) if status == 3 else (None, b"")))


def threaded(levels, base, last=10):
    """Clauses by which t6(X,Y), with six levels, puts a million layers of the base between X and Y; the last level may have fewer."""
    clauses = [base]
    for level in range(1, levels + 1):
        names = [f"V{place}" for place in range((last if level == levels else 10) + 1)]
        calls = ", ".join(f"t{level - 1}({left},{right})" for left, right in zip(names, names[1:]))
        clauses.append(f"t{level}({names[0]},{names[-1]}) :- {calls}.")
    return "\n".join(clauses) + "\n"


def large():
    """What takes a second at most."""
    yield End("a body of 100,000 goals", ["run"], "p. ?- " + ", ".join(["p"] * 100_000) + ".", 0, TRUE)
    yield from sides("a body of 262,143 goals", ["run"], "p. ?- p" + ",p" * 262_142 + ".", "p. ?- p" + ",p" * 262_143 + ".", (0, TRUE),
                     "too big: nodes")
    yield End("a list of 200,000", ["run"], f"?- X = {listed(200_000)}.", 0, COMPLETE, 400_017)
    yield End("a chain of 700,000", LARGEST, "c(0). c(N) :- N > 0, M is N-1, c(M). ?- c(700000).", 0, TRUE)
    yield End("a term of 800,000", LARGEST, "n(0,z). n(K,s(T)) :- K > 0, J is K-1, n(J,T). ?- n(800000,X).", 6, MET)
    yield End("100,000 answers", ["run"], DIGITS + "?- d(A), d(B), d(C), d(D), d(E).", 0, COMPLETE, 3_400_011)


def millions():
    """Terms, lists, sums, goals, calls and answers of a million."""
    a_list, half = threaded(6, "t0([a|T],T)."), threaded(6, "t0([a|T],T).", 5)
    calls = "t0.\n" + "".join(f"t{level} :- {', '.join([f't{level - 1}'] * 10)}.\n" for level in range(1, 7))
    tests = "t0([X|T],T) :- X > 0."
    yield End("a list of a million", LARGEST, a_list + "?- t6(X,[]).", 0, b"a,a]\n% complete\n", 2_000_017)
    yield End("a term of a million", LARGEST, threaded(6, "t0(s(T),T).") + "?- t6(X,z).", 0, b"))\n% complete\n", 3_000_017)
    yield End("a sum of a million", LARGEST, threaded(6, "t0(T+1,T).") + "?- t6(_E,0), X is _E.", 0, b"X = 1000000\n% complete\n", 23)
    yield End("a sum that waits", LARGEST, threaded(6, "t0(1+T,T).") + "?- X is _E, t6(_E,0).", 0, b"X = 1000000\n% complete\n", 23)
    yield End("a sum that is shown", LARGEST, threaded(6, "t0(T+1,T).") + "?- t6(X,0).", 0, b",1),1)\n% complete\n", 5_000_017)
    yield End("two lists of 500,000", LARGEST, half + LATER + "?- t6(_X,[]), t6(_Y,[]), way(Z), same(Z,_X,_Y).", 0, b"Z = 1\nZ = 2\n% complete\n", 23)
    yield End("two lists that end apart", LARGEST, half + LATER + "?- t6(_X,[]), t6(_Y,[b]), way(Z), same(Z,_X,_Y).", 0,
              b"Z = 2\n% complete\n", 17)
    yield End("a circle of a million", LARGEST, a_list + "?- t6(_X,Y), Y = _X.", 1, COMPLETE, 11)
    yield End("a circle of two halves", LARGEST, half + "?- t6(_X,Y), t6(_U,Z), Y = _U, Z = _X.", 1, COMPLETE, 11)
    yield End("900,000 tests that wait", LARGEST, threaded(6, tests, 9) + "?- t6(X,[]).", 8, b">(_899999,0)\n% complete\n")
    yield End("300,000 tests that are woken", LARGEST, threaded(6, tests, 3) + "w([]). w([1|T]) :- w(T). ?- t6(X,[]), w(X).",
              0, b"1,1]\n% complete\n", 600_017)
    yield End("a million calls", LARGEST, calls + "?- t6.", 0, TRUE, 16)
    yield End("a million calls, explained", ["explain", "1", *LARGEST[1:]], calls + "?- t6.", 0, b"%% line true\n")
    yield End("goals as many as the limit lets", LARGEST, "c :- c, q. q. ?- c.", 6, MET, 12)
    yield End("a million answers", ["run"], DIGITS + "?- d(A), d(B), d(C), d(D), d(E), d(F).", 0, COMPLETE, 41_000_011)
    yield End("the millionth answer", ["first", "1000000"], DIGITS + "?- d(A), d(B), d(C), d(D), d(E), d(F).", 0, b"within 256\n")
    yield End("a chain of a million", LARGEST, "c(0). c(N) :- N > 0, M is N-1, c(M). ?- c(1000000).", 6, MET, 12)
    yield End("20,000 terms and their lists", ["run", "--limit", "20000"],
              "n(z). n(s(N)) :- n(N). l(z,[]). l(s(N),[a|T]) :- l(N,T). ?- n(X), l(X,_L).", 6, MET)


def all_ends(trial):
    for edge in EDGES:
        yield End(edge.name, edge.words, edge.text, edge.status, edge.output.encode(), len(edge.output))
    yield from counts()
    yield from nested()
    yield from options()
    yield from megabytes(trial.quick)
    yield from large()
    if not trial.quick:
        yield from millions()
        for end in [*large(), *millions()]:
            if end.words[0] == "run":
                yield end._replace(name=f"{end.name}, 8 teams", words=[*end.words, "--teams", "8", "--workers", "8"])


def ends(trial):
    for name, words, text, status, end, length in all_ends(trial):
        found = trial.run(words, text, seconds=900)
        is_due = found[0] == status if status is not None else found[0] in (0, 1, 6, 8)
        if not is_due or not found[1].endswith(end) or (length is not None and len(found[1]) != length):
            trial.broke(f"{name} ({len(found[1])} bytes)", words, text, found)
        if trial.took > 1 and not trial.quick:
            print(f"{name:40} {trial.took:7.2f} s", flush=True)
