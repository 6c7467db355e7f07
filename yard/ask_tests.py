#!/usr/bin/env python3
"""Calls `ask` as users do, rightly and wrongly, and compares the status, what is written, and a piece of what stands on standard error.

    yard/ask_tests.py [--program FILE]
"""

import argparse
import os
import subprocess
import sys
import tempfile

import common


# the files that the rows name
FILES = {
    "p.pl": "p(a).\np(b).\n",
    "q.pl": "% a comment: 'x. /*\nq(b). q(c).\n?- q(X).\n",
    "own.pl": "append(a, b, c).\n",
    "open.pl": "p(a).\nq(b)",
    "comment.pl": "p(a). /* never closed\n",
    "pointless.pl": "p(a)\np(b).\n",
    "cut.pl": "p(a).\n\np(X) :- p(X), !.\n",
    "space.pl": "p (a).\n",
    "umlaut.pl": "p(ö).\n",
    "quoted.pl": "p('ö').\n",
    "comma.pl": "p(1),\np(2).\n",
    "parent.pl": "parent(a, b).\nold(X) :- parent(X).\n",
    "waits.pl": "p(X) :- X < 3.\n",
    "-x.pl": "p(dash).\n",
    "no_newline.pl": "p(a).",
}

DONE = "% complete\n"

# the words, standard input, the status, what is written, and a piece of standard error
ROWS = [
    (["p.pl", "p(X)"], "", 0, "X = a\nX = b\n" + DONE, ""),
    (["p.pl", "?- p(X)."], "", 0, "X = a\nX = b\n" + DONE, ""),
    (["p.pl", "p(X) % all"], "", 0, "X = a\nX = b\n" + DONE, ""),
    (["p.pl", "p(X). % all"], "", 0, "X = a\nX = b\n" + DONE, ""),
    (["X = 'a.'"], "", 0, "X = 'a.'\n" + DONE, ""),
    (["X = 'é'"], "", 0, "X = 'é'\n" + DONE, ""),
    (["X = +"], "", 0, "X = +\n" + DONE, ""),
    (["-(3) = X"], "", 0, "X = -(3)\n" + DONE, ""),
    (["q.pl"], "", 0, "X = b\nX = c\n" + DONE, ""),
    (["p.pl", "q.pl", "p(X), q(X)"], "", 0, "X = b\n" + DONE, "the query of q.pl, line 3, is left out"),
    (["p.pl", "q.pl"], "", 0, "X = b\nX = c\n" + DONE, ""),
    (["no_newline.pl", "p(X)"], "", 0, "X = a\n" + DONE, ""),
    (["--", "-x.pl", "p(X)"], "", 0, "X = dash\n" + DONE, ""),
    (["-", "p(X)"], "p(1).", 0, "X = 1\n" + DONE, ""),
    (["-"], "p(1). ?- p(X).", 0, "X = 1\n" + DONE, ""),
    (["--lib", "lists", "append(X, [b], [a,b])"], "", 0, "X = [a]\n" + DONE, ""),
    (["--lib=lists,arith", "between(1, 2, N), length(L, N)"], "", 0, "N = 1, L = [_0]\nN = 2, L = [_0,_1]\n" + DONE, ""),
    (["--lib=lists.pl", "last([a], X)"], "", 0, "X = a\n" + DONE, ""),
    (["own.pl", "--lib", "lists", "append(X, b, c)"], "", 0, "X = a\n" + DONE, "append/3 is taken from own.pl, and not from lib/lists.pl"),
    (["p.pl", "p(X)", "--stats"], "", 0, "X = a\nX = b\n" + DONE + "% forks 1 failed 0\n", ""),
    (["p.pl", "--limit=1", "p(X)"], "", 6, "% limit met\n", ""),
    (["p.pl", "--limit", "0", "p(X)"], "", 2, None, "--limit is from 1 to 4194304"),
    (["p.pl", "p(c)"], "", 1, DONE, ""),
    (["X < 3"], "", 8, "X = _0 with <(_0,3)\n" + DONE, ""),
    (["waits.pl", "--check", "p(X)"], "", 1, "waits: waits.pl:1: X\n", ""),
    (["p.pl", "--check", "p(X)"], "", 0, "safe\n", ""),
    (["open.pl", "p(X)"], "", 3, "open.pl:2: error: syntax\n", "the last clause of open.pl, line 2, is not ended"),
    (["comment.pl", "p(X)"], "", 3, "comment.pl:1: error: syntax\n", "is not ended"),
    (["pointless.pl", "p(X)"], "", 3, "pointless.pl:2: error: syntax\n", "a point missing at the end of line 1?"),
    (["p.pl", "cut.pl", "p(X)"], "", 3, "cut.pl:3: error: not pure\n", "in place of cuts"),
    (["p.pl", "p(X), Y"], "", 3, "query:1: error: not pure\n", "in place of what is not pure"),
    ([r"\+ p(X)"], "", 3, "query:1: error: not pure\n", "in place of negation"),
    (['X = "a"'], "", 3, "query:1: error: not pure\n", "in place of strings"),
    (["-"], ":- p.\n?- p.", 3, "standard input:1: error: not pure\n", "in place of directives"),
    (["space.pl", "p(X)"], "", 3, "space.pl:1: error: syntax\n", "no space stands between p and its bracket"),
    (["umlaut.pl", "p(X)"], "", 3, "umlaut.pl:1: error: syntax\n", "beyond ASCII"),
    (["quoted.pl", "p(X), X / 2"], "", 3, "query:1: error: syntax\n", "/ is no operator"),
    (["comma.pl", "p(X)"], "", 3, "comma.pl:1: error: redefines ','/2\n", "no comma"),
    (["parent.pl", "old(X)"], "", 3, "parent.pl:2: error: unknown parent/1\n", "there is parent/2"),
    (["p.pl", "member(X, [a])"], "", 3, "query:1: error: unknown member/2\n", "--lib lists"),
    (["--lib", "graphs", "walk(a, X, 1, P)"], "", 3, None, "asks for edge/2"),
    (["X=-1"], "", 3, "query:1: error: syntax\n", "write a space before the -"),
    (["p.pl"], "", 3, "p.pl:3: error: no query\n", "as the last word"),
    (["q.pl", "q.pl"], "", 3, "q.pl:3: error: second query\n", "?- q(X)."),
    (["nosuch.pl", "p(X)"], "", 2, "", "can't read nosuch.pl"),
    (["nosuch.pl"], "", 2, "", "can't read nosuch.pl"),
    ([".", "p(X)"], "", 2, "", "can't read .: Is a directory"),
    (["--lib", "nosuch", "p(X)"], "", 2, "", "there is no lib nosuch"),
    (["--lib"], "", 2, "", "--lib wants a word behind it"),
    (["--foo", "p(X)"], "", 2, "", "there is no --foo"),
    ([], "", 2, "", "ask of what?"),
    ([""], "", 2, "", "the query is empty"),
]


def fault_of(row, folder, environment):
    """What is wrong with how a row ends, or None."""
    words, text, status, written, told = row
    done = subprocess.run([str(common.TOP / "ask"), *words], cwd=folder, env=environment, input=text.encode(), capture_output=True, check=False)
    output, errors = done.stdout.decode(), done.stderr.decode()
    if done.returncode != status:
        return f"status {done.returncode}, and not {status}: {output}{errors}"
    if written is not None and output != written:
        return f"written: {output}"
    return None if told in errors and (told or not errors) else f"told: {errors}"


def main():
    options = argparse.ArgumentParser(description=__doc__, formatter_class=argparse.RawDescriptionHelpFormatter)
    common.add_program(options)
    program = os.path.abspath(options.parse_args().program)
    if not common.stands(program):
        return 1
    environment = {**os.environ, "ANDORRA": program, "ANDORRA_PROGRESS": "0"}
    wrong = 0
    with tempfile.TemporaryDirectory() as folder:
        for name, text in FILES.items():
            with open(os.path.join(folder, name), "w", encoding="utf-8") as file:
                file.write(text)
        for row in ROWS:
            fault = fault_of(row, folder, environment)
            if fault:
                wrong += 1
                print(f"ask {' '.join(row[0])}: {fault}")
    print(f"{len(ROWS)} calls, {wrong} of them wrong")
    return 1 if wrong else 0


if __name__ == "__main__":
    sys.exit(main())
