#!/usr/bin/env python3
"""What it costs to read a text: makes texts of one size and several kinds, and counts what `run` takes for each, whose
query is true, or `check`, by which nothing is compiled; or with --alone what `run` takes to read each and refuse it,
since its query calls a predicate that is not there, so that reading is all that is done.

    yard/reading.py PROGRAM [--command run|check] [--alone] [--bytes N] [--times K] [--only KIND..] [--texts FOLDER]

For each kind a line with the instructions of the whole program (valgrind --tool=callgrind) in millions, its processor
time in milliseconds, the least of K runs, and the pages that it touched; behind them the first two as shares of those of
clauses. With --texts the texts are written there and stay.
"""
import argparse
import os
import re
import subprocess
import sys
import tempfile


def clauses(number):
    """A clause with a body of calls with two arguments."""
    return f'p{number}(X, Y) :- q{number % 50}(X, Z), r{number % 30}(Z, a{number}), s{number % 20}(Z, Y).\n'


def facts(number):
    """A fact of two places."""
    return f'f(a{number}, {number}).\n'


def disjunctions(number):
    """A clause whose body is a disjunction of two conjunctions."""
    return (f'p{number}(X, Y) :- ( q{number % 50}(X, Z), r{number % 30}(Z, a{number})'
            f' ; s{number % 20}(X, Y), q{number % 50}(Y, X) ).\n')


def rules(number):
    """A grammar rule of nonterminals and terminals."""
    return f'p{number}(X, Y) --> q{number % 50}(X, Z), [a{number}], r{number % 30}(Z, b), s{number % 20}(Z, Y).\n'


def nested(number):
    """A clause whose body is sixty disjunctions in one another."""
    inner = 's1(X, Y)'
    for level in range(60):
        inner = f'( q{level % 50}(X, Z) ; r{level % 30}(Z, Y), {inner} )'
    return f'p{number}(X, Y) :- {inner}.\n'


# What the predicates that are called have for clauses.
CALLED = ''.join(f'{letter}{number}(_, _).\n' for letter, count in (('q', 50), ('r', 30), ('s', 20))
                 for number in range(count))

CALLED_BY_RULES = ''.join(f'{letter}{number}(_, _, _, _).\n' for letter, count in (('q', 50), ('r', 30), ('s', 20))
                          for number in range(count))

KINDS = {
    'clauses': (clauses, CALLED),
    'facts': (facts, ''),
    'disjunctions': (disjunctions, CALLED),
    'rules': (rules, CALLED_BY_RULES),
    'nested disjunctions': (nested, CALLED),
}


def text_of(kind, size, query):
    """A text of about so many bytes, with that query."""
    one, called = KINDS[kind]
    lines = [called]
    length = len(called)
    number = 0
    while length < size:
        lines.append(one(number))
        length += len(lines[-1])
        number += 1
    lines.append(f'?- {query}.\n')
    return ''.join(lines)


def instructions(words, path):
    """How many millions of instructions that command takes for that text."""
    with open(path) as text, tempfile.NamedTemporaryFile() as out:
        told = subprocess.run(['valgrind', '--tool=callgrind', f'--callgrind-out-file={out.name}', *words],
                              stdin=text, stdout=subprocess.DEVNULL, stderr=subprocess.PIPE, text=True).stderr
    found = re.search(r'Collected : (\d+)', told)
    return int(found.group(1)) / 1e6 if found else float('nan')


def times_and_pages(words, path, times):
    """The least processor time of so many runs of that command for that text, in milliseconds, and the fewest pages."""
    least = None
    for _ in range(times):
        with open(path) as text:
            child = subprocess.Popen(words, stdin=text, stdout=subprocess.DEVNULL)
            usage = os.wait4(child.pid, 0)[2]
        took = 1000 * (usage.ru_utime + usage.ru_stime), usage.ru_minflt
        least = took if least is None else tuple(map(min, least, took))
    return least


def main():
    parser = argparse.ArgumentParser(description=__doc__, formatter_class=argparse.RawDescriptionHelpFormatter)
    parser.add_argument('program')
    parser.add_argument('--command', choices=['run', 'check'], default='run')
    parser.add_argument('--alone', action='store_true')
    parser.add_argument('--bytes', type=int, default=251_000)
    parser.add_argument('--times', type=int, default=15)
    parser.add_argument('--only', nargs='*', choices=list(KINDS))
    parser.add_argument('--texts')
    args = parser.parse_args()
    folder = args.texts or tempfile.mkdtemp()
    os.makedirs(folder, exist_ok=True)
    words = [args.program, args.command, *(['--teams', '1', '--workers', '1'] if args.command == 'run' else [])]
    first = None
    for kind in args.only or KINDS:
        path = os.path.join(folder, kind.replace(' ', '_') + '.pl')
        with open(path, 'w') as file:
            file.write(text_of(kind, args.bytes, 'unheard_of' if args.alone else 'true'))
        time, pages = times_and_pages(words, path, args.times)
        counted = instructions(words, path), time
        first = first or counted
        shares = [f'{this / that:.2f}' for this, that in zip(counted, first)]
        print(f'{kind:20}{counted[0]:8.0f}{time:8.1f} ms{pages:8}{shares[0]:>8}{shares[1]:>6}')
        sys.stdout.flush()


if __name__ == '__main__':
    main()
