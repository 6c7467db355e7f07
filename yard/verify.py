#!/usr/bin/env python3
"""Checks a document that `andorra explain` wrote: whether its proof is one of its program.

    yard/verify.py < document        `holds` with status 0, else `fails` with status 1

It is independent of the program: no search, and no code in common. The program part is taken as it stands
(a text that the program refuses may pass here). The proof names a clause for each call, leftmost first; the
calls are replaced so, and the lines that follow from that are compared with those that stand there.
"""
import re
import sys

from plain import Either, Fault, fresh, is_arithmetic, line, printed, read, run_waiting, unify

MARK = '%% proof'
MOST_WEIGHT = 4_194_304


def parted(text):
    """The program part and the lines of the proof part, from its mark on; None where there is no mark."""
    lines = text.split('\n')
    places = [place for place, found in enumerate(lines[:-1]) if found == MARK]
    if not places or lines[-1] != '':
        return None
    return '\n'.join(lines[:places[-1]]) + '\n', lines[places[-1]:-1]


def numbers_of(lines):
    """The code: a clause number, or that of an alternative, off each line of a call."""
    numbers = []
    for text in lines[1:-1]:
        found = re.match(r'%% (0|[1-9][0-9]*) (0|[1-9][0-9]*) ', text)
        if not found:
            raise Fault('no entry')
        numbers.append(int(found.group(2)))
    return numbers


class Proof:
    """Replaces calls, leftmost first, by the clauses of a code."""

    def __init__(self, program, code):
        self.query, self.clauses = program
        self.code, self.at = code, 0
        self.trail, self.waiting, self.entries, self.weight = [], [], [], 0

    def weigh(self, weight):
        self.weight += weight
        if self.weight > MOST_WEIGHT:
            raise Fault('too heavy')

    def run(self):
        self.weigh(self.query.weight)
        _, body, self.variables = fresh(self.query)
        stack = [(item, 1) for item in reversed(body)]
        while stack:
            item, depth = stack.pop()
            if is_arithmetic(item):
                self.waiting.append(item)
            elif item == ('fail',):
                raise Fault('fail')
            elif item[0] == '=' and len(item) == 3:
                if not unify(item[1], item[2], self.trail):
                    raise Fault('apart')
            else:
                stack += [(below, depth + 1) for below in reversed(self.replaced(item, depth))]
        if self.at < len(self.code):
            raise Fault('a number too many')
        self.waiting = run_waiting(self.waiting, self.trail)
        if self.waiting is None:
            raise Fault('arithmetic')

    def replaced(self, item, depth):
        """The items in the place of a call or a disjunction."""
        if self.at >= len(self.code):
            raise Fault('a number is missing')
        number = self.code[self.at]
        self.at += 1
        self.entries.append((depth, number, item))
        if type(item) is Either:
            for alternative in item.alternatives:
                if alternative.number == number:
                    self.weigh(alternative.weight)
                    return alternative.body
            raise Fault('no such alternative')
        if number not in self.clauses:
            raise Fault('no such clause')
        clause = self.clauses[number]
        self.weigh(clause.weight)
        head, body, _ = fresh(clause)
        if head[0] != item[0] or len(head) != len(item):
            raise Fault('another predicate')
        if not unify(item, head, self.trail):
            raise Fault('apart')
        return body

    def lines(self):
        """What the proof part has to be."""
        names = {}
        last = line(self.variables, self.waiting, names)
        told = [f'%% {depth} {number} {";" if type(item) is Either else printed(item, names)}'
                for depth, number, item in self.entries]
        return [MARK] + told + [f'%% line {last}']


def holds(text):
    """Whether the document's proof is one of its program."""
    parts = parted(text)
    if parts is None:
        return False
    program, lines = parts
    try:
        proof = Proof(read(program), numbers_of(lines))
        proof.run()
    except Fault:
        return False
    return proof.lines() == lines


def main():
    sys.setrecursionlimit(100_000)
    sound = holds(sys.stdin.buffer.read().decode('utf-8', 'surrogateescape'))
    print('holds' if sound else 'fails')
    return 0 if sound else 1


if __name__ == '__main__':
    sys.exit(main())
