#!/usr/bin/env python3
"""Answers a text as `andorra run` does, in plain Python by the definitions, and compares the two.

    yard/evaluate.py [--limit N] < text                    the lines of the listing within the limit
    yard/evaluate.py --random N [--seed S] [--program P]   N random texts, each by both, at two schedules

Codes are unfolded leftmost first, clauses in the order of the text, as long as they weigh no more than the
limit: no determinate goals first, no guards, no teams. Only equations that have no solution and arithmetic
that is false end a branch early. It shares nothing with the program.
"""
import argparse
import random
import re
import subprocess
import sys

import common
from plain import Either, TooLong, at_most, fresh, is_arithmetic, line, read, run_waiting, undo, unify



APART = object()
SKIPPED, NOT_OVER = 'too long a search', 'where nothing is over the limit'
# so many places of terms a search for a random text goes to at most
PLACES = 500_000


class Search:
    """The listing of a program within a limit."""

    def __init__(self, program, limit, steps=2_000_000):
        self.query, self.clauses = program
        self.limit, self.steps = limit, steps
        self.trail, self.lines, self.is_cut = [], [], False
        self.by_name = {}
        for clause in self.clauses.values():
            self.by_name.setdefault((clause.head[0], len(clause.head)), []).append(clause)

    def run(self):
        if self.query.weight > self.limit:
            self.is_cut = True
            return self
        _, body, self.variables = fresh(self.query)
        open_branches = [(0, None, self.query.weight, linked(body, None), ())]
        while open_branches:
            length, choice, weight, goals, waiting = open_branches.pop()
            undo(self.trail, length)
            if choice is not None:
                goals = self.taken(*choice, goals)
                if goals is APART:
                    continue
            self.go_on(weight, goals, waiting, open_branches)
        return self

    def taken(self, call, clause, goals):
        """The goals behind the choice, or APART where the head does not fit."""
        if type(call) is Either:
            return linked(clause.body, goals)
        head, body, _ = fresh(clause)
        return linked(body, goals) if unify(call, head, self.trail) else APART

    def go_on(self, weight, goals, waiting, open_branches):
        while goals is not None:
            self.steps -= 1
            if self.steps < 0:
                raise TooLong
            item, goals = goals
            if is_arithmetic(item):
                waiting += (item,)
            elif item == ('fail',):
                return
            elif item[0] == '=' and len(item) == 3:
                if not unify(item[1], item[2], self.trail):
                    return
            else:
                return self.put(item, weight, goals, waiting, open_branches)
        left = run_waiting(list(waiting), self.trail)
        if left is not None:
            self.lines.append(line(self.variables, left, {}))

    def put(self, item, weight, goals, waiting, open_branches):
        """Puts the choices for a call, the first on top."""
        self.steps -= len(waiting)
        waiting = run_waiting(list(waiting), self.trail)
        if waiting is None:
            return
        choices = item.alternatives if type(item) is Either else self.by_name.get((item[0], len(item)), [])
        for clause in reversed(choices):
            if weight + clause.weight > self.limit:
                self.is_cut = True
            else:
                open_branches.append((len(self.trail), (item, clause), weight + clause.weight, goals, tuple(waiting)))


def linked(body, goals):
    for item in reversed(body):
        goals = (item, goals)
    return goals


def run(program, text, limit, words):
    """The lines that the program writes, and its status."""
    done = subprocess.run([program, 'run', '--limit', str(limit), *words], input=text.encode(), capture_output=True, timeout=1200, check=False)
    return done.stdout.decode().splitlines(), done.returncode


# ---- random texts

class Writer:
    """Writes random programs: typed terms, guards, arithmetic that waits, wide and deep."""

    def __init__(self, dice):
        self.dice = dice
        self.sizes = {f'p{place}': dice.randint(1, 3) for place in range(dice.randint(1, 4))}

    def term(self, variables, depth=0):
        roll = self.dice.random()
        if roll < 0.4:
            return self.dice.choice(variables)
        if roll < 0.55:
            return str(self.dice.randint(-2, 4))
        if roll < 0.7 or depth > 2:
            return self.dice.choice(['a', 'b', 'c', '[]'])
        if roll < 0.85:
            return f's({self.term(variables, depth + 1)})'
        if roll < 0.95:
            return f'[{self.term(variables, depth + 1)}|{self.term(variables, depth + 1)}]'
        return f'f({self.term(variables, depth + 1)},{self.term(variables, depth + 1)})'

    def number(self, variables):
        roll = self.dice.random()
        if roll < 0.5:
            return self.dice.choice(variables)
        if roll < 0.75:
            return str(self.dice.randint(-3, 5))
        operator = self.dice.choice(['+', '-', '*', '//', ' mod ', ' rem '])
        return f'{self.dice.choice(variables)}{operator}{self.dice.randint(0, 3)}'

    def goal(self, variables):
        roll = self.dice.random()
        if roll < 0.5:
            name = self.dice.choice(list(self.sizes))
            return f'{name}({",".join(self.term(variables) for _ in range(self.sizes[name]))})'
        if roll < 0.65:
            return f'{self.dice.choice(variables)} = {self.term(variables)}'
        if roll < 0.8:
            return f'{self.dice.choice(variables)} is {self.number(variables)}'
        if roll < 0.97:
            comparison = self.dice.choice(['<', '>', '=<', '>=', '=:=', '=\\='])
            return f'{self.number(variables)} {comparison} {self.number(variables)}'
        return self.dice.choice(['true', 'fail'])

    def limit(self):
        return self.dice.choice([8, 12, 20, 30, 40])

    def body(self, variables, most, depth=0):
        """Goals with commas between them, some of them disjunctions."""
        goals = []
        for _ in range(most):
            if depth < 2 and self.dice.random() < 0.08:
                goals.append(f'( {self.body(variables, 1, depth + 1)} ; {self.body(variables, self.dice.randint(1, 2), depth + 1)} )')
            else:
                goals.append(self.goal(variables))
        return ', '.join(goals)

    def text(self):
        out = []
        for name, size in self.sizes.items():
            for _ in range(self.dice.randint(1, 4)):
                variables = self.dice.sample(['X', 'Y', 'Z', 'U', '_'], self.dice.randint(1, 4))
                head = f'{name}({",".join(self.term(variables) for _ in range(size))})'
                count = self.dice.choice([0, 0, 1, 1, 2, 3])
                out.append(f'{head} :- {self.body(variables, count)}.' if count else f'{head}.')
        self.dice.shuffle(out)
        return '\n'.join(out + [f'?- {self.body(["A", "B", "_C"], self.dice.randint(1, 3))}.']) + '\n'


class TypedWriter:
    """Writes programs whose arguments have types, and which go down a list, a term or a number: deep ones, and wide ones over tables."""

    def __init__(self, dice):
        self.dice = dice
        self.sorts = {f'p{place}': [dice.choice(['list', 'nat', 'int', 'name']) for _ in range(dice.randint(1, 3))]
                      for place in range(dice.randint(1, 3))}
        self.tables = {f'k{place}': dice.randint(2, 9) for place in range(dice.randint(1, 2))}
        self.depth = dice.choice([2, 3, 3, 4, 6, 10])

    def limit(self):
        return self.dice.choice([20, 40, 80, 150])

    def value(self, sort, depth):
        """A ground term of the sort, or with a variable in it now and then."""
        if self.dice.random() < 0.06:
            return '_'
        if sort == 'list':
            return '[' + ','.join(self.value('int', 0) for _ in range(depth)) + ']'
        if sort == 'nat':
            return 's(' * depth + 'z' + ')' * depth
        return str(self.dice.randint(0, depth)) if sort == 'int' else self.dice.choice(['a', 'b', 'c'])

    def least(self, sort):
        return {'list': '[]', 'nat': 'z', 'int': self.dice.choice(['0', 'N']), 'name': self.dice.choice(['a', 'b', '_'])}[sort]

    def parts(self, sort, place):
        """How an argument looks in the head of a clause that goes on, its rest, and goals that tie the two."""
        if sort == 'list':
            return f'[H{place}|T{place}]', f'T{place}', []
        if sort == 'nat':
            return f's(T{place})', f'T{place}', []
        if sort == 'int':
            step = self.dice.choice([f'M{place} is N{place}-1', f'N{place} is M{place}+1', f'N{place}-1 =:= M{place}'])
            return f'N{place}', f'M{place}', [f'N{place} > 0', step]
        return f'A{place}', self.dice.choice([f'A{place}', 'a', 'b', f'B{place}']), []

    def extra(self, variables):
        """A goal over these variables: a test, a table, another predicate, or a choice of two."""
        roll, one = self.dice.random(), self.dice.choice(variables)
        if roll < 0.3:
            return f'{one} {self.dice.choice(["<", ">", "=<", ">=", "=:=", "=" + chr(92) + "="])} {self.dice.randint(0, 4)}'
        if roll < 0.6:
            table = self.dice.choice(list(self.tables))
            return f'{table}({one},{self.dice.choice(variables)})'
        if roll < 0.75:
            name = self.dice.choice(list(self.sorts))
            return f'{name}({",".join(self.dice.choice([*variables, self.value(sort, 1)]) for sort in self.sorts[name])})'
        if roll < 0.9:
            return f'( {one} = {self.dice.randint(0, 2)} ; {one} = {self.dice.choice(variables)} )'
        return f'{one} is {self.dice.choice(variables)} {self.dice.choice(["+", "-", "*", "//", "mod"])} {self.dice.randint(0, 2)}'

    def clauses(self, name, sorts):
        yield f'{name}({",".join(self.least(sort) for sort in sorts)}).'
        for _ in range(self.dice.choice([1, 1, 2])):
            heads, rests, ties = zip(*(self.parts(sort, place) for place, sort in enumerate(sorts)))
            goals = [goal for tie in ties for goal in tie] + [f'{name}({",".join(rests)})']
            variables = sorted({*re.findall(r'[A-Z][0-9]*', ' '.join(heads + rests))})
            goals += [self.extra(variables) for _ in range(self.dice.choice([0, 0, 1, 2]))]
            self.dice.shuffle(goals)
            yield f'{name}({",".join(heads)}) :- {", ".join(goals)}.'

    def rule(self):
        """A grammar rule or two for words of a and b."""
        yield self.dice.choice(['w --> [].', 'w --> [a].', 'w --> {1 < 2}, [b].'])
        yield self.dice.choice(['w --> [a], w.', 'w --> [a], w, [b].', 'w --> ( [a] ; [b] ), w.', 'w --> w, [a].'])

    def text(self):
        out = [clause for name, sorts in self.sorts.items() for clause in self.clauses(name, sorts)]
        for name, size in self.tables.items():
            out += [f'{name}({self.dice.randint(0, 3)},{self.dice.choice(["a", "b", self.dice.randint(0, 4)])}).' for _ in range(size)]
        asked = []
        for name in self.dice.sample(list(self.sorts), self.dice.randint(1, len(self.sorts))):
            values = [self.dice.choice([self.value(sort, self.depth), self.value(sort, self.depth), 'X', 'Y']) for sort in self.sorts[name]]
            asked.append(f'{name}({",".join(values)})')
        if self.dice.random() < 0.5:
            asked.append(self.extra(['X', 'Y', 'Z']))
        if self.dice.random() < 0.15:
            out += self.rule()
            asked.append(f'w([{",".join(self.dice.choice("ab") for _ in range(min(self.depth, 6)))}],R)')
        self.dice.shuffle(asked)
        return '\n'.join(out + [f'?- {", ".join(asked)}.']) + '\n'


def differs(program, text, limit):
    """What the program writes for a text and should not; None where all is well, and SKIPPED where the text is too long a search."""
    try:
        with at_most(PLACES):
            plain = Search(read(text), limit, 3_000).run()
    except TooLong:
        return SKIPPED
    told = []
    for words in (['--teams', '1', '--workers', '1'], ['--teams', '3', '--workers', '2']):
        lines, status = run(program, text, limit, words)
        told.append((lines, status))
        if status not in (0, 1, 6, 8):
            return f'status {status} with {" ".join(words)}'
        if lines[:-1] != plain.lines:
            return f'other lines with {" ".join(words)}'
        if not plain.is_cut and lines[-1] != '% complete':
            return f'{lines[-1]} with {" ".join(words)}, {NOT_OVER}'
        if lines[-1] == '% complete' and plain.is_cut:
            try:
                with at_most(PLACES):
                    larger = Search(read(text), 2 * limit, 6_000).run()
                if larger.lines != plain.lines:
                    return 'complete, and a larger limit has other lines'
            except TooLong:
                pass
    return None if told[0] == told[1] else 'two schedules differ'


def try_random(arguments):
    dice, wrong = random.Random(arguments.seed), 0
    for number in range(arguments.random):
        writer = (Writer if number % 4 else TypedWriter)(dice)
        text, limit = writer.text(), writer.limit()
        found = differs(arguments.program, text, limit)
        if found and found != SKIPPED:
            wrong += 1
            print(f'text {number}, limit {limit}: {found}\n{text}', flush=True)
    print(f'{arguments.random} texts, {wrong} differ')
    return 1 if wrong else 0


def main():
    sys.setrecursionlimit(100_000)
    words = argparse.ArgumentParser()
    words.add_argument('--limit', type=int, default=262_144)
    words.add_argument('--random', type=int)
    words.add_argument('--seed', type=int, default=1)
    common.add_program(words)
    arguments = words.parse_args()
    if arguments.random:
        return try_random(arguments)
    found = Search(read(sys.stdin.read()), arguments.limit).run()
    print(*found.lines, '% limit met' if found.is_cut else '% complete', sep='\n')
    return 0


if __name__ == '__main__':
    sys.exit(main())
