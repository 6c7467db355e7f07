#!/usr/bin/env python3
"""Writes the fork tree of a text, in plain Python by the definitions, or compares it with what `andorra tree` writes.

    yard/forks.py [--limit N] < text                       the lines of the tree
    yard/forks.py --random N [--seed S] [--program P]      N random texts, by both, with the counts of `run --stats`
    yard/forks.py --check FILE .. [--program P]            these texts, in the same way

A goal with one candidate is reduced wherever it stands, and where none has one alone, the leftmost goal is tried with
each of its candidates. All goals are judged anew after each step. It shares nothing with the program.
"""
import argparse
import random
import re
import subprocess
import sys

import common
from evaluate import Writer
from plain import Either, TooLong, fresh, is_arithmetic, line, read, run_waiting, undo, unify



class Cut(Exception):
    """The limit keeps the search from going on."""


class ForkTree:
    """The lines of the fork tree of a program within a limit."""

    def __init__(self, program, limit, steps=1_000_000):
        self.query, clauses = program
        self.limit, self.steps = limit, steps
        self.trail, self.lines = [], []
        self.by_name = {}
        for clause in clauses.values():
            self.by_name.setdefault((clause.head[0], len(clause.head)), []).append(clause)

    def run(self):
        if self.query.weight > self.limit:
            raise Cut
        _, body, self.variables = fresh(self.query)
        still_to_come = [(0, 0, self.query.weight, [], 0, None, body)]
        while still_to_come:
            depth, length, weight, goals, place, choice, body = still_to_come.pop()
            undo(self.trail, length)
            if choice is not None:
                body, weight = self.taken(goals[place], choice), weight + choice.weight
            self.walk(depth, weight, goals[:place], body, goals[place + 1:], still_to_come)
        return self

    def walk(self, depth, weight, before, body, behind, still_to_come):
        """Reduces a branch to its state and writes its line; where it is a fork, its children are still to come."""
        while True:
            goals = self.with_body(before, body, behind)
            found = None if goals is None else self.judged(goals, self.limit - weight)
            if found is None:
                self.lines.append(f'{depth} failed')
                return
            place, choices = found
            if place is None:
                kind = 'floundered' if goals else 'answer'
                self.lines.append(f'{depth} {kind} {line(self.variables, goals, {})}')
                return
            fitting = [choice for choice in choices if weight + choice.weight <= self.limit]
            if len(fitting) < len(choices):
                self.met_limit()
            if not fitting:
                return
            if len(choices) > 1:
                choices = fitting
                break
            weight += choices[0].weight
            before, body, behind = goals[:place], self.taken(goals[place], choices[0]), goals[place + 1:]
        self.lines.append(f'{depth} fork ' + ' '.join(str(choice.number) for choice in choices))
        length = len(self.trail)
        for choice in reversed(choices):
            still_to_come.append((depth + 1, length, weight, goals, place, choice, None))

    def met_limit(self):
        raise Cut

    def with_body(self, before, body, behind):
        """The goals with a body's among them, what can be run being run; None where there is no solution."""
        goals = []
        for item in body:
            if item == ('fail',):
                return None
            if item[0] == '=' and len(item) == 3:
                if not unify(item[1], item[2], self.trail):
                    return None
            else:
                goals.append(item)
        goals = before + goals + behind
        waiting = run_waiting([goal for goal in goals if self.is_waiting(goal)], self.trail)
        if waiting is None:
            return None
        left = list(map(id, waiting))
        return [goal for goal in goals if not self.is_waiting(goal) or id(goal) in left]

    def is_waiting(self, goal):
        return type(goal) is not Either and is_arithmetic(goal)

    def judged(self, goals, room):
        """The place of the goal that is to be taken, with its candidates: one that has one alone, if possible one that
        weighs no more than there is room for, or else the leftmost. None where some goal has no candidate."""
        light, alone, first = None, None, None
        for place, goal in enumerate(goals):
            if self.is_waiting(goal):
                continue
            choices = self.candidates(goal)
            if not choices:
                return None
            if len(choices) == 1:
                alone = alone or (place, choices)
                if choices[0].weight <= room:
                    light = light or (place, choices)
            first = first or (place, choices)
        return light or alone or first or (None, [])

    def candidates(self, goal):
        self.steps -= 1
        if self.steps < 0:
            raise TooLong
        choices = goal.alternatives if type(goal) is Either else self.by_name.get((goal[0], len(goal)), [])
        return [choice for choice in choices if self.is_candidate(goal, choice)]

    def is_candidate(self, goal, choice):
        """Whether the head fits, and no comparison with which the body begins is false then."""
        length = len(self.trail)
        body = self.taken(goal, choice)
        fits = body is not None
        for item in body or []:
            if type(item) is Either or not is_arithmetic(item) or item[0] == 'is':
                break
            fits = fits and run_waiting([item], self.trail) is not None
        undo(self.trail, length)
        return fits

    def taken(self, goal, choice):
        """The body of the choice for the goal; None where the head does not fit."""
        if type(goal) is Either:
            return choice.body
        head, body, _ = fresh(choice)
        return body if unify(goal, head, self.trail) else None


def tree_of(text, limit, steps=1_000_000):
    try:
        return [*ForkTree(read(text), limit, steps).run().lines, '% complete']
    except Cut:
        return ['% limit met']


def written(program, text, *words):
    done = subprocess.run([program, *words], input=text.encode(), capture_output=True, timeout=300)
    return done.stdout.decode().splitlines(), done.returncode


def differs(program, text, limit):
    """What the program writes for a text and should not; None where all is well or the text is too long a search."""
    try:
        plain = tree_of(text, limit)
    except TooLong:
        return None
    lines, status = written(program, text, 'tree', '--limit', str(limit))
    if lines != plain and lines != ['% limit met']:
        return 'another tree'
    if lines != plain:
        return None
    kinds = [found.group(1) for found in map(re.compile(r'\d+ (\w+)').match, lines) if found]
    due = 6 if lines == ['% limit met'] else 8 if 'floundered' in kinds else 0 if 'answer' in kinds else 1
    if status != due:
        return f'status {status} in place of {due}'
    if due == 6:
        return None
    for teams in ('1', '3', '16'):
        told, _ = written(program, text, 'run', '--limit', str(limit), '--stats', '--teams', teams)
        counts = f'% forks {kinds.count("fork")} failed {kinds.count("failed")}'
        if told[-2:] != ['% complete', counts] and told[-1] != '% limit met':
            return f'{told[-1]} with {teams} teams, and the tree has {counts}'
    return None


def compare(arguments):
    dice, texts = random.Random(arguments.seed), []
    for place in range(arguments.random or 0):
        texts.append((f'text {place}', Writer(dice).text(), dice.choice([8, 12, 20, 30, 40])))
    for path in arguments.check or []:
        with open(path) as source:
            texts.append((path, source.read(), arguments.limit))
    wrong = 0
    for name, text, limit in texts:
        found = differs(arguments.program, text, limit)
        if found:
            wrong += 1
            print(f'{name}, limit {limit}: {found}\n{text}', flush=True)
    print(f'{len(texts)} texts, {wrong} differ')
    return 1 if wrong else 0


def main():
    words = argparse.ArgumentParser()
    words.add_argument('--limit', type=int, default=262_144)
    words.add_argument('--random', type=int)
    words.add_argument('--check', nargs='*')
    words.add_argument('--seed', type=int, default=1)
    common.add_program(words)
    arguments = words.parse_args()
    if arguments.random or arguments.check:
        return compare(arguments)
    print(*tree_of(sys.stdin.read(), arguments.limit, 100_000_000), sep='\n')
    return 0


if __name__ == '__main__':
    sys.exit(main())
