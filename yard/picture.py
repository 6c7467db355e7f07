#!/usr/bin/env python3
"""Draws a proof or a fork tree as a graph for Graphviz.

    andorra explain 1 < text | yard/picture.py proof [--svg FILE]
    andorra tree < text      | yard/picture.py tree [--text TEXT] [--most N] [--points] [--svg FILE]

Writes dot on standard output, or an SVG by Graphviz's `dot` (Debian: apt install graphviz). A fork is a node
with an edge for each clause; answers are green and tell their line, failed branches are grey. A subtree of
more than N lines (40) is folded to its counts. With the text the edges say the clauses' heads. With --points
each node is a point of its colour, so that a large tree is seen whole.
"""
import argparse
import re
import shutil
import subprocess
import sys


def quoted(text, longest=60):
    text = text if len(text) <= longest else text[:longest - 2] + ' …'
    return '"' + text.replace('\\', '\\\\').replace('"', '\\"') + '"'


class Graph:
    def __init__(self):
        self.lines, self.count = [], 0

    def node(self, label, **more):
        self.count += 1
        name = f'n{self.count}'
        told = ' '.join(f'{key}={quoted(value, 400)}' for key, value in more.items())
        self.lines.append(f'  {name} [label={quoted(label)} {told}];')
        return name

    def edge(self, above, below, label=''):
        self.lines.append(f'  {above} -> {below} [label={quoted(label, 40)}];')

    def text(self):
        head = ['digraph {', '  node [shape=box style="rounded,filled" fillcolor=white fontname="monospace" fontsize=10];',
                '  edge [fontname="monospace" fontsize=9 arrowsize=0.6];']
        return '\n'.join(head + self.lines + ['}']) + '\n'


def proof(source):
    """A node a call, with its clause's number, below the call whose clause has it in its body."""
    lines = source.split('\n')
    places = [place for place, found in enumerate(lines) if found == '%% proof']
    if not places:
        sys.exit('picture: there is no proof in this text')
    graph, above = Graph(), []
    for text in lines[places[-1] + 1:]:
        told = re.match(r'%% line (.*)', text)
        if told:
            graph.lines.insert(0, f'  label={quoted(told.group(1), 200)}; labelloc=t; fontname="monospace";')
            continue
        entry = re.match(r'%% (\d+) (\d+) (.*)', text)
        if entry:
            depth, clause, goal = int(entry.group(1)), entry.group(2), entry.group(3)
            node = graph.node(goal, tooltip=f'clause {clause}')
            del above[depth - 1:]
            if above:
                graph.edge(above[-1], node, clause)
            above.append(node)
    return graph.text()


class Tree:
    """A node of a fork tree: its kind, the clauses of its fork or its line, and what is below it."""

    def __init__(self, kind, told):
        self.kind, self.told, self.below = kind, told, []

    def counts(self):
        found = {}
        stack = [self]
        while stack:
            node = stack.pop()
            found[node.kind] = found.get(node.kind, 0) + 1
            stack += node.below
        return found


def read_tree(source):
    root, path = None, []
    for text in source.splitlines():
        found = re.match(r'(\d+) (fork|failed|answer|floundered) ?(.*)', text)
        if not found:
            continue
        depth, node = int(found.group(1)), Tree(found.group(2), found.group(3))
        del path[depth:]
        if path:
            path[-1].below.append(node)
        else:
            root = node
        path.append(node)
    if root is None:
        sys.exit('picture: there is no fork tree in this text')
    return root


def heads_of(path):
    """What stands for a clause's number on an edge: the beginning of its clause in the text."""
    if path is None:
        return {}
    with open(path) as file:
        text = re.sub(r'%[^\n]*', '', file.read())
    clauses = [clause.strip() for clause in re.split(r'\.(?=\s|$)', text) if clause.strip()]
    heads = [' '.join(clause.split(':-')[0].split()) for clause in clauses if not clause.startswith('?-')]
    return {str(place): f'{place}: {head}' for place, head in enumerate(heads, 1)}


COLOURS = {'fork': 'steelblue', 'failed': 'grey70', 'answer': 'green3', 'floundered': 'gold'}


def points(source):
    """The whole tree, a point a node."""
    graph = Graph()
    graph.lines += ['  graph [nodesep=0.03 ranksep=0.35]; edge [arrowhead=none color=grey80];', '  node [shape=point];']
    stack = [(read_tree(source), None)]
    while stack:
        node, above = stack.pop()
        size = '0.16' if node.kind == 'answer' else '0.07'
        name = graph.node('', color=COLOURS[node.kind], fillcolor=COLOURS[node.kind], width=size, tooltip=f'{node.kind} {node.told}')
        if above is not None:
            graph.edge(above, name)
        stack += [(below, name) for below in reversed(node.below)]
    return graph.text()


def tree(source, heads, most):
    graph = Graph()
    stack = [(read_tree(source), None, '')]
    while stack:
        node, above, label = stack.pop()
        counts = node.counts()
        if above is not None and node.kind == 'fork' and sum(counts.values()) > most:
            name = graph.node(', '.join(f'{count} {kind}' for kind, count in counts.items()), shape='folder', fillcolor='lightyellow')
        elif node.kind == 'fork':
            name = graph.node('fork', shape='circle', fillcolor='lightblue')
            clauses = node.told.split()
            stack += [(below, name, heads.get(clause, clause)) for clause, below in zip(clauses, node.below)][::-1]
        elif node.kind == 'failed':
            name = graph.node('failed', fillcolor='lightgrey', color='grey', fontcolor='grey40')
        else:
            colour = 'palegreen' if node.kind == 'answer' else 'khaki'
            name = graph.node(node.told, fillcolor=colour, tooltip=node.told)
        if above is not None:
            graph.edge(above, name, label)
    return graph.text()


def main():
    words = argparse.ArgumentParser()
    words.add_argument('what', choices=['proof', 'tree'])
    words.add_argument('--text')
    words.add_argument('--most', type=int, default=40)
    words.add_argument('--points', action='store_true')
    words.add_argument('--svg')
    arguments = words.parse_args()
    source = sys.stdin.read()
    if arguments.what == 'proof':
        drawn = proof(source)
    else:
        drawn = points(source) if arguments.points else tree(source, heads_of(arguments.text), arguments.most)
    if arguments.svg is None:
        sys.stdout.write(drawn)
        return 0
    if shutil.which('dot') is None:
        sys.exit('picture: Graphviz is not here (Debian: apt install graphviz); without --svg its input is written')
    return subprocess.run(['dot', '-Tsvg', '-o', arguments.svg], input=drawn.encode()).returncode


if __name__ == '__main__':
    sys.exit(main())
