#!/usr/bin/env python3
"""Explains answers of the examples, checks each proof by the program and by yard/verify.py, and changes bytes of proofs.

    yard/proofs.py [--program FILE] [--all N]

Each example's first answer and its last are explained, and both checkers must say that the proof holds. Of N documents (5),
the shortest, each byte of the proof part is changed in turn, and the program must say that it fails. Fewer lines mean that
an example has no answer within its limit.
"""
import argparse
import re
import subprocess
import sys

import common

MARK = b'%% proof\n'


def run(command, text):
    done = subprocess.run(command, input=text, capture_output=True, check=False, timeout=600)
    return done.stdout, done.returncode


def places(program, text, words):
    """The first place and the last of a run's lines."""
    written, _ = run([program, 'run', *words], text)
    lines = [line for line in written.decode().splitlines() if not line.startswith('% ')]
    return sorted({1, len(lines)} - {0}) if lines else []


def documents(program):
    """The name and the document of each answer that is explained."""
    for example in sorted((common.TOP / 'examples').glob('*.pl')):
        text = example.read_bytes()
        said = re.search(rb'^% run: (.*)$', text, re.MULTILINE)
        words = [word for word in said.group(1).decode().split() if word != '--stats'] if said else []
        for place in places(program, text, words):
            document, status = run([program, 'explain', str(place), *words], text)
            if status:
                print(f'{example.name}: explain {place} ends with {status}')
            yield f'{example.name} {place}', document


def changed(document, place):
    """The document with another byte at the place: the next letter, or a letter for what is none."""
    byte = document[place]
    other = byte + 1 if 0x30 <= byte <= 0x79 else 0x61
    return document[:place] + bytes([other]) + document[place + 1:]


def main():
    options = argparse.ArgumentParser(description=__doc__, formatter_class=argparse.RawDescriptionHelpFormatter)
    common.add_program(options)
    options.add_argument('--all', type=int, default=5)
    given = options.parse_args()
    wrong, found = 0, []
    for name, document in documents(given.program):
        ours = run([given.program, 'verify'], document)
        theirs = run([sys.executable, str(common.TOP / 'yard' / 'verify.py')], document)
        if ours != (b'holds\n', 0) or theirs != (b'holds\n', 0):
            wrong += 1
            print(f'{name}: {ours} and by verify.py {theirs}')
        found.append((len(document) - document.rindex(MARK), name, document))
    print(f'{len(found)} documents, {wrong} that do not hold')
    tried = passed = 0
    for size, name, document in sorted(found)[:given.all]:
        for place in range(len(document) - size, len(document)):
            tried += 1
            answer = run([given.program, 'verify'], changed(document, place))
            if answer[0] == b'holds\n':
                passed += 1
                print(f'{name}: byte {place} may be another')
    print(f'{tried} bytes changed, {passed} unnoticed')
    return 1 if wrong or passed else 0


if __name__ == '__main__':
    sys.exit(main())
