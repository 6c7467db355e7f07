"""The language of Andorra in plain Python, by its definitions: reading, printing, numbers and unification.

It shares nothing with the program. It reads texts that the program takes (a text that it refuses may pass
here), with disjunctions in bodies and grammar rules.
"""
import contextlib
import math
import re

# Terms: a variable is a Var, a number an int, anything else a tuple (name, argument, ..).
LEAST, MOST = -2**63, 2**63 - 1
NIL, CELL = '[]', '.'
COMPARISONS = {'<': lambda a, b: a < b, '>': lambda a, b: a > b, '=<': lambda a, b: a <= b,
               '>=': lambda a, b: a >= b, '=:=': lambda a, b: a == b, '=\\=': lambda a, b: a != b}
SYMBOLS = '+-*/\\^<>=~:.?@#&$'


class Fault(Exception):
    """The text is none that this module reads."""


class TooLong(Exception):
    """More steps, or more places of terms, than are worth it."""


class Places:
    """How many places of terms may still be gone to."""
    left = math.inf


@contextlib.contextmanager
def at_most(count):
    """Inside, so many places of terms are gone to at most, or TooLong is raised: a term that shares its parts may have many."""
    Places.left = count
    try:
        yield
    finally:
        Places.left = math.inf


def go_to_place():
    Places.left -= 1
    if Places.left < 0:
        raise TooLong


class Var:
    __slots__ = ('name', 'to')

    def __init__(self, name='_'):
        self.name, self.to = name, None


def weight_of(variables, body):
    return 1 + len(variables) + 2 * sum(1 for item in body if item[0] == 'is' and len(item) == 3)


class Clause:
    """A head (None in the query), the items of the body, and the written variables."""

    def __init__(self, head, body, variables):
        self.head, self.body, self.variables = head, body, variables
        self.weight, self.number = weight_of(variables, body), None


class Either(tuple):
    """A disjunction among the items of a body: its alternatives, each an Alternative."""

    def __new__(cls, alternatives):
        return tuple.__new__(cls, (';',))

    def __init__(self, alternatives):
        self.alternatives = alternatives


class Alternative:
    """An alternative: its number among the clauses, its weight and its items."""

    def __init__(self, body, number=None, weight=None):
        self.body, self.number, self.weight = body, number, weight


TOKEN = re.compile(r'''(?P<layout>\s+|%[^\n]*|/\*.*?\*/)
    |(?P<variable>[A-Z_][A-Za-z0-9_]*)|(?P<name>[a-z][A-Za-z0-9_]*)|(?P<integer>[0-9]+)
    |'(?P<quoted>(?:''|\\.|[^'\\\n])*)'|(?P<end>\.(?=\s|%|$))|(?P<symbol>[-+*/\\^<>=~:.?@\#&$]+)
    |(?P<mark>[()\[\],|;{}])''', re.X | re.S)


def tokens(text):
    """(kind, text, whether layout stands before it) of each token, with `/*` and End as the language has them."""
    place, layout = 0, False
    while place < len(text):
        found = TOKEN.match(text, place)
        if not found:
            raise Fault(f'no token at {place}')
        kind, word = found.lastgroup, found.group(found.lastgroup)
        place = found.end()
        if kind == 'layout':
            layout = True
            continue
        if kind == 'quoted':
            word = re.sub(r"''|\\(.)", lambda m: "'" if m.group(0) == "''" else {'n': '\n'}.get(m.group(1), m.group(1)), word)
        yield kind, word, layout
        layout = False
    yield 'stop', '', layout


INFIX = {'=': (700, 699, 699), 'is': (700, 699, 699), '+': (500, 500, 499), '-': (500, 500, 499), '*': (400, 400, 399),
         '//': (400, 400, 399), 'mod': (400, 400, 399), 'rem': (400, 400, 399), ',': (1000, 999, 1000),
         ';': (1100, 1099, 1100), ':-': (1200, 1199, 1199), '-->': (1200, 1199, 1199)}
INFIX.update({name: (700, 699, 699) for name in COMPARISONS})


class Reader:
    def __init__(self, text):
        self.tokens, self.at = list(tokens(text)), 0

    def now(self):
        return self.tokens[self.at]

    def take(self, word=None, kind=None):
        found = self.now()
        if (word is not None and (found[1] != word or found[0] == 'quoted')) or (kind is not None and found[0] != kind):
            raise Fault(f'{word or kind} expected, {found[1]!r} found')
        self.at += 1
        return found

    def infix(self):
        kind, word, _ = self.now()
        return INFIX.get(word) if kind in ('symbol', 'name', 'mark') else None

    def term(self, most):
        left, level = self.operand()
        while True:
            operator = self.infix()
            if not operator or operator[0] > most or level > operator[1]:
                return left
            word = self.take()[1]
            left, level = (word, left, self.term(operator[2])), operator[0]

    def operand(self):
        kind, word, _ = self.take()
        if kind == 'variable':
            return self.variable(word), 0
        if kind == 'integer':
            return int(word), 0
        if kind == 'mark' and word == '(':
            inner = self.term(1100)
            self.take(')')
            return inner, 0
        if kind == 'mark' and word == '[':
            return self.listed(), 0
        if kind == 'mark' and word == '{':
            inner = self.term(1100)
            self.take('}')
            return ('{}', inner), 0
        if kind not in ('name', 'quoted', 'symbol'):
            raise Fault(f'operand expected, {word!r} found')
        following, text, layout = self.now()
        if following == 'mark' and text == '(' and not layout:
            return self.compound(word), 0
        if kind == 'symbol' and word == '-':
            if following == 'integer' and not layout:
                return -int(self.take()[1]), 0
            if not (following in ('end', 'stop') or text in (')', ']', ',', '|') or
                    (following in ('symbol', 'name') and text in INFIX and text != '-')):
                return ('-', self.term(200)), 200
        return (word,), 0

    def compound(self, name):
        self.take('(')
        arguments = [self.term(999)]
        while self.now()[1] == ',' and self.now()[0] == 'mark':
            self.take()
            arguments.append(self.term(999))
        self.take(')')
        return (name, *arguments)

    def listed(self):
        items, tail = [], (NIL,)
        if self.now()[1] == ']':
            self.take()
            return tail
        items.append(self.term(999))
        while self.now()[1] == ',':
            self.take()
            items.append(self.term(999))
        if self.now()[1] == '|':
            self.take()
            tail = self.term(999)
        self.take(']')
        for item in reversed(items):
            tail = (CELL, item, tail)
        return tail

    def variable(self, word):
        if word == '_':
            self.variables.append(Var())
            return self.variables[-1]
        for known in self.variables:
            if known.name == word:
                return known
        self.variables.append(Var(word))
        return self.variables[-1]

    def clause(self):
        """The clause, and whether it is the query."""
        self.variables = []
        asked = self.now()[0] == 'symbol' and self.now()[1] == '?-'
        if asked:
            self.take()
        term = self.term(1100 if asked else 1200)
        self.take(kind='end')
        if asked:
            return Clause(None, items(term), self.variables), True
        if type(term) is tuple and term[0] == '-->' and len(term) == 3:
            term = Rule(self.variables).translated(term)
        if type(term) is tuple and term[0] == ':-' and len(term) == 3:
            return Clause(term[1], items(term[2]), self.variables), False
        return Clause(term, [], self.variables), False


class Rule:
    """A grammar rule that becomes a clause."""

    def __init__(self, variables):
        self.variables = variables

    def new(self):
        self.variables.append(Var('\xff'))
        return self.variables[-1]

    def translated(self, rule):
        state = self.new()
        goals, first, last = self.sequence(joined(rule[2], ','), state, True)
        head = (*rule[1], first, last)
        return (':-', head, conjunction(goals)) if goals else head

    def sequence(self, parts, state, is_body=False):
        """The goals of the parts, the state before them and that behind them."""
        goals, first = [], state
        for place, part in enumerate(parts):
            elements = list_of(part)
            if elements == []:
                continue
            if elements is not None:
                if is_body and place == 0:
                    first = listed(elements, state)
                    continue
                after = self.new()
                goals.append(('=', state, listed(elements, after)))
                state = after
            elif part[0] == '{}' and len(part) == 2:
                goals.append(part[1])
            elif part[0] == ';' and len(part) == 3:
                after, choices = self.new(), []
                for choice in joined(part, ';'):
                    inner, _, end = self.sequence(joined(choice, ','), state)
                    choices.append(conjunction(inner + [('=', after, end)]))
                goals.append(disjunction(choices))
                state = after
            else:
                after = self.new()
                goals.append((*part, state, after))
                state = after
        return goals, first, state


def joined(term, name):
    """The parts of a term that are joined by an operator."""
    parts = [term]
    while type(parts[-1]) is tuple and parts[-1][0] == name and len(parts[-1]) == 3:
        if name == ',' and type(parts[-1][1]) is tuple and parts[-1][1][0] == ',':
            last = parts.pop()
            parts += joined(last[1], ',') + joined(last[2], ',')
        else:
            last = parts.pop()
            parts += [last[1], last[2]]
    return parts


def conjunction(goals):
    if not goals:
        return ('true',)
    return goals[0] if len(goals) == 1 else (',', goals[0], conjunction(goals[1:]))


def disjunction(choices):
    return choices[0] if len(choices) == 1 else (';', choices[0], disjunction(choices[1:]))


def listed(elements, tail):
    for element in reversed(elements):
        tail = (CELL, element, tail)
    return tail


def list_of(term):
    """The elements of a list that ends in []; None of any other term."""
    elements = []
    while type(term) is tuple and term[0] == CELL and len(term) == 3:
        elements.append(term[1])
        term = term[2]
    return elements if term == (NIL,) else None


def items(body):
    """The items of a body: goals as terms, and disjunctions."""
    if type(body) is not tuple:
        raise Fault('not pure')
    if body[0] == ',' and len(body) == 3:
        return items(body[1]) + items(body[2])
    if body == ('true',):
        return []
    if body[0] == ';' and len(body) == 3:
        return [Either([Alternative(items(choice)) for choice in joined(body, ';')])]
    return [body]


def variables_in(found, known):
    """Adds the variables of a term or of items to a list, by first occurrence."""
    stack = [found]
    while stack:
        part = stack.pop()
        if type(part) is Var:
            if part not in known:
                known.append(part)
        elif type(part) is Either:
            stack += [alternative.body for alternative in reversed(part.alternatives)]
        elif type(part) in (tuple, list):
            stack += [inner for inner in reversed(part) if type(inner) is not str]
    return known


def number_items(body, next_number):
    """Numbers the alternatives of the items, an outer one before those inside it. Answers the next number."""
    for item in body:
        if type(item) is Either:
            variables = variables_in(item, [])
            for alternative in item.alternatives:
                alternative.number, alternative.weight = next_number, weight_of(variables, alternative.body)
                next_number = number_items(alternative.body, next_number + 1)
    return next_number


def read(text):
    """The query of a text, and its clauses by their numbers."""
    reader, clauses, query, number = Reader(text), {}, None, 1
    while reader.now()[0] != 'stop':
        clause, asked = reader.clause()
        if asked:
            query = clause
            number = number_items(clause.body, number)
        else:
            clause.number = number
            clauses[number] = clause
            number = number_items(clause.body, number + 1)
    if query is None:
        raise Fault('no query')
    return query, clauses


def walked(term):
    while type(term) is Var and term.to is not None:
        term = term.to
    return term


def printed(root, names):
    """The term as it is printed; names has what unbound variables are called, by first occurrence."""
    out, stack = [], [root]
    while stack:
        go_to_place()
        term = stack.pop()
        if type(term) is str:
            out.append(term)
            continue
        term = walked(term)
        if type(term) is Var:
            out.append(names.setdefault(term, f'_{len(names)}'))
        elif type(term) is int:
            out.append(str(term))
        elif term[0] == CELL and len(term) == 3:
            parts = ['[', term[1]]
            tail = walked(term[2])
            while type(tail) is tuple and tail[0] == CELL and len(tail) == 3:
                parts += [',', tail[1]]
                tail = walked(tail[2])
            parts += [']'] if tail == (NIL,) else ['|', Shown(tail), ']']
            stack += reversed([part.term if type(part) is Shown else part for part in parts])
        else:
            parts = [quoted(term[0])]
            for place, argument in enumerate(term[1:]):
                parts += ['(' if place == 0 else ',', argument]
            stack += reversed(parts + ([')'] if len(term) > 1 else []))
    return ''.join(out)


class Shown:
    def __init__(self, term):
        self.term = term


def quoted(name):
    plain = re.fullmatch(r'[a-z][A-Za-z0-9_]*', name) or name == NIL
    symbol = name and all(byte in SYMBOLS for byte in name) and name != '.' and not name.startswith('/*')
    if plain or symbol:
        return name
    return "'" + name.replace('\\', '\\\\').replace("'", "\\'").replace('\n', '\\n') + "'"


def is_ground(root):
    stack = [root]
    while stack:
        go_to_place()
        term = walked(stack.pop())
        if type(term) is Var:
            return False
        if type(term) is tuple:
            stack += term[1:]
    return True


def within(number):
    return number if number is not None and LEAST <= number <= MOST else None


def value(root):
    """The value of a ground term, or None."""
    tasks, values = [root], []
    while tasks:
        go_to_place()
        task = tasks.pop()
        if type(task) is Shown:
            name, count = task.term
            arguments = [values.pop() for _ in range(count)][::-1]
            values.append(None if None in arguments else applied(name, arguments))
            continue
        term = walked(task)
        if type(term) is int:
            values.append(within(term))
        else:
            tasks.append(Shown((term[0], len(term) - 1)))
            tasks += reversed(term[1:])
    return values[0]


def applied(name, arguments):
    if name == '-' and len(arguments) == 1:
        return within(-arguments[0])
    if len(arguments) != 2:
        return None
    a, b = arguments
    if name in ('//', 'mod', 'rem') and b == 0:
        return None
    quotient = abs(a) // abs(b) * (1 if (a < 0) == (b < 0) else -1) if name in ('//', 'rem') else 0
    found = {'+': lambda: a + b, '-': lambda: a - b, '*': lambda: a * b, '//': lambda: quotient, 'mod': lambda: a % b,
             'rem': lambda: a - b * quotient, 'min': lambda: min(a, b), 'max': lambda: max(a, b)}.get(name)
    return within(found()) if found else None


def unify(left, right, trail):
    """Whether the terms are made the same, with the occurs check. What is set goes on the trail."""
    pairs = [(left, right)]
    while pairs:
        go_to_place()
        a, b = pairs.pop()
        a, b = walked(a), walked(b)
        if a is b:
            continue
        if type(a) is not Var and type(b) is Var:
            a, b = b, a
        if type(a) is Var:
            if type(b) is tuple and occurs(a, b):
                return False
            a.to = b
            trail.append(a)
        elif type(a) is int or type(b) is int:
            if a != b or type(a) is not type(b):
                return False
        elif a[0] != b[0] or len(a) != len(b):
            return False
        else:
            pairs += zip(a[1:], b[1:])
    return True


def occurs(variable, root):
    stack, seen = [root], set()
    while stack:
        go_to_place()
        term = walked(stack.pop())
        if term is variable:
            return True
        if type(term) is tuple and id(term) not in seen:
            seen.add(id(term))
            stack += term[1:]
    return False


def undo(trail, length):
    while len(trail) > length:
        trail.pop().to = None


def fresh(clause):
    """The head and the items of the clause with new variables, and these."""
    new = {variable: Var(variable.name) for variable in clause.variables}

    def copied(term):
        if type(term) is Var:
            return new[term]
        if type(term) is Either:
            return Either([Alternative([copied(item) for item in alternative.body], alternative.number, alternative.weight)
                           for alternative in term.alternatives])
        if type(term) is tuple and len(term) > 1:
            return (term[0], *map(copied, term[1:]))
        return term
    head = None if clause.head is None else copied(clause.head)
    return head, [copied(item) for item in clause.body], [new[variable] for variable in clause.variables]


def is_arithmetic(item):
    return len(item) == 3 and (item[0] == 'is' or item[0] in COMPARISONS)


def run_waiting(waiting, trail):
    """Runs what is ground, until nothing more is. Answers what still waits; None where some goal is false."""
    changed = True
    while changed:
        changed, left = False, []
        for goal in waiting:
            sides = goal[2:] if goal[0] == 'is' else goal[1:]
            if not all(map(is_ground, sides)):
                left.append(goal)
                continue
            values = [value(side) for side in sides]
            if None in values:
                return None
            if goal[0] == 'is':
                if not unify(goal[1], values[0], trail):
                    return None
                changed = True
            elif not COMPARISONS[goal[0]](*values):
                return None
        waiting = left
    return waiting


def line(variables, waiting, names):
    """The line of an outcome."""
    told = [f'{v.name} = {printed(v, names)}' for v in variables if not v.name.startswith('_') and v.name != '\xff']
    text = ', '.join(told) or 'true'
    if waiting:
        text += ' with ' + ', '.join(printed(goal, names) for goal in waiting)
    return text
