"""Texts that nobody wrote: changed ones, of examples and rows, and random ones, which are evaluated by the definitions too."""
import random
import re

import evaluate
import forks
import plain
import same_bytes
from hostile_texts import ALONE, EDGES, SEARCHES

TOKENS = ["(", ")", "[", "]", ",", "|", ".", ". ", " ", ":-", "?-", "-->", ";", "{", "}", "=", "is", "<", "=\\=", "+", "-", "*", "//", "mod",
          "X", "_", "a", "'a b'", "'", "0", "9223372036854775808", "%", "/*", "*/", "\\", "!", "\"", "\x00", "é", "\xff", "f(", "[X|Y]", "\n",
          "min(", "max(", "true", "fail", "->", "\\+", "%% proof\n", "%% 1 1 ", " ; ", ", X = Y", "X is Y+1, "]
LIMIT = 120
# so many orders of goals with one candidate are tried, where the limit was met and the leftmost goal first does not meet it
ORDERS = 60
# what a changed text is given to, in turn
COMMANDS = [["check"], ["lint"], ["tree"], ["first", "2"], ["explain", "1"], ["batch"], ["run"], ["run"], ["run"], ["run"]]
REFUSAL = re.compile(rb"error: line [1-9][0-9]*: (syntax|not text|number too wide|too big: (source|clauses|arguments|variables|nodes|nesting)"
                     rb"|not pure|redefines [^\n]+/[0-9]+|second query|no query|unknown [^\n]+/[0-9]+)\n")


def changed(dice, text):
    """The text with some bytes or tokens changed."""
    out = bytearray(text.encode())
    for _ in range(dice.choice((1, 1, 1, 2, 3, 8))):
        place, roll = dice.randrange(len(out) + 1), dice.random()
        if roll < 0.15:
            del out[place:place + dice.choice((1, 1, 2, 5, 20))]
        elif roll < 0.3:
            out[place:place] = dice.choice(TOKENS).encode()
        elif roll < 0.35:
            out[place:place + 1] = bytes([dice.randrange(256)])
        elif roll < 0.9:
            replace(dice, out)
        else:
            start = dice.randrange(len(out) + 1)
            out[place:place] = out[start:start + dice.choice((1, 4, 30))]
    return bytes(out)


KINDS = [re.compile(kind) for kind in (rb"[A-Z_][A-Za-z0-9_]*", rb"[a-z][A-Za-z0-9_]*", rb"[0-9]+", rb"[-+*/<>=~\\:]+", rb"[(),|.;\[\]]")]
LINE = re.compile(rb"[^\n%]+\n")


def replace(dice, out):
    """Puts a token of the text where another of its kind stands, now and then one of another kind; or a line where another stands."""
    kind = dice.choice([*KINDS, LINE])
    words = list(kind.finditer(out))
    others = words if dice.random() < 0.9 else list(dice.choice(KINDS).finditer(out))
    if words and others:
        at, other = dice.choice(words), dice.choice(others)
        out[at.start():at.end()] = bytes(other.group())


def bases():
    """The texts that are changed."""
    return ([text for _, _, text in same_bytes.texts()] + [text for _, _, text in [*SEARCHES, *ALONE] if text]
            + [edge.text for edge in EDGES if edge.status != 3])


def mutation(trial):
    base, times = bases(), {}
    for number in trial.numbers(400, 100_000):
        dice = trial.dice_of("mutation", number)
        place, words = dice.randrange(len(base)), list(COMMANDS[number % len(COMMANDS)])
        text = changed(dice, base[place])
        if words[0] not in ("check", "lint"):
            words += ["--limit", str(LIMIT)]
        found = trial.run(words, text, seconds=1)
        times.setdefault((place, words[0]), []).append((trial.took, number, words, text))
        judge(trial, number, words, text, found)
        if words[0] == "run" and found[0] not in (None, 3) and trial.took < 0.5:
            crowd = [*words, "--teams", str(1 + number % 3), "--workers", str(1 + number // 3 % 3)]
            if trial.run(crowd, text, seconds=60)[:2] != found[:2]:
                trial.broke(f"text {number} by teams", crowd, text, found)
        if words[0] == "explain" and found[0] == 0:
            proofs(trial, number, dice, found[1])
    slowest(trial, times)


def proofs(trial, number, dice, document):
    """What was explained holds; a changed document holds, fails or is refused."""
    found = trial.run(["verify"], document)
    if found[:2] != (0, b"holds\n"):
        trial.broke(f"text {number}, explained", ["verify"], document, found)
    other = changed(dice, document.decode())
    found = trial.run(["verify"], other)
    if found[:2] not in ((0, b"holds\n"), (1, b"fails\n")) and not (found[0] == 3 and REFUSAL.fullmatch(found[1])):
        trial.broke(f"text {number}, its proof changed", ["verify"], other, found)


def judge(trial, number, words, text, found):
    """A text is refused in one line, or run to an end."""
    ends = (0, 1, 3) if words[0] in ("check", "lint") else (0, 1, 3, 6, 8)
    if found[0] is not None and (found[0] not in ends or (found[0] == 3) != bool(REFUSAL.fullmatch(found[1]))):
        trial.broke(f"text {number}, changed", words, text, found)


def slowest(trial, times):
    """Texts that take more than ten times as long as their neighbours, by the least of three runs, where the search is no longer by as much."""
    searches = 0
    for near in times.values():
        usual = sorted(took for took, *_ in near)[len(near) * 9 // 10]
        for took, number, words, text in near:
            if took > 0.05 + 10 * usual:
                took = min([took, *(again(trial, words, text) for _ in range(2))])
            if took > 0.05 + 10 * usual:
                if took < 0.05 + 0.0001 * steps(words, text):
                    searches += 1
                else:
                    trial.broke(f"text {number} takes {took:.2f} s, its neighbours {usual:.3f}", words, text, (None, b"", b""))
    print(f"mutation: {searches} of these texts were longer searches, by the definitions too", flush=True)


def again(trial, words, text):
    """How long the run takes now: a machine with much other work makes the seconds of a processor more."""
    trial.run(words, text, seconds=1)
    return trial.took


class WholeSearch(forks.ForkTree):
    """Goes on where the limit was met."""

    def met_limit(self):
        pass


def steps(words, text):
    """How many candidates a search by the definitions judges, beyond what the limit cuts too, up to a bound behind which it is a long one."""
    most = 12_000
    if words[0] in ("check", "lint"):
        return 0
    try:
        search = WholeSearch(evaluate.read(text.decode(errors="replace")), LIMIT, most)
        with plain.at_most(evaluate.PLACES):
            search.run()
    except plain.TooLong:
        return 1_000_000
    except (plain.Fault, AttributeError, TypeError):
        return 0
    return most - search.steps


class AnyOrder(forks.ForkTree):
    """Takes goals with one candidate in an order of chance: new ones first, so that what never ends may go on, and one that is too heavy
    before all others. The definitions allow each order; so where one of them meets the limit, a run may."""

    def __init__(self, program, limit, dice):
        super().__init__(program, limit, 20_000)
        # how many calls stand before those that came last, and how many behind them
        self.dice, self.before, self.behind = dice, 0, 0

    def judged(self, goals, room):
        calls = [(place, self.candidates(goal)) for place, goal in enumerate(goals) if not self.is_waiting(goal)]
        if any(not choices for _, choices in calls):
            return None
        if not calls:
            return None, []
        alone = [call for call in calls if len(call[1]) == 1]
        new = [call for call in calls[self.before:len(calls) - self.behind] if len(call[1]) == 1]
        heavy = [call for call in alone if call[1][0].weight > room]
        taken = self.dice.choice(heavy or new or alone or calls[:1])
        self.before = calls.index(taken)
        self.behind = len(calls) - self.before - 1
        return taken


class Always:
    """Dice that fall on one side: always the first, or always the last."""

    def __init__(self, side):
        self.side = side

    def choice(self, calls):
        return calls[self.side]


def may_meet_limit(text, limit):
    """Whether a search within the limit may meet it, by one of some orders: None where that was too long to be said."""
    is_said = True
    for dice in [Always(0), Always(-1), *map(random.Random, range(ORDERS))]:
        try:
            with plain.at_most(evaluate.PLACES):
                AnyOrder(evaluate.read(text), limit, dice).run()
        except forks.Cut:
            return True
        except plain.TooLong:
            is_said = False
    return False if is_said else None


def beside_definitions(trial):
    skipped = met = unsaid = 0
    for number in trial.numbers(150, 100_000):
        dice = trial.dice_of("random", number)
        writer = evaluate.Writer(dice) if number % 4 else evaluate.TypedWriter(dice)
        text, limit = writer.text(), writer.limit()
        trial.runs += 2
        found = evaluate.differs(trial.program, text, limit)
        skipped += found == evaluate.SKIPPED
        if found and evaluate.NOT_OVER in found:
            may_meet = may_meet_limit(text, limit)
            met, unsaid = met + (may_meet is True), unsaid + (may_meet is None)
            found = found if may_meet is False else evaluate.SKIPPED
        if found and found != evaluate.SKIPPED:
            trial.broke(f"random text {number}: {found}", ["run", "--limit", str(limit)], text, (None, b"", b""))
        if number % 10 == 0 and found is None:
            status, document, _ = trial.run(["explain", "1", "--limit", str(limit)], text)
            if status == 0:
                proofs(trial, number, dice, document)
    print(f"random: {skipped} of these texts were too long a search for plain Python; {met} met the limit, which the definitions allow by another "
          f"order, and of {unsaid} it could not be said", flush=True)
