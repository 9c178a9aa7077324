"""Asks `mw` about changed texts, within a time: what is told of a token is what `mw` says of such texts."""
from dataclasses import dataclass, field
import os
import subprocess
import time

from .names import reached
from .pages import prelude
from .program import answers_of, printed
from .sources import ENDS, EQUATIONS
from .texts import spelled

SECONDS = float(os.environ.get("MWI_SECONDS", "0.5"))           # for the questions about one refusal
AT_ONCE, LONG = 24, 100                                 # beginnings that one run is asked about; less of a long text
# The kinds of faults in the order in which they are told: of equal numbers by the place.
STAGES = {kind: stage for stage, kinds in enumerate([
    ["unended module", "unended command"], ["not in this profile", "bad statement"], ["already defined"],
    ["circular import", "unknown module"], ["unknown sort"], ["sort cycle", "bad axioms", "attributes disagree"],
    ["not preregular", "not associative", "low identity"]]) for kind in kinds}
LAST_STAGE = 7
# Of one equation or rule texts come first, then the terms that they spell, and then what these are together.
OF_TERMS = {"too deep": 1, "number too large": 1, "lone variable": 2, "unbound variable": 3, "bad object": 4}
OF_FORMS = ("not in this profile", "bad statement")


class Unsure(Exception):
    """It wasn't found in time, or the answers aren't those that were asked for."""


@dataclass
class Copy:
    """A changed copy of a module: its lines, each with the number of the statement that it comes from."""

    word: str
    lines: list = field(default_factory=list)

    @staticmethod
    def of(unit, number=-1):
        """A copy without equations and rules, but for the statement of this number."""
        return Copy(unit.word, [(at, [token.text for token in words]) for at, words in enumerate(unit.statements)
                                if at == number or words[0].text not in EQUATIONS])

    def with_lines(self, lines):
        return Copy(self.word, lines)

    def text(self, name):
        lines = [f"{self.word} {name} is", *(spelled(words).replace("\n", " ") for _, words in self.lines),
                 ENDS[self.word]]
        return "\n".join(lines) + "\n"


class Asker:
    """A program that is asked, and the time until which it may answer."""

    def __init__(self, program, seconds=SECONDS):
        self.program, self.end = program, time.monotonic() + seconds

    def answers(self, text, words=("run", "--max", "1"), with_proofs=False):
        left = self.end - time.monotonic()
        if left <= 0:
            raise Unsure
        try:
            text, _ = printed([self.program, *words], text, left)
        except subprocess.TimeoutExpired:
            raise Unsure from None
        return answers_of(text, with_proofs)

    def commands(self, base, commands):
        """The answer to each command behind modules that are accepted."""
        if not commands:
            return []
        found = self.answers(base + "".join(f"{command}\n" for command in commands))
        if len(found) != len(commands):
            raise Unsure
        return found

    def reductions(self, base, commands):
        """The same with proofs, of commands that `mw` reads."""
        found = self.answers(base + "".join(f"{command}\n" for command in commands),
                             ("run", "--max", "1", "--proof"), True)
        if len(found) != len(commands):
            raise Unsure
        return found

    def copies(self, base, copies):
        """Of each copy of a module, by its own, what it is refused for: the statement's number, the kind and the
        detail; none where it is accepted."""
        found, starts, line = [None] * len(copies), {}, base.count("\n") + 1
        texts = []
        for number, copy in enumerate(copies):
            texts.append(copy.text(f"ask-{number}"))
            starts |= {line + at: (number, at) for at in range(len(copy.lines) + 2)}
            line += len(copy.lines) + 2
        for answer in self.answers(base + "".join(texts)):
            if answer.refusal is None or answer.refusal[0] not in starts:
                raise Unsure
            told, kind, detail = answer.refusal
            number, at = starts[told]
            lines = copies[number].lines
            found[number] = (lines[at - 1][0] if 0 < at <= len(lines) else -1, kind, detail)
        return found

    def have_forms(self, word, statements):
        """Of each of these statements whether it is of its form, in a module that begins with this word."""
        found = self.copies("", [Copy(word, [(0, words)]) for words in statements])
        return [told is None or told[1] not in OF_FORMS for told in found]


def longest(count, are_viable):
    """The most of so many tokens that can still be read, by a function that says it of several lengths at once; what
    can't be read doesn't become so by more tokens."""
    low, high = 0, count + 1
    while high - low > 1:
        step = max(1, (high - low) // (AT_ONCE if count < LONG else AT_ONCE // 4))
        lengths = list(range(low + step, high, step))
        viable = are_viable(lengths)
        good = [length for length, is_viable in zip(lengths, viable) if is_viable]
        bad = [length for length, is_viable in zip(lengths, viable) if not is_viable]
        low = max([low, *good])
        high = min([high, *(length for length in bad if length > low)])
    return low


def is_better(told, before):
    """Whether a changed module is accepted, or its first fault comes behind the one that was told before."""
    if told is None:
        return True
    one, other = ((STAGES.get(kind, LAST_STAGE), number, OF_TERMS.get(kind, 0)) for number, kind, _ in (told, before))
    return one > other or one == other and told[1:] != before[1:]


def base_of(unit, units, with_it=False):
    """The signatures of the modules that a unit reaches, of those that are accepted; with its own if it is."""
    return "".join(other.signature for other in own_modules(unit, units) if with_it or other is not unit)


def text_of(unit, units):
    """The text of an accepted module behind those that it reaches."""
    return "".join(other.text for other in own_modules(unit, units))


def own_modules(unit, units):
    names = prelude()
    return [other for other in reached(unit, units) if names.get(other.name) is not other]
