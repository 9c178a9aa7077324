#!/usr/bin/env python3
"""A second checker of proof texts, written apart from the program and its proofs. It wants Python 3.10.

    tools/second_check.py MODULE.flat < TEXTS

reads a flattened module and proof texts, as docs/FORMATS.md has them, and prints a line for each text: `proof K: yes,
N rewrites`, `proof K: no at step J: CAUSE` or `proof K: unsure at step J`. It carries the text out step by step and
evaluates nothing: whether a term is normal it tells by a search for an equation or a row that applies. It is unsure
where only an equation with a condition might, where a sum or product is too large, where a side of a condition is too
deep or too large, and where a search is too long; it takes such a step for right and goes on, so a later `no` goes
before it. The first cause is told, those of the whole text before the others:

    module     the text is of another module (told at step 0)
    text       it isn't of its form; or a term in it isn't the form of a canonical one, or is too deep or too large
    statement  there is no such executable statement; or at a part that is there nothing is computed
    binding    a value's least sort isn't at or below its variable's
    part       the place isn't there, or what stands there isn't the canonical instance of the left side
    condition  a step in braces is at fault, or a group's end isn't normal or doesn't meet its fragment, or a side of
               a false `==` or a true `=/=` isn't normal
    limit      the next term is too deep or has too large a number
    end        the last term isn't the one behind `to` (told one step behind the last)

The status is 0, or 1 where a text has a `no`, or 2 for other words or a faulty flat file."""
import re
import sys
from collections import namedtuple
from dataclasses import dataclass, field
from functools import lru_cache
from itertools import combinations, combinations_with_replacement, product
from typing import NamedTuple

LARGEST, DEEPEST, NESTED = 2 ** 128 - 1, 1000, 63       # numeral; levels of a term; conditions inside one another
WORK = 100_000                                          # tries of one search
KIND = 0                                                # stands for the number of a sort where the kind is meant
NUMERAL, QUOTED, APPLIED, VARIABLE = range(4)           # ranks of terms
NOTHING, DOUBT, REDEX = range(3)                        # what a search finds, the stronger last
NUMBER = re.compile("0|[1-9][0-9]{0,99}")
# Behind spaces and comments; those in parentheses have none inside. Other bytes are tokens, which no form has.
TOKEN = re.compile(r"""[\t-\r\ ]+ | (\*\*\*|---)(\([^()]*\) | (?!\()[^\n]*)
                       | (?P<token>[()\[\]{},] | (`[()\[\]{},]|[!-'*+\--Z\\^-z|~])+ | .)""", re.DOTALL | re.VERBOSE)
Step = namedtuple("Step", "number path take values groups")     # of a computed one the number is None
TESTS = ("_==_", "_=/=_")
COMPUTED = {
    "_+_": lambda m, n: m + n, "_*_": lambda m, n: m * n, "sd": lambda m, n: abs(m - n), "min": min, "max": max,
    "_quo_": lambda m, n: m // n if n else None, "_rem_": lambda m, n: m % n if n else None,
    "_<_": lambda m, n: m < n, "_<=_": lambda m, n: m <= n, "_>_": lambda m, n: m > n, "_>=_": lambda m, n: m >= n}


class Refused(Exception):
    """What is wrong with a text, by its cause; or that a search is too long."""


class Term(NamedTuple):
    """A term, as a tuple whose order is that of terms: numerals, quoted identifiers, then by the operator, by how
    many arguments it has, and by these from the left."""
    rank: int                                           # NUMERAL, QUOTED, APPLIED or VARIABLE
    head: int | str | tuple                             # value, identifier, operator; a variable's number and sort
    width: int = 0                                      # how many arguments
    arguments: tuple = ()


def applied(number, arguments):
    return Term(APPLIED, number, len(arguments), tuple(arguments))


@dataclass
class Operator:
    number: int
    spelling: str
    kinds: list                                         # of the arguments, each by its first sort
    kind: int                                           # of the value
    declarations: list = field(default_factory=list)    # sorts of the arguments, and of the value
    assoc: bool = False
    comm: bool = False
    built: bool = False
    identity: Term | None = None
    frozen: tuple = ()


@dataclass
class Statement:
    word: str                                           # eq or rl
    flags: list                                         # nonexec, owise
    variables: dict = field(default_factory=dict)       # by their tokens, in order
    left: Term | None = None
    right: Term | None = None
    fragments: list = field(default_factory=list)       # each its form, its terms, and the sort of a test


@dataclass(eq=False)
class Module:
    """A flattened module, with the canonical terms, the least sorts and the rows of its signature."""
    name: str = ""
    numbers: tuple = ()                                 # the sort of 0 and its kind
    quoted: tuple = ()                                  # the sort of quoted identifiers and its kind
    above: dict = field(default_factory=dict)           # for each sort those at or above it
    operators: dict = field(default_factory=dict)       # by their numbers, as statements are
    tokens: dict = field(default_factory=dict)          # operators by their tokens
    built: dict = field(default_factory=dict)           # operators of the prelude by their spelling
    statements: dict = field(default_factory=dict)

    def is_whole(self):
        """Whether a flat file has told all of it."""
        needed = {"true", "false"} | ({"s_"} if self.numbers else set())
        sides = [side for statement in self.statements.values() for side in (statement.left, statement.right)]
        return bool(self.name) and needed <= set(self.built) and None not in sides

    def operator(self, term):
        return self.operators[term.head] if term.rank == APPLIED else None

    def truth(self, value):
        return applied(self.built["true" if value else "false"].number, ())

    def elements(self, operator, term):
        """The list that a canonical term is under an associative operator; an empty one of its identity."""
        if self.operator(term) is operator:
            return term.arguments
        return () if term == operator.identity else (term,)

    def build(self, operator, arguments):
        """An operator on canonical arguments, in canonical form: associative ones are flattened, identities fall
        away, commutative ones are in order, and `s_` of a numeral is the next numeral."""
        if operator is self.built.get("s_") and arguments[0].rank == NUMERAL:
            return Term(NUMERAL, arguments[0].head + 1)
        if operator.assoc:
            arguments = [element for term in arguments for element in self.elements(operator, term)]
            if len(arguments) < 2:
                return arguments[0] if arguments else operator.identity
        return applied(operator.number, sorted(arguments) if operator.comm else arguments)

    def instance(self, term, values):
        """The canonical form of a raw term, with canonical values for its variables."""
        if term.rank != APPLIED:
            return values[term.head] if term.rank == VARIABLE else term
        return self.build(self.operator(term), [self.instance(argument, values) for argument in term.arguments])

    def is_admitted(self, term):
        """Whether a canonical term has neither too many levels nor too large a number."""
        depth, level = 0, [term]
        while level and depth < DEEPEST and all(term.rank != NUMERAL or term.head <= LARGEST for term in level):
            depth, level = depth + 1, [argument for term in level for argument in term.arguments]
        return not level

    def kind(self, term):
        return self.operator(term).kind if term.rank == APPLIED else (self.numbers, self.quoted)[term.rank][1]

    def is_below(self, low, high):
        """Whether a least sort is at or below a sort of its kind, or below the kind."""
        return high == KIND or low != KIND and high in self.above[low]

    def result(self, operator, sorts):
        """The least result among the declarations that take arguments of these sorts, in either order where the
        operator is commutative; the kind where none does."""
        orders = [sorts, sorts[::-1]] if operator.comm else [sorts]
        results = [result for wanted, result in operator.declarations
                   if any(all(map(self.is_below, order, wanted)) for order in orders)]
        return next((low for low in results if all(self.is_below(low, high) for high in results)), KIND)

    def numeral_sort(self, value):
        """0 has its sort, each other numeral what `s_` gives on the sort of the one before; this comes to a cycle."""
        sorts = [self.numbers[0]]
        while sorts[-1] not in sorts[:-1]:
            sorts.append(self.result(self.built["s_"], sorts[-1:]))
        first, last = sorts.index(sorts[-1]), len(sorts) - 1
        return sorts[value if value < first else first + (value - first) % (last - first)]

    @lru_cache(10_000)
    def least_sort(self, term):
        """The least sort of a canonical term. An associative operator is taken from its last arguments back."""
        if term.rank != APPLIED:
            return self.quoted[0] if term.rank == QUOTED else self.numeral_sort(term.head)
        operator, sorts = self.operator(term), [self.least_sort(argument) for argument in term.arguments]
        while len(sorts) > len(operator.kinds):
            sorts[-2:] = [self.result(operator, sorts[-2:])]
        return self.result(operator, sorts)

    def row(self, part):
        """What is computed at a part, if anything is; also a number that is too large."""
        operator, arguments = self.operator(part), part.arguments
        spelling = operator.spelling if operator and operator.built else None
        if spelling == "if_then_else_fi":
            return {self.truth(True): arguments[1], self.truth(False): arguments[2]}.get(arguments[0])
        if spelling in TESTS and part.width == 2:
            return self.truth((arguments[0] == arguments[1]) == (spelling == "_==_"))
        if spelling not in COMPUTED or [term.rank for term in arguments] != [NUMERAL, NUMERAL]:
            return None
        value = COMPUTED[spelling](arguments[0].head, arguments[1].head)
        return self.truth(value) if isinstance(value, bool) else None if value is None else Term(NUMERAL, value)


class Reader:
    """Reads tokens from the left, and refuses as `text` what isn't of its form. It counts the steps of a text that
    were begun, and all steps with those in braces."""

    def __init__(self, module, tokens):
        self.module, self.tokens, self.begun, self.rewrites = module, ["", *reversed(tokens)], 0, 0

    def need(self, holds):
        if not holds:
            raise Refused("text")

    def takes(self, word):
        """Whether this is the next token, which is passed then."""
        return self.tokens[-1] == word and self.tokens.pop() == word

    def next(self):
        self.need(self.tokens[-1])
        return self.tokens.pop()

    def numbers(self):
        numbers = []
        while NUMBER.fullmatch(self.tokens[-1]):
            numbers.append(int(self.tokens.pop()))
        return numbers

    def bracketed(self, word, opening, closing, read):
        """What stands in one or more brackets behind a word, if this is there."""
        found, is_there = [], self.takes(word)
        while is_there and self.takes(opening):
            found.append(read())
            self.need(self.takes(closing))
        self.need(found or not is_there)
        return found

    def term(self, variables, opened=0):
        """A numbered prefix form: arguments are of their kinds, and two or more of an associative operator."""
        module, word = self.module, self.next()
        if word in variables:
            return variables[word]
        if module.numbers and NUMBER.fullmatch(word):
            return Term(NUMERAL, int(word))
        if module.quoted and word.startswith("'") and len(word) > 1:
            return Term(QUOTED, word)
        self.need(word in module.tokens and opened < 2 * DEEPEST)
        operator, arguments = module.tokens[word], []
        while operator.kinds and self.takes("," if arguments else "("):
            arguments.append(self.term(variables, opened + 1))
        self.need(not operator.kinds or self.takes(")"))
        kinds = operator.kinds + [operator.kind] * (len(arguments) - 2 if operator.assoc else 0)
        self.need(len(arguments) == len(kinds) and (variables or list(map(module.kind, arguments)) == kinds))
        return applied(operator.number, arguments)

    def form(self):
        """The form of a canonical term that is neither too deep nor too large."""
        term = self.term({})
        self.need(self.module.is_admitted(term) and self.module.instance(term, {}) == term)
        return term

    def text(self):
        """A proof text: its first term, its steps, its last term."""
        word, version, preposition, name = [self.next() for _ in range(4)]
        self.need((word, preposition) == ("proof", "in"))
        if name != self.module.name:
            raise Refused("module")
        self.need(version == "1" and self.takes("from"))
        start, steps = self.form(), self.steps(NESTED)
        self.begun += self.tokens[-1] == "endproof"
        self.need(self.takes("to"))
        self.begun += 1
        end = self.form()
        self.need(self.takes("endproof"))
        return start, steps, end

    def steps(self, nested):
        """Steps in which so many conditions may stand inside one another; `par` and `owise` begin ones of no form."""
        steps = []
        while self.tokens[-1] in ("step", "par", "owise"):
            self.begun += nested == NESTED
            self.need(self.takes("step"))
            steps.append(self.step(nested))
        return steps

    def step(self, nested):
        """A step behind its word. It has as many values and groups as its statement has, if that is there."""
        self.rewrites += 1
        numbers = [None] if self.takes("built") else self.numbers()
        self.need(len(numbers) == 1 and self.takes("at"))
        path, is_several = self.numbers(), self.takes("take")
        take = self.numbers() if is_several else []
        self.need(not is_several or len(take) > 1 and take == sorted(set(take)))
        values = self.bracketed("with", "[", "]", self.form)
        self.need(nested or self.tokens[-1] != "where")
        groups = self.bracketed("where", "{", "}", lambda: self.steps(nested - 1))
        statement, counts = self.module.statements.get(numbers[0]), (0, 0)
        if statement:
            pairs = sum(form == "equal" for form, _, _ in statement.fragments)
            counts = len(statement.variables), len(statement.fragments) + pairs
        self.need((len(values), len(groups)) == counts or statement is None and numbers[0] is not None)
        return Step(numbers[0], path, take, values, groups)


class Checker:
    """Carries texts over one module out, step by step. Whether a term is normal is searched at all its parts, and by
    all ways to cut lists and multisets, up to a bound."""

    def __init__(self, module):
        self.module, self.is_sure, self.work = module, True, 0

    def verdict(self, tokens):
        reader, unsure = Reader(self.module, tokens), 0
        try:
            term, steps, end = reader.text()
            for reader.begun, step in enumerate(steps, 1):
                self.is_sure = True
                term = self.after(term, step)
                unsure = unsure or (0 if self.is_sure else reader.begun)
            reader.begun = len(steps) + 1
            if term != end:
                raise Refused("end")
        except Refused as cause:
            return f"no at step {reader.begun}: {cause}"
        return f"unsure at step {unsure}" if unsure else f"yes, {reader.rewrites} rewrites"

    def after(self, term, step, in_braces=False):
        """The next term: the present one with the part replaced, in order again."""
        statement, values = (None, {}) if step.number is None else self.named(step, in_braces)
        frames, part = self.place(term, step, statement and statement.word == "rl")
        if statement:
            self.need_applied(statement, values, part, step.groups)
        result = self.module.instance(statement.right, values) if statement else self.computed(part)
        for operator, first, others in reversed(frames):
            result = self.module.build(operator, [*others[:first], result, *others[first:]])
        if not self.module.is_admitted(result):
            raise Refused("limit")
        return result

    def named(self, step, in_braces):
        """A step's statement, no rule in braces, with its values. Where an `owise` equation applies isn't told here."""
        statement = self.module.statements.get(step.number)
        if statement is None or "nonexec" in statement.flags or in_braces and statement.word == "rl":
            raise Refused("statement")
        self.is_sure &= "owise" not in statement.flags
        values = {variable.head: value for variable, value in zip(statement.variables.values(), step.values)}
        if not all(self.module.is_below(self.module.least_sort(value), sort) for (_, sort), value in values.items()):
            raise Refused("binding")
        return statement, values

    def place(self, term, step, by_rule):
        """The part at a place, and what stands round it from the whole on: operators, with the others of their
        arguments, and how many of these stand in front. Several arguments are not all of an associative operator, and
        neighbours where it isn't commutative. Rules take no frozen argument, and not several of a frozen operator."""
        frames = []
        for chosen in [*([number] for number in step.path), *filter(None, [step.take])]:
            operator, first, last = self.module.operator(term), chosen[0], chosen[-1]
            if not 1 <= first <= last <= term.width \
                    or by_rule and operator.frozen and (operator.assoc or first in operator.frozen) \
                    or len(chosen) > 1 and not (operator.assoc and len(chosen) < term.width and
                                                (operator.comm or last - first < len(chosen))):
                raise Refused("part")
            others = [argument for number, argument in enumerate(term.arguments, 1) if number not in chosen]
            frames.append((operator, first - 1, others))
            parts = [term.arguments[number - 1] for number in chosen]
            term = parts[0] if len(parts) == 1 else applied(operator.number, parts)
        return frames, term

    def computed(self, part):
        """What comes by a row. The sides of `==` and `=/=` that are different must be normal."""
        result = self.module.row(part)
        if result is None or not self.module.is_admitted(result):
            raise Refused("statement")
        sides = set(part.arguments) if self.module.operator(part).spelling in TESTS else ()
        for side in sides if len(sides) > 1 else ():
            self.need_normal(side)
        return result

    def need_applied(self, statement, values, part, groups):
        """The part is the left side's instance, and the sides of each fragment lead to normal terms, which meet it."""
        if self.module.instance(statement.left, values) != part:
            raise Refused("part")
        groups = iter(groups)
        try:
            for form, terms, sort in statement.fragments:
                sides = [self.module.instance(term, values) for term in terms]
                ends = [self.evaluated(side, next(groups)) for side in (sides[1:] if form == "match" else sides)]
                wanted = {"equal": ends[-1], "match": sides[0], "holds": self.module.truth(True)}.get(form, ends[0])
                if None not in ends and (ends[0] != wanted or
                                         not self.module.is_below(self.module.least_sort(wanted), sort)):
                    raise Refused
        except Refused:
            raise Refused("condition") from None

    def evaluated(self, term, steps):
        """Where a side's steps lead. A side that is too deep or too large is led nowhere, and nothing told of it."""
        if not self.module.is_admitted(term):
            self.is_sure = False
            return None
        for step in steps:
            term = self.after(term, step, in_braces=True)
        self.need_normal(term)
        return term

    def need_normal(self, term):
        """No equation and no row applies at any part; where it can't be told, the step isn't sure."""
        found, terms, self.work = NOTHING, [term], WORK
        for term in terms:
            terms += term.arguments
        try:
            for part in (part for term in reversed(terms) for part in self.top_parts(term)):
                found = max(found, self.found_at(part))
        except Refused:
            found = max(found, DOUBT)
        if found == REDEX:
            raise Refused("condition")
        self.is_sure &= found == NOTHING

    def top_parts(self, term):
        """Several but not all arguments of an associative operator, neighbours without `comm`; and the whole term."""
        operator = self.module.operator(term)
        for size in range(2, term.width if operator and operator.assoc else 2):
            lists = (term.arguments[first:first + size] for first in range(term.width - size + 1))
            for chosen in combinations(term.arguments, size) if operator.comm else lists:
                yield applied(operator.number, chosen)
        yield term

    def found_at(self, part):
        """Whether a row or an equation applies to the part as a whole."""
        result = self.module.row(part)
        if result is not None:
            return REDEX if self.module.is_admitted(result) else DOUBT
        return max((DOUBT if statement.fragments or "owise" in statement.flags else REDEX
                    for statement in self.module.statements.values() if statement.word == "eq"
                    and "nonexec" not in statement.flags and self.match(statement.left, part, {})), default=NOTHING)

    def match(self, pattern, term, values):
        """The ways to extend the values so that the pattern's canonical instance is the term."""
        self.work -= 1
        if self.work < 0:
            raise Refused
        operator, ways = self.module.operator(pattern), []
        if pattern.rank == VARIABLE and pattern.head not in values:
            is_below = self.module.is_below(self.module.least_sort(term), pattern.head[1])
            return [{**values, pattern.head: term}] if is_below else []
        if operator is None:
            return [values] if values.get(pattern.head, pattern) == term else []
        for arguments in self.arguments(operator, pattern.width, term):
            found = [values]
            for inner, argument in zip(pattern.arguments, arguments):
                found = [extended for way in found for extended in self.match(inner, argument, way)]
            ways += found
        return ways

    def arguments(self, operator, count, term):
        """The lists of so many arguments on which an operator gives a term. Under an associative one each element of
        the term goes to one of them; an argument that gets none is the identity."""
        if operator.assoc:
            elements, places = self.module.elements(operator, term), range(count)
            if len(elements) < count and operator.identity is None:
                return
            ascending = combinations_with_replacement(places, len(elements))
            for share in product(places, repeat=len(elements)) if operator.comm else ascending:
                pieces = [[element for element, at in zip(elements, share) if at == place] for place in places]
                if operator.identity or all(pieces):
                    yield [self.module.build(operator, piece) for piece in pieces]
        elif operator is self.module.built.get("s_") and term.rank == NUMERAL and term.head > 0:
            yield [Term(NUMERAL, term.head - 1)]
        elif operator is self.module.operator(term):
            yield term.arguments
            if operator.comm:
                yield term.arguments[::-1]


def tokens_of(text):
    return [found["token"] for found in TOKEN.finditer(text) if found["token"]]


def add_record(module, words):
    """Adds what a line of a flat file says of the module, or of the last operator or statement."""
    operator, statement = module.operators.get(len(module.operators)), module.statements.get(len(module.statements))

    def terms(words, count):
        reader = Reader(module, tokens_of(" ".join(words)))
        found = [reader.term(statement.variables) for _ in range(count)]
        reader.need(reader.takes(""))
        return found

    match words:
        case ["module", name]:
            module.name = name
        case ["numbers" | "quoted" as word, sort, kind]:
            setattr(module, word, (int(sort), int(kind)))
        case ["sort", number, *_] if int(number) == len(module.above) + 1:
            module.above[int(number)] = {int(number)}
        case ["subsort", low, high]:
            for above in module.above.values():
                above |= module.above[int(high)] if int(low) in above else set()
        case ["op", number, spelling, *kinds, "->", kind] if int(number) == len(module.operators) + 1:
            operator = Operator(int(number), spelling, list(map(int, kinds)), int(kind))
            module.operators[int(number)] = module.tokens[f"{number}@{spelling}"] = operator
        case ["declared", *sorts, "->", sort]:
            operator.declarations.append((list(map(int, sorts)), int(sort)))
        case ["assoc" | "comm" as flag]:
            setattr(operator, flag, True)
        case ["built"]:
            operator.built = True
            module.built[operator.spelling] = operator
        case ["identity", token]:
            number, mark, _ = token.partition("@")
            operator.identity = applied(int(number), ()) if mark else Term(NUMERAL, int(number))
        case ["frozen", *numbers]:
            operator.frozen = tuple(map(int, numbers))
        case ["eq" | "rl" as word, number, *flags] \
                if int(number) == len(module.statements) + 1 and {*flags} <= {"nonexec", "owise"}:
            module.statements[int(number)] = Statement(word, flags)
        case ["variable", number, name, sort] if int(number) == len(statement.variables) + 1:
            statement.variables[f"{number}:{name}"] = Term(VARIABLE, (int(number), int(sort)))
        case ["left" | "right" as side, *words]:
            setattr(statement, side, terms(words, 1)[0])
        case ["equal" | "match" | "holds" as form, *words]:
            statement.fragments.append((form, terms(words, 1 if form == "holds" else 2), KIND))
        case ["has-sort", sort, *words]:
            statement.fragments.append(("has-sort", terms(words, 1), int(sort)))
        case _:
            raise ValueError("no record")


def read_module(lines):
    """The module that the lines of a flat file tell; or a ValueError with the one that is at fault."""
    module, number = Module(), 0
    try:
        for number, line in enumerate(lines, 1):
            add_record(module, line.split())
        if not module.is_whole():
            raise ValueError("more records are needed")
    except (Refused, ValueError, LookupError, AttributeError) as fault:
        raise ValueError(f"line {number}: {fault!r}") from None
    return module


def answers(module, text):
    """What is said of the proof texts in a text, in order."""
    tokens = tokens_of(text)
    ends = [at for at, token in enumerate(tokens, 1) if token == "endproof"]
    texts = [tokens[start:end] for start, end in zip([0, *ends], [*ends, len(tokens)]) if start < end]
    return [Checker(module).verdict(text) for text in texts]


def main(words):
    try:
        [path] = words
        with open(path, encoding="latin-1") as file:
            module = read_module(file)
    except (OSError, ValueError) as fault:
        print(f"usage: tools/second_check.py MODULE.flat < TEXTS; {fault}", file=sys.stderr)
        return 2
    found = answers(module, sys.stdin.buffer.read().decode("latin-1"))
    for number, answer in enumerate(found, 1):
        print(f"proof {number}: {answer}")
    return int(any(answer.startswith("no") for answer in found))


sys.setrecursionlimit(100_000)
if __name__ == "__main__":
    sys.exit(main(sys.argv[1:]))
