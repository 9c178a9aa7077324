#!/usr/bin/env python3
"""Asks the two checkers of proof texts, `mw check` and tools/second_check.py, about the same texts, and tells each text
to which they don't give the same answer.

    MW=crates/mw_cli/out/mw_cli FLAT=crates/mw_flat/out/mw_flat tools/both_checkers.py

The texts are those that `mw run --proof` writes for the sources of cases/ and examples/, and each of them with one
error planted, of each kind that fits it. Some of these are right all the same, as where two steps that don't
touch each other are exchanged. mw_flat writes the flattened modules that the second checker wants. `text` and `module`
both must tell alike. With any other answer `unsure` of the second and `stopped` of the first go together, and the
second may tell a fault behind a step of which it wasn't sure. The status is 1 where the two differ, where one of them
doesn't answer, or where there are few texts.

$MW and $FLAT name the programs; without them those are taken that the gate built."""
from collections import Counter
from concurrent.futures import ProcessPoolExecutor
from functools import partial
import os
import random
import re
import subprocess
import sys

from cases import TOP, all_cases
import second_check

SECONDS = 300
LEAST_TEXTS = 60_000
LONGEST = 60_000                                        # characters of a text; longer ones are left out
HEAD = 4                                                # tokens up to the module's name, which may be a bracket
PER_KIND = 2                                            # errors of one kind in a text
LEAST_ERRORS, MOST_LETTERS = 10, 40_000                 # errors in a long text; more, up to so many characters in all
REWRITES = "200"                                        # of a command of examples/
MOST = "1000"                                           # rewrites of each side of a condition where `mw check` tests
SEARCH = 10_000                                         # tries of one search of the second checker
PRELUDE = {"BOOL", "NAT", "QID", "CONFIGURATION"}
# The second checker computes no test of three terms, which a module makes associative.
LEFT_OUT = {"cases/truth.txt: equality with axioms of the module itself"}
TOKEN = re.compile(r"[()\[\]{},]|(?:`[()\[\]{},]|[^\s()\[\]{},])+")
WORDS = {"proof", "in", "from", "step", "at", "take", "with", "where", "to", "endproof"}


def sources():
    """Sources, each with a title and with the words by which it is run: of the cases that run, and the examples."""
    for case in all_cases():
        if case.words.startswith("run") and not case.aside and case.title not in LEFT_OUT:
            yield case.title, case.source, case.words if "--proof" in case.words else f"{case.words} --proof"
    for file in sorted((TOP / "examples").glob("*.maude")):
        yield f"examples/{file.name}", file.read_text("latin-1"), f"run --proof --max {REWRITES}"


def printed(words, text):
    """What a program prints for a text."""
    done = subprocess.run(words, input=text.encode("latin-1"), stdout=subprocess.PIPE, stderr=subprocess.DEVNULL,
                          timeout=SECONDS)
    return done.stdout.decode("latin-1")


class Text:
    """A proof text by its tokens, and where its parts stand: each token with the word before it that rules it, and the
    spans of steps, and of what stands in brackets and in braces, each with the one that follows it right behind."""

    def __init__(self, tokens):
        self.tokens, self.rules, self.spans, rule, open_steps = tokens, [], {"step": [], "[": [], "{": []}, "", [None]
        opened = []
        for place, token in enumerate(tokens):
            rule = token if token in WORDS else rule
            self.rules.append(rule)
            if place < HEAD:
                continue
            if token in ("step", "}", "to") and open_steps[-1] is not None:
                self.spans["step"].append((open_steps.pop(), place))
                open_steps.append(None)
            if token == "step":
                open_steps[-1] = place
            if token in "[{(":
                opened.append(place)
                open_steps += [None] * (token == "{")
            if token in ")}]":
                first = opened.pop()
                open_steps.pop() if token == "}" else None
                if token != ")":
                    self.spans[tokens[first]].append((first, place + 1))

    def places(self, rule, pattern):
        """The places of the tokens behind a word that are of this form."""
        return [place for place, token in enumerate(self.tokens)
                if self.rules[place] == rule and re.fullmatch(pattern, token)]

    def edited(self, edit):
        """The text with an edit made: other tokens in the place of some of its own."""
        first, last, tokens = edit
        return " ".join([*self.tokens[:first], *tokens, *self.tokens[last:]])

    def term(self, word):
        """The span of a term behind a word."""
        first = self.tokens.index(word) + 1
        return first, next(place for place in range(first, len(self.tokens)) if self.tokens[place] in WORDS)


# Each kind of error gives edits of a text: first and last place, and the tokens that come there.
def other_numbers(rule):
    """Numbers behind a word that are one more, or one less."""
    def edits(text):
        for place in text.places(rule, r"\d+"):
            number = int(text.tokens[place])
            yield from ((place, place + 1, [str(other)]) for other in (number + 1, number - 1) if other >= 0)
    return edits


def other_operators(rule):
    """Operators behind a word for each of which another one of the text stands."""
    def edits(text):
        known = sorted({token for token in text.tokens if "@" in token})
        for count, place in enumerate(text.places(rule, r"\d+@.*")):
            others = [token for token in known if token != text.tokens[place]]
            if others:
                yield place, place + 1, [others[count % len(others)]]
    return edits


def missing(opening):
    """A step, a value or a group less."""
    return lambda text: ((*span, []) for span in text.spans[opening])


def doubled(opening):
    return lambda text: ((last, last, text.tokens[first:last]) for first, last in text.spans[opening])


def exchanged(opening):
    """Two neighbours in each other's place."""
    def edits(text):
        ends = dict(text.spans[opening])
        for first, last in text.spans[opening]:
            if last in ends:
                yield first, ends[last], text.tokens[last:ends[last]] + text.tokens[first:last]
    return edits


def emptied_groups(text):
    return ((*span, ["{", "}"]) for span in text.spans["{"] if span[1] - span[0] > 2)


def other_values(text):
    """A value that is the one before it in the text, or the one behind it."""
    spans = text.spans["["]
    for one, other in zip(spans, spans[1:]):
        yield *one, text.tokens[slice(*other)]
        yield *other, text.tokens[slice(*one)]


def longer_paths(text):
    return ((place + 1, place + 1, [number]) for place in text.places("at", "at") for number in "12")


def shorter_paths(text):
    return ((place, place + 1, []) for place in text.places("at", r"\d+"))


def taken(text):
    """Several arguments in place of the last one on a path, or besides it."""
    for place in text.places("at", r".*"):
        if text.tokens[place + 1] not in ("take", *"0123456789"):
            yield place + 1, place + 1, ["take", "1", "2"]
            yield place + 1, place + 1, ["take", "2", "3"]


def less_taken(text):
    yield from ((place, place + 1, []) for place in text.places("take", r"\d+"))
    for place in text.places("take", "take"):
        last = next(at for at in range(place + 1, len(text.tokens)) if not text.tokens[at].isdigit())
        yield place, last, []


def other_statements(text):
    """A computed step in place of a statement, or a statement in its place or in another's."""
    numbers = sorted({text.tokens[place] for place in text.places("step", r"\d+|built")} | {"built", "1", "12"})
    for place in text.places("step", r"\d+|built"):
        yield from ((place, place + 1, [number]) for number in numbers if number != text.tokens[place])


def more_steps(text):
    """A step more at the end, or in front."""
    for step in ("step built at", "step built at 1", "step 1 at with [1@true]", "step 12 at"):
        for place in (text.tokens.index("to"), text.term("from")[1]):
            yield place, place, TOKEN.findall(step)


def turned(text):
    """Two arguments in each other's place."""
    for place in range(1, len(text.tokens) - 1):
        before, mark, behind = text.tokens[place - 1:place + 2]
        if mark == "," and text.tokens[place + 2] != "(" and before not in ")]}" and before != behind:
            yield place - 1, place + 2, [behind, mark, before]


def other_ends(text):
    """The first or last term is the other one, or one of the values."""
    ends = [text.term("from"), text.term("to")]
    terms = [*ends, *((first + 1, last - 1) for first, last in text.spans["["])]
    return ((*span, text.tokens[slice(*term)]) for span in ends for term in terms)


def other_heads(text):
    return (1, 2, ["2"]), (3, 4, [text.tokens[3] + "X"]), (2, 4, [])


ERRORS = [
    *map(other_numbers, ("step", "at", "take", "with", "from", "to")), *map(other_operators, ("from", "to", "with")),
    *map(missing, ("step", "[", "{")), *map(doubled, ("step", "[", "{")), *map(exchanged, ("step", "[", "{")),
    emptied_groups, other_values, longer_paths, shorter_paths, taken, less_taken, other_statements, more_steps, turned,
    other_ends, other_heads]


def drawn_of(drawn, edits):
    """As many of the edits as are taken of a kind, each as likely as another."""
    kept = []
    for count, edit in enumerate(edits):
        place = count if count < PER_KIND else drawn.randrange(count + 1)
        kept[place:place + 1] = [edit] if place < PER_KIND else []
    return kept


def with_errors(tokens):
    """The text, and texts with an error each, up to so many of each kind; which ones is drawn, always alike."""
    text, whole = Text(tokens), " ".join(tokens)
    drawn = random.Random(whole)
    edits = [edit for error in ERRORS for edit in drawn_of(drawn, error(text))]
    count = min(len(edits), MOST_LETTERS // len(whole) + LEAST_ERRORS)
    return list(dict.fromkeys([whole, *map(text.edited, drawn.sample(edits, count))]))


def flattened(flattener, names, source):
    """The flattened modules of a source by their names; of the prelude's by these names a module that imports it."""
    copies = {f"{name}-AGAIN": name for name in names if name in PRELUDE}
    front = [f"fmod {copy} is protecting {name} . endfm" for copy, name in copies.items()]
    flats = re.split(r"^module (.*)", printed([flattener], "\n".join([*front, source])), flags=re.M)[1:]
    found = zip(flats[::2], flats[1::2])
    return {copies.get(name, name): f"module {copies.get(name, name)}{records}" for name, records in found}


def answers_in(text):
    return re.findall(r"^proof \d+: (.*)", text, re.M)


def step_of(answer):
    """The step of a no; none of a yes, of `unsure` and of `stopped`, which is neither."""
    found = re.match(r"no at step (\d+): (?!stopped)", answer)
    return int(found[1]) if found else None


def is_told(answer):
    return answer.startswith("yes") or step_of(answer) is not None


def agree(one, other):
    """Whether the answers of `mw check` and of the second checker go together. Both are sure of the form and the module
    of a text. Of the rest they are the same where both are told, but that the second one may find a fault further on,
    behind a step of which it wasn't sure."""
    of_form = any(answer.endswith((": module", ": text")) for answer in (one, other))
    both_told = is_told(one) and is_told(other)
    is_later = step_of(one) is not None and step_of(other) is not None and step_of(one) < step_of(other)
    return one == other or not of_form and (not both_told or is_later)


def compared(program, flattener, described):
    """Of the texts of a source how many both know for right or for wrong or one doesn't tell, and what is amiss."""
    title, source, words = described
    lines = printed([program, *words.split()], source)
    # what stands behind a unit without an end would be a part of it
    is_ended = not re.search(r"^\*\*\* line \d+: refused: unended ", lines, re.M)
    texts = re.findall(r"^proof .*?^endproof$", lines, re.M | re.S) if is_ended else []
    texts = [text for text in texts if len(text) <= LONGEST]
    names = dict.fromkeys(text.split()[3] for text in texts)
    flats = flattened(flattener, names, source)
    counts, amiss = Counter(), []
    for name in names:
        asked = [wrong for text in texts if text.split()[3] == name for wrong in with_errors(TOKEN.findall(text))]
        first = answers_in(printed([program, "check", "--max", MOST], "\n".join([source, *asked])))
        second = second_check.answers(second_check.read_module(flats[name].splitlines()), "\n".join(asked))
        if not len(first) == len(second) == len(asked):
            amiss.append(f"{title}: {name}: {len(asked)} texts, {len(first)} and {len(second)} answers\n")
        for text, one, other in zip(asked, first, second):
            counts[one[:2] if is_told(one) and is_told(other) else "unsure"] += 1
            if not agree(one, other):
                amiss.append(f"{title}\n  mw check: {one}\n  second_check: {other}\n  {text}\n")
    return counts, amiss


def differences(program, flattener):
    """What is amiss with the answers to the texts of all sources, and a line of how many there are."""
    with ProcessPoolExecutor() as pool:
        found = list(pool.map(partial(compared, program, flattener), sources()))
    counts = sum((counts for counts, _ in found), Counter())
    amiss = [text for _, texts in found for text in texts]
    if counts.total() < LEAST_TEXTS:
        amiss.append(f"only {counts.total()} texts\n")
    return amiss, (f"{counts.total()} texts: {counts['ye']} right, {counts['no']} wrong, {counts['unsure']} not told "
                   f"by one of two checkers, {len(amiss)} amiss")


if __name__ == "__main__":
    second_check.WORK = SEARCH
    built = TOP / "crates" / "mw_flat" / "out" / "mw_flat"
    wrong, line = differences(os.environ.get("MW", str(TOP / "mw")), os.environ.get("FLAT", str(built)))
    print(*wrong, line, sep="")
    sys.exit(1 if wrong else 0)
