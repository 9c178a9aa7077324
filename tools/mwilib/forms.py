"""Finds the token of a statement that isn't of its form, by asking `mw` about the statement's beginnings."""
from . import names, pages
from .asking import longest
from .findings import Finding, counted, shown
from .sources import ENDS, MODULES, OF_OBJECTS, SUBSORTS

OPERATORS = ("op", "ops", "msg", "msgs")
CLOSING = {"(": ")", "[": "]", "{": "}"}
MOST_SORTS = 6
SIDES = ["x", "= x", "x = x", "l ] : x = x", "] : x = x", ": x = x", "nonexec ]", "]", 'l ]', '"" ]']
ATTRIBUTES = ["]", "ctor ]", "3 ]", "x ]", '"" ]']


def tails_of(tokens):
    """Ends with which a beginning of such a statement may be of its form."""
    word = tokens[0]
    if word in ("sort", "sorts"):
        return ["", "S"]
    if word in SUBSORTS:
        return ["", "S", "< S"]
    if word == "class":
        return ["", "C", "S", ": S", "x : S"]
    if word in ("var", "vars"):
        return ["", "S", ": S", "X : S"]
    if word in names.IMPORTS:
        return ["", "M"]
    if word in OPERATORS:
        return tails_of_operator("S" if word in ("op", "ops") else "Msg")
    sides = [side.replace("=", "=>") if word in ("rl", "crl") else side for side in SIDES]
    if word in ("ceq", "cq", "crl"):
        sides = [*sides, *(f"{side} if x" for side in sides), "if x"]
    return ["", *sides]


def tails_of_operator(sort):
    sorts = ["S " * count for count in range(MOST_SORTS)]
    values = [f"{some}-> {sort}" for some in sorts]
    marks = ["e " * count + ") ]" for count in range(MOST_SORTS)]
    ends = ["", sort, f"{sort} ]", *ATTRIBUTES, *marks, *(f"( {mark}" for mark in marks), "1 ) ]", "( 1 ) ]"]
    named = [f": {value}" for value in values]
    return [*ends, *values, *named, *(f") {value}" for value in named), f"S ] -> {sort}", f"] -> {sort}",
            f"x : -> {sort}"]


def closers(words):
    """What closes the brackets that are open behind these words."""
    opened = []
    for word in words:
        if word in CLOSING:
            opened.append(CLOSING[word])
        elif opened and word == opened[-1]:
            opened.pop()
    return opened[::-1]


def ends_for(words):
    """Ends behind a beginning, with its open brackets closed first or not."""
    tails = [tail.split() for tail in tails_of(words)]
    closed = closers(words) if words[0] not in OPERATORS else []
    return tails + [[*closed, *tail] for tail in tails if closed] + [["x", *closed, *tail] for tail in tails if closed]


def longest_beginning(fault, words):
    """How many tokens of a statement can still be gone on with, and the shortest end that does it."""
    ends = {}

    def are_viable(lengths):
        asked = [(length, end) for length in lengths for end in ends_for(words[:length])]
        have = fault.asker.have_forms(fault.unit.word, [[*words[:length], *end, "."] for length, end in asked])
        for (length, end), has_form in zip(asked, have):
            if has_form and (length not in ends or len(end) < len(ends[length])):
                ends[length] = end
        return [length in ends for length in lengths]

    count = longest(len(words), are_viable)
    return count, ends.get(count, [])


def stop_splits(tokens):
    """Where a full stop may be missing: the number of tokens in front of it, and whether it is glued to the last."""
    for at in range(1, len(tokens)):
        text = tokens[at].text
        begins = text in names.STATEMENTS or text in ENDS or text in ENDS.values()
        if begins and (tokens[at].is_first_of_line or tokens[at].line > tokens[0].line):
            yield at, tokens[at - 1].text.endswith(".") and len(tokens[at - 1].text) > 1
    if len(tokens[-1].text) > 1 and tokens[-1].text.endswith("."):
        yield len(tokens), True


def first_part(tokens, at, is_glued):
    """The words of a statement in front of a missing full stop."""
    words = [token.text for token in tokens[:at]]
    return [*words[:-1], words[-1][:-1]] if is_glued else words


def at_missing_stop(tokens, at, is_glued):
    """The finding that a full stop is missing there."""
    if is_glued:
        token = tokens[at - 1]
        finding = Finding(token, [f"`{token.text}` is one token: it ends nothing"])
        return finding.mend("a full stop without a blank in front of it")
    token = tokens[at] if at < len(tokens) else tokens[at - 1]
    finding = Finding(token, [f"`{shown(tokens[:at])}` has no full stop"])
    return finding.mend("a missing full stop")


def missing_stop(fault, tokens):
    """The first place where a full stop makes a statement of what stands in front of it."""
    splits = list(stop_splits(tokens))
    parts = [first_part(tokens, *split) for split in splits]
    have = fault.asker.have_forms(fault.unit.word, [[*part, "."] for part in parts]) if parts else []
    for split, has_form in zip(splits, have):
        if has_form:
            finding = at_missing_stop(tokens, *split)
            finding.tried.append(f"`{shown(first_part(tokens, *split), 16)} .`")
            return finding
    return None


def words_for(words, at):
    """The words that may be meant by one of a statement."""
    if at == 0:
        return names.STATEMENTS
    if words[0] in ("msg", "msgs") and words[at - 1] in ("->", "~>"):
        return ["Msg"]
    opened = max((place for place in range(at) if words[place] == "["), default=None)
    if opened is not None and "]" not in words[opened:at]:
        return names.ATTRIBUTES if words[0] in OPERATORS else names.OF_STATEMENTS
    return names.MARKS


def near_words(fault, tokens, most):
    """A word near to one of the first tokens with which the statement has its form."""
    words, asked = [token.text for token in tokens], []
    for at in range(most):
        asked += [(at, name) for name in names.near(words[at], words_for(words, at))]
        asked += [(at, name) for name in ("->", "=>", "=", "~>", ":=", ":") if at and len(words[at]) <= 2
                  and words[at] not in names.MARKS + list("()[]{},_") and not any(map(str.isalnum, words[at]))]
        asked += [(at, name) for name in ("->", "=", "=>", ":") if at and words[at] in ("=>", "=", "->", ":", "::")
                  and name != words[at]]
    have = fault.asker.have_forms(fault.unit.word, [[*words[:at], name, *words[at + 1:]] for at, name in asked])
    return [change for change, has_form in zip(asked, have) if has_form]


def with_near_word(fault, tokens, changes):
    """The finding for the last token at which such a word mends it."""
    at = changes[-1][0]
    found = list(dict.fromkeys(name for place, name in changes if place == at))
    finding = Finding(tokens[at], near=found).mend("a misspelt word")
    finding.tried.append(f"`{found[0]}` in place of `{tokens[at].text}`")
    return finding


def of_statement(fault):
    """What is wrong with the form of a statement."""
    tokens = fault.tokens
    word = tokens[0].text
    if word in ENDS.values() or word in ENDS:
        return wrong_end(fault)
    is_ended = tokens[-1].text == "."
    body = tokens[:-1] if is_ended else tokens
    if not body:
        return Finding(tokens[0], ["no statement stands in front of it"]).mend("a full stop too many")
    finding = missing_stop(fault, body) or of_attribute(fault, body)
    return finding or at_first_fault(fault, tokens, is_ended)


def of_attribute(fault, tokens):
    """A word in brackets at the end of an equation or rule in whose place `nonexec` can stand."""
    words = [token.text for token in tokens]
    if words[0] not in ("eq", "ceq", "cq", "rl", "crl") or words[-1] != "]":
        return None
    start = max(at for at, word in enumerate(words) if word == "[") if "[" in words else len(words)
    places = range(start + 1, len(words) - 1)
    have = fault.asker.have_forms(fault.unit.word, [[*words[:at], "nonexec", *words[at + 1:], "."] for at in places])
    for at, has_form in zip(places, have):
        if has_form:
            finding = Finding(tokens[at], near=names.near(words[at], names.OF_STATEMENTS))
            return finding.mend(words[at] if words[at] in pages.mistakes() else "an attribute that isn't read")
    return None


def at_first_fault(fault, tokens, is_ended):
    """The first token with which the statement can't go on, or a word in front of it that is misspelt."""
    words = [token.text for token in tokens]
    body = words[:-1] if is_ended else words
    count, end = longest_beginning(fault, body)
    if count < len(body) and count and words[count] in pages.mistakes():
        return at_token_behind(fault, tokens, count, end)
    changes = near_words(fault, tokens, min(count + 1, len(body))) if is_ended else []
    at_token = [change for change in changes if change[0] == min(count, len(body) - 1)]
    if at_token or changes and count == len(body):
        return with_near_word(fault, tokens, at_token or changes)
    if count < len(body):
        return at_token_behind(fault, tokens, count, end)
    return with_mark(fault, tokens[:len(body)], end) or at_end(fault, tokens, is_ended, end)


def at_token_behind(fault, tokens, count, end):
    """The finding for the first token behind the longest beginning that can be gone on with."""
    token, word = tokens[count], tokens[0].text
    finding = Finding(token)
    if count == 0:
        return of_first_word(fault, finding)
    how = f"it can with `{' '.join(end)} .`" if end else "it can end there"
    finding.notes.append(f"`{shown(tokens[:count])}` doesn't go on with `{token.text}` in any form; {how}")
    if word == "class" and with_bar(fault, tokens, count, finding):
        return of_form(finding, word)
    if token.text in pages.mistakes():
        return finding.mend(token.text)
    if tokens[count - 1].text == "frozen":
        return finding.mend("frozen arguments")
    more = of_operator(tokens, count) if word in OPERATORS else None
    if more:
        finding.notes.append(more)
        return finding.mend("holes and sorts")
    if word in OPERATORS and in_brackets(fault, tokens, count, finding):
        return finding
    if fault.kind == "bad statement":
        of_form(finding, word)
    finding.near = names.near(token.text, words_for([other.text for other in tokens], count))
    return finding


def in_brackets(fault, tokens, count, finding):
    """Whether what is behind a declaration is of its form in brackets."""
    words = [token.text for token in tokens if token.text != "." or token is not tokens[-1]]
    changed = [*words[:count], "[", *words[count:], "]", "."]
    if not fault.asker.have_forms(fault.unit.word, [changed])[0]:
        return False
    finding.mend("attributes without brackets").tried.append(f"`[{' '.join(words[count:])}]`")
    return True


def with_bar(fault, tokens, count, finding):
    """Whether a class is of its form with a bar, a comma or a colon in front of the token."""
    words = [token.text for token in tokens if token.text != "." or token is not tokens[-1]]
    marks = ("|", ",", ":")
    have = fault.asker.have_forms(fault.unit.word, [[*words[:count], mark, *words[count:], "."] for mark in marks])
    good = [mark for mark, has_form in zip(marks, have) if has_form]
    if len(good) == 1:
        finding.notes.append(f"`{good[0]}` is missing")
        finding.tried.append(f"`{good[0]}` in front of `{words[count]}`")
    return len(good) == 1


def with_mark(fault, tokens, end):
    """The finding where one mark is missing, at the one place where it makes a statement of the tokens."""
    words = [token.text for token in tokens]
    mark = next(iter(end), None)
    if mark not in names.MARKS:
        return None
    places = range(1, len(words))
    have = fault.asker.have_forms(fault.unit.word, [[*words[:at], mark, *words[at:], "."] for at in places])
    good = [at for at, has_form in zip(places, have) if has_form]
    if len(good) != 1 and (mark != ":" or not good):
        return None
    finding = of_form(Finding(tokens[good[0]], [f"`{mark}` is missing"]), words[0])
    finding.tried.append(f"`{mark}` in front of `{words[good[0]]}`")
    return finding


def at_end(fault, tokens, is_ended, end):
    """The finding where something is missing at the end."""
    if not is_ended:
        behind = fault.unit.tokens[-1]
        finding = Finding(behind, [f"`{shown(tokens)}` has no full stop"]).mend("a missing full stop")
        finding.tried += [] if end else [f"`{shown(tokens, 16)} .`"]
        return finding
    finding = Finding(tokens[-1], [f"`{shown(tokens[:-1])}` can't end here; it can go on with `{' '.join(end)} .`"])
    return of_form(finding, tokens[0].text)


def of_form(finding, word):
    """Adds the form of the statements that a word begins."""
    if word in pages.forms():
        finding.notes.append(f"the form is `{pages.forms()[word]}`")
        finding.mend("another form")
    return finding


def of_operator(tokens, count):
    """Whether the holes of a name aren't as many as the sorts in front of the arrow."""
    words = [token.text for token in tokens[:count + 1]]
    if words[-1] not in ("->", "~>") or ":" not in words:
        return None
    colon = words.index(":")
    sorts = len([word for word in words[colon + 1:-1] if word not in "[]"])
    for name in names.names_of(tokens[1:colon], words[0] in ("ops", "msgs")):
        holes = [piece for token in name for piece in names.PIECE.findall(token.text)].count("_")
        if holes and holes != sorts:
            return f"`{shown(name)}` has {counted(holes, 'hole')}, and {counted(sorts, 'sort')} in front of the arrow"
    return None


def of_first_word(fault, finding):
    """A first word that begins no statement here."""
    word = finding.token.text
    if fault.kind == "bad statement":
        is_rule = word not in OF_OBJECTS
        kind = "mod" if is_rule else "omod"
        has_form = fault.asker.have_forms(kind, [[token.text for token in fault.tokens[:-1]] + ["."]])[0]
        finding.notes.append(f"`{word}` stands in {'system and ' if is_rule else ''}object modules only")
        finding.mend("a rule in a functional module" if is_rule else "a statement of object modules")
        if has_form:
            finding.tried.append(f"the statement in a module `{kind} .. {ENDS[kind]}`")
        return finding
    if word in pages.mistakes():
        return finding.mend(word)
    finding.near = names.near(word, names.STATEMENTS)
    finding.notes.append(f"`{word}` begins no statement")
    return finding


def wrong_end(fault):
    """A module that goes on behind the word that was meant to end it."""
    token, word = fault.tokens[0], fault.unit.word
    finding = Finding(token, [f"the module began with `{word}`, so it ends with `{ENDS[word]}`"])
    finding.also.append((fault.unit.first, "it begins here"))
    return finding.mend("a wrong end") if token.text in ENDS.values() else finding.mend("a missing end")


def of_head(fault):
    """What is wrong with a module's head."""
    tokens = fault.unit.tokens[:4]
    texts = [token.text for token in tokens]
    if "{" in texts:
        return Finding(tokens[texts.index("{")]).mend("{")
    at = min(2, len(tokens) - 1)
    finding = Finding(tokens[at], [f"a module begins with `{fault.unit.word}`, one name, and `is`"])
    return finding.mend("the head of a module")


def of_unit(fault):
    """A unit that isn't read: by its first word, or by one near to it."""
    token = fault.unit.first
    finding = Finding(token)
    if token.text in pages.mistakes():
        return finding.mend(token.text)
    finding.near = names.near(token.text, [*MODULES, *names.COMMANDS, *names.STATEMENTS])
    word = next(iter(finding.near), None)
    if word:
        finding.mend("a misspelt word")
    if word in names.COMMANDS or word in MODULES:
        finding.edits.append(f"`{word}` in place of `{token.text}`")
    elif token.text in names.STATEMENTS:
        finding.mends.clear()
        finding.notes.append("a statement stands in a module, and none is open here")
        finding.mend("a statement of object modules" if token.text in OF_OBJECTS else "a statement outside of a module")
    else:
        finding.notes.append(f"`{token.text}` begins no module and no command")
    return finding

