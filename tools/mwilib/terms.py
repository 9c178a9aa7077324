"""Finds the token for which a text spells no term, by asking `mw` to parse its beginnings and changes of it."""
from dataclasses import dataclass
from itertools import islice, product

from . import names
from .asking import Copy, Unsure, base_of, longest
from .findings import Finding, counted, quoted, shown
from .forms import at_missing_stop, closers, first_part, stop_splits
from .sources import SUBSORTS
from .texts import spelled

READ = (None, "ambiguous", "open term", "too deep", "number too large")
CHOICE = {"if": ["then", "W", "else", "W", "fi"], "then": ["else", "W", "fi"], "else": ["fi"]}
MOST_KINDS, MOST_LEVELS, MOST_ENDS, MOST_RESTS = 6, 6, 120, 12
BRACKETS = {"(": ")", "[": "]", "{": "}"}
LABELS = {"label", "metadata", "nonexec", "owise", "print", "narrowing", "variant"}


@dataclass
class Level:
    """A bracket or an `if` that is open: its place, the token in front of it, and how many commas it has had."""

    opening: str
    before: str | None
    commas: int = 0


def levels_of(words):
    """The levels that are open behind these words."""
    opened = []
    for at, word in enumerate(words):
        if word in BRACKETS or word == "if":
            opened.append(Level(word, words[at - 1] if at else None))
        elif word in ("then", "else") and opened and opened[-1].opening in CHOICE:
            opened[-1].opening = word
        elif opened and (word == BRACKETS.get(opened[-1].opening) or word == "fi" and opened[-1].opening in CHOICE):
            opened.pop()
        elif word == "," and opened:
            opened[-1].commas += 1
    return opened


def inside_of(words):
    """The words behind the last bracket that opens."""
    return words[max((at for at, word in enumerate(words) if word in BRACKETS), default=-1) + 1:]


class Terms:
    """What `mw` says of texts in the module of a fault."""

    def __init__(self, fault, as_constants=False):
        self.asker, self.fault = fault.asker, fault
        self.module = fault.unit if fault.unit.is_module else module_of(fault)
        if self.module is None:
            raise Unsure
        self.scope = names.scope_of(self.module, fault.accepted)
        self.name = self.module.name
        self.base = base_of(self.module, fault.accepted, not fault.unit.is_module)
        if fault.unit.is_module:
            self.base += declarations(fault.unit, as_constants).text(self.name)

    def command(self, words, word="parse"):
        return f"{word} in {self.name} : {spelled(words)} ."

    def answers(self, texts):
        return self.asker.commands(self.base, [self.command(words) for words in texts])

    def are_read(self, texts):
        return [(answer.refusal or (0, None))[1] in READ for answer in self.answers(texts)]

    def wildcards(self):
        """A variable of each kind."""
        kinds = dict.fromkeys(self.scope.kinds.values())
        return [f"W:{sort}" for sort in kinds][:MOST_KINDS]

    def ends_of_level(self, level, wildcard):
        """How an open level may be closed."""
        if level.opening in CHOICE:
            return [[wildcard if word == "W" else word for word in CHOICE[level.opening]]]
        ends = [[BRACKETS[level.opening]]]
        for declared in self.scope.named(level.before) if level.opening == "(" and level.before else []:
            rest = declared.arguments[level.commas + 1:]
            end = [word for sort in rest for word in (",", f"W:{sort}")] + [")"]
            if end not in ends:
                ends.append(end)
        return ends[:MOST_LEVELS]

    def rests(self, words, wildcard):
        """What may come behind the last piece of a mixfix form that is open in these words."""
        found, here = [], set(words) - {"_"}
        for declared in self.scope.mixfix:
            pieces = declared.pieces
            last = next((at for at in range(len(pieces) - 1, -1, -1) if pieces[at] in here), None)
            rest = pieces[last + 1:] if last is not None else []
            sorts = declared.arguments[pieces[:last].count("_"):] if rest else []
            for behind in ([rest, rest[1:]] if rest[:1] == ["_"] else [rest]):
                holes = iter(sorts if behind is rest else sorts[1:])
                end = [f"W:{next(holes, wildcard[2:])}" if piece == "_" else piece for piece in behind]
                if end and end not in found:
                    found.append(end)
        return found[:MOST_RESTS]

    def ends(self, words):
        """Ends with which a beginning may spell a term, short ones first."""
        levels, inside = levels_of(words)[::-1], inside_of(words)
        for wildcard in self.wildcards() or [""]:
            outer = list(islice(product(*(self.ends_of_level(level, wildcard) for level in levels)), MOST_LEVELS))
            inner = [[], [wildcard], *self.rests(inside, wildcard)]
            for end in inner:
                for ends in outer:
                    yield [*filter(None, end), *(word for part in ends for word in part)]

    def nested_ends(self, words):
        """Ends by which one more mixfix form is closed, as an object is behind its last attribute."""
        wildcard = (self.wildcards() or [""])[0]
        rests = self.rests(inside_of(words), wildcard)
        closing = [rest for rest in rests if not any(word.startswith("W:") for word in rest)]
        levels = [word for level in levels_of(words)[::-1] for word in self.ends_of_level(level, wildcard)[0] if word]
        for last in closing:
            yield from ([*end, *last, *levels] for end in rests)

    def longest_beginning(self, words):
        """How many tokens can still be read, and the shortest end with which they are."""
        ends = {}

        def are_viable(lengths):
            asked = [(length, end) for length in lengths for ends in (self.ends, self.nested_ends)
                     for end in islice(ends(words[:length]), MOST_ENDS)]
            asked = list({(length, *end): (length, end) for length, end in asked}.values())
            for (length, end), is_read in zip(asked, self.are_read([[*words[:length], *end] for length, end in asked])):
                if is_read and (length not in ends or len(end) < len(ends[length])):
                    ends[length] = end
            return [length in ends for length in lengths]

        count = longest(len(words), are_viable)
        return count, ends.get(count, [])


def module_of(fault):
    """The module to which a command goes."""
    words = [token.text for token in fault.unit.tokens]
    known = {**names.pages.prelude(), **{unit.name: unit for unit in fault.accepted}}
    named = name_in(words)
    return known.get(named) if named else next(reversed(fault.accepted), None)


def name_in(words):
    """The module's name that stands in a command."""
    at = 1
    if words[1:2] == ["["] and "]" in words:
        at = words.index("]") + 1
    return words[at + 1] if words[at:at + 1] == ["in"] and words[at + 2:at + 3] == [":"] else None


def text_in(tokens):
    """The tokens of a command's text."""
    words = [token.text for token in tokens]
    at = 1
    if words[0] in ("rewrite", "rew") and words[1:2] == ["["] and "]" in words:
        at = words.index("]") + 1
    at += 3 if name_in(words) else 0
    return tokens[at:-1] if words[-1] == "." else tokens[at:]


def declarations(unit, as_constants):
    """A module without its equations and rules, and with constants for its variables if that is wanted."""
    copy = Copy.of(unit)
    return copy.with_lines([(at, constants_for(words)) for at, words in copy.lines]) if as_constants else copy


def constants_for(words):
    is_plain = words[0] in ("var", "vars") and ":" in words and not any("_" in word or "`" in word for word in words)
    colon = words.index(":") if is_plain else 0
    return ["ops", *words[1:colon], ":", "->", *words[colon + 1:]] if is_plain else words


def parts_of(tokens):
    """The texts of an equation or a rule: both sides, and of each fragment of the condition; with each the mark that
    joins it to the one in front of it."""
    body, fragments = sides_and_fragments(tokens)
    sides = names.divided(body, "=>" if tokens[0].text in ("rl", "crl") else "=")
    found = [(sides[0], None), (sides[2], sides[1])] if sides else [(body, None)]
    return found + [part for fragment in fragments for part in fragment_parts(fragment)]


def sides_and_fragments(tokens):
    """The tokens of both sides, and the fragments of the condition."""
    word, body = tokens[0].text, tokens[1:-1] if tokens[-1].text == "." else tokens[1:]
    if body[:1] and body[0].text == "[" and len(body) > 3 and body[2].text == "]" and body[3].text == ":":
        body = body[4:]
    body, condition, fragments = without_attributes(body), [], []
    if word in ("ceq", "cq", "crl"):
        body, condition = cut_at_if(body)
    while condition:
        cut = names.divided(condition, "/\\")
        fragment, condition = (cut[0], cut[2]) if cut else (condition, [])
        fragments.append(fragment)
    return body, fragments


def fragment_parts(fragment):
    for mark in (":=", "="):
        cut = names.divided(fragment, mark)
        if cut:
            return [(cut[0], None), (cut[2], cut[1])]
    if len(fragment) > 2 and fragment[-2].text == ":":
        return [(fragment[:-2], None)]
    return [(fragment, None)]


def without_attributes(body):
    """A statement's tokens without the attributes at its end."""
    if body and body[-1].text == "]":
        at = max((at for at, token in enumerate(body) if token.text == "["), default=0)
        if at and body[at + 1].text in LABELS:
            return body[:at]
    return body


def cut_at_if(body):
    """What stands in front of the `if` that no `fi` closes, and what stands behind it."""
    opened = []
    for at, token in enumerate(body):
        if token.text == "if":
            opened.append(at)
        elif token.text == "fi" and opened:
            opened.pop()
    return (body[:opened[0]], body[opened[0] + 1:]) if opened else (body, [])


def no_parse(fault):
    """What is wrong with a text that spells no term, or with two that spell none of one kind."""
    terms = Terms(fault)
    if not fault.unit.is_module:
        return of_command(fault, terms)
    finding = glued_or_missing(fault)
    if finding:
        return finding
    parts = parts_of(fault.tokens)
    texts = [[token.text for token in part] for part, _ in parts]
    for (part, _), is_read in zip(parts, terms.are_read(texts)):
        if not is_read:
            return of_text(fault, terms, part)
    return of_kinds(fault, parts)


def of_command(fault, terms):
    """What is wrong with the text of a command."""
    tokens = text_in(fault.tokens)
    if fault.unit.word in ("match", "xmatch"):
        cut = names.divided(tokens, "<=?")
        if cut is None:
            return Finding(fault.tokens[-1], ["a match has `<=?` between a pattern and a term"]).mend("a match")
        tokens = next((part for part, is_read in zip((cut[0], cut[2]), terms.are_read(
            [[token.text for token in part] for part in (cut[0], cut[2])])) if not is_read), None)
        if tokens is None:
            return Finding(cut[1], ["pattern and term have different kinds"]).mend("sides of different kinds")
    return of_text(fault, terms, tokens)


def glued_or_missing(fault):
    """The first place where a full stop mends a statement in its module."""
    tokens = fault.tokens[:-1]
    splits = list(stop_splits(tokens)) + [(at, True) for at in range(1, len(tokens))
                                          if len(tokens[at - 1].text) > 1 and tokens[at - 1].text.endswith(".")]
    copy, copies = Copy.of(fault.unit, fault.number), []
    for at, is_glued in splits:
        front = [*first_part(tokens, at, is_glued), "."]
        rest = [token.text for token in fault.tokens[at:]]
        changed = [(fault.number, front), *([(fault.number + 1, rest)] if len(rest) > 1 else [])]
        copies.append(copy.with_lines([line for number, words in copy.lines
                                       for line in (changed if number == fault.number else [(number, words)])]))
    base = base_of(fault.unit, fault.accepted)
    for split, told in zip(splits, fault.asker.copies(base, copies) if copies else []):
        if told is None or told[0] > fault.number:
            finding = at_missing_stop(tokens, *split)
            finding.tried.append(f"`{shown(first_part(tokens, *split), 16)} .`")
            return finding
    return None


def of_kinds(fault, parts):
    """Two texts that are terms, but not of one kind."""
    terms = Terms(fault, as_constants=True)
    pairs = [(parts[at - 1][0], parts[at][0], mark) for at, (_, mark) in enumerate(parts) if mark]
    for one, other, mark in pairs:
        texts = [[token.text for token in side] for side in (one, other)]
        joined = ["(", *texts[0], ")", "==", "(", *texts[1], ")"]
        first, second, both = terms.answers([*texts, joined])
        if (both.refusal or (0, None))[1] not in READ:
            sorts = [answer.value("sort") for answer in (first, second)]
            notes = [f"`{shown(one)}` has the sort {sorts[0]}, and `{shown(other)}` {sorts[1]}; no kind has both"] \
                if all(sorts) else ["the two sides have no kind in common"]
            return Finding(mark, notes).mend("sides of different kinds")
    return at_test(fault, terms)


def at_test(fault, terms):
    """A test for a sort that isn't there, or for one of another kind, or a condition that is no truth value."""
    for at, token in enumerate(fault.tokens):
        sort = fault.tokens[at + 1] if at + 1 < len(fault.tokens) else None
        if token.text == ":" and sort and sort.text not in terms.scope.sorts and sort.text != "[":
            near = names.near(sort.text, terms.scope.sorts)
            finding = Finding(sort, [f"`{sort.text}` is no sort of {terms.name}"], near)
            return finding.mend("a misspelt name" if near else "a sort that isn't declared")
    return of_truth(fault, terms)


def of_truth(fault, terms):
    """A fragment of a condition that is a term, but no truth value."""
    fragments = [fragment for fragment in sides_and_fragments(fault.tokens)[1] if len(fragment_parts(fragment)) == 1]
    texts = [[token.text for token in fragment] for fragment in fragments]
    are_true = terms.are_read([["(", *words, ")", "==", "true"] for words in texts])
    for fragment, words, is_truth in zip(fragments, texts, are_true):
        if not is_truth:
            sort = terms.answers([words])[0].value("sort")
            said = f"`{shown(fragment)}` has the sort {sort}, and " if sort else ""
            finding = Finding(fragment[0], [f"{said}a condition is of the sort Bool"])
            return finding.mend("a condition that is no truth value")
    return Finding(None, ["each text is a term, but a test asks for a sort of another kind"])


def of_text(fault, terms, tokens):
    """The first token behind the longest beginning of a text that can be read."""
    words = [token.text for token in tokens]
    if not words:
        return Finding(fault.tokens[-1], ["a term is missing here"])
    count, end = terms.longest_beginning(words)
    finding = mended(Text(fault, terms, tokens, count))
    if count == len(words):
        finding.token = finding.token or fault.tokens[fault.tokens.index(tokens[-1]) + 1]
        missing = " ".join(".." if word.startswith("W:") else word for word in end)
        what = {"": "", "..": ": a term is missing behind it"}.get(missing, f": it can go on with `{missing}`")
        finding.notes.insert(0, f"`{shown(tokens)}` isn't whole{what}")
        return finding if finding.mends else finding.mend("a text that isn't whole")
    finding.token = finding.token or tokens[count]
    finding.notes[:0] = notes_at(terms, tokens, count)
    return finding if finding.mends else of_kind(terms, tokens, count, end, finding)


def of_kind(terms, tokens, count, end, finding):
    """What is said where a term stands that isn't of the kind which is wanted there."""
    words = [token.text for token in tokens[count:]]
    answers = terms.answers([words[:length] for length in range(1, len(words) + 1)])
    found = next(((length, answer.value("sort")) for length, answer in enumerate(answers, 1)
                  if answer.refusal is None), None)
    if words[0] in terms.scope.variables:
        found = found or (1, terms.scope.variables[words[0]])
    if found and end and end[0].startswith("W:"):
        text, wanted = shown(tokens[count:count + found[0]]), terms.scope.kinds.get(end[0][2:])
        finding.notes.append(f"`{text}` has the sort {found[1]}; here the kind [{wanted}] is wanted")
        finding.mend("an argument of another kind")
    return finding


def notes_at(terms, tokens, count):
    """What is said of the first token that can't be read, and whether the others are known."""
    token = tokens[count]
    unknown = [other.text for other in tokens if not terms.scope.is_known(other.text) and other.text != token.text]
    if not terms.scope.is_known(token.text):
        yield f"`{token.text}` is no name of {terms.name}"
    elif count:
        yield f"`{shown(tokens[:count])}` can be read; no way to go on with `{token.text}` was found"
    else:
        yield f"no term was found that begins with `{token.text}`"
    if unknown:
        yield f"not known in {terms.name} either: {quoted(dict.fromkeys(unknown))}"
    yield from arity_notes(terms, tokens, count)


def arity_notes(terms, tokens, count):
    """How an operator is declared whose arguments the token stands among."""
    words = [token.text for token in tokens]
    levels = levels_of(words[:count])
    name = levels[-1].before if levels and levels[-1].opening == "(" else None
    if name is None and words[count + 1:count + 2] == ["("]:
        name = words[count]
    for declared in terms.scope.named(name)[:2] if name else []:
        wanted = counted(len(declared.arguments), "argument")
        yield f"`{name}` has {wanted}: `{shown(declared.statement, 40)}`{place_of(declared.statement[0])}"


def place_of(token):
    return f" ({token.file.name}:{token.line})" if token.file.path or token.file.name != "the prelude" else " (prelude)"


@dataclass
class Text:
    """A text with its fault: how many tokens of it can be read."""

    fault: object
    terms: Terms
    tokens: list
    count: int

    @property
    def words(self):
        return [token.text for token in self.tokens]

    @property
    def token(self):
        return self.tokens[self.count] if self.count < len(self.tokens) else None

    def put(self, at, width, *others):
        """The text with other words in the place of some."""
        return [*self.words[:at], *others, *self.words[at + width:]]


def mended(text):
    """The first change with which `mw` reads the text, as a finding."""
    changes = list(all_changes(text))
    reads = text.terms.are_read([words for _, _, words in changes])
    good = [change for change, is_read in zip(changes, reads) if is_read]
    finding = with_change(good[0], [change for change in good if change[0] == good[0][0]]) if good else Finding()
    if text.token and not text.terms.scope.is_known(text.token.text):
        finding.near = finding.near or names.near(text.token.text, text.terms.scope.pieces)
        if not good:
            finding = of_unknown(text, finding)
    return finding


def with_change(change, alike):
    mistake, said, _ = change
    finding = Finding().mend(mistake)
    finding.tried += [said for _, said, _ in alike[:2]] if mistake == "a misspelt name" else [said]
    return finding


def all_changes(text):
    """Changes of a text that would be a mending, likely ones first: the mistake, what is said, the words."""
    yield from changes_at_stops(text)
    yield from changes_of_names(text)
    yield from changes_of_brackets(text)
    yield from changes_of_arguments(text)


def changes_at_stops(text):
    """A full stop that is missing, or glued to a token."""
    for at, token in enumerate(text.tokens):
        is_word = token.text in names.COMMANDS + names.STATEMENTS + names.UNITS
        if at and is_word and token.is_first_of_line:
            yield "a missing full stop", f"`.` in front of `{token.text}`", text.words[:at]
        if token.text.endswith(".") and len(token.text) > 1:
            yield ("a full stop without a blank in front of it", f"`{token.text[:-1]} .` in place of `{token.text}`",
                   [*text.words[:at], token.text[:-1]])


def changes_of_names(text):
    """A near name in place of the token, or of one that isn't known."""
    known = text.terms.scope
    places = [text.count] if text.token else []
    places += [at for at, word in enumerate(text.words) if not known.is_known(word) and at not in places]
    for at in places[:4]:
        for name in names.near(text.words[at], known.pieces):
            yield "a misspelt name", f"`{name}` in place of `{text.words[at]}`", text.put(at, 1, name)


def changes_of_brackets(text):
    """A bracket that is missing, or one too many."""
    closed = closers(text.words)
    if closed:
        yield "a missing bracket", f"{quoted(closed)} at the end", [*text.words, *closed]
    if text.token and text.token.text in ")]}":
        yield "a bracket too many", f"without `{text.token.text}`", text.put(text.count, 1)
    for at in range(text.count, 0, -1):
        if closed and len(closed) == 1 and at < len(text.words):
            yield "a missing bracket", f"`{closed[0]}` in front of `{text.words[at]}`", text.put(at, 0, closed[0])


def changes_of_arguments(text):
    """A comma that is missing, or arguments too many or too few."""
    if text.token is None:
        return
    at = text.count
    if text.words[at - 1:at + 1] == ["|", ">"]:
        yield "an object without attributes", "`none` in front of `>`", text.put(at, 0, "none")
    yield "a missing comma", f"`,` in front of `{text.words[at]}`", text.put(at, 0, ",")
    if text.words[at] == ",":
        end = end_of_arguments(text.words, at)
        yield "the number of arguments", f"without `{shown(text.words[at:end])}`", text.put(at, end - at)
    if text.words[at] == ")":
        for wildcard in text.terms.wildcards():
            yield "the number of arguments", f"one more argument in front of `)`, of the sort {wildcard[2:]}", \
                text.put(at, 0, ",", wildcard)
    yield "a token too many", f"without `{text.words[at]}`", text.put(at, 1)


def end_of_arguments(words, at):
    """Where the bracket closes in which a comma stands."""
    depth = 0
    for place in range(at, len(words)):
        depth += {"(": 1, "[": 1, "{": 1, ")": -1, "]": -1, "}": -1}.get(words[place], 0)
        if depth < 0:
            return place
    return len(words)


def of_unknown(text, finding):
    """A name that isn't there: a variable that isn't declared, or a name of a module that isn't imported."""
    at, word = text.count, text.words[text.count]
    wildcards = text.terms.wildcards()
    kept = [other if text.terms.scope.is_known(other) or other == word else None for other in text.words]
    sorts = []
    if None not in kept:
        texts = [[wildcard if other == word else other for other in text.words] for wildcard in wildcards]
        sorts = [wildcard[2:] for wildcard, is_read in zip(wildcards, text.terms.are_read(texts)) if is_read]
    imported = of_prelude(text, word) or of_swallowed(text)
    if imported:
        return imported
    if sorts and text.fault.unit.is_module and word[0].isupper():
        finding.tried.append(f"`var {word} : {sorts[0]} .`")
        return finding.mend("a variable that isn't declared")
    return finding.mend("a name that isn't declared")


def of_swallowed(text):
    """A statement in front of which a full stop is missing, so that its words are sorts or variables."""
    unit = text.terms.module
    found = next(iter(swallowed(unit)), None)
    if found is None or text.fault.unit is unit:
        return None
    finding = Finding(None, [f"`{found.text}` isn't read as the beginning of a statement there: it is a name"])
    finding.also.append((found, "a full stop is missing in front of it"))
    return finding.mend("a missing full stop")


def swallowed(unit):
    """Words that begin a statement, but stand as names of sorts or variables at the beginning of a line."""
    for statement in unit.statements if unit.is_module else []:
        if statement[0].text in ("sort", "sorts", "var", "vars", *SUBSORTS):
            yield from (token for token in statement[1:] if token.text in names.STATEMENTS and token.is_first_of_line)


def of_prelude(text, word):
    """A name of NAT or QID in a module that doesn't import it."""
    for module in ("NAT", "QID"):
        unit = names.pages.prelude()[module]
        scope = names.scope_of(unit, [])
        if module in text.terms.scope.modules or not scope.is_known(word):
            continue
        finding = Finding(None, [f"`{word}` is a name of the prelude's {module}"]).mend("a module that isn't imported")
        if imports_mend(text, module):
            finding.tried.append(f"`protecting {module} .` in {text.terms.name}")
        return finding
    return None


def imports_mend(text, module):
    """Whether a module reads the text when it imports another one."""
    terms = text.terms
    unit = terms.module
    if unit.name in names.pages.prelude():
        return False
    copy = declarations(unit, False)
    changed = copy.with_lines([(-1, ["protecting", module, "."]), *copy.lines])
    base = base_of(unit, text.fault.accepted) + changed.text("asked")
    answer = terms.asker.commands(base, [f"parse in asked : {spelled(text.words)} ."])[0]
    return (answer.refusal or (0, None))[1] in READ
