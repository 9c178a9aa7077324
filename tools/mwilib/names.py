"""The names that a module has, and which of them are near to another name."""
from dataclasses import dataclass, field
from functools import cached_property
import re

from . import pages
from .sources import IMPORTS, OF_OBJECTS, SUBSORTS

PIECE = re.compile(r"_|[()\[\]{},]|[^_`()\[\]{},]+")
STATEMENTS = ["sort", "sorts", "subsort", "subsorts", "op", "ops", "var", "vars", "eq", "ceq", "cq", "rl", "crl",
              *OF_OBJECTS, *IMPORTS]
UNITS = ["fmod", "mod", "omod", "endfm", "endm", "endom"]
COMMANDS = ["reduce", "red", "rewrite", "rew", "parse", "match", "xmatch"]
ATTRIBUTES = ["assoc", "comm", "id:", "prec", "gather", "frozen", "ctor", "ditto", "memo", "config", "object",
              "message", "format", "metadata"]
OF_STATEMENTS = ["nonexec", "label", "metadata", "owise"]
MARKS = [":", "->", "~>", "=", "=>", ":=", "/\\", "<", "|", "if", "<=?"]
MOST_NEAR = 3
ENCLOSING = {"(": 1, "[": 1, "{": 1, "if": 1, ")": -1, "]": -1, "}": -1, "fi": -1}


@dataclass(eq=False)
class Declared:
    """An operator as one statement declares it."""

    tokens: list
    arguments: list
    value: str
    attributes: list
    statement: list

    @cached_property
    def pieces(self):
        return [piece for token in self.tokens for piece in PIECE.findall(token.text)]

    @cached_property
    def has_holes(self):
        return "_" in self.pieces

    @cached_property
    def spelling(self):
        """The name as one token (docs/LANGUAGE.md, "Names of operators")."""
        text, before = "", "_"
        for piece in self.pieces:
            bracket = piece in "()[]{},"
            touches = not bracket and piece != "_" and before != "_" and before not in "()[]{},"
            text += f"`{piece}" if bracket or touches else piece
            before = piece
        return text


@dataclass
class Scope:
    """What a module has, with its imports: sorts, declared operators, and the variables of its own. All is added before
    anything is asked of it."""

    sorts: dict = field(default_factory=dict)
    pairs: list = field(default_factory=list)
    operators: list = field(default_factory=list)
    variables: dict = field(default_factory=dict)
    modules: set = field(default_factory=set)

    @cached_property
    def pieces(self):
        """All tokens of terms: pieces of operators' names, their spellings, and variables."""
        found = {piece for declared in self.operators for piece in declared.pieces}
        found |= {declared.spelling for declared in self.operators}
        return (found | set(self.variables) | set("()[]{},") | {"==", "=/=", "if", "then", "else", "fi"}) - {"_"}

    def is_known(self, text):
        """Whether a token may stand in a term."""
        name, colon, sort = text.rpartition(":")
        return (text in self.pieces or colon and name and sort in self.sorts
                or "NAT" in self.modules and text.isdigit() or "QID" in self.modules and text[0] == "'" and text != "'")

    def named(self, text):
        """The declarations of operators with this name in prefix forms."""
        return self.by_name.get(text, [])

    @cached_property
    def by_name(self):
        """The operators by their spellings, which for a name of one piece without holes is this piece."""
        found = {}
        for declared in self.operators:
            found.setdefault(declared.spelling, []).append(declared)
        return found

    @cached_property
    def mixfix(self):
        """The operators whose names have holes and pieces, one of each name and sorts."""
        found = {(declared.spelling, *declared.arguments): declared for declared in self.operators}
        return [declared for declared in found.values() if declared.has_holes and set(declared.pieces) != {"_"}]

    @cached_property
    def kinds(self):
        """For each sort the first one of its kind that is below no other."""
        kind, low = {sort: sort for sort in self.sorts}, {low for low, _ in self.pairs}

        def first(sort):
            while kind[sort] != sort:
                kind[sort] = sort = kind[kind[sort]]
            return sort

        order = {sort: (sort in low, at) for at, sort in enumerate(self.sorts)}
        for one, other in self.pairs:
            if one in kind and other in kind:
                one, other = sorted((first(one), first(other)), key=order.get)
                kind[other] = one
        return {sort: first(sort) for sort in self.sorts}

    def add(self, unit, own):
        for statement in unit.statements:
            self.add_statement(statement, own)

    def add_statement(self, statement, own):
        words = [token.text for token in statement]
        if words[0] in ("sort", "sorts"):
            self.sorts |= {token.text: token for token in statement[1:-1]}
        elif words[0] in SUBSORTS:
            self.pairs += pairs_of(words[1:-1])
        elif words[0] in ("op", "ops", "msg", "msgs") and ":" in words:
            self.operators += declared_in(statement, words.index(":"))
        elif words[0] == "class" and words[2:]:
            self.sorts[words[1]] = statement[1]
            self.pairs.append((words[1], "Cid"))
            self.operators += declared_by_class(statement)
        elif words[0] in ("var", "vars") and own and ":" in words:
            colon = words.index(":")
            self.variables |= {token.text: words[colon + 1] for token in statement[1:colon] if words[colon + 1:]}


def pairs_of(words):
    """The pairs of sorts that a `subsort` statement gives."""
    groups = [[]]
    for word in words:
        groups.append([]) if word == "<" else groups[-1].append(word)
    return [(low, high) for one, other in zip(groups, groups[1:]) for low in one for high in other]


def names_of(tokens, several):
    """The names behind `op`, or `ops`: of these each one token, or in parentheses."""
    if not several:
        return [tokens]
    names, depth = [], 0
    for token in tokens:
        depth += {"(": 1, ")": -1}.get(token.text, 0)
        if token.text == "(" and depth == 1:
            names.append([])
        elif depth > 0:
            names[-1].append(token)
        elif token.text != ")":
            names.append([token])
    return names


def declared_in(statement, colon):
    """The operators that a statement declares."""
    words = [token.text for token in statement]
    arrow = next((at for at in range(colon, len(words)) if words[at] in ("->", "~>")), None)
    if arrow is None:
        return []
    arguments = [word for word in words[colon + 1:arrow] if word not in "[]"]
    values = [word for word in words[arrow + 1:arrow + 4] if word not in "[]."]
    behind = arrow + (4 if words[arrow + 1:arrow + 2] == ["["] else 2)
    return [Declared(name, arguments, values[0] if values else "", words[behind + 1:-2], statement)
            for name in names_of(statement[1:colon], words[0] in ("ops", "msgs")) if name]


def declared_by_class(statement):
    """The operators that a class declares: its constant, and for each attribute one with the hole for a value."""
    name = statement[1]
    found = [Declared([name], [], name.text, [], statement)]
    for at, token in enumerate(statement[:-2]):
        if token.text in ("|", ",") and statement[at + 2].text == ":" and len(statement) > at + 3:
            hole = token._replace(text="_")
            found.append(Declared([statement[at + 1], statement[at + 2], hole], [statement[at + 3].text], "Attribute",
                                  [], statement))
    return found


def reached(unit, units):
    """The modules that a unit reaches by imports, each behind those that it imports itself; BOOL is the first."""
    known = {**pages.prelude(), **{other.name: other for other in units}}
    order = {known["BOOL"]: None}
    waiting, seen = [(unit, False)], set()
    while waiting:
        found, is_done = waiting.pop()
        if is_done:
            order[found] = None
        elif found not in seen:
            seen.add(found)
            waiting += [(found, True), *((known[name], False) for name in reversed(found.imports) if name in known)]
    return list(order)


def scope_of(unit, units):
    """What a module has, behind these accepted ones."""
    scope = Scope()
    for other in reached(unit, units):
        scope.add(other, other is unit)
        scope.modules.add(other.name)
    return scope


def distance(one, other, most):
    """How many letters must be put in, taken out, replaced or exchanged with the next; or `most` + 1, if more."""
    if abs(len(one) - len(other)) > most:
        return most + 1
    rows = [list(range(len(other) + 1))]
    for at, letter in enumerate(one, 1):
        row = [at]
        for place, mark in enumerate(other, 1):
            least = min(row[-1] + 1, rows[-1][place] + 1, rows[-1][place - 1] + (letter != mark))
            if at > 1 and place > 1 and letter == other[place - 2] and mark == one[at - 2]:
                least = min(least, rows[-2][place - 2] + 1)
            row.append(least)
        rows.append(row)
        if min(row) > most:
            return most + 1
    return rows[-1][-1]


def near(text, names):
    """The names that are near to one, the nearest first."""
    most = 1 if len(text) < 4 else 2
    ranked = sorted((distance(text, name, most), at, name) for at, name in enumerate(dict.fromkeys(names))
                    if name != text)
    folded = [name for _, _, name in ranked if name.lower() == text.lower()]
    close = [name for far, _, name in ranked if far <= most and far < max(len(name), len(text))]
    return list(dict.fromkeys([*folded, *close]))[:MOST_NEAR]


def divided(tokens, mark):
    """Tokens at the first mark that nothing encloses, as what stands in front of it, it, and what stands behind it."""
    depth = 0
    for at, token in enumerate(tokens):
        if token.text == mark and depth == 0:
            return tokens[:at], token, tokens[at + 1:]
        depth = max(0, depth + ENCLOSING.get(token.text, 0))
    return None
