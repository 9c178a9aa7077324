"""The objects that are written in the sides of a rule, by their tokens, and which of them keep it from completion."""
from dataclasses import dataclass

DEPTHS = {"(": 1, "[": 1, "{": 1, "<": 1, ")": -1, "]": -1, "}": -1, ">": -1}


@dataclass
class Written:
    """An object: its tokens, its name, its class, and its attributes by the tokens of each."""

    tokens: list
    name: list
    class_token: object
    attributes: list

    @property
    def text(self):
        return " ".join(token.text for token in self.name)


@dataclass
class Again:
    """What comes a second time: its text, its first token, that of the first time, the tokens that are too many, and
    the mistake that this is."""

    text: str
    token: object
    first: object
    span: list
    mistake: str = ""


def cuts(tokens):
    """Pieces of tokens with the token behind each, cut where nothing encloses a colon, a bar or a comma."""
    piece, depth = [], 0
    for token in tokens:
        depth = max(0, depth + DEPTHS.get(token.text, 0))
        if depth == 0 and token.text in (":", "|", ","):
            yield piece, token
            piece = []
        else:
            piece.append(token)
    yield piece, None


def object_of(tokens):
    """The object that these tokens are, without the angles round them; none if they are of another form."""
    pieces = list(cuts(tokens))
    marks = [mark.text for _, mark in pieces if mark]
    if marks[:2] != [":", "|"] or len(pieces[1][0]) != 1 or not pieces[0][0]:
        return None
    bar = next(at for at, token in enumerate(tokens) if token is pieces[1][1])
    attributes, rest = [], tokens[bar + 1:]
    for piece, mark in cuts(rest):
        if mark and mark.text == ":" and len(piece) == 1:
            attributes.append([*piece, mark])
        elif attributes:
            attributes[-1] += piece
    return Written([], pieces[0][0], pieces[1][0][0], attributes)


def written(tokens):
    """The objects of a side that no bracket encloses."""
    found, depth, start = [], 0, None
    for at, token in enumerate(tokens):
        before, depth = depth, max(0, depth + DEPTHS.get(token.text, 0))
        if token.text == "<" and before == 0:
            start = at
        elif token.text == ">" and depth == 0 and start is not None:
            made = object_of(tokens[start + 1:at])
            if made:
                made.tokens = tokens[start:at + 1]
                found.append(made)
            start = None
    return found


def named_twice(sides):
    """An object whose name one in front of it on its side has."""
    for side in sides:
        for at, found in enumerate(side):
            before = next((other for other in side[:at] if other.text == found.text), None)
            if before:
                return Again(found.text, found.name[0], before.name[0], found.tokens, "an object twice")
    return None


def repetition(sides):
    """An attribute that stands in front of it in the same object."""
    for found in (found for side in sides for found in side):
        for at, attribute in enumerate(found.attributes):
            before = next((other for other in found.attributes[:at] if other[0].text == attribute[0].text), None)
            if before:
                comma = comma_before(found.tokens, attribute[0])
                return Again(attribute[0].text, attribute[0], before[0], [*comma, *attribute], "an attribute twice")
    return None


def comma_before(tokens, token):
    at = next(at for at, other in enumerate(tokens) if other is token)
    return [tokens[at - 1]] if tokens[at - 1].text == "," else []


def other_class(sides):
    """An object of the right side that has another class on the left."""
    for found in sides[1] if len(sides) > 1 else []:
        before = next((other for other in sides[0] if other.text == found.text), None)
        if before and before.class_token.text != found.class_token.text:
            return Again(found.text, found.class_token, before.class_token, [])
    return None
