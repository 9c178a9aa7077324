"""Texts of files, and their tokens with their places (docs/LANGUAGE.md, "Tokens")."""
from bisect import bisect_right
from functools import cached_property
import re
from typing import NamedTuple

BLANKS = r"[\t-\r ]"
PIECE = re.compile(
    rf"{BLANKS}+|(?P<line>(?:\*\*\*|---)(?!\()[^\n]*)|(?P<block>(?:\*\*\*|---)\()"
    r"""|(?P<token>[()\[\]{},]|"[ -~]*?(?<!\\)"|(?:[!-'*+\--Z\\^_a-z|~]+|`[()\[\]{},]?)+)|(?P<bad>.)""", re.S)
STRING = re.compile(r'"[ -~]*?(?<!\\)"')
PARENTHESIS = re.compile(r"[()]")
# A line comment that Maude takes for a block comment.
BLANK_BLOCK = re.compile(r"(?:\*\*\*|---)[\t ]+(\()")


class Token(NamedTuple):
    """A token, the file in which it stands, and how many bytes stand in front of it there."""

    text: str
    file: "File"
    at: int

    def __repr__(self):
        return self.text

    @property
    def line(self):
        return self.file.line_of(self.at)

    @property
    def is_first_of_line(self):
        before = self.at
        while before and self.file.text[before - 1] in " \t\r\v\f":
            before -= 1
        return before == 0 or self.file.text[before - 1] == "\n"


class File:
    """A file's name, and its text, in which each character is a byte."""

    def __init__(self, name, data, path=None):
        self.name, self.path, self.text = name, path, data.decode("latin-1")

    @cached_property
    def starts(self):
        """Where each line begins."""
        return [0, *(found.end() for found in re.finditer("\n", self.text))]

    def line_of(self, at):
        return bisect_right(self.starts, at)

    def start_of(self, line):
        return self.starts[line - 1]

    def source_line(self, line):
        """The text of a line, as people read it."""
        end = self.starts[line] - 1 if line < len(self.starts) else len(self.text)
        return readable(self.text[self.start_of(line):end]).rstrip("\r")

    def column_of(self, at):
        """The column, from 1, in characters as people count them."""
        return len(readable(self.text[self.start_of(self.line_of(at)):at])) + 1

    @cached_property
    def tokens(self):
        """The tokens up to the first byte or comment for which the source is refused."""
        return self.cut[0]

    @cached_property
    def bad(self):
        """The first byte that is of no token, or the opening of a comment that has no end."""
        return self.cut[1]

    @property
    def blank_blocks(self):
        """Comments of one line that Maude takes for block comments and that hide something there."""
        return self.cut[2]

    @cached_property
    def cut(self):
        found, blocks, at, bad = [], [], 0, None
        while at is not None:
            at, bad = self.cut_from(at, found, blocks)
        return found, bad, blocks

    def cut_from(self, at, found, blocks):
        """Adds the tokens from a place on, up to the next block comment: where it ends, and what refuses the source."""
        for piece in PIECE.finditer(self.text, at):
            kind = piece.lastgroup
            if kind == "token":
                found.append(Token(piece[0], self, piece.start()))
            elif kind == "line" and hides(piece[0]):
                blocks.append(Token(BLANK_BLOCK.match(piece[0])[0], self, piece.start()))
            elif kind == "block":
                end = end_of_block(self.text, piece.end())
                return end, None if end else Token(piece[0], self, piece.start())
            elif kind == "bad":
                return None, Token(piece[0], self, piece.start())
        return None, None


def end_of_block(text, at):
    """Where a block comment ends whose parenthesis was opened in front of this place; none where it doesn't."""
    depth = 1
    for found in PARENTHESIS.finditer(text, at):
        depth += 1 if found[0] == "(" else -1
        if depth == 0:
            return found.end()
    return None


def hides(line):
    """Whether Maude takes a comment of one line for a block comment that ends elsewhere."""
    opening = BLANK_BLOCK.match(line)
    return opening and not closes_at_end(line[opening.end():])


def closes_at_end(line):
    """Whether an open parenthesis is closed at the end of a line: then it is all the same how the comment is read."""
    end = end_of_block(line, 0)
    return end is not None and not line[end:].strip()


def readable(text):
    """Bytes as people read them."""
    return text.encode("latin-1").decode("utf-8", "replace")


def is_open_string(text):
    """Whether a token begins with a quotation mark and is no whole string: in one line more might become one."""
    return text[0] == '"' and not STRING.fullmatch(text)


def spelled(texts):
    """Tokens as a text that is cut into the same tokens."""
    if not any(map(is_open_string, texts)):
        return " ".join(texts)
    return "".join(text + ("\n" if is_open_string(text) else " ") for text in texts)
