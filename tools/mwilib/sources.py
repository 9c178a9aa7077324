"""Sources as `mw` gets them: the units of files, in order, with what `load` puts in, and where each line comes from."""
from bisect import bisect_right
from dataclasses import dataclass, field
from functools import cached_property
import pathlib

from .texts import File, Token, spelled

ENDS = {"fmod": "endfm", "mod": "endm", "omod": "endom", "fth": "endfth", "th": "endth", "oth": "endoth",
        "view": "endv", "smod": "endsm"}
MODULES = ("fmod", "mod", "omod")
SUBSORTS = ("subsort", "subsorts", "subclass", "subclasses")
OF_OBJECTS = ("class", "subclass", "subclasses", "msg", "msgs")
IMPORTS = ("protecting", "pr", "extending", "ex", "including", "inc")
EQUATIONS = ("eq", "ceq", "cq", "rl", "crl")
LOADS = ("load", "in")
PASSED = ("set", "show")
LAST = {"eof": "the rest of this file isn't read, as in Maude", "quit": "what is behind it isn't read, as in Maude"}
LAST["q"] = LAST["quit"]
ENDINGS = ("", ".maude")


@dataclass(eq=False)
class Unit:
    """A module or a command by its tokens, the one that ends it too."""

    tokens: list
    is_ended: bool

    @property
    def first(self):
        return self.tokens[0]

    @property
    def word(self):
        return self.tokens[0].text

    @property
    def is_module(self):
        return self.word in MODULES

    @cached_property
    def name(self):
        return self.tokens[1].text if self.is_module and len(self.tokens) > 2 else None

    @cached_property
    def statements(self):
        """A module's statements, each with its full stop, if it has one."""
        body = self.tokens[3:-1] if self.is_ended else self.tokens[3:]
        return cut_at_stops(body) if self.is_module else []

    @cached_property
    def imports(self):
        """The names of the modules that it imports; of an object module CONFIGURATION first."""
        written = [words[1].text for words in self.statements if words[0].text in IMPORTS and len(words) > 1]
        return [*(["CONFIGURATION"] if self.word == "omod" else []), *written]

    @cached_property
    def lines(self):
        """The text of each line that `mw` gets, with the tokens whose first begins it."""
        if not self.is_module:
            return [self.tokens]
        end = len(self.tokens) - self.is_ended
        return [self.tokens[:min(3, end)], *self.statements, self.tokens[end:]]

    @cached_property
    def text(self):
        return text_of(self.lines)

    @cached_property
    def signature(self):
        """The text without equations and rules: it reads the same terms, and sooner."""
        return text_of(tokens for tokens in self.lines if tokens and tokens[0].text not in EQUATIONS)


def text_of(lines):
    return "\n".join(spelled([token.text for token in tokens]) for tokens in lines if tokens) + "\n"


def cut_at_stops(tokens):
    """Tokens as statements, each up to a token that is a full stop."""
    found, start = [], 0
    for at, token in enumerate(tokens, 1):
        if token.text == ".":
            found.append(tokens[start:at])
            start = at
    return [*found, tokens[start:]] if start < len(tokens) else found


@dataclass
class Note:
    """Something to tell about a place that isn't given to `mw`."""

    token: Token
    text: str
    is_error: bool = False


@dataclass
class Source:
    """The units of files, with notes about lines that aren't given to `mw`, and what refuses all of it, if anything."""

    units: list = field(default_factory=list)
    notes: list = field(default_factory=list)
    files: list = field(default_factory=list)
    bad: Token | None = None

    @cached_property
    def pieces(self):
        """The texts of all units, and for each line that begins a unit or statement its number, unit and tokens."""
        texts, starts, line = [], [], 1
        for unit in self.units:
            at = line
            for tokens in filter(None, unit.lines):
                starts.append((at, unit, tokens))
                at += 1 + spelled([token.text for token in tokens]).count("\n")
            texts.append(unit.text)
            line += unit.text.count("\n")
        return texts, starts

    @property
    def text(self):
        return "".join(self.pieces[0]) + (self.bad.text if self.bad else "")

    def place_of(self, line):
        """The unit and the tokens that begin a line of the text."""
        starts = self.pieces[1]
        found = bisect_right(starts, line, key=lambda start: start[0]) - 1
        return starts[found][1:] if 0 <= found and starts[found][0] == line else (None, None)


class Reading:
    """Reads files in order as one text."""

    def __init__(self):
        self.source, self.waiting, self.open, self.loaded, self.is_over = Source(), [], [], set(), False

    def read(self, files):
        """The source that these files are."""
        self.waiting = list(files)
        while unit := self.next_unit():
            self.source.units.append(unit)
        return self.source

    def next_token(self):
        """The next token, of the file that was put in last, of one that it is put into, or of the next file."""
        while not self.is_over and (self.open or self.waiting):
            if not self.open:
                self.enter(self.waiting.pop(0))
            file, at = self.open[-1]
            if at < len(file.tokens):
                self.open[-1][1] = at + 1
                return file.tokens[at]
            if file.bad:
                self.source.bad, self.is_over = file.bad, True
            self.open.pop()
        return None

    def enter(self, file):
        self.open.append([file, 0])
        self.source.files.append(file)
        if file.path:
            self.loaded.add(file.path)

    def next_unit(self):
        """The next module or command. Lines for a program at a prompt are carried out or passed over."""
        first = self.next_token()
        while first and self.is_of_files(first):
            first = self.next_token()
        if first is None:
            return None
        tokens, end = [first], ENDS.get(first.text, ".")
        while tokens[-1].text != end:
            token = self.next_token()
            if token is None:
                return Unit(tokens, False)
            tokens.append(token)
        return Unit(tokens, True)

    def is_of_files(self, token):
        """Whether a line is none of `mw`; it is carried out then, or passed over."""
        if token.text in LOADS and token.is_first_of_line:
            self.load(token, self.rest_of_line(token))
        elif token.text in PASSED:
            words = self.rest_of_line(token, ".")
            self.note(token, f"`{' '.join([token.text, *words])}` is passed over: it is a line for Maude's prompt")
        elif token.text in LAST and self.rest_is_free(token):
            self.note(token, f"`{token.text}`: {LAST[token.text]}")
            self.rest_of_line(token, ".")
            self.is_over = token.text != "eof"
            self.open[-1][1] = len(self.open[-1][0].tokens)
        else:
            return False
        return True

    def rest_is_free(self, token):
        """Whether nothing but a full stop stands behind a token in its line."""
        file, at = self.open[-1]
        return at == len(file.tokens) or file.tokens[at].text == "." or file.tokens[at].line > token.line

    def rest_of_line(self, token, end=None):
        """The tokens behind a token in its line, up to this one if it is there; they are passed."""
        words, (file, at) = [], self.open[-1]
        while at < len(file.tokens) and file.tokens[at].line == token.line and end not in words:
            words.append(file.tokens[at].text)
            at += 1
        self.open[-1][1] = at
        return words

    def note(self, token, text, is_error=False):
        self.source.notes.append(Note(token, text, is_error))

    def load(self, token, words):
        """Puts a file's text in, unless that was done before."""
        name = line_behind(token).removesuffix(" .").strip('"') if words else ""
        path = found_path(name, token.file.path)
        if not words:
            self.note(token, f"`{token.text}` names no file", True)
        elif path is None:
            self.note(token, f"`{token.text} {name}`: there is no such file", True)
        elif any(path == file.path for file, _ in self.open):
            circle = " -> ".join([*(file.name for file, _ in self.open), name])
            self.note(token, f"`{token.text} {name}` closes a circle: {circle}", True)
        elif path in self.loaded:
            self.note(token, f"`{token.text} {name}`: its text was put in before, and stands once")
        else:
            self.enter(read_file(path, named_from(token.file, name, path)))


def line_behind(token):
    """What stands behind a token in its line, without a comment."""
    line = token.file.text[token.at + len(token.text):].split("\n", 1)[0]
    return line.split(" ***")[0].split(" ---")[0].strip()


def found_path(name, beside):
    """The file of this name, from the folder of the one that names it, or from the present folder."""
    given = pathlib.Path(name).expanduser()
    for folder in [*([beside.parent] if beside else []), pathlib.Path()]:
        for ending in ENDINGS:
            path = folder / (str(given) + ending)
            if name and path.is_file():
                return path.resolve()
    return None


def named_from(file, name, path):
    """How a file that another one names is named to people: from the present folder, as they would open it."""
    base = pathlib.Path(file.name).parent if file and file.path else pathlib.Path()
    short = base / (name if str(path).endswith(pathlib.Path(name).name) else f"{name}.maude")
    return str(short)


def read_file(path, name):
    return File(name, pathlib.Path(path).read_bytes(), pathlib.Path(path).resolve())


def read_source(files):
    return Reading().read(files)
