"""What a refusal is shown with: the token, what is said about it, and how it is mended."""
from dataclasses import dataclass, field

from . import pages


@dataclass
class Fault:
    """A refusal, with the unit and the statement that it is about, and the units in front of it."""

    kind: str
    detail: str | None
    unit: object
    tokens: list
    accepted: list
    refused: dict                                       # names of modules that were refused, with their first tokens
    asker: object

    @property
    def number(self):
        """The statement's number in its module; -1 for the head."""
        return next((at for at, words in enumerate(self.unit.statements) if words is self.tokens), -1)

    @property
    def told(self):
        return self.number, self.kind, self.detail

    @property
    def is_at_head(self):
        return self.unit.is_module and self.number < 0


@dataclass
class Finding:
    """The token, if it was found; notes, names that are near, and mendings."""

    token: object = None
    notes: list = field(default_factory=list)
    near: list = field(default_factory=list)
    mends: list = field(default_factory=list)
    edits: list = field(default_factory=list)           # changes that `mw` wasn't asked about
    tried: list = field(default_factory=list)           # changes with which `mw` doesn't refuse this any more
    also: list = field(default_factory=list)            # other places, each a token and what is there

    def mend(self, mistake):
        """Adds how to mend a mistake, by its row in docs/ERRORS.md."""
        self.mends.append(pages.mistakes()[mistake])
        return self


def quoted(texts):
    return " ".join(f"`{text}`" for text in texts)


def counted(count, noun):
    return f"{count} {noun}" if count == 1 else f"{count} {noun}s"


def shown(tokens, most=12):
    """Tokens as one text, as they are written where they stand in a file; shortened at its beginning if it is long."""
    kept = tokens[-most:]
    words = [getattr(token, "text", token) for token in kept]
    text = joined(words)
    if kept and all(hasattr(token, "file") and token.file is kept[0].file for token in kept):
        written = kept[0].file.text[kept[0].at:kept[-1].at + len(words[-1])]
        text = " ".join(written.split()) if "***" not in written and "---" not in written else text
    return f".. {text}" if len(tokens) > most else text


def joined(words):
    """Words as one text, with brackets as prefix forms have them."""
    text = ""
    for word in words:
        is_close = word in (",", ")", "]", "}") or text[-1:] in ("(", "[", "{") or not text
        is_call = word == "(" and text[-1:] not in (",", " ") and text[-1:].isalnum()
        text += word if is_close or is_call else f" {word}"
    return text
