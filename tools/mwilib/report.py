"""Refusals, warnings and notes as a compiler shows them."""
import sys

from . import pages

WIDEST = 160                                            # of a source line, around the token


class Reporter:
    """Writes answers to one stream, and what is said about the text to another."""

    def __init__(self, output=None, errors=None):
        self.output, self.errors = output or sys.stdout, errors or sys.stderr

    def answer(self, lines):
        """Lines as `mw` printed them."""
        self.output.write("".join(f"{line}\n" for line in lines))
        self.output.flush()

    def say(self, text):
        self.errors.write(f"{text}\n")
        self.errors.flush()

    def told(self, token, sort, text, is_sure=True):
        """A line about a place, and the source line; with a mark below the token where it is the one that is meant."""
        if token is None:
            self.say(f"mwi: {sort}: {text}")
            return
        line, column = token.line, token.file.column_of(token.at)
        self.say(f"{token.file.name}:{line}:{f'{column}: ' if is_sure else ' '}{sort}: {text}")
        self.source(token, line, column, is_sure)

    def source(self, token, line, column, is_sure):
        text = token.file.source_line(line)
        start = max(0, column - 1 - WIDEST // 2) if len(text) > WIDEST else 0
        shown = text[start:start + WIDEST].replace("\t", " ")
        number = f"{line:>5} | "
        self.say(f"{number}{shown}")
        if is_sure:
            self.say(f"{'|':>{len(number) - 1}} {' ' * (column - 1 - start)}{'^' * len(token.text.split(chr(10))[0])}")

    def refusal(self, fault, finding):
        """A refusal with its token, its meaning, and its mendings."""
        meaning, mend = pages.refusal(fault.kind, bool(fault.unit and fault.unit.is_module))
        text = f"{fault.kind}: {fault.detail}" if fault.detail else fault.kind
        self.told(finding.token or fault.tokens[0], "error", text, finding.token is not None)
        for line in [meaning] if meaning else []:
            self.say(f"  it means: {line}")
        for note in finding.notes:
            self.say(f"  note: {note}")
        for token, what in finding.also:
            self.say(f"  {token.file.name}:{token.line}:{token.file.column_of(token.at)}: note: {what}")
        if finding.near:
            self.say(f"  near: {', '.join(f'`{name}`' for name in finding.near)}")
        for line in finding.mends or ([mend] if mend else []):
            self.say(f"  mend: {line}")
        for change in finding.edits:
            self.say(f"  such as: {change}")
        for change in finding.tried:
            self.say(f"  asked: {change}: `mw` doesn't refuse that")

    def warning(self, token, text, notes=(), sort="warning"):
        self.told(token, sort, text, False)
        for note in notes:
            self.say(f"  {note}")

    def status(self, status):
        """What to do at a status of which nothing else was said."""
        if status in pages.statuses() and status > 1:
            comes, todo = pages.statuses()[status]
            self.say(f"mwi: status {status}: {comes}: {todo}")
        elif status < 0:
            self.say(f"mwi: `mw` was ended by signal {-status}")
