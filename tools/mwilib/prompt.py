"""A prompt over `mw`: modules that were accepted are given again with each command."""
import os
import pathlib
import re
import readline
import signal
import time

from . import names, pages
from .asking import text_of
from .program import flat_path
from .report import Reporter
from .running import MOST_SECONDS, Known, Session
from .sources import ENDS, LAST, LOADS, PASSED, Source, found_path, named_from, read_file, read_source
from .texts import PARENTHESIS, PIECE, File, spelled

HELP = """Modules and commands are given to `mw` as in files; a command ends with ` .`. Ctrl-C ends a command alone,
Ctrl-D the prompt. A module that was accepted stays.
  :load FILE      reads a file, as `load FILE` does; TAB completes names
  :reload         forgets all modules, and reads the loaded files and the typed modules again
  :module [M]     lists the modules, or shows the text of one
  :numbers [M]    the operators and statements of a module with their numbers, as proof texts have them
  :proof          the proof of the last `reduce` or `rewrite`, each step as a term
  :help           this text
  :quit           ends the prompt, as `quit` does"""
WORDS = [":load", ":reload", ":module", ":numbers", ":proof", ":help", ":quit"]
NO_NUMBERS = "the numbers come from mw_flat, which isn't built ($FLAT names it)"
MOST_HISTORY = 2000


class Pending:
    """Lines that were typed, and what they wait for: the end of a unit, or of a block comment."""

    def __init__(self):
        self.lines, self.end, self.depth, self.is_bad = [], None, 0, False

    @property
    def is_whole(self):
        return self.is_bad or self.end is None and self.depth == 0

    def add(self, line):
        self.lines.append(line)
        at = self.behind_comment(line, 0)
        if self.end is None and self.depth == 0 and line.split()[:1] and line.split()[0] in (*LOADS, *PASSED, *LAST):
            return
        while at < len(line):
            piece = PIECE.match(line, at)
            at = piece.end()
            if piece["block"]:
                self.depth = 1
                at = self.behind_comment(line, at)
            elif piece["token"]:
                self.take(piece["token"])
            self.is_bad |= bool(piece["bad"])

    def behind_comment(self, line, at):
        """Where a block comment that is open ends in a line; the line's end where it stays open."""
        for found in PARENTHESIS.finditer(line, at) if self.depth else []:
            self.depth += 1 if found[0] == "(" else -1
            if self.depth == 0:
                return found.end()
        return len(line) if self.depth else at

    def take(self, token):
        if self.end is None:
            self.end = ENDS.get(token, ".")
        self.end = None if token == self.end else self.end


class Timed(Session):
    """A session that says behind a block how long `mw` took, with the modules read; of several commands, which `mw`
    gets at once, behind the last one."""

    started, commands = 0.0, 0

    def run(self, source, front=""):
        self.started, self.commands = time.monotonic(), sum(unit.word not in ENDS for unit in source.units)
        return super().run(source, front)

    def block(self, answer, unit):
        seconds = time.monotonic() - self.started
        super().block(answer, unit)
        if self.commands == 1:
            self.tell(seconds, [answer], "")

    def ended(self):
        if self.commands > 1:
            seconds = time.monotonic() - self.started - (MOST_SECONDS - self.left)
            self.tell(seconds, [answer for answer, _ in self.blocks], f"{self.commands} commands: ")

    def tell(self, seconds, answers, front):
        count = sum(int(answer.value("rewrites") or 0) for answer in answers)
        speed = f", {int(count / seconds):,} rewrites a second" if count and seconds > 0 else ""
        self.reporter.say(f"  {front}{seconds * 1000:.0f} ms{speed}")


class Prompt:
    """Reads what is typed, and answers it."""

    def __init__(self, options):
        self.options, self.reporter = options, Reporter()
        self.entries, self.count, self.last = [], 0, None
        self.forget()

    def forget(self):
        self.known, self.front, self.given = Known(), "", 0
        self.session = Timed(self.options, self.reporter, self.known)

    def run(self):
        """Goes on until the end of the input."""
        history = os.environ.get("MWI_HISTORY", str(pathlib.Path.home() / ".mwi_history"))
        self.begin(history)
        self.reporter.say("mwi: nothing here is proved; answers are what `mw` prints. :help shows the words.")
        while self.step():
            pass
        try:
            readline.set_history_length(MOST_HISTORY)
            readline.write_history_file(history)
        except OSError:
            pass
        return 0

    def begin(self, history):
        signal.signal(signal.SIGINT, signal.default_int_handler)    # also where Ctrl-C was ignored at the start
        try:
            readline.read_history_file(history)
        except OSError:
            pass
        readline.set_completer(Completer(self).complete)
        readline.set_completer_delims(" \t\n()[]{},")
        readline.parse_and_bind("tab: complete")

    def step(self):
        """Reads and answers one input; whether the prompt goes on."""
        try:
            text = typed()
            return text is not None and self.answer(text)
        except KeyboardInterrupt:
            self.reporter.say("\nmwi: stopped")
        except OSError as fault:
            self.reporter.say(f"mwi: {fault.filename}: {fault.strerror}")
        except Exception as fault:                      # the prompt and its modules stay; tests want to see this
            if os.environ.get("MWI_DEBUG"):
                raise
            self.reporter.say(f"mwi: this went wrong: {fault!r}")
        return True

    def answer(self, text):
        words = text.split()
        if not words:
            return True
        if words[0] in (":quit", ":q", *LAST):
            return False
        if words[0] in (":load", *LOADS):
            self.load(" ".join(words[1:]).removesuffix(" .").strip('"'))
        elif words[0].startswith(":"):
            self.told(words)
        else:
            self.count += 1
            self.give(read_source([File(f"input-{self.count}", text.encode())]), True)
        return True

    def give(self, source, is_typed):
        """Runs a source behind the accepted modules, and keeps those of its modules that are accepted."""
        try:
            self.session.run(source, self.front)
        except KeyboardInterrupt:
            self.keep_modules(source)
            self.reporter.say("\nmwi: stopped")
        added = self.known.accepted[self.given:]
        self.front += "".join(unit.text for unit in added)
        self.given = len(self.known.accepted)
        blocks = [block for block in self.session.blocks if block[0].head[0] in ("reduce", "rewrite")]
        self.last = blocks[-1] if blocks else self.last
        if is_typed and added:
            self.entries.append(Source(added))

    def keep_modules(self, source):
        """Accepts the modules of a source whose command was stopped, as `mw` accepts them without commands."""
        del self.known.accepted[self.given:]
        modules = Source([unit for unit in source.units if unit.is_module])
        with open(os.devnull, "w") as nowhere:
            Session(self.options, Reporter(nowhere, nowhere), self.known).run(modules, self.front)

    def load(self, name):
        path = found_path(name, None)
        if path is None:
            self.reporter.say(f"mwi: {name or ':load'}: there is no such file")
        elif (path, named_from(None, name, path)) in self.entries:
            self.reload()
        else:
            self.entries.append((path, named_from(None, name, path)))
            self.give(read_source([read_file(*self.entries[-1])]), False)

    def reload(self):
        """Reads all files and typed modules again."""
        self.forget()
        for entry in self.entries:
            is_file = isinstance(entry, tuple)
            self.give(read_source([read_file(*entry)]) if is_file else Source(entry.units), False)

    def told(self, words):
        """Answers a word of the prompt itself."""
        told = {":reload": self.reload, ":module": self.tell_modules, ":numbers": self.tell_numbers,
                ":proof": self.tell_proof, ":help": lambda: self.reporter.say(HELP)}
        near = names.near(words[0], WORDS)
        if words[0] not in told:
            said = f"; near: {', '.join(near)}" if near else "; :help shows the words"
            self.reporter.say(f"mwi: {words[0]} is no word of the prompt{said}")
        elif words[0] in (":module", ":numbers"):
            told[words[0]](*words[1:2])
        else:
            told[words[0]]()

    def module(self, name=None):
        """An accepted module, the last one without a name; none is told."""
        known = {**pages.prelude(), **{unit.name: unit for unit in self.known.accepted}}
        found = known.get(name) if name else next(reversed(self.known.accepted), None)
        if found is None:
            self.reporter.say(f"mwi: {f'{name} is no accepted module' if name else 'no module was accepted yet'}")
        return found

    def tell_modules(self, name=None):
        if name:
            unit = self.module(name)
            if unit:
                first, last = unit.first, unit.tokens[-1]
                self.reporter.answer([first.file.text[first.at:last.at + len(last.text)]])
            return
        for unit in self.known.accepted:
            mark = "  (commands go here)" if unit is self.known.accepted[-1] else ""
            self.reporter.say(f"{unit.word} {unit.name}  {unit.first.file.name}:{unit.first.line}{mark}")

    def tell_numbers(self, name=None):
        from .proofs import numbers
        unit = self.module(name)
        if flat_path() is None:
            self.reporter.say(f"mwi: {NO_NUMBERS}")
        elif unit:
            self.reporter.answer(numbers(unit, self.known.accepted))

    def tell_proof(self):
        """The proof of the last `reduce` or `rewrite`: the command is run again, with `--proof`."""
        from .proofs import proof_of, shown_proof
        unit = self.module(self.last[0].head[1]) if self.last else None
        if flat_path() is None:
            self.reporter.say(f"mwi: {NO_NUMBERS}")
        elif unit is None:
            self.reporter.say("mwi: no `reduce` or `rewrite` was answered yet")
        else:
            base = text_of(unit, self.known.accepted)
            command = spelled([token.text for token in self.last[1].tokens]) + "\n"
            answers = proof_of(self.session.program, self.options.words, base, command)
            if answers and answers[-1].proof:
                self.reporter.answer(shown_proof(self.session.program, unit, self.known.accepted, answers[-1].proof))


def typed():
    """The lines up to the end of a unit; none at the end of the input."""
    pending = Pending()
    while True:
        try:
            line = input("   > " if pending.lines else "mwi> ")
        except EOFError:
            return None
        if not pending.lines and line.lstrip().startswith(":"):
            return line
        pending.add(line)
        if pending.is_whole:
            return "\n".join(pending.lines) + "\n"


class Completer:
    """Completes names of modules, sorts, operators and variables, words, and names of files."""

    def __init__(self, prompt):
        self.prompt, self.found = prompt, []

    def complete(self, text, state):
        if state == 0:
            line = readline.get_line_buffer()
            is_file = re.match(r"\s*(:load|load|in)\s", line)
            names_of = files_named(text) if is_file else sorted(self.names())
            self.found = [name for name in names_of if name.startswith(text)]
        return self.found[state] if state < len(self.found) else None

    def names(self):
        known = self.prompt.known.accepted
        found = {*WORDS, *names.COMMANDS, *names.STATEMENTS, *names.UNITS, *pages.prelude()}
        found |= {unit.name for unit in known}
        if known:
            scope = names.scope_of(known[-1], known)
            found |= scope.pieces | set(scope.sorts)
        return found


def files_named(text):
    folder = pathlib.Path(text).parent if not text.endswith("/") else pathlib.Path(text)
    try:
        found = sorted(folder.iterdir())
    except OSError:
        return []
    return [f"{path}/" if path.is_dir() else str(path) for path in found]
