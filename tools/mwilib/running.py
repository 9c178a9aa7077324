"""Runs a source by `mw`, and shows its answers, each with what is to be said about it."""
from collections import Counter
from dataclasses import dataclass, field
import time

from . import names, pages, readings
from .asking import Asker, SECONDS, Unsure, base_of
from .faults import finding_of
from .findings import Fault, Finding
from .program import Run, program_path
from .report import Reporter
from .sources import ENDS
from .terms import name_in, swallowed

MOST_SECONDS = 10 * SECONDS                                      # for all questions about refusals of one run
MOST_RESULTS = 500                                      # that are read again
LONGEST = 4_000                                         # letters of a result that is read again
OF_TERMS = ("no parse", "ambiguous", "open term")
SWALLOWED = "this is a name here, since no full stop stands in front of it; Maude doesn't read it so"
BLANK_BLOCK = "`{}` hides this line only; Maude takes it for a block comment, up to the matching `)`"


@dataclass
class Options:
    """The words that `mw` gets, and whether proof texts are shown."""

    limit: str | None = None
    workers: str | None = None
    proof: bool = False

    @property
    def words(self):
        found = ["--max", self.limit] if self.limit else []
        return [*found, "--workers", self.workers] if self.workers else found


@dataclass
class Known:
    """What stands in front of a source: accepted modules, refused names, and the last module if it was refused."""

    accepted: list = field(default_factory=list)
    refused: dict = field(default_factory=dict)
    last_refused: object = None


class Walk:
    """Goes over the units of a source beside the answers that `mw` gives."""

    def __init__(self, source, known):
        self.source, self.known, self.at = source, known, 0

    def pass_to(self, unit):
        """Takes the units in front of one for accepted, and passes it."""
        while self.at < len(self.source.units):
            found = self.source.units[self.at]
            self.at += 1
            if found is unit:
                return
            self.accept(found)

    def accept(self, unit):
        if unit.is_module:
            self.known.accepted.append(unit)
            self.known.refused.pop(unit.name, None)
            self.known.last_refused = None

    def refuse(self, unit):
        self.pass_to(unit)
        if unit.word in ENDS:
            self.known.last_refused = unit
            if len(unit.tokens) > 1:
                self.known.refused[unit.tokens[1].text] = unit.tokens[1]

    def command(self):
        """The next command."""
        units = self.source.units
        unit = next((units[at] for at in range(self.at, len(units)) if units[at].word not in ENDS), None)
        if unit:
            self.pass_to(unit)
        return unit

    def end(self):
        for unit in self.source.units[self.at:]:
            self.accept(unit)
        self.at = len(self.source.units)


class Session:
    """Runs sources behind the modules that are known, and reports."""

    def __init__(self, options=None, reporter=None, known=None):
        self.options, self.reporter = options or Options(), reporter or Reporter()
        self.known, self.program = known or Known(), program_path()
        self.results, self.left, self.blocks, self.is_behind = [], MOST_SECONDS, [], False
        self.is_whole_refused = False
        self.with_proofs, self.scopes = self.options.proof, {}  # scopes of accepted modules stay as they are

    def run(self, source, front=""):
        """Runs a source behind the text of known modules, and answers the status."""
        self.results, self.left, self.blocks, self.is_whole_refused = [], MOST_SECONDS, [], False
        self.tell_notes(source)
        shift = front.count("\n")
        words = [self.program, "run", *self.options.words, *(["--proof"] if self.with_proofs else [])]
        walk, run = Walk(source, self.known), Run(words, front + source.text, self.with_proofs)
        for answer in run:
            self.show(answer, walk, source, shift)
        self.ended()
        if run.status in (0, 1) and not self.is_whole_refused:
            walk.end()
            self.tell_readings()
        self.reporter.status(run.status)
        return run.status or int(any(note.is_error for note in source.notes))

    def ended(self):
        """Called when `mw` has ended."""

    def tell_notes(self, source):
        for note in source.notes:
            self.reporter.warning(note.token, note.text, sort="error" if note.is_error else "note")
        for file in dict.fromkeys(source.files):
            for token in file.blank_blocks:
                self.reporter.warning(token, BLANK_BLOCK.format(token.text))
        for unit in source.units:
            for token in swallowed(unit):
                self.reporter.warning(token, SWALLOWED)

    def show(self, answer, walk, source, shift):
        if answer.refusal:
            self.refusal(answer.refusal, walk, source, shift)
        elif answer.head[0]:
            self.block(answer, walk.command())
        else:
            self.reporter.answer(answer.lines)

    def refusal(self, refusal, walk, source, shift):
        line, kind, detail = refusal
        unit, tokens = source.place_of(line - shift)
        if unit is None:
            return self.of_whole(kind, source)
        walk.refuse(unit)
        fault = Fault(kind, detail, unit, tokens, list(self.known.accepted), dict(self.known.refused), None)
        if self.follows(fault):
            self.reporter.told(tokens[0], "error", f"{kind} (behind the fault above)", False)
            return None
        started = time.monotonic()
        fault.asker = Asker(self.program, max(0.0, min(SECONDS, self.left)))
        finding = finding_of(fault)
        refused = self.known.last_refused if kind in OF_TERMS else None
        if refused and not unit.is_module and name_in([token.text for token in unit.tokens]) is None:
            finding.also.append((refused.first, "the last module was refused; the command went to the one before it"))
        self.reporter.refusal(fault, finding)
        self.left -= time.monotonic() - started
        return None

    def follows(self, fault):
        """Whether a refusal is of what would be a part of a module, had the unit above been read."""
        is_outside = not fault.unit.is_module and fault.kind == "not in this profile"
        is_part = fault.unit.word in (*names.STATEMENTS, *ENDS.values())
        was_behind, self.is_behind = self.is_behind, is_outside
        return was_behind and is_outside and is_part

    def of_whole(self, kind, source):
        """A refusal of the whole source, by a byte or a comment: no module of it is accepted."""
        self.is_whole_refused = True
        fault = Fault(kind, None, None, [source.bad], [], {}, None)
        finding = Finding(source.bad)
        if source.bad and kind == "bad byte":
            letter = source.bad.file.text[source.bad.at:source.bad.at + 4].encode("latin-1").decode("utf-8", "ignore")
            said = f"it begins the letter `{letter[:1]}`; names are ASCII" if letter else "it is no letter"
            finding.notes.append(said)
        if source.bad:
            self.reporter.refusal(fault, finding)
        else:
            self.reporter.say(f"error: {kind}")

    def block(self, answer, unit):
        self.blocks.append((answer, unit))
        self.is_behind = False
        self.reporter.answer(answer.lines + (answer.proof if self.options.proof else []))
        if unit:
            self.warn_of_module(answer, unit)
            self.warn_of_result(answer, unit)

    def warn_of_module(self, answer, unit):
        """A command that went to an earlier module, since the last one was refused."""
        refused = self.known.last_refused
        if refused and name_in([token.text for token in unit.tokens]) is None:
            name = refused.tokens[1].text if len(refused.tokens) > 1 else refused.word
            place = f"{refused.first.file.name}:{refused.first.line}"
            self.reporter.warning(unit.first, f"this was answered in {answer.head[1]}: the last module, {name} "
                                              f"({place}), was refused")

    def warn_of_result(self, answer, unit):
        """A stop at a limit, a result that is an error, and results that will be read again."""
        status = answer.value("status") or ""
        if status.startswith("limit"):
            sort = "note" if status == "limit rules" else "warning"
            mends = [f"mend: {pages.stops()[status]}"] if status in pages.stops() else []
            self.reporter.warning(unit.first, f"it stopped: {status}", mends, sort)
        if answer.result and answer.result[0].startswith("["):
            text = f"the result has no sort, only the kind {answer.result[0]}: it is an error, or no equation applied"
            self.reporter.warning(unit.first, text)
        if answer.result and len(answer.result[1]) < LONGEST:
            self.results.append((unit, answer.head[1], answer.result[1]))

    def tell_readings(self):
        """Warns of results that have two readings when they are read again."""
        try:
            asker = Asker(self.program)
            known = {unit.name: unit for unit in self.known.accepted}
            asked = [result for result in self.results[:MOST_RESULTS]
                     if result[1] in known and self.may_be_ambiguous(known[result[1]], result[2])]
            commands = [f"parse in {module} : {text} ." for _, module, text in asked]
            base = "".join(unit.signature for unit in self.known.accepted) if commands else ""
            for result, answer in zip(asked, asker.commands(base, commands)):
                if readings.is_ambiguous(answer):
                    self.tell_reading(asker, known[result[1]], result)
        except Unsure:
            pass

    def may_be_ambiguous(self, module, text):
        """Whether a text has pieces of two mixfix forms, or a name of several operators: else it isn't asked for."""
        _, pieces, several, has_holes_alone = self.scope(module)
        words = readings.split_words(text)
        is_grouped = sum(word in pieces for word in words) > 1 or has_holes_alone and len(words) > 2
        return is_grouped or any(word in several for word in words)

    def scope(self, module):
        """A module's scope, the pieces of its names with holes, names that several operators have or that may be a
        numeral or an identifier too, and whether a name is of holes alone."""
        if module not in self.scopes:
            scope = names.scope_of(module, self.known.accepted)
            counts = Counter((declared.spelling, declared.value, *declared.arguments) for declared in scope.operators)
            several = Counter(spelling for spelling, *_ in counts)
            names_of = {name for name, count in several.items() if count > 1 or name.isdigit() or name[0] == "'"}
            mixfix = [declared.pieces for declared in scope.operators if declared.has_holes]
            pieces = {piece for found in mixfix for piece in found} - {"_"}
            self.scopes[module] = scope, pieces, names_of, any(set(found) == {"_"} for found in mixfix)
        return self.scopes[module]

    def tell_reading(self, asker, module, result):
        unit, name, text = result
        scope = self.scope(module)[0]
        base = base_of(module, self.known.accepted, True)
        try:
            found = readings.of_result(asker, base, name, text, scope)
        except Unsure:
            found = {}
        forms = list(dict.fromkeys(map(readings.without_numbers, found)))[:2]
        notes = [f"a reading: {form}" for form in forms] if len(forms) > 1 else []
        self.reporter.warning(unit.first, f"the result `{text[:80]}` has two readings: it isn't read back", notes)
