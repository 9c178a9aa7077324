"""`mw` and mw_flat as programs that are run, and what `mw` prints as answers."""
from dataclasses import dataclass, field
import os
import pathlib
import re
import shutil
import signal
import subprocess

TOP = pathlib.Path(__file__).resolve().parent.parent.parent
REFUSAL = re.compile(r"line (\d+): refused: ([^:]*)(?:: (.*))?")
BLOCK = re.compile(r"(reduce|rewrite|parse|match|xmatch) (?:\[\d+\] )?in (\S+) : ")
LAST_LINE = {"parse": "sort: "}
COMMENT = "*** "


def program_path():
    """`mw` by $MW, or the one that stands beside this folder."""
    return os.environ.get("MW") or str(TOP / "mw")


def is_built():
    """Whether a program is there: without $MW the one that ./mw runs, which would else be proved first, for hours."""
    path = os.environ.get("MW") or str(TOP / "crates" / "mw_cli" / "out" / "mw_cli")
    return os.access(path, os.X_OK) or bool(shutil.which(path))


def flat_path():
    """mw_flat by $FLAT, or the one that the gate has built; none where it isn't there."""
    path = os.environ.get("FLAT") or str(TOP / "crates" / "mw_flat" / "out" / "mw_flat")
    return path if os.access(path, os.X_OK) else None


@dataclass
class Answer:
    """The block of a command, with its proof text, or the line of a refusal."""

    lines: list
    proof: list = field(default_factory=list)

    @property
    def refusal(self):
        """Of a refusal its line, kind and detail."""
        found = REFUSAL.fullmatch(self.lines[0])
        return (int(found[1]), found[2], found[3]) if found else None

    @property
    def head(self):
        """Of a block its word and its module."""
        found = BLOCK.match(self.lines[0])
        return (found[1], found[2]) if found else (None, None)

    def value(self, name):
        """What stands behind this name in a block: none where it has no such line."""
        return next((line[len(name) + 2:] for line in self.lines if line.startswith(f"{name}: ")), None)

    @property
    def result(self):
        """Of a block the sort and the term that were reached."""
        line = next((line for line in self.lines if line.startswith("result ")), None)
        return tuple(line[len("result "):].split(": ", 1)) if line else None


class Lines:
    """Takes the lines that `mw` prints, and gives the answers as they become whole."""

    def __init__(self, with_proofs=False):
        self.with_proofs, self.answer = with_proofs, None

    def added(self, line):
        """The answer that is whole with this line, if one is."""
        is_proof = self.with_proofs and not line.startswith(COMMENT)
        if is_proof and self.answer:
            self.answer.proof.append(line)
            return self.taken() if line == "endproof" else None
        line = line.removeprefix(COMMENT) if self.with_proofs else line
        if self.answer is None:
            self.answer = Answer([])
        self.answer.lines.append(line)
        return self.taken() if self.is_whole(line) else None

    def is_whole(self, line):
        word = self.answer.head[0]
        if word is None:
            return True
        has_proof = self.with_proofs and word in ("reduce", "rewrite")
        return not has_proof and len(self.answer.lines) > 1 and line.startswith(LAST_LINE.get(word, "status: "))

    def taken(self):
        answer, self.answer = self.answer, None
        return answer


class Run:
    """A run of a program over a text. Iterating gives its answers as they come; `status` is there then."""

    def __init__(self, words, text, with_proofs=False):
        self.lines, self.text, self.status = Lines(with_proofs), text, None
        self.process = subprocess.Popen(words, stdin=subprocess.PIPE, stdout=subprocess.PIPE, start_new_session=True)

    def __iter__(self):
        try:
            self.feed()
            for line in self.process.stdout:
                answer = self.lines.added(line.decode("latin-1").rstrip("\n"))
                if answer:
                    yield answer
            if self.lines.answer:
                yield self.lines.taken()
            self.status = self.process.wait()
        finally:
            self.stop()

    def feed(self):
        """Gives the text. A program that doesn't read to the end says why by its status."""
        try:
            self.process.stdin.write(self.text.encode("latin-1"))
            self.process.stdin.close()
        except BrokenPipeError:
            pass

    def stop(self):
        """Ends the program where it is still running."""
        for how in (signal.SIGTERM, signal.SIGKILL):
            if self.process.poll() is None:
                os.killpg(self.process.pid, how)
                wait_for(self.process)
        self.process.stdout.close()


def wait_for(process):
    try:
        process.wait(1)
    except subprocess.TimeoutExpired:
        pass


def printed(words, text, seconds=None):
    """What a program prints for a text, and its status. A subprocess.TimeoutExpired where it takes too long."""
    done = subprocess.run(words, input=text.encode("latin-1"), stdout=subprocess.PIPE, stderr=subprocess.DEVNULL,
                          timeout=seconds)
    return done.stdout.decode("latin-1"), done.returncode


def answers_of(text, with_proofs=False):
    """The answers that a text of lines has."""
    lines = Lines(with_proofs)
    return [answer for line in text.split("\n")[:-1] if (answer := lines.added(line))]
