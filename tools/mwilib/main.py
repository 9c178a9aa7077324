"""The words of tools/mwi."""
import argparse
import os
import pathlib
import subprocess
import sys

from .program import is_built, program_path
from .running import Options, Session
from .sources import read_file, read_source
from .texts import File

ABOUT = """Runs FILE.. in order as one text by `mw`, and shows what `mw` answers; without FILE it is a prompt, or reads
standard input where that is no terminal. Nothing of mwi is proved; what it shows as an answer is what `mw` printed.
$MW names the program `mw`, $FLAT the program mw_flat. docs/MWI.md has more."""

NOT_BUILT = """mwi: there is no program `mw`. `./mw --version` proves and builds it, which takes hours. Or build it
unproved in three minutes, and name it: tools/quick-build . /tmp/mw; export MW=/tmp/mw"""


def parser():
    words = argparse.ArgumentParser(prog="mwi", description=ABOUT)
    words.add_argument("--max", metavar="N", help="the most rewrites of each chain, and solutions of a match")
    words.add_argument("--workers", metavar="N", help="how many workers rewrite, where `mw` has this word")
    words.add_argument("--proof", action="store_true", help="shows the proof text behind each block")
    words.add_argument("--check", action="store_true", help="checks all proofs by `mw check` and by the second checker")
    words.add_argument("--watch", action="store_true", help="runs the files again at each change of them")
    words.add_argument("files", nargs="*", metavar="FILE")
    return words


def has_workers():
    """Whether `mw` takes --workers."""
    done = subprocess.run([program_path(), "--help"], stdout=subprocess.PIPE, stderr=subprocess.DEVNULL)
    return b"--workers" in done.stdout


def options_of(given):
    if given.workers and not has_workers():
        print("mwi: this `mw` has no --workers yet; it runs with one worker", file=sys.stderr)
        given.workers = None
    return Options(given.max, given.workers, given.proof)


def files_of(names):
    """The files, or none where one can't be read."""
    found = []
    for name in names:
        try:
            found.append(read_file(pathlib.Path(name), name))
        except OSError as fault:
            print(f"mwi: {name}: {fault.strerror}", file=sys.stderr)
            return None
    return found


def main(words):
    given = parser().parse_args(words)
    try:
        return answered(given)
    except KeyboardInterrupt:
        print("mwi: stopped", file=sys.stderr)
        return 130
    except BrokenPipeError:
        os.dup2(os.open(os.devnull, os.O_WRONLY), sys.stdout.fileno())
        return 4


def answered(given):
    if not is_built():
        print(NOT_BUILT, file=sys.stderr)
        return 2
    options = options_of(given)
    if given.watch and given.files:
        from .watching import watch
        return watch(given.files, options, given.check)
    if not given.files and sys.stdin.isatty():
        from .prompt import Prompt
        return Prompt(options).run()
    files = files_of(given.files) if given.files else [File("<stdin>", sys.stdin.buffer.read())]
    return 3 if files is None else run_source(read_source(files), options, given.check)


def run_source(source, options, check):
    if check:
        from .checking import check_source
        return check_source(source, options)
    return Session(options).run(source)
