"""Reads the files of cases/; cases/README.md tells what a case is."""
from dataclasses import dataclass
import pathlib
import re
import sys

TOP = pathlib.Path(__file__).resolve().parent.parent
BYTE = re.compile(r"\{byte (\d+)\}")
REPEATED = re.compile(r"\{(\d+) x (\}|[^}]+)\}")
HEADING = re.compile(r"== (case|aside|words|status|prints|note)(?:: (.*))?")


@dataclass
class Case:
    """A source, the words behind the program's name, and the text and status that must come."""

    title: str
    aside: bool = False
    source: str = ""
    prints: str = ""
    words: str = "run"
    status: str = ""


def spelled(lines):
    """Lines as one text, with what the marks stand for in their places."""
    text = BYTE.sub(lambda mark: chr(int(mark[1])), "\n".join(lines))
    return REPEATED.sub(lambda mark: mark[2] * int(mark[1]), text)


def parts_of(file):
    """The headings of a file of cases, each with what follows it in its line and the lines below it."""
    parts = [("note", "", [])]
    for line in file.read_text("ascii").split("\n"):
        heading = HEADING.fullmatch(line)
        if heading:
            parts.append((heading[1], heading[2] or "", []))
        elif line.startswith("== "):
            sys.exit(f"{file}: no heading: {line}")
        else:
            parts[-1][2].append(line)
    return parts


def cases_of(file, kind=Case):
    """The cases of a file, each of a kind of its own. A case's source is what stands in front of `prints`, below the
    last heading there."""
    found = []
    for name, value, lines in parts_of(file):
        if name in ("case", "aside"):
            found.append(kind(f"cases/{file.name}: {value}", name == "aside"))
        elif name in ("words", "status"):
            setattr(found[-1], name, value)
        elif name == "prints":
            text = spelled(lines).rstrip("\n")
            found[-1].prints = text and text + "\n"
        if name not in ("prints", "note"):
            found[-1].source = spelled(lines)
    return found


def all_cases(kind=Case):
    """The cases of all files."""
    return [case for file in sorted((TOP / "cases").glob("*.txt")) for case in cases_of(file, kind)]
