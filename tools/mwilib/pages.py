"""What the pages in docs/ say: each text that explains a refusal or a status has its one source there."""
from functools import cache
import re

from .program import TOP
from .sources import ENDS, Unit
from .texts import File

PRELUDE = TOP / "crates" / "mw_prelude" / "src" / "modules.rt"
FORMS = "| statement | what it declares |"
MISTAKES = "| the mistake | mend it so |"


@cache
def page(name):
    return (TOP / "docs" / name).read_text().splitlines()


def cells_of(line):
    """The cells of a row of a table, in which a bar is written `\\|`."""
    return [cell.strip().replace("\\|", "|") for cell in re.split(r"(?<!\\)\|", line.strip())[1:-1]]


def rows_below(name, heading):
    """The rows of the table with this heading line on a page."""
    lines = page(name)
    start = lines.index(heading) + 2
    end = next((at for at in range(start, len(lines)) if not lines[at].startswith("|")), len(lines))
    return [cells_of(line) for line in lines[start:end]]


@cache
def refusals():
    """Of each kind of refusal what it means, and how to mend it, by the rows of docs/ERRORS.md that it has."""
    found = {}
    for line in page("ERRORS.md"):
        cells = cells_of(line)
        if line.startswith("| `") and len(cells) == 4:
            found.setdefault(cells[0].strip("`").split(":")[0], []).append((cells[1], cells[3]))
    return found


def refusal(kind, in_module):
    """What a refusal means, and how to mend it; of a kind that commands and modules have by its row for these."""
    rows = refusals().get(kind, [(None, None)])
    is_import = kind == "unknown module" and in_module and len(rows) > 1
    return rows[1 if is_import else 0]


@cache
def mistakes():
    """How to mend each mistake that has a row of its own in docs/ERRORS.md."""
    return {cells[0].strip("`"): cells[1] for cells in rows_below("ERRORS.md", MISTAKES)}


@cache
def statuses():
    """Of each status when it comes, and what to do."""
    rows = rows_below("FORMATS.md", next(line for line in page("FORMATS.md") if line.startswith("| status | comes")))
    return {int(cells[0]): (cells[1], cells[3]) for cells in rows}


@cache
def stops():
    """What to do at each word of `status: limit ..`."""
    return {cells[0].strip("`"): cells[1] for cells in rows_below("MWI.md", "| status | what to do |")}


@cache
def forms():
    """The form of the statements that a word begins, by docs/LANGUAGE.md."""
    found = {}
    for cells in rows_below("LANGUAGE.md", FORMS):
        for form in re.findall(r"`([^`]*)`", cells[0]):
            found.setdefault(form.split()[0], form)
    return found


@cache
def prelude():
    """The modules of the prelude, by their names."""
    units = []
    for text in re.findall(r'b"(f?mod .*?)"\n', PRELUDE.read_text(), re.S):
        tokens = File("the prelude", text.encode()).tokens
        units.append(Unit(tokens, tokens[-1].text in ENDS.values()))
    return {unit.name: unit for unit in units}
