"""Runs files with proofs, and has these checked by `mw check` and by the second checker."""
from collections import Counter
import sys

from .findings import counted
from .program import TOP, flat_path, printed
from .running import Session

MOST_BYTES = 8_388_608
LONGEST = 200_000                                       # letters of a proof text that the second checker is given
TOO_LONG = "not asked"
NO_FLAT = "the second checker wasn't asked: mw_flat isn't built ($FLAT names it)"


def checkers():
    """The modules tools/both_checkers.py and tools/second_check.py."""
    sys.path.insert(0, str(TOP / "tools"))
    import both_checkers
    import second_check
    return both_checkers, second_check


def check_source(source, options):
    """Runs a source, checks the proofs, and says so in one line; the status is 1 too where a proof is answered `no`."""
    session = Session(options)
    session.with_proofs = True
    status = session.run(source)
    if status not in (0, 1):
        return status
    return status | check_blocks(session)


def check_blocks(session):
    """Checks the proofs of a session's blocks, behind the modules that were accepted."""
    text = "".join(unit.text for unit in session.known.accepted)
    proved = [(answer, unit) for answer, unit in session.blocks if answer.proof]
    texts = ["\n".join(answer.proof) for answer, _ in proved]
    first = first_answers(session, text, texts)
    second, why = second_answers(text, texts, [answer.head[1] for answer, _ in proved])
    for (_, unit), one, other in zip(proved, first or [""] * len(texts), second or [""] * len(texts)):
        for name, answer in (("`mw check`", one), ("the second checker", other)):
            if is_no(answer):
                session.reporter.told(unit.first, "error", f"the proof: {name} says {answer}", False)
    session.reporter.say(f"check: {counted(len(texts), 'proof')}: {summed('`mw check`', first)}; "
                         f"{summed('the second checker', second) if second is not None else why}")
    is_whole = first is not None and len(first) == len(texts) and not any(map(is_no, [*first, *(second or [])]))
    return 0 if is_whole else 1


def is_no(answer):
    return answer.startswith("no at")


def summed(name, answers):
    """How often a checker said what."""
    if answers is None:
        return f"{name} gave no answers"
    counts = Counter("stopped" if answer.endswith("stopped") else answer if answer == TOO_LONG else
                     answer.split(",")[0].split(" ")[0] for answer in answers)
    said = ", ".join(f"{word} to {count}" if word in ("yes", "no") else f"{word} of {count}"
                     for word, count in counts.items())
    return f"{name} says {said or 'nothing'}"


def first_answers(session, text, texts):
    """The answers of `mw check` to proof texts behind a source."""
    both, _ = checkers()
    found = []
    for batch in batches(text, texts):
        out, status = printed([session.program, "check"], "\n".join([text, *batch]) + "\n")
        if status not in (0, 1):
            session.reporter.status(status)
            return None
        found += both.answers_in(out)
    return found


def batches(text, texts):
    """Proof texts in lists, each of which has room behind a source; a text alone may have none."""
    found, room = [], 0
    for proof in texts:
        room -= len(proof) + 1
        if not found or room < 0:
            found.append([])
            room = MOST_BYTES - len(text) - len(proof) - 2
        found[-1].append(proof)
    return found


def second_answers(text, texts, modules):
    """The answers of the second checker, or why there are none."""
    both, second = checkers()
    if flat_path() is None:
        return None, NO_FLAT
    flats = both.flattened(flat_path(), dict.fromkeys(modules), text)
    known = {name: second.read_module(flats[name].splitlines()) for name in dict.fromkeys(modules)}
    return [second.answers(known[name], proof)[0] if len(proof) <= LONGEST else TOO_LONG
            for name, proof in zip(modules, texts)], None


def flat_module(text, name):
    """The flattened module of this name in a source, as the second checker reads it, and its text."""
    both, second = checkers()
    flat = both.flattened(flat_path(), [name], text)[name]
    return second.read_module(flat.splitlines()), flat
