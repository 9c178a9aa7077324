"""Runs files again at each change of them, and of what they put in."""
import pathlib
import time

from .checking import check_blocks
from .running import Session
from .sources import read_file, read_source

PAUSE = 0.2


def changes_of(paths):
    """When each file was changed last."""
    found = {}
    for path in paths:
        try:
            found[path] = path.stat().st_mtime_ns
        except OSError:
            found[path] = None
    return found


def run_once(names, options, check):
    """Runs the files, and answers which ones were read."""
    files = []
    for name in names:
        try:
            files.append(read_file(name, name))
        except OSError as fault:
            print(f"mwi: {name}: {fault.strerror}", flush=True)
    session, source = Session(options), read_source(files)
    session.with_proofs = check
    status = session.run(source)
    if check and status in (0, 1):
        check_blocks(session)
    return [file.path for file in source.files]


def watch(names, options, check):
    """Goes on until it is interrupted."""
    while True:
        paths = {*map(pathlib.Path, names), *run_once(names, options, check)}
        seen = changes_of(paths)
        print(f"mwi: {time.strftime('%H:%M:%S')}: waiting for a change; Ctrl-C ends it", flush=True)
        while changes_of(paths) == seen:
            time.sleep(PAUSE)
