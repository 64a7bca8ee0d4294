#!/usr/bin/env python3
"""Whether each wrong edit can still be made: each `old:` text stands once in its file, after the pairs above it, and no `new:` text has two `use` in a line,
which isn't read.

usage: edits_stand.py [CRATE..]     without a crate those of all crates, in must-fail/ and planted/

It takes a second, and says nothing of what the prover makes of them. Prints what doesn't stand, and then ends with 1.
"""
import pathlib
import sys

from edits import folder_of, planted

TOP = pathlib.Path(__file__).resolve().parent.parent


def pairs(text: str) -> list:
    """The file, the old and the new text of each pair, in order; None stands for a line that is missing."""
    found, file, old = [], None, None
    for line in text.splitlines():
        key, _, rest = line.partition(":")
        rest = rest.removeprefix(" ")
        if key == "file":
            file = rest.strip()
        elif key == "old":
            if old is not None:
                found.append((file, old, None))
            old = rest
        elif key == "new":
            found.append((file, old, rest))
            old = None
    return found if old is None else [*found, (file, old, None)]


def wrongs(crate: pathlib.Path, text: str) -> list:
    """What keeps an edit of a crate from being made."""
    made, wrong = {}, [] if pairs(text) else ["it has no pair of `old:` and `new:`"]
    for file, old, new in pairs(text):
        if file is None or not old or new is None:
            wrong.append(f"a line is missing: {file}, {old}, {new}")
            continue
        path = crate / file
        if path not in made:
            if not path.is_file():
                wrong.append(f"no such file: {file}")
                continue
            made[path] = path.read_text()
        times = made[path].count(old)
        if times != 1:
            wrong.append(f"{times} times in {file}: {old}")
        elif old == new:
            wrong.append(f"it changes nothing of {file}: {old}")
        elif file.endswith(".antt") and "} use " in new:
            wrong.append(f"two `use` in a line, which isn't read, in {file}: {new}")
        made[path] = made[path].replace(old, new, 1)
    return wrong


def main(*names: str) -> int:
    crates = [folder_of(name) for name in names] or sorted((TOP / "crates").iterdir())
    stands = True
    for crate in crates:
        edits = {f"must-fail/{it.stem}": it.read_text() for it in sorted((crate / "must-fail").glob("*.edit"))}
        edits |= {f"planted: {name}": text for name, text in planted(crate).items()}
        for name, text in edits.items():
            for wrong in wrongs(crate, text):
                print(f"edits_stand: {crate.name}/{name}: {wrong}")
                stands = False
    return not stands


sys.exit(__doc__ if "--help" in sys.argv else main(*sys.argv[1:]))
