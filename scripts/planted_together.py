#!/usr/bin/env python3
"""Tries the edits of crates/CRATE/planted, many in one check, in a copy of the repository.

    scripts/planted_together.py [--over CLONE KEPT] CRATE [EDIT..]

With --over it checks, as scripts/check_over.sh, over the libraries that the gate of a clone has built, and only the functions that
are changed and those that they call; KEPT keeps what is proved of the latter. Else by `rt check`, which proves all.

A function is proved over the contracts of those that it calls. So edits of different functions are made together, and what
each edit's own function owes then says whether the edit is refused. An edit that begins in a crate below, in code and
definition alike (`file: ../CRATE/..`), is made alone, and refused where that crate is proved and this one isn't. One with a
line `test:` is left out: it is proved, and the test or script that the line names refuses it.
scripts/planted.sh tries one after the other, and is needed for edits of definitions, constants and types, which are named
at the end.

Prints the goals that each edit leaves open, and at which of them the search stopped at a limit. The status is 1 where an
edit is proved, or refused only because a proof file names what the edit took away. The copy lies below /tmp and is
removed at the end.
"""

import pathlib
import re
import shutil
import subprocess
import sys
import tempfile

from edits import folder_of, is_test, planted

ROOT = pathlib.Path(__file__).resolve().parent.parent
FUNCTION = re.compile(r"^( *)(?:pub(?:\([^)]*\))? +)?(?:const +)?(?:unsafe +)?(?:extern +\S+ +)?fn +(\w+)", re.M)
OPENS = re.compile(
    r"^(?:unsafe +)?impl(?:<(?P<params>(?:[^<>]|<[^<>]*>)*)>)? +(?:(?P<trait>[\w:]+)(?:<(?P<of>\w*).*>)? +for +)?(?P<type>\w+)(?:<(?P<at>[\w, ]*)>)?|^(?:pub +)?trait +(?P<own>\w+)|^\}", re.M
)
NAMES = re.compile(r"has no field|is not in scope|has no `|was not admitted")


class Edit:
    """A wrong edit: its places in the sources, and the functions in which they lie."""

    def __init__(self, name, text, crate):
        self.name, self.places, self.functions, self.is_whole = name, [], set(), True
        self.is_below = False
        file = old = ""
        for line in text.split("\n"):
            if line.startswith("file: "):
                file = line[6:].strip()
            elif line.startswith("old: "):
                old = line[5:]
            elif line.startswith("new:"):
                self.add(crate, file, old, line[4:].removeprefix(" "))

    def add(self, crate, file, old, new):
        text = (crate / file).read_text()
        function = function_at(file, text, text.find(old)) if text.count(old) == 1 else None
        self.is_whole = self.is_whole and function is not None
        self.is_below = self.is_below or file.startswith("../")
        self.places.append((file, text.find(old), old, new))
        self.functions.add(function)


def function_at(file, text, at):
    """Returns the file, the type and the name of the function that holds a place; None where none does."""
    at += len(text[at:]) - len(text[at:].lstrip())
    found = [it for it in FUNCTION.finditer(text, 0, text.find("\n", at)) if it.start() <= at]
    if not file.startswith("src/") or not found:
        return None
    last = found[-1]
    if f"\n{last[1]}}}\n" in text[last.end() : at]:
        return None
    block = [it for it in OPENS.finditer(text, 0, last.start())][-1:]
    kind = "".join((block[0][it] or "").split("::")[-1] for it in ("own", "type", "trait", "of")) if block else ""
    return file, kind[:1].upper() + kind[1:] + (at_of(block[0]) if block else ""), last[2]


def at_of(block):
    """Returns how the name of a type's block goes on where it is written at one type, as `impl<D> Book<Plain, D>`."""
    words = [it.strip() for it in (block["at"] or "").split(",") if it.strip()]
    free = set(re.findall(r"(?:^|,)\s*(?:const +)?(\w+)", block["params"] or ""))
    return "" if block["trait"] or set(words) <= free else "".join(f"+{it}" for it in words)


def path_of(file, kind, name):
    """Returns the end of a function's name by which `--only` knows it: a method's module is that of its type."""
    module = [it for it in file[len("src/") : -len(".rt")].split("/") if it not in ("lib", "main", "mod")]
    return "::".join([kind, name] if kind else [*module, name])


def grouped(edits):
    """Returns the edits in groups, in each of which no function is changed twice."""
    groups = []
    for edit in edits:
        free = [it for it in groups if not any(edit.functions & other.functions for other in it)]
        free[0].append(edit) if free else groups.append([edit])
    return groups


def checked(crate, group, over):
    """Returns what a check says of the crate with these edits, which are taken back."""
    files = {file for edit in group for file, _, _, _ in edit.places}
    before = {file: (crate / file).read_text() for file in files}
    for file, text in before.items():
        here = [place[1:] for edit in group for place in edit.places if place[0] == file]
        for at, old, new in sorted(here, reverse=True):
            text = text[:at] + new + text[at + len(old) :]
        (crate / file).write_text(text)
    words = ["rt", "check", "--jobs", "1"]
    if over:
        clone, kept = over
        words = [crate.parents[1] / "scripts/check_over.sh", clone, crate.name, pathlib.Path(kept).resolve()]
        words += [it for edit in group for function in sorted(edit.functions) for it in ("--only", path_of(*function))]
    ran = subprocess.run(words, cwd=crate, capture_output=True, text=True)
    for file, text in before.items():
        (crate / file).write_text(text)
    return ran.stdout + ran.stderr


def owed(said):
    """Returns what each function that is not proved owes by itself: its goals, the errors of its proof files, and why its contract isn't read."""
    goals, errors, unread, notes = {}, {}, {}, []
    for line in said.split("\n"):
        if wrong := re.match(r"(?:\./)?proofs/(\S+)/\w+\.antt:\d+:\d+: error: (.*)", line):
            errors.setdefault(wrong[1], []).append(wrong[2])
        elif line.startswith("note: src/") and "not proved" in line:
            limit = " (at a limit)" if "gave up at one of its limits" in line else ""
            notes += [it + limit for it in re.findall(r"\(`(\S+)`\)", line)]
        elif function := re.match(r"fn (\S+): (.*)", line):
            goals[function[1]], notes = notes, []
            if function[2].startswith("no proof"):
                unread[function[1]] = function[2]
    return {
        symbol: (found, errors.get("/".join(symbol.split("::")[1:]), []), unread.get(symbol))
        for symbol, found in goals.items()
    }


def verdict(edit, owing):
    """Returns whether an edit is refused, and by what."""
    goals, errors, is_read = [], [], False
    for function in edit.functions:
        for symbol, (found, wrong, unread) in owing.items():
            if symbol.endswith("::" + path_of(*function)):
                if unread and not found and not wrong:
                    return False, f"NOT READ: {unread[:100]}"
                goals, errors, is_read = goals + found, errors + wrong, True
    real = [it for it in errors if not NAMES.search(it)]
    if goals or real:
        return True, f"refused: {', '.join(goals) or real[0][:100]}"
    if errors:
        return False, f"REFUSED ONLY BY A NAME: {errors[0][:100]}"
    return False, "PROVED" if is_read else "NOT READ: the check has no line on its function"


def main(name, *names):
    over = None
    if name == "--over":
        *over, name = names[:3]
        names = names[3:]
    known = {it for it, text in planted(folder_of(name)).items() if not is_test(text)}
    if not set(names) <= known:
        raise SystemExit(f"planted_together: {name} has no edit {', '.join(sorted(set(names) - known))} for the prover")
    with tempfile.TemporaryDirectory(prefix="planted-") as folder:
        # what was checked lies in out/, and is copied too, if it is needed
        left = shutil.ignore_patterns(".*", "out") if over else None
        copy = pathlib.Path(shutil.copytree(ROOT, f"{folder}/copy", symlinks=True, ignore=left))
        crate = copy / "crates" / name
        edits = [Edit(it, text, crate) for it, text in planted(crate).items() if not is_test(text) and (not names or it in names)]
        missed = 0
        for group in grouped([it for it in edits if it.is_whole]):
            said = checked(crate, group, over)
            owing = owed(said)
            for edit in group:
                is_refused, why = verdict(edit, owing) if owing else (False, f"NOT READ: {said.strip()[-200:]}")
                missed += not is_refused
                print(f"{edit.name}: {why}", flush=True)
        for edit in (it for it in edits if it.is_below and not over):
            said = checked(crate, [edit], None)
            # where a crate below isn't proved, this one isn't reached
            is_refused = f"crate {name}: modules" in said and "logic=not-proved" in said
            missed += not is_refused
            print(f"{edit.name}: {'refused' if is_refused else 'PROVED, or the crate below is not'}", flush=True)
    for edit in edits:
        if not edit.is_whole and (over or not edit.is_below):
            print(f"not tried, no function holds it whole: {edit.name}")
    return missed > 0


if __name__ == "__main__":
    sys.exit(main(*sys.argv[1:]) if len(sys.argv) > 1 and sys.argv[1] != "--help" else __doc__)
