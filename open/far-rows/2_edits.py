#!/usr/bin/env python3
"""Wrong edits follow what they change. usage: 2_edits.py ROOT NEW (after 1_rows.py with far_rows, after 4_forms.py with far_forms)"""
import pathlib
import re
import sys

ROOT, NAME = pathlib.Path(sys.argv[1]).resolve(), sys.argv[2]
CRATES = ROOT / "crates"
NEW = CRATES / NAME
SOURCES = [it for it in sorted(NEW.rglob("*")) if it.suffix in (".rt", ".antt") and "out" not in it.relative_to(NEW).parts]


def home(crate: pathlib.Path, file: str, old: str) -> str:
    """Where a text stands now, seen from the crate."""
    path = (crate / file).resolve()
    if path.exists() and old in path.read_text():
        return file
    found = [it for it in SOURCES if it.read_text().count(old) == 1]
    same = [it for it in found if it.name == path.name] or found
    if len(same) != 1:
        print(f"edits: {crate.name}: {len(same)} places of {old}")
        return file
    return f"../{NAME}/{same[0].relative_to(NEW)}"


def shelf_of(crate: pathlib.Path, path: str) -> str:
    """The shelf of an edit that begins in a file."""
    return path.rsplit(".", 1)[0].removeprefix("../").removeprefix("src/").replace("/", ".")


for crate in (CRATES / "far_core", CRATES / "far_events"):
    for shelf in sorted((crate / "planted").glob("*.edits")):
        stay = []
        for text in ("\n" + shelf.read_text()).split("\nedit: ")[1:]:
            lines, made, file, first = text.strip("\n").split("\n"), [], None, None
            last = None
            for line in lines:
                if line.startswith("file:"):
                    file = line.removeprefix("file:").strip()
                    continue
                if line.startswith("old:"):
                    now = home(crate, file, line.removeprefix("old:").removeprefix(" "))
                    first = first or now
                    if now != last:
                        made.append(f"file: {now}")
                        last = now
                made.append(line)
            files = [it.removeprefix("file: ") for it in made if it.startswith("file: ")]
            goes = crate.name == "far_events" and all(it.startswith(f"../{NAME}/") for it in files)
            made = [it.replace(f"file: ../{NAME}/", "file: ") if goes else it for it in made]
            where = (NEW / "planted" / f"{shelf_of(NEW, first.removeprefix(f'../{NAME}/'))}.edits") if goes else (shelf if file and made == lines else crate / "planted" / f"{shelf_of(crate, first)}.edits")
            if where == shelf:
                stay.append("\n".join(made) + "\n")
                continue
            where.parent.mkdir(exist_ok=True)
            before = ("\n" + where.read_text()).split("\nedit: ")[1:] if where.exists() else []
            edits = {it.split("\n", 1)[0]: it.strip("\n") + "\n" for it in [*before, "\n".join(made)]}
            where.write_text("\n".join("edit: " + edits[it] for it in sorted(edits)))
        if stay:
            shelf.write_text("\n".join("edit: " + it for it in stay))
        else:
            shelf.unlink()
# what an edit names
for shelf in sorted(CRATES.glob("*/planted/*.edits")):
    now = shelf.read_text()
    new = re.sub(r"Rattle\.far_events\.specs\.events\.Naming\.\{is_dropped\}", "Rattle.far_forms.specs.Namings.{is_dropped}", now) if NAME == "far_forms" else now
    if NAME == "far_forms":
        new = new.replace("Rattle.far_events.specs.events.Collect.{collected, is_loose}", "Rattle.far_events.specs.events.Collect.{collected}")
    if new != now:
        shelf.write_text(new)
