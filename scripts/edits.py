#!/usr/bin/env python3
"""The planted edits of a crate. crates/CRATE/planted/FILE.edits has those that begin in one source file, each from a line `edit: NAME` on: `file:`, `old:`
and `new:` as in must-fail, `test:` where a test refuses it, and lines of words.

usage: edits.py CRATE FOLDER [SHARE]     writes each to FOLDER/NAME.edit; SHARE as 2/3: the second third

Left out are those that a test refuses, and those that begin in a crate below.
"""
import pathlib
import re
import sys

TOP = pathlib.Path(__file__).resolve().parent.parent


def folder_of(crate: str) -> pathlib.Path:
    """The folder of a crate."""
    folder = TOP / "crates" / crate
    if not (folder / "src").is_dir():
        raise SystemExit(f"edits: there is no crate {crate}")
    return folder


def planted(crate: pathlib.Path) -> dict:
    """The text of each edit, by its name."""
    found, name = {}, None
    for path in sorted((crate / "planted").glob("*.edits")):
        for line in path.read_text().splitlines():
            if line.startswith("edit: "):
                name = line.removeprefix("edit: ").strip()
                if name in found:
                    raise SystemExit(f"edits: two are named {name} in {crate.name}")
                found[name] = ""
            elif line:
                found[name] += line + "\n"
    return found


def is_test(text: str) -> bool:
    """Whether a test refuses it, not the prover."""
    return re.search("^test: ", text, re.M) is not None


def main(crate: str, folder: str, share: str = "1/1") -> int:
    edits = [(name, text) for name, text in planted(folder_of(crate)).items() if not is_test(text) and "file: ../" not in text]
    part, of = map(int, share.split("/"))
    pathlib.Path(folder).mkdir(parents=True, exist_ok=True)
    for name, text in edits[(part - 1) * len(edits) // of : part * len(edits) // of]:
        (pathlib.Path(folder) / f"{name}.edit").write_text(text)
    return 0


if __name__ == "__main__":
    sys.exit(main(*sys.argv[1:]) if len(sys.argv) in (3, 4) else __doc__)
