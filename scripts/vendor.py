#!/usr/bin/env python3
"""Copies crates, and those that they stand on, into a repository of your own.

usage: vendor.py FOLDER CRATE..     as in vendor.py ~/mine far_pool far_map

FOLDER/crates gets the crates, without tests and without the edits that their prover refuses, and FOLDER/crates.txt their lines, where it has none for them;
beside them the licences, and FOLDER/docs/API-foxglovepeg.md: what may be called of the crates that were named, now or earlier, with each contract. A crate that is
there already is left as it is; where it isn't this repository's, that is said. A link of a page to what isn't copied becomes words.
"""
import filecmp
import pathlib
import re
import shutil
import sys

sys.dont_write_bytecode = True
import api

TOP = pathlib.Path(__file__).resolve().parent.parent
LEFT_OUT = shutil.ignore_patterns("out", "must-fail", "planted")
LICENCES = ("LICENSE-MIT", "LICENSE-APACHE")
LINK = re.compile(r"\[([^\]]*)\]\(([^)#:\s]+)(#[^)\s]*)?\)")


def rows(path: pathlib.Path) -> dict:
    """The libraries of each crate that a crates.txt names."""
    lines = path.read_text().splitlines() if path.exists() else []
    return {line.partition(":")[0].split()[0]: line for line in lines if ":" in line and not line.startswith("#")}


def below(crate: str, known: dict, found: list) -> list:
    """A crate and all that it stands on, lowest first."""
    if crate in known and crate not in found:
        for it in known[crate].partition(":")[2].split():
            below(it, known, found)
        found.append(crate)
    return found


def unlink(crate: str, folder: pathlib.Path) -> None:
    """Makes words of those links of a copied page that lead to what isn't there."""

    def words(link: re.Match) -> str:
        if (folder / "crates" / crate / link[2]).exists():
            return link[0]
        at = (TOP / "crates" / crate / link[2]).resolve().relative_to(TOP)
        return f"{link[1]} (Foxglovepeg: {at}{link[3] or ''})"

    page = folder / "crates" / crate / "README.md"
    if page.exists():
        page.write_text(LINK.sub(words, page.read_text()))


def differs(ours: pathlib.Path, copy: pathlib.Path) -> bool:
    """Whether a file that would be copied is another in a copy, or isn't there."""
    others = filecmp.dircmp(ours, copy, ignore=["out", "must-fail", "planted", "README.md"])
    _, changed, unread = filecmp.cmpfiles(ours, copy, others.common_files, shallow=False)
    return bool(others.left_only or changed or unread) or any(differs(ours / it, copy / it) for it in others.common_dirs)


def main() -> int:
    if len(sys.argv) < 3:
        print(__doc__.strip(), file=sys.stderr)
        return 2
    folder, known, wanted = pathlib.Path(sys.argv[1]), rows(TOP / "crates.txt"), []
    for crate in sys.argv[2:]:
        if crate not in known:
            print(f"vendor: crates.txt names no {crate}", file=sys.stderr)
            return 2
        below(crate, known, wanted)
    (folder / "crates").mkdir(parents=True, exist_ok=True)
    named = rows(folder / "crates.txt")
    copied = []
    with open(folder / "crates.txt", "a", encoding="utf-8") as lines:
        for crate in wanted:
            target = folder / "crates" / crate
            if target.exists():
                if differs(TOP / "crates" / crate, target):
                    print(f"vendor: {target} is another than here, and stays as it is")
            else:
                shutil.copytree(TOP / "crates" / crate, target, ignore=LEFT_OUT)
                copied.append(crate)
            if crate not in named:
                lines.write(known[crate] + "\n")
    for crate in copied:
        unlink(crate, folder)
    for licence in LICENCES:
        shutil.copy(TOP / licence, folder / f"{licence}-foxglovepeg")
    (folder / "docs").mkdir(exist_ok=True)
    page = folder / "docs" / "API-foxglovepeg.md"
    earlier = re.findall(r"^## (\w+)$", page.read_text(), re.M) if page.exists() else []
    api.TOP = folder  # what the copies have
    page.write_text(api.page([crate for crate in dict.fromkeys([*earlier, *sys.argv[2:]]) if (folder / "crates" / crate / "src" / "lib.rt").exists()]))
    return 0


if __name__ == "__main__":
    sys.exit(main())
