#!/usr/bin/env python3
"""Checks one crate over the sources of those below, so that nothing below need be proved first. The gate is the verdict.

    scripts/over_sources.py ROOT CRATE KEPT [FLAGS]     ROOT is a clone; KEPT is a folder for what is checked

FLAGS are rattle's: `--only PATH` for one function or module and what it calls; with `--only ''` types, names and borrows alone are
checked, in half a minute. A check with a new KEPT reads all below first; later ones take a minute or two.
"""
import os
import pathlib
import sys

KIT = pathlib.Path("/opt/rattle")


def uses_of(root: pathlib.Path) -> dict:
    """The libraries that each crate uses, by crates.txt."""
    rows = (line.split(":", 1) for line in (root / "crates.txt").read_text().splitlines() if ":" in line)
    return {name.split()[0]: rest.split() for name, rest in rows}


def below(crate: str, uses: dict) -> list:
    """The repository's crates that one stands on, lowest first."""
    found = []
    for it in uses[crate]:
        if it in uses:
            found += [*below(it, uses), it]
    return list(dict.fromkeys(found))


def root_file(root: pathlib.Path, crate: str) -> str:
    home = root / "crates" / crate / "src"
    return str(home / "lib.rt" if (home / "lib.rt").exists() else home / "main.rt")


def main() -> None:
    if len(sys.argv) < 4:
        sys.exit(__doc__.strip())
    root, crate, kept, *flags = sys.argv[1:]
    root, kept, uses = pathlib.Path(root).resolve(), pathlib.Path(kept).resolve(), uses_of(pathlib.Path(root))
    own = below(crate, uses)
    of_kit = {"std"} | {used for it in [*own, crate] for used in uses[it] if used not in uses}
    words = ["check", "--crate-name", crate, root_file(root, crate), "-L", f"dependency={KIT}/rlibs"]
    for it in sorted(of_kit):
        words += ["--extern", f"{it}={KIT}/rlibs/{it}.rlib"]
    for it in own:
        words += ["--lib", f"{it}:{','.join(['std', *uses[it]])}={root_file(root, it)}"]
    if f"\n{crate} staticlib:" in (root / "crates.txt").read_text():
        words += ["--crate-type", "staticlib"]
    words += ["--antt-project", f"{KIT}/rattle/logic/antt-project.json", "--logic-built", f"{KIT}/logic_built", "--incremental", str(kept)]
    kept.mkdir(parents=True, exist_ok=True)
    os.chdir(root / "crates" / crate)
    os.execv(KIT / "bin/rattle", ["rattle", *words, *flags])


main()
