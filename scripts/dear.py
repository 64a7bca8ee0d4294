#!/usr/bin/env python3
"""Which functions and proof files of a crate are dear to check, by the times of the files that a check of one job left.

    scripts/check_over.sh CLONE CRATE KEPT --jobs 1     KEPT is a new folder
    scripts/dear.py KEPT [COUNT]                        the COUNT dearest, 40 if not said

A row is seconds, the sum of those so far, and a function or a file, without what the check makes of it (its code, its goals). What else
runs on the processor counts too, so hold the check to one that is free: `taskset -c 3 chrt -r 1`.
"""
import collections
import pathlib
import re
import sys

MADE = re.compile(r"(\.decls)?\.oantt$")
PARTS = re.compile(r"\.(Lts|Proof|Statement|Code|Code\.Mir|Tie|Met|Answers|Kinds|Key|TheVariants)$")


def named(path):
    """The function or file that a kept file is of."""
    text = MADE.sub("", path.name)
    _, _, text = text.partition("-")
    return PARTS.sub("", text.partition("-")[2] or text)


def spent(folder):
    """Seconds for each function or file: those since the file before."""
    times = sorted((it.stat().st_mtime, it) for it in folder.rglob("*.oantt"))
    total = collections.Counter()
    for (before, _), (time, path) in zip(times, times[1:]):
        total[named(path)] += time - before
    return total


def main() -> int:
    if len(sys.argv) < 2 or sys.argv[1] == "--help":
        print(__doc__.strip(), file=sys.stderr)
        return 2
    folder, *rest = sys.argv[1:]
    total = spent(pathlib.Path(folder))
    if not total:
        print(f"dear: no check has left its files in {folder}", file=sys.stderr)
        return 2
    so_far = 0.0
    for name, seconds in total.most_common(int(rest[0]) if rest else 40):
        so_far += seconds
        print(f"{seconds:7.1f} {so_far:8.1f} {name}")
    print(f"{sum(total.values()):7.1f} seconds in all")
    return 0


sys.exit(main())
