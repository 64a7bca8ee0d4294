#!/usr/bin/env python3
"""What a running gate spends: seconds of a processor for each crate's proof, tests, edits and builds.

    scripts/gate_cost.py CLONE FILE     beside `bash .ci/run` in CLONE, until that ends

Looks at the processes once a second, so what lives shorter is missed; FILE is written anew every 20 looks. A row is seconds, crate, work.
"""
import os
import pathlib
import sys
import time

TICKS = os.sysconf("SC_CLK_TCK")
ENDS = 60  # (looks in a row that find nothing of the gate)


def text_of(path):
    try:
        return path.read_bytes()
    except OSError:
        return b""


def work_of(process, root):
    """The crate and the work of a process of the gate; None for another's."""
    words = text_of(process / "cmdline").decode(errors="replace").split("\0")
    try:
        folder = os.readlink(process / "cwd")
    except OSError:
        folder = ""
    # (an edit is checked in a folder of its own, over the gate's libraries; so is another's check over them, in that one's clone)
    tries = folder.startswith("/tmp/rt-edit") and root in " ".join(words)
    if not folder.startswith(root) and not tries:
        return None
    crate = words[words.index("--crate-name") + 1] if "--crate-name" in words else os.path.basename(folder)
    program = os.path.basename(words[0])
    if program != "rattle":
        return crate, program
    if folder.startswith("/tmp/rt-edit"):
        return crate, "edits"
    return crate, "tests" if "--test" in words else "proof"


def look(root, works, spent):
    """Adds what each process of the gate has spent since the last look; whether there was one."""
    found = False
    for process in pathlib.Path("/proc").glob("[0-9]*"):
        fields = text_of(process / "stat").rpartition(b")")[2].split()
        if not fields:
            continue
        key = process.name, fields[19]
        if key not in works:
            works[key] = work_of(process, root)
        if works[key] and process.name != str(os.getpid()):
            found = True
            spent[key] = (int(fields[11]) + int(fields[12])) / TICKS
    return found


def table(works, spent, minutes):
    total = {}
    for key, seconds in spent.items():
        total[works[key]] = total.get(works[key], 0) + seconds
    rows = sorted(total.items(), key=lambda row: -row[1])
    lines = [f"{sum(total.values()) / 60:.1f} minutes of a processor in {minutes:.1f}"]
    return "\n".join(lines + [f"{seconds:8.0f} {crate} {work}" for (crate, work), seconds in rows]) + "\n"


def main():
    root, out = os.path.realpath(sys.argv[1]), pathlib.Path(sys.argv[2])
    works, spent, begun, looks, idle = {}, {}, time.time(), 0, 0
    while idle < ENDS or not spent:
        idle = 0 if look(root, works, spent) else idle + 1
        looks += 1
        if looks % 20 == 0:
            out.write_text(table(works, spent, (time.time() - begun) / 60))
        time.sleep(1)
    out.write_text(table(works, spent, (time.time() - begun - idle) / 60))


if __name__ == "__main__":
    if len(sys.argv) != 3:
        sys.exit(__doc__)
    main()
