#!/usr/bin/env python3
"""Writes the texts that bench/run.sh measures to a folder: each in whole, 1 MiB, and in half.

usage: generate.py FOLDER

access: writes and reads of 8 bytes over a heap of 64 logs and 8 mutators.
churn:  objects of 8 bytes are made and dropped in turn, in such a heap, until its room is used up; then both are refused.
lines:  empty lines and comments alone.
"""
import random
import sys
from pathlib import Path

LIMIT, CELLS = 1_048_576, 256
OBJECTS = 56  # for each mutator


def access(limit: int) -> str:
    """Every mutator places its objects and opens its scope; then writes and reads follow one another."""
    choice = random.Random(1)
    lines = ["heap 64 8"]
    for mutator in range(8):
        lines += [f"new {mutator} 64 {mutator}"] * OBJECTS
    lines += [f"open {mutator}" for mutator in range(8)]
    size = sum(len(line) + 1 for line in lines)
    while True:
        mutator = choice.randrange(8)
        pointer = CELLS * mutator + choice.randrange(OBJECTS)
        start = 8 * choice.randrange(8)
        pair = [
            f"write {mutator} {pointer} {start} {choice.getrandbits(64):016x}",
            f"read {mutator} {pointer} {start} 8",
        ]
        more = sum(len(line) + 1 for line in pair)
        if size + more > limit:
            return "\n".join(lines) + "\n"
        lines += pair
        size += more


def churn(limit: int) -> str:
    """The mutators take turns: each makes an object, which gets its lowest pointer, and drops it."""
    lines = ["heap 64 8"]
    size = len(lines[0]) + 1
    for turn in range(limit):
        mutator = turn % 8
        pair = [f"new {mutator} 8 1", f"drop {mutator} {CELLS * mutator}"]
        more = sum(len(line) + 1 for line in pair)
        if size + more > limit:
            break
        lines += pair
        size += more
    return "\n".join(lines) + "\n"


def skipped(limit: int) -> str:
    """Empty lines and comments in turn, up to the limit."""
    pair = "\n# a comment of some words, as people write them\n"
    return (pair * (limit // len(pair) + 1))[:limit]


def main() -> int:
    if len(sys.argv) != 2:
        print(__doc__.strip(), file=sys.stderr)
        return 2
    folder = Path(sys.argv[1])
    folder.mkdir(parents=True, exist_ok=True)
    for name, limit in (("half", LIMIT // 2), ("whole", LIMIT)):
        (folder / f"access.{name}").write_text(access(limit), encoding="ascii")
        (folder / f"churn.{name}").write_text(churn(limit), encoding="ascii")
        (folder / f"lines.{name}").write_text(skipped(limit), encoding="ascii")
    return 0


sys.exit(main())
