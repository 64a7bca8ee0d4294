#!/usr/bin/env python3
"""Writes the outputs that a trace may have where one growth of memory is refused while an object goes to the device.

usage: lacking.py TEXT FOLDER
FOLDER/0 is the output where none is; FOLDER/K, from 1 on, that where the K-th write that reaches the memory of the device is refused. The second interpreter
of differ.py tells them.
"""
import sys

sys.dont_write_bytecode = True
from differ import Heap, parse  # noqa: E402


class Lacking(Heap):
    """A heap whose device is refused memory in one write that isn't said to fail, counted from 1; for 0 in none."""

    def __init__(self, shape: list, nth: int):
        super().__init__(*shape)
        self.nth, self.writes, self.lacks = nth, 0, False

    def is_flawed(self, is_read: bool) -> bool:
        if super().is_flawed(is_read):
            return True
        if not is_read:
            self.writes += 1
            self.lacks = self.writes == self.nth
        return self.lacks

    def dealt(self, counts) -> str:
        said, lacked, self.lacks = super().dealt(counts), self.lacks, False
        return said.replace("refused 10", "refused 1", 1) if lacked else said


def output(commands: list, nth: int) -> tuple[bytes, int]:
    """What the commands after a heap are answered, and how many writes reached the memory of its device."""
    heap = Lacking(commands[0][1], nth)
    lines = ["ok", *(heap.answer(*made) for made in commands[1:]), ""]
    return "\n".join(lines).encode(), heap.writes


def main() -> int:
    if len(sys.argv) != 3:
        print(__doc__.strip(), file=sys.stderr)
        return 2
    path, folder = sys.argv[1:]
    with open(path, "rb") as text:
        commands = parse(text.read())
    _, writes = output(commands, 0)
    for nth in range(writes + 1):
        with open(f"{folder}/{nth}", "wb") as to:
            to.write(output(commands, nth)[0])
    return 0


if __name__ == "__main__":
    sys.exit(main())
