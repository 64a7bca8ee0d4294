#!/usr/bin/env python3
"""Holds far_trace against the interpreter of differ.py, on texts of just under 1 MiB, each full of one command.

usage: long_texts.py PROGRAM
A text is what its command needs, and then the same few lines as often as there is room for them, the last perhaps cut short.
Prints nothing and ends with 0 where output and status always agree; else prints the text's name and the first difference.
"""
import itertools
import subprocess
import sys

sys.dont_write_bytecode = True
from differ import LAST_NUMBER, LINE_LIMIT, LOG_BYTES, MOST, TEXT_LIMIT, interpret  # noqa: E402

SMALL, LARGE = ["heap 2 1"], ["heap 64 8"]
OBJECTS = [*LARGE, *(f"new {m} {length} {m}" for m in range(8) for length in (1, 8, 64, MOST))]
NEAR = [*OBJECTS, *(f"open {m}" for m in range(8))]
# one object of eight bytes in each of three logs, which are sealed
THREE = ["heap 9 1", *["new 0 8 1", f"new 0 {MOST} 2"] * 3]
FAR = [*THREE, f"round oldest 64 {LAST_NUMBER}"]
ROUND = ["select oldest 64", "mark 1", f"mark {LAST_NUMBER}", "wait", "evacuate 1", f"evacuate {LAST_NUMBER}"]
AWAY = [f"new 0 {MOST} 3", f"round leastlive 64 {LAST_NUMBER}"]

# What each text begins with, and what is said again and again.
TEXTS = {
    "empty lines": ([], [""]),
    "comments": ([], ["#", "# words", "#" * LINE_LIMIT]),
    "heap twice": (SMALL, ["heap 2 1"]),
    "heap refused": (["heap 1 1"], ["open 0"]),
    "device": ([*SMALL, f"device flip {LAST_NUMBER}"], ["read 0 0 0 1"]),
    "new": (LARGE, [f"new {m} {m + 1} 255" for m in range(8)]),
    "new without room": (SMALL, ["new 0 1000 0"]),
    "new out of range": (LARGE, ["new 8 1 0", f"new 0 {MOST + 1} 0", "new 0 0 0", "new 0 1 256"]),
    "new and drop": (LARGE, ["new 3 8 9", "drop 3 768", "new 3 4088 9", "drop 3 768", "round leastlive 64 100"]),
    "drop refused": (NEAR, ["view 1 256", "drop 1 256", "drop 1 300"]),
    "open": (LARGE, ["open 7"]),
    "open and close": (LARGE, ["open 7", "close 7"]),
    "close": (LARGE, ["close 0"]),
    "epoch": (["heap 64 8 7"], ["epoch 0", "epoch 8", "open 0", "epoch 0", "close 0"]),
    "read": (NEAR, [f"read {m} {256 * m + 2} {m} 16" for m in range(8)]),
    "read refused": (NEAR, ["read 0 0 1 1", "read 0 9 0 1", "read 0 2 0 65", f"read 0 2 {LAST_NUMBER} 1"]),
    "read what is far": (FAR, ["open 0", "read 0 0 0 8", "close 0", *AWAY, "drop 0 6"]),
    "write": (NEAR, [f"write {m} {256 * m + 2} {m} 0011223344556677" for m in range(8)]),
    "write of the longest": (NEAR, [f"write 5 1283 0 {'fe' * MOST}", "read 5 1283 4080 8"]),
    "write refused": (NEAR, ["write 0 0 0 0011", "write 9 0 0 00", "write 0 1 0 00112233445566778899"]),
    "write what is far": (FAR, ["open 0", "write 0 2 0 0102", "read 0 2 0 3", "close 0", *AWAY, "drop 0 6"]),
    "view": (NEAR, ["view 0 0", "view 1 257", "view 2 512"]),
    "view without room": (["heap 2 1", "new 0 4088 0", "open 0"], ["view 0 0", "view 0 1", "new 0 1 0"]),
    "try": (NEAR, ["try 0 0", "try 0 4", "try 1 0"]),
    "try what is far": (FAR, ["open 0", "try 0 0", "close 0"]),
    "where": (FAR, ["where 0 0", "where 0 6", "where 0 1", "where 1 1"]),
    "log": (FAR, [f"log {log}" for log in range(10)]),
    "logs": (SMALL, ["logs"]),
    "audit": (FAR, ["audit"]),
    "select": (THREE, ["select oldest 64", "abort", "select leastlive 2", "abort", "select oldest 0"]),
    "select script": (THREE, ["select script 3 2 0 1", "abort", "select script 1 0 1", "select script 1 9"]),
    "mark": (THREE, ["select oldest 3", "mark 0", "mark 1", "mark 1", "mark 9", "abort", "mark 1"]),
    "wait": ([*THREE, "open 0"], ["select oldest 1", "mark 1", "wait", "wait", "abort", "wait"]),
    "evacuate": (THREE, [*ROUND, "new 0 8 1", f"new 0 {MOST} 2", "drop 0 6", "drop 0 7"]),
    "abort": (THREE, ["abort", "select oldest 1", "abort"]),
    "round": (THREE, ["open 0", "view 0 0", "close 0", "round oldest 64 1", "abort", f"round oldest 64 {LAST_NUMBER}", "new 0 1 1", f"new 0 {MOST} 3", "drop 0 6", "drop 0 7"]),
}


def text_of(first: list, again: list) -> bytes:
    text = bytearray()
    for line in itertools.chain(first, itertools.cycle(again)):
        if len(text) + len(line) + 1 > TEXT_LIMIT:
            return bytes(text)
        text += line.encode() + b"\n"
    return bytes(text)


def differs(program: str, name: str, text: bytes) -> bool:
    ran = subprocess.run([program], input=text, capture_output=True, timeout=120, check=False)
    status, output = interpret(text)
    if (ran.returncode, ran.stdout) == (status, output):
        return False
    lines = itertools.zip_longest(output.split(b"\n"), ran.stdout.split(b"\n"))
    at = next((at for at, (due, got) in enumerate(lines, 1) if due != got), 0)
    print(f"long_texts: {name}: status {ran.returncode}, due {status}; first other line {at}; {ran.stderr.decode()}")
    return True


def main() -> int:
    if len(sys.argv) != 2 or sys.argv[1] == "--help":
        print(__doc__.strip(), file=sys.stderr)
        return 2
    return int(any([differs(sys.argv[1], name, text_of(*made)) for name, made in TEXTS.items()]))


if __name__ == "__main__":
    sys.exit(main())
