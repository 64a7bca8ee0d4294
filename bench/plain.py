#!/usr/bin/env python3
"""What a plain core costs: instructions of its calls, by callgrind, and near bytes a pointer of heaps over it.

    bench/plain.py CORE HEAPS     CORE, HEAPS: a built bench_far_core, bench_plain_heaps (bench/lay_out.sh)

Each work is done N and 2N times, so that the difference is N turns, without the start. A turn of a range tests its guards first; what such tests cost alone
is taken off. Near bytes are what the program grows by (VmRSS) for each heap that it makes and fills, less 4,096 bytes and 512 bits a log, for each of
its 2,048 pointers; the device has nothing. Ends with 1 where a bar is missed.
"""
import re
import subprocess
import sys

TURNS, MADE, HEAPS, POINTERS = 10_000, 100, 1_000, 2_048
RANGES = [
    ("a word stored", "store", None),
    ("1,016 bytes of an object loaded", "load_bytes", 150),
    ("1,016 bytes of an object stored", "store_bytes", 150),
    ("127 words got", "get_words", None),
    ("127 words put", "put_words", None),
    ("127 words copied", "copy_words", None),
    ("16 words copied", "copy_few", None),
]
MAKING = [("new", 60_000), ("without_stored", 60_000), ("alone", 60_000)]
FILLED = [(8, 1_600), (16, 2_048)]


def counted(program: str, work: str, turns: int) -> int:
    """Instructions of a run."""
    command = ["valgrind", "--tool=callgrind", "--callgrind-out-file=/dev/null", program, work, str(turns)]
    ran = subprocess.run(command, stdout=subprocess.DEVNULL, stderr=subprocess.PIPE, text=True, check=True)
    return int(re.search(r"Collected : (\d+)", ran.stderr)[1])


def a_turn(program: str, work: str, turns: int = TURNS) -> float:
    """Instructions of one turn."""
    return (counted(program, work, 2 * turns) - counted(program, work, turns)) / turns


def near_bytes(program: str, logs: int, objects: int) -> float:
    """Near bytes a pointer."""
    told = subprocess.run([program, str(HEAPS), str(logs), str(objects)], stdout=subprocess.PIPE, text=True, check=True)
    return (1_024 * int(told.stdout) / HEAPS - logs * (4_096 + 64)) / POINTERS


def row(name: str, found: float, bar) -> bool:
    """Prints a row: whether the bar is met."""
    is_met = bar is None or round(found, 1) <= bar
    print(f"{name} | {found:,.1f} | {bar or ''}{'' if is_met else ', missed'}")
    return is_met


def main() -> int:
    core, heaps = sys.argv[1:3]
    print("What | Found | Bar\n---|---|---")
    tests = a_turn(core, "tests")
    rows = [("`read_epoch`, `open`, a pin, a load, `close`", a_turn(core, "scope"), 80)]
    rows += [(name, a_turn(core, work) - tests, bar) for name, work, bar in RANGES]
    rows += [(f"a core of 8 logs and 8 mutators made: `{work}`", a_turn(core, work, MADE), bar) for work, bar in MAKING]
    rows += [(f"near bytes a pointer, {logs} logs, {objects:,} objects of 8 bytes", near_bytes(heaps, logs, objects), 17) for logs, objects in FILLED]
    return 0 if all([row(*it) for it in rows]) else 1


if __name__ == "__main__":
    sys.exit(main() if len(sys.argv) == 3 else __doc__)
