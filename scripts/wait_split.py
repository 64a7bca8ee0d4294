#!/usr/bin/env python3
"""Whether a round that waits lets other threads run as often as it has to, with the heap's lock free.

usage: wait_split.py PROGRAM SOAK
A round of `far_trace split` waits, to the end of its turns, for a scope that mutator 0 left open. It must let other threads run once, and after each further turn
twice as often, up to 64 times. At each of the first 64 times and at the last, one in each run, mutator 1 makes its line, which takes the lock: it must end
before the round goes on.
Then soak_far_heap without threads, where a round waits for copies that nobody makes. Prints only what is wrong, at once.
"""
import os
import subprocess
import sys
import tempfile

HERE = os.path.dirname(os.path.abspath(__file__))
# The first two turns mark 16 objects and one. The longest fills a log of its own, so that theirs is sealed.
SMALL, TURNS = 17, 10
TEXT = "heap 4 2\n" + "new 0 8 1\n" * SMALL + f"new 0 4088 1\nopen 0\nnew 1 8 1\nround oldest 1 {TURNS}\n"
POINTERS = "".join(f"pointer {pointer}\n" for pointer in range(SMALL + 1))
TOLD = f"mutator 0\n{POINTERS}ok\nmutator 1\npointer 256\nbook\nround limit waiting\n"
# By this seed there is one round, of 100,000 turns. Four find something to do, the last of them after one that doesn't, so that the count begins anew.
SOAKED = ("60", "2", "tell", "2", "8", "2", "memory")
SOAK_TURNS = (1, 100_000 - 5)
LONGEST = 120


def pauses(turns: int) -> int:
    """How often other threads run while so many turns, one after the other, find nothing to do."""
    return sum(2 ** min(turn, 6) for turn in range(turns))


def run(library: str, *words: str, text: str = "", **asked: str) -> tuple:
    env = {**os.environ, "LD_PRELOAD": library, **asked}
    ran = subprocess.run(words, input=text, capture_output=True, text=True, timeout=LONGEST, check=False, env=env)
    return ran.returncode, ran.stdout, ran.stderr


def main() -> int:
    if len(sys.argv) != 3:
        print(__doc__.strip(), file=sys.stderr)
        return 2
    program, soak = sys.argv[1:3]
    with tempfile.TemporaryDirectory() as work:
        library = f"{work}/wait_split.so"
        subprocess.run(["cc", "-O2", "-shared", "-fPIC", "-o", library, f"{HERE}/wait_split.c", "-ldl"], check=True)
        many = pauses(TURNS - 2)
        for nth in (*range(1, 65), many):
            came = run(library, program, "split", text=TEXT, YIELD=str(nth))
            if came != (0, TOLD, f"{many}\n"):
                print(f"wait_split: yield {nth} of {many}: status {came[0]}, stdout '{came[1]}', stderr '{came[2]}'")
                return 1
        many = sum(pauses(turns) for turns in SOAK_TURNS)
        status, told, yields = run(library, soak, *SOAKED)
        if status != 0 or not told.startswith("wrong 0\n") or yields != f"{many}\n":
            print(f"wait_split: a soak without threads, {many} yields: status {status}, stdout '{told}', stderr '{yields}'")
            return 1
    return 0


if __name__ == "__main__":
    sys.exit(main())
