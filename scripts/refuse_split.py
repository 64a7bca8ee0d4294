#!/usr/bin/env python3
"""Refuses each growth of `far_trace split` in turn, on a text whose rounds and audits take memory.

usage: refuse_split.py PROGRAM
A run must end with status 0 and replies that follow from each mutator's own lines, of which none is refused for want of
memory, as an audit may be, and a round with its counts; or with `memory`, status 1, and nothing written. Both must come, a round and an
audit that are refused, and the whole output. Prints only what is wrong.

The book's thread begins first, and is alone for a while: so the text asks it for much before and between rounds. Whether a growth falls
into a round still depends on when threads come; so growths are refused again until each ending came, at most so often.
"""
import os
import re
import subprocess
import sys
import tempfile

sys.dont_write_bytecode = True
from differ_split import wrong  # noqa: E402

HERE = os.path.dirname(os.path.abspath(__file__))
ROUNDS = (b"log 0\n" * 60 + b"round oldest 1 1000\n") * 12
TEXT = b"""heap 6 2
new 0 8 1
new 0 4088 1
new 1 16 2
new 1 4088 2
audit
%sopen 0
write 0 0 0 0102030405060708
read 0 0 0 8
view 0 1
close 0
open 1
read 1 256 0 16
try 1 257
close 1
logs
round leastlive 2 1000
audit
""" % ROUNDS
REFUSED = re.compile(rb"^refused 1( |$)", re.M)
RUNS = 4  # of each growth, since threads come in any order
MOST = 60  # of each growth, where an ending hasn't come


def run(program: str, library: str, count: str, refused: int) -> tuple:
    env = {**os.environ, "FAIL_ALLOC": str(refused), "COUNT_ALLOC": count, "LD_PRELOAD": library}
    ran = subprocess.run([program, "split"], input=TEXT, capture_output=True, timeout=60, check=False, env=env)
    return ran.returncode, ran.stdout, ran.stderr


def main() -> int:
    if len(sys.argv) != 2 or sys.argv[1] == "--help":
        print(__doc__.strip(), file=sys.stderr)
        return 2
    program, endings = sys.argv[1], {"whole": 0, "refused": 0, "memory": 0, "round": 0, "audit": 0}
    with tempfile.TemporaryDirectory() as work:
        library, count = f"{work}/fail_malloc.so", f"{work}/count"
        subprocess.run(["cc", "-O2", "-shared", "-fPIC", "-o", library, f"{HERE}/fail_malloc.c", "-ldl"], check=True)
        run(program, library, count, 0)
        with open(count, encoding="ascii") as it:
            asked = int(it.read())
        for turn in range(MOST * (asked + 2)):
            time, refused = divmod(turn, asked + 2)
            if time >= RUNS and 0 not in endings.values():
                break
            status, output, said = run(program, library, count, refused)
            if (status, output, said) == (1, b"", b"memory\n"):
                endings["memory"] += 1
            elif said or (found := wrong(TEXT, status, output, is_short=True)):
                print(f"refuse_split: growth {refused} of {asked}: status {status}, {said or found}:\n{output.decode()}")
                return 1
            else:
                endings["refused" if REFUSED.search(output) else "whole"] += 1
                endings["round"] += b"\nrefused 1 moved " in output
                endings["audit"] += b"\nrefused 1\n" in b"\n" + output.partition(b"\nbook\n")[2]
    if 0 in endings.values():
        print(f"refuse_split: of {asked} growths: {endings}")
        return 1
    return 0


if __name__ == "__main__":
    sys.exit(main())
