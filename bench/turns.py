#!/usr/bin/env python3
"""What a turn of a round costs while the lock is held, without copiers and with one: instructions, by callgrind.

    bench/turns.py PROGRAM     PROGRAM: a built bench_far_heap (bench/lay_out.sh)

Sixteen objects of 4,088 bytes, all viewed, leave a log each. `turns COPIERS STEPS` makes the first so many of three steps, in one thread: a turn; all copies that
it offered; and the turn after that, which takes the copies over and gives the logs back. Without copiers the first turn does all. A step costs what a run with it
has more than the run before. All is counted twice, and must come to the same.

Ends with 1 where the longest turn with a copier has more than a third of the instructions of the turn without.
"""
import re
import subprocess
import sys

BAR = 3


def counted(program: str, copiers: int, steps: int) -> int:
    """Instructions of a run."""
    words = [program, "turns", str(copiers), str(steps)]
    run = subprocess.run(["valgrind", "--tool=callgrind", "--callgrind-out-file=/dev/null", *words], capture_output=True, text=True)
    if run.returncode != 0:
        sys.exit(f"turns: {words[1:]}: status {run.returncode}: {run.stderr[-400:]}")
    return int(re.search(r"Collected : (\d+)", run.stderr).group(1))


def step(program: str, copiers: int, number: int) -> int:
    """Instructions of a step, counted from 1."""
    cost = [counted(program, copiers, number) - counted(program, copiers, number - 1) for _ in range(2)]
    if cost[0] != cost[1]:
        print(f"turns: step {number}: {cost[0]} and then {cost[1]}", file=sys.stderr)
    return cost[0]


def main() -> int:
    if len(sys.argv) != 2:
        sys.exit(__doc__)
    program = sys.argv[1]
    alone = step(program, 0, 1)
    offers, copies, takes = (step(program, 1, number) for number in (1, 2, 3))
    longest = max(offers, takes)
    print(f"without copiers: a turn {alone:,}")
    print(f"with one: the turn that offers {offers:,}, the copies beside the lock {copies:,}, the turn that takes them over {takes:,}")
    print(f"the longest turn: {longest / alone:.2f} of that without; bar {1 / BAR:.2f}")
    return 1 if BAR * longest > alone else 0


if __name__ == "__main__":
    sys.exit(main())
