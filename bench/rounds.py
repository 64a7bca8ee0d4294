#!/usr/bin/env python3
"""What rounds cost, beside a program without proofs, and as a heap grows.

usage: rounds.py PROGRAM TWIN     each a command, as 'twin --stage 10'

First a text of just under 1 MiB: rounds over a thousand objects of which some are near, some hot and some far. Both programs run under callgrind,
their outputs are compared, and the ratio of their instructions is printed. Then the instructions of one line `round oldest 1 1000`, a text with it
less the same text without it, as one number of the heap grows: they are to be linear in the live objects of the chosen log, and nearly independent of
all else. Of far objects no number is a power of two: there the row of slots of `MemDevice` is full, and the first object that leaves makes it twice as
long, so what is there is copied, 32 bytes a slot, each an instruction to callgrind. Last the instructions of PROGRAM for a round that sends the objects
of a log far again, as they came and written since. Ends with 1 where outputs differ or the ratio is above the goal, BAR. It needs valgrind.
"""
import random
import re
import shlex
import subprocess
import sys

LIMIT, LOG_BYTES, CELLS, MOST = 1_048_576, 4_096, 256, 4_088
BAR, ROUND = 1.35, "round oldest 1 1000\n"
SERIES = [
    ("live objects of the chosen log, sent far", "chosen", (0, 16, 32, 48, 64), {}),
    ("live objects of the chosen log, moved", "chosen", (0, 16, 32, 48, 64), {"hot": True}),
    ("other sealed logs", "logs", (1, 4, 16, 48), {}),
    ("live objects of 12 other logs", "others", (0, 192, 384, 768), {"logs": 12}),
    ("objects that are far", "far", (0, 192, 320, 448), {}),
    (f"mutators, of {CELLS} cells each", "mutators", (1, 2, 4, 8), {}),
]


def output(command: list, text: str) -> bytes:
    return subprocess.run(command, input=text.encode(), stdout=subprocess.PIPE, check=True).stdout


def instructions(command: list, text: str) -> int:
    """All instructions of a run, loading included."""
    tool = ["valgrind", "--tool=callgrind", "--trace-children=yes", "--callgrind-out-file=/dev/null", *command]
    ran = subprocess.run(tool, input=text.encode(), stdout=subprocess.DEVNULL, stderr=subprocess.PIPE, check=True)
    return sum(map(int, re.findall(rb"Collected : (\d+)", ran.stderr)))


def many_rounds() -> str:
    """A thousand objects of eight mutators; again and again some are reached, and logs are emptied, by one command or by many."""
    choice = random.Random(3)
    objects = [(m, CELLS * m + k, choice.randint(1, 200)) for k in range(125) for m in range(8)]
    lines = ["heap 64 8", *(f"new {m} {length} {m}" for m, _, length in objects)]
    size, turn = sum(len(line) + 1 for line in lines), 0
    while True:
        turn += 1
        more = [f"open {m}" for m in range(8)]
        for m, p, length in choice.sample(objects, 40):
            more.append(choice.choice((f"view {m} {p}", f"read {m} {p} 0 {min(length, 32)}", f"write {m} {p} 0 {choice.randrange(256):02x}")))
        more += [f"close {m}" for m in range(8)]
        if turn % 4:
            more.append(f"round {choice.choice(('oldest', 'leastlive'))} {choice.choice((4, 8, 16))} 1000")
        else:
            more += ["select oldest 12", "mark 16", "mark 10000", "wait", "evacuate 16", "evacuate 16", "evacuate 10000", "audit"]
        size += sum(len(line) + 1 for line in more)
        if size > LIMIT:
            return "\n".join(lines) + "\n"
        lines += more


def heap(chosen: int = 32, hot: bool = False, logs: int = 4, others: int = 0, far: int = 0, mutators: int = 8) -> str:
    """A heap whose oldest sealed log has so many live objects; so many sealed logs with so many live objects come after it. All objects have 56 bytes."""
    lines, free = [f"heap 64 {mutators}"], list(range(CELLS * mutators))

    def log(live: int) -> list:
        """Fills a log with 64 objects, of which so many live on."""
        made = [free.pop(0) for _ in range(64)]
        lines.extend(f"new {p // CELLS} 56 1" for p in made)
        lines.extend(f"drop {p // CELLS} {p}" for p in made[live:])
        free[:] = sorted(free + made[live:])
        return made[:live]

    for _ in range(far // 64):
        log(64)
    last = free[0]
    lines += [f"new {last // CELLS} {MOST} 1", "round oldest 64 1000", f"drop {last // CELLS} {last}"]
    oldest = log(chosen)
    lines.append("round oldest 1 1000")
    for _ in range(logs):
        log(others // logs)
    lines.append(f"new {free[0] // CELLS} 56 1")
    if hot:
        for m in sorted({p // CELLS for p in oldest}):
            lines += [f"open {m}", *(f"view {m} {p}" for p in oldest if p // CELLS == m), f"close {m}"]
    return "\n".join(lines) + "\n"


def grows(programs: list, name: str, key: str, numbers: tuple, rest: dict) -> bool:
    """Prints what a round costs at each of these numbers; whether the programs answer alike."""
    print(f"{name}:")
    costs = []
    for number in numbers:
        text = heap(**{key: number, **rest})
        replies = [output(command, text + ROUND) for command in programs]
        if replies[0] != replies[1]:
            return False
        costs.append([instructions(command, text + ROUND) - instructions(command, text) for command in programs])
        print(f"  {number:4}: {costs[-1][0]:8,} {costs[-1][1]:8,}   {replies[0].splitlines()[-1].decode()}")
    for which, command in enumerate(programs):
        steps = [(b[which] - a[which]) / (to - at) for a, b, at, to in zip(costs, costs[1:], numbers, numbers[1:])]
        print(f"  {command[0].rpartition('/')[2]}: the last to the first {costs[-1][which] / costs[0][which]:.2f}; for each one more", *(f"{step:.1f}" for step in steps))
    return True


def log_of(command: list, lines: list, pointer: int) -> str:
    """The log in which an object lies after these lines."""
    return output(command, "\n".join([*lines, f"where 0 {pointer}", ""])).split()[-3].decode()


def emptied(log: str) -> list:
    """A round of one log."""
    return [f"select script 1 {log}", "mark 1000", "wait", "evacuate 1000"]


def far_again(command: list, size: int, written: bool) -> int:
    """What a round costs that sends objects of so many bytes, a log full of them, far again: as they came near, or written since."""
    count = LOG_BYTES // (8 + 8 * -(-size // 8))
    filler = f"new 1 {MOST} 1"
    lines = ["heap 16 2", *(f"new 0 {size} 1" for _ in range(count)), filler, *emptied("0")]
    lines += ["open 0", *(f"read 0 {p} 0 1" for p in range(count)), *(f"write 0 {p} 0 ff" for p in range(count) if written), "close 0", filler]
    lines += [*emptied(log_of(command, lines, 0)), filler]
    last = emptied(log_of(command, lines, 0))
    texts = ["\n".join([*text, ""]) for text in (lines, lines + last)]
    assert f"far {count} " in output(command, texts[1]).split(b"\n")[-2].decode()
    return instructions(command, texts[1]) - instructions(command, texts[0])


def main() -> int:
    if len(sys.argv) != 3:
        print(__doc__.strip(), file=sys.stderr)
        return 2
    programs = [shlex.split(word) for word in sys.argv[1:3]]
    text = many_rounds()
    if output(programs[0], text) != output(programs[1], text):
        print("OUTPUTS DIFFER")
        return 1
    counts = [instructions(command, text) for command in programs]
    ratio, lines = counts[0] / counts[1], text.count("\n")
    print(f"{len(text):,} bytes, {lines:,} lines, {text.count('round') + text.count('select'):,} rounds; instructions {counts[0]:,} to {counts[1]:,}, "
          f"a line {counts[0] / lines:.1f} to {counts[1] / lines:.1f}; ratio {ratio:.2f}, goal {BAR}{'' if ratio <= BAR else ': missed'}")
    alike = all(grows(programs, *series) for series in SERIES)
    print("outputs are equal" if alike else "OUTPUTS DIFFER")
    for size in (8, 64, MOST):
        clean, dirty = (far_again(programs[0], size, written) for written in (False, True))
        print(f"a log of objects of {size} bytes sent far again: {clean:,} as they came, {dirty:,} written since, ratio {clean / dirty:.2f}")
    return 0 if alike and ratio <= BAR else 1


sys.exit(main())
