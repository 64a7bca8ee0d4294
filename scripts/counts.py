#!/usr/bin/env python3
"""How often each instruction of a function ran, beside its code: callgrind's counts over objdump's lines.

usage: counts.py PROGRAM INPUT FUNCTION LEAST [WORD ..]
INPUT is a file for standard input, `-` for none; FUNCTION a part of its name; lines that ran less often than LEAST are left out; WORDs
are the program's arguments. The first line is the sum. It needs valgrind and objdump.
"""
import collections
import os
import re
import subprocess
import sys
import tempfile

COST = re.compile(r"(0x[0-9a-f]+|\+\d+|-\d+|\*)\s+\S+\s+(\d+)")
OBJECT = re.compile(r"(c?ob)=\((\d+)\)(?: (.*))?")
HEAD = re.compile(r"[0-9a-f]+ <(.*)>:")
LINE = re.compile(r"\s*([0-9a-f]+):\s+(.*)")
BASES = (0, 0x400000, 0x4000000, 0x108000, 0x109000, 0x10A000, 0x555555554000)  # (where a program may be loaded)


def counted(command: list, given) -> collections.Counter:
    """How often the instruction of the program at each address ran; what a call costs counts where it is spent. (The addresses are those in a file, so a
    library's may be the same.)"""
    with tempfile.NamedTemporaryFile("r", encoding="utf-8") as out:
        tool = ["valgrind", "--tool=callgrind", "--dump-instr=yes", f"--callgrind-out-file={out.name}", *command]
        subprocess.run(tool, stdin=given, stdout=subprocess.DEVNULL, stderr=subprocess.DEVNULL, check=False)
        ran, at, is_call, files, is_own = collections.Counter(), 0, False, {}, False
        for line in out:
            if found := OBJECT.match(line):
                files[found[2]] = found[3] or files[found[2]]
                if found[1] == "ob":
                    is_own = os.path.realpath(files[found[2]]) == os.path.realpath(command[0])
            elif line.startswith("calls="):
                is_call = True
            elif found := COST.match(line):
                place = found[1]
                at = at if place == "*" else int(place, 16) if place.startswith("0x") else at + int(place)
                ran[at] += int(found[2]) if is_own and not is_call else 0
                is_call = False
    return ran


def lines_of(program: str, function: str):
    """The addresses and texts of the instructions of all functions whose name has this part."""
    told, inside = subprocess.run(["objdump", "-d", "--no-show-raw-insn", program], capture_output=True, text=True, check=True).stdout, False
    for line in told.splitlines():
        if found := HEAD.match(line):
            inside = function in found[1]
        elif inside and (found := LINE.match(line)):
            yield int(found[1], 16), found[2]


def main() -> int:
    if len(sys.argv) < 5:
        print(__doc__.strip(), file=sys.stderr)
        return 2
    program, given, function, least, *words = sys.argv[1:]
    if not least.isdigit():
        print(f"counts: LEAST is a number, not {least}", file=sys.stderr)
        return 2
    with open("/dev/null" if given == "-" else given, "rb") as file:
        ran = counted([program, *words], file)
    if not ran:
        print(f"counts: valgrind counted nothing of {program}", file=sys.stderr)
        return 1
    rows = [(next((ran[at + base] for base in BASES if at + base in ran), 0), at, text) for at, text in lines_of(program, function)]
    if not rows:
        print(f"counts: {program} has no function with {function} in its name", file=sys.stderr)
        return 1
    print(sum(count for count, _, _ in rows))
    for before, (count, at, text) in zip([(0,), *rows], rows):
        if count >= int(least):
            print(f"{count:10} {at:x} {text}")
        elif before[0] >= int(least):
            print("       ...")
    return 0


sys.exit(main())
