#!/usr/bin/env python3
"""Runs far_uniq beside a model of it: its options, and counts; where memory is too little, how much it takes; files that can't be read; an output and a far file whose disk is
full; a reader that is gone; a line that comes alone; and each growth of memory refused in turn. A run that fails has printed how the right output begins, and says
in one line what was wrong; a reader that is gone is told nothing. No run leaves a file.

usage: fail_uniq.py PROGRAM
Prints only what is wrong.
"""
import os
import random
import re
import resource
import select
import signal
import subprocess
import sys
import tempfile
import threading
import time

HERE = os.path.dirname(os.path.abspath(__file__))
LONGEST = 60
USAGE = "usage: far_uniq [-m SIZE] [-d FOLDER] [-c] [-s] [-z] [FILE..]\n"
TEXT = b"b\na\nb\n\nc\r\n\xff\na\n\nlast"
BAD_WORDS = (["-x"], ["-m"], ["-m", ""], ["-m", "x"], ["-m", "K"], ["-m", "1K2"], ["-m", "-1"], ["-m", "99999999999999999999"], ["-d"], ["-d", ""], ["-z", "-q", "file"], ["-z", "no text \udcff"])
# 2^64 bytes: more than a number of them tells.
BAD_WORDS += (["-m", "18446744073709551616"], ["-m", "18014398509481984K"], ["-m", "17592186044416M"], ["-m", "17179869184G"])
# What a growth that was refused is told as.
REFUSED = re.compile(r"far_uniq: (no memory; nothing was printed|standard input: line \d+: no memory; -m has room for .*; \d+ lines were printed|no far file: .*; nothing was printed|no memory, after \d+ lines were printed with their counts)\n")
wrong = []


def firsts(text: bytes, end: bytes = b"\n") -> bytes:
    """What is to be printed."""
    lines = text.split(end)
    if lines[-1] == b"":
        lines.pop()
    return b"".join(line + end for line in dict.fromkeys(lines))


def counts(text: bytes, end: bytes = b"\n") -> bytes:
    """What is to be printed with -c."""
    lines = text.split(end)
    if lines[-1] == b"":
        lines.pop()
    often: dict = {}
    for line in lines:
        often[line] = often.get(line, 0) + 1
    return b"".join(b"%7d %s%s" % (count, line, end) for line, count in often.items())


def limited(size: int):
    """What a run begins with whose files may have so many bytes."""

    def begun() -> None:
        signal.signal(signal.SIGXFSZ, signal.SIG_IGN)
        resource.setrlimit(resource.RLIMIT_FSIZE, (size, size))

    return begun


def run(program: str, *words: str, text: bytes = b"", output=subprocess.PIPE, limit: int = resource.RLIM_INFINITY, **variables: str) -> tuple:
    """Status, output and errors of a run."""
    env = {**os.environ, "TMPDIR": ".", **variables}
    try:
        ran = subprocess.run([program, *words], input=text, stdout=output, stderr=subprocess.PIPE, timeout=LONGEST, check=False, env=env, preexec_fn=limited(limit))
    except subprocess.TimeoutExpired as why:
        return f"none, ended by this script: {why}", b"", ""
    return ran.returncode, ran.stdout or b"", ran.stderr.decode(errors="replace")


def expect(what: str, holds: bool, came: tuple) -> None:
    if not holds:
        wrong.append(f"fail_uniq: {what}: status {came[0]}, stdout {came[1][:200]!r} of {len(came[1])} bytes, stderr '{came[2][:300]}'")


def options(program: str) -> None:
    """What is asked for, and what is refused."""
    files = {"one": b"a\nb\na", "two": b"b\na\nc\n", "-odd": b"x\nx\n"}
    for name, text in files.items():
        with open(name, "wb") as file:
            file.write(text)
    rows = (
        ([], TEXT, firsts(TEXT), ""),
        (["-m", "5M", "-d", "."], TEXT, firsts(TEXT), ""),
        (["-z"], b"a\nb\0a\nb\0\0\0c", firsts(b"a\nb\0a\nb\0\0\0c", b"\0"), ""),
        (["-c"], TEXT, counts(TEXT), ""),
        (["-c"], b"", b"", ""),
        (["-c", "-z"], b"a\nb\0a\nb\0\0\0c", counts(b"a\nb\0a\nb\0\0\0c", b"\0"), ""),
        (["-c", "one", "-", "two"], b"q\na", b"      4 a\n      2 b\n      1 q\n      1 c\n", ""),
        (["-c"], b"x\n" * 12_345_678, b"12345678 x\n", ""),
        (["one", "two"], b"", b"a\nb\nc\n", ""),
        (["one", "-", "two"], b"q\na", b"a\nb\nq\nc\n", ""),
        (["--", "-odd"], b"", b"x\n", ""),
        ([], b"", b"", ""),
    )
    for words, text, printed, said in rows:
        came = run(program, *words, text=text)
        expect(f"words {words}", came == (0, printed, said), came)
    for words in BAD_WORDS:
        came = run(program, *words, text=TEXT)
        expect(f"words {words}", came == (2, b"", USAGE), came)
    for size in ("18446744073709551615", "18014398509481983K", "17592186044415M", "17179869183G"):
        came = run(program, "-m", size, text=TEXT)
        expect(f"-m {size}", came == (1, b"", "far_uniq: too much for this program\n"), came)
    draw = random.Random(7)
    text = b"".join(b"%d%s\n" % (draw.randrange(3000), b"x" * draw.randrange(300)) for _ in range(30_000))
    came = run(program, "-m", "8M", text=text)
    expect("lines by chance", came == (0, firsts(text), ""), came)
    came = run(program, "-m", "8M", "-c", text=text)
    expect("lines by chance, counted", came == (0, counts(text), ""), came)
    sorted_counts = subprocess.run("LC_ALL=C sort | LC_ALL=C uniq -c", shell=True, input=text, stdout=subprocess.PIPE, check=True).stdout
    expect("lines by chance, beside sort | uniq -c", sorted(came[1].splitlines()) == sorted(sorted_counts.splitlines()), came)
    kinds = [bytes([97 + kind % 2]) * draw.randrange(30_000) + b"%d" % (kind % 9) for kind in range(100)]
    text = b"\n".join(draw.choice(kinds) for _ in range(1_000))
    came = run(program, "-m", "8M", text=text)
    expect("long lines by chance", came == (0, firsts(text), ""), came)
    came = run(program, "-m", "8M", "-c", text=text)
    expect("long lines by chance, counted", came == (0, counts(text), ""), came)
    came = run(program, "-s", text=TEXT)
    told = re.fullmatch(r"(?:far_uniq: \d+ s: .*\n)*far_uniq: 9 lines came, 6 were new\nfar_uniq: far side: heaps \d+ near 0 far 0 live 0 dead 0 unused (\d+) .*\n", came[2])
    # (12 bytes near for each line that there may be)
    expect("what the far side did", came[:2] == (0, firsts(TEXT)) and told is not None and int(told[1]) >= 12 * 1_933_312, came)
    came = run(program, "-s", "-c", text=TEXT)
    told = re.fullmatch(r"(?:far_uniq: \d+ s: .*\n)*far_uniq: 9 lines came, 6 were new\nfar_uniq: far side: heaps \d+ near 0 far 0 .*\n", came[2])
    expect("what the far side did for counts", came[:2] == (0, counts(TEXT)) and told is not None, came)


def be_interrupted() -> None:
    """What a shell begins in the background ignores SIGINT, and so would what it begins."""
    signal.signal(signal.SIGINT, signal.SIG_DFL)


def begun(program: str, *words: str):
    """A run whose streams are ours."""
    pipe = subprocess.PIPE
    return subprocess.Popen([program, *words], stdin=pipe, stdout=pipe, stderr=pipe, env={**os.environ, "TMPDIR": "."}, bufsize=0, preexec_fn=be_interrupted)


def had(ran) -> int:
    """The most memory that a run had; 0 where it has ended."""
    with open(f"/proc/{ran.pid}/status", encoding="ascii") as file:
        told = re.search(r"VmHWM:\s+(\d+) kB", file.read())
    return int(told[1]) * 1024 if told else 0


def most_of(program: str, *words: str, text: bytes, wanted: int) -> tuple:
    """What a run printed, so many bytes of it, and the most memory that it had until then."""
    ran = begun(program, *words)
    giver = threading.Thread(target=ran.stdin.write, args=(text,))
    giver.start()
    printed = b""
    while len(printed) < wanted and select.select([ran.stdout], [], [], LONGEST)[0]:
        piece = os.read(ran.stdout.fileno(), 1 << 16)
        if not piece:
            break
        printed += piece
    giver.join()
    most = had(ran)
    ran.stdin.close()
    said = ran.stderr.read().decode()
    printed += ran.stdout.read()
    return (ran.wait(LONGEST), printed, said), most


def counted_memory(program: str) -> None:
    """The same with -c: what is near until the end of the input."""
    came = run(program, "-c", "-m", "1M", text=TEXT)
    told = re.fullmatch(r"far_uniq: too little memory: -m (\d+) would do; nothing was printed\n", came[2])
    expect("1M of memory for counts", came[:2] == (1, b"") and told is not None, came)
    if told is None:
        return
    least = int(told[1])
    came = run(program, "-c", "-m", str(least - 1), text=TEXT)
    expect("a byte less than the least memory for counts", came == (1, b"", told[0]), came)
    for size, lines, long in ((least, 16_384, 40), (8 << 20, 80_000, 25), (8 << 20, 200, 100_000), (8 << 20, 4_000, 4_100)):
        text = b"".join(b"%06d a line that is one of many%s\n" % (line, b"." * (long - 25)) for line in range(lines)) * 2
        ran = begun(program, "-c", "-m", str(size))
        try:
            ran.stdin.write(text)
        except BrokenPipeError:
            pass
        ran.stdin.close()
        # (more is to be written than a pipe holds, so it waits)
        printed = os.read(ran.stdout.fileno(), 1_000)
        most = had(ran)
        printed += ran.stdout.read()
        came = (ran.wait(LONGEST), printed, ran.stderr.read().decode())
        expect(f"{lines} lines counted in {size} bytes", came == (0, counts(text), ""), came)
        if most > size * 1.15:
            wrong.append(f"fail_uniq: -c -m {size}: took {most} bytes")
    text = b"".join(b"%06d\n" % line for line in range(20_000))
    came = run(program, "-c", "-m", str(least), text=text)
    told = r"far_uniq: standard input: line 16385 would be new beyond 16384, all that -m has room for with -c; nothing was printed\n"
    expect("more lines than there is room for with counts", came[:2] == (1, b"") and re.fullmatch(told, came[2]) is not None, came)


def memory(program: str) -> None:
    """The least that does, and that no more is taken than was asked for, and 15 in a hundred."""
    came = run(program, "-m", "1M", text=TEXT)
    told = re.fullmatch(r"far_uniq: too little memory: -m (\d+) would do; nothing was printed\n", came[2])
    expect("1M of memory", came[:2] == (1, b"") and told is not None, came)
    if told is None:
        return
    least = int(told[1])
    came = run(program, "-m", str(least - 1), text=TEXT)
    expect("a byte less than the least memory", came == (1, b"", told[0]), came)
    for size, lines, long in ((least, 16_000, 25), (8 << 20, 140_000, 25), (4 << 20, 14_000, 512), (8 << 20, 200, 100_000), (8 << 20, 5_000, 4_100)):
        text = b"".join(b"%06d a line that is one of many%s\n" % (line, b"." * (long - 25)) for line in range(lines)) * 2
        came, most = most_of(program, "-m", str(size), text=text, wanted=len(text) // 2)
        expect(f"{lines} lines in {size} bytes", came == (0, firsts(text), ""), came)
        if most > size * 1.15:
            wrong.append(f"fail_uniq: -m {size}: took {most} bytes")
    text = b"".join(b"%06d\n" % line for line in range(20_000))
    came = run(program, "-m", str(least), text=text)
    told = re.fullmatch(r"far_uniq: standard input: line 16385 would be new beyond 16384, all that -m has room for; they were printed\n", came[2])
    expect("more lines than there is room for", came[0] == 1 and came[1] == text[: 16_384 * 7] and told is not None, came)
    text = b"".join(b"%06d %s\n" % (line, b"x" * 3_993) for line in range(3_000))
    for words in ((), ("-c",)):
        came = run(program, "-m", "4M", *words, text=text)
        told = re.fullmatch(r"far_uniq: standard input: line (\d+): no memory; -m has room for 16384 lines of up to 511 bytes, and for fewer longer ones; (\d+) lines were printed\n", came[2])
        lines = 0 if told is None else int(told[1]) - 1
        printed = 0 if words else lines
        expect(f"longer lines than there is room for {words}", 1_000 < lines < 3_000 and came[:2] == (1, text[: printed * 4_001]) and told is not None and int(told[2]) == printed, came)


def most_lines(program: str) -> None:
    """As many lines as the page says fit where nothing is said, and one more."""
    for words, most, said in (((), 1_933_312, "; they were printed"), (("-c",), 1_392_640, " with -c; nothing was printed")):
        text = b"".join(b"%07d\n" % line for line in range(most + 1))
        came = run(program, *words, text=text)
        told = f"far_uniq: standard input: line {most + 1} would be new beyond {most}, all that -m has room for{said}\n"
        expect(f"a line more than {most}", came == (1, b"" if words else text[:-8], told), came)


def faults(program: str, library: str) -> None:
    """Inputs, outputs and far files that fail."""
    os.mkdir("folder")
    for words, printed, told in (
        (["one", "none"], b"a\nb\n", r"far_uniq: none: can't be read at line 4: No such file .*; 2 lines were printed\n"),
        (["folder"], b"", r"far_uniq: folder: can't be read at line 1: Is a directory .*; 0 lines were printed\n"),
        (["-d", "none"], b"", r"far_uniq: no far file: No such file .*; nothing was printed\n"),
    ):
        came = run(program, *words, text=TEXT)
        expect(f"words {words}", came[:2] == (1, printed) and re.fullmatch(told, came[2]) is not None, came)
    folder = os.open("folder", os.O_RDONLY)
    ran = subprocess.run([program], stdin=folder, stdout=subprocess.PIPE, stderr=subprocess.PIPE, timeout=LONGEST, check=False, env={**os.environ, "TMPDIR": "."})
    os.close(folder)
    said = ran.stderr.decode()
    expect("standard input is a folder", ran.returncode == 1 and not ran.stdout and said.startswith("far_uniq: standard input: can't be read at line 1: Is a directory"), (ran.returncode, ran.stdout, said))
    came = run(program, text=TEXT, TMPDIR="none")
    expect("a TMPDIR that isn't there", came[:2] == (1, b"") and re.fullmatch(told, came[2]) is not None, came)
    came = run(program, text=TEXT, TMPDIR="no text \udcff")
    expect("a TMPDIR that is no text", came[:2] == (1, b"") and came[2].startswith("far_uniq: no far file: "), came)
    came = run(program, "-d", ".", text=TEXT, TMPDIR="none")
    expect("a TMPDIR that isn't there, and a folder that is", came == (0, firsts(TEXT), ""), came)
    long = b"a\nb\n" + b"x" * 131_072 + b"\nc\n"
    came = run(program, "-m", "8M", text=long)
    expect("a long line", came == (0, long, ""), came)
    came = run(program, "-m", "8M", text=long.replace(b"x\n", b"xx\n"))
    told = r"far_uniq: standard input: line 3 has more than 131072 bytes, a 64th of -m; 2 lines were printed\n"
    expect("a longer line", came[:2] == (1, b"a\nb\n") and re.fullmatch(told, came[2]) is not None, came)
    with open("/dev/full", "wb") as full:
        came = run(program, text=TEXT, output=full)
    told = r"far_uniq: can't write at line \d+: No space left .*; what was written is how the right output begins\n"
    expect("an output that is full", came[0] == 1 and re.fullmatch(told, came[2]) is not None, came)
    text = b"".join(b"%06d %s\n" % (line, b"x" * 400) for line in range(20_000))
    came = run(program, "-m", "4M", text=text, limit=1 << 20)
    told = re.fullmatch(r"far_uniq: standard input: line (\d+): no room, as the far file takes nothing more: is its disk full\?; (\d+) lines were printed\n", came[2])
    expect("a far file that is full", came[0] == 1 and text.startswith(came[1]) and told is not None and int(told[2]) == came[1].count(b"\n"), came)
    text = text[: 4 << 20] + b"\n" + text[: 1 << 20]
    came = run(program, "-m", "4M", text=text, LD_PRELOAD=library, FAIL_CALL="1500")
    told = re.fullmatch(r"far_uniq: standard input: line \d+: .*; \d+ lines were printed\n", came[2])
    expect("a far file that fails once", firsts(text).startswith(came[1]) and (came == (0, firsts(text), "") or (came[0] == 1 and told is not None)), came)
    came = run(program, text=TEXT, LD_PRELOAD=library, FAIL_UNLINK="1")
    expect("a far file that can't lose its name", came == (1, b"", "far_uniq: no far file: Operation not permitted (os error 1); nothing was printed\n"), came)
    for name in [name for name in os.listdir(".") if name.startswith("far_uniq.")]:
        os.remove(name)
    came = run(program, "-m", "4M", text=text, LD_PRELOAD=library, FAIL_CUT="1")
    told = re.fullmatch(r"far_uniq: standard input: line \d+: the far file can't be read; \d+ lines were printed\n", came[2])
    expect("a far file that is cut", came[0] == 1 and firsts(text).startswith(came[1]) and told is not None, came)
    came = run(program, "-m", "4M", text=text, LD_PRELOAD=library, FAIL_FLIP="3")
    told = re.fullmatch(r"far_uniq: standard input: line \d+: the far file gave other bytes than were put there; \d+ lines were printed\n", came[2])
    expect("a far file that lies", came[0] == 1 and firsts(text).startswith(came[1]) and told is not None, came)


def counted_faults(program: str, library: str) -> None:
    """The same with -c: nothing is printed before the end of the input, and after that how the right output begins."""
    for words, told in (
        (["one", "none"], r"far_uniq: none: can't be read at line 4: No such file .*; 0 lines were printed\n"),
        (["folder"], r"far_uniq: folder: can't be read at line 1: Is a directory .*; 0 lines were printed\n"),
    ):
        came = run(program, "-c", *words, text=TEXT)
        expect(f"words -c {words}", came[:2] == (1, b"") and re.fullmatch(told, came[2]) is not None, came)
    came = run(program, "-c", "-m", "8M", text=b"a\nb\n" + b"x" * 131_073 + b"\nc\n")
    told = r"far_uniq: standard input: line 3 has more than 131072 bytes, a 64th of -m; 0 lines were printed\n"
    expect("a longer line, counted", came[:2] == (1, b"") and re.fullmatch(told, came[2]) is not None, came)
    with open("/dev/full", "wb") as full:
        came = run(program, "-c", text=TEXT, output=full)
    told = r"far_uniq: can't write at line \d+: No space left .*; what was written is how the right output begins\n"
    expect("an output of counts that is full", came[0] == 1 and re.fullmatch(told, came[2]) is not None, came)
    text = b"".join(b"%06d %s\n" % (line, b"x" * 400) for line in range(20_000))
    came = run(program, "-c", "-m", "4M", text=text, limit=1 << 20)
    told = r"far_uniq: standard input: line \d+: no room, as the far file takes nothing more: is its disk full\?; 0 lines were printed\n"
    expect("a far file of counts that is full", came[:2] == (1, b"") and re.fullmatch(told, came[2]) is not None, came)
    text = text[: 3 << 20] + b"\n"
    lost = re.compile(r"far_uniq: .*, after (\d+) lines were printed with their counts\n|far_uniq: standard input: line \d+: .*; 0 lines were printed\n")
    for variable, wanted in ((("FAIL_CALL", "1000"), None), (("FAIL_CALL", "1500"), None), (("FAIL_FLIP", "3"), "gave other bytes")):
        came = run(program, "-c", "-m", "4M", text=text, LD_PRELOAD=library, **{variable[0]: variable[1]})
        told = lost.fullmatch(came[2])
        right = counts(text).startswith(came[1]) and (came == (0, counts(text), "") or (came[0] == 1 and told is not None and int(told[1] or 0) == came[1].count(b"\n")))
        expect(f"a far file of counts with {variable}", right and (wanted is None or wanted in came[2]), came)


def names(program: str) -> None:
    """Two far files have names that nobody foretells, and nobody else may read them; TMPDIR without a name is the current folder."""
    seen = set()
    for variables in ({"TMPDIR": "."}, {"TMPDIR": ""}):
        ran = subprocess.Popen([program], stdin=subprocess.PIPE, stdout=subprocess.PIPE, env={**os.environ, **variables}, bufsize=0)
        ran.stdin.write(b"a\n")
        os.read(ran.stdout.fileno(), 2)
        for fd in os.scandir(f"/proc/{ran.pid}/fd"):
            if os.readlink(fd.path).startswith(f"{os.getcwd()}/far_uniq."):
                seen.add((os.readlink(fd.path), os.stat(fd.path).st_mode & 0o777))
        ran.stdin.close()
        ran.wait(LONGEST)
    if len(seen) != 2 or {mode for _, mode in seen} != {0o600}:
        wrong.append(f"fail_uniq: far files of two runs: {seen}")


def pipes(program: str) -> None:
    """A reader that is gone; lines that come alone; a run that is interrupted, and what it says each second."""
    ran = begun(program)
    ran.stdout.close()
    try:
        ran.stdin.write(TEXT)
        ran.stdin.close()
    except BrokenPipeError:
        pass
    said = ran.stderr.read()
    expect("a reader that is gone", ran.wait(LONGEST) == 1 and said == b"", (ran.returncode, b"", said.decode()))
    ran = begun(program, "-c")
    ran.stdout.close()
    ran.stdin.write(TEXT)
    ran.stdin.close()
    said = ran.stderr.read()
    expect("a reader of counts that is gone", ran.wait(LONGEST) == 1 and said == b"", (ran.returncode, b"", said.decode()))
    ran = begun(program, "-c")
    ran.stdin.write(b"one\ntwo\n")
    early, _, _ = select.select([ran.stdout], [], [], 1)
    ran.stdin.close()
    printed = ran.stdout.read()
    expect("counts before the end", not early and printed == b"      1 one\n      1 two\n" and ran.wait(LONGEST) == 0, (ran.returncode, printed, ""))
    ran = begun(program, "-s")
    for line in (b"one\n", b"two\n"):
        ran.stdin.write(line)
        ready, _, _ = select.select([ran.stdout], [], [], 5)
        came = os.read(ran.stdout.fileno(), 100) if ready else b""
        expect(f"a line that comes alone, {line!r}", came == line, (None, came, ""))
        time.sleep(1.1)
    expect("a file while it runs", not [name for name in os.listdir(".") if name.startswith("far_uniq.")], (None, b"", ""))
    ran.send_signal(signal.SIGINT)
    said = ran.stderr.read().decode()
    # (on a busy machine the first line may be told too)
    told = re.fullmatch(r"(far_uniq: \d+ s: 1 lines came, 0 were printed, 4 bytes\n)?far_uniq: \d+ s: 2 lines came, 1 were printed, 8 bytes\n", said)
    expect("a run that is interrupted", ran.wait(LONGEST) == -signal.SIGINT and told is not None, (ran.returncode, b"", said))
    ran = begun(program, "-s", "-z")
    ran.stdin.write(b"o\ne\0")
    os.read(ran.stdout.fileno(), 100)
    time.sleep(1.1)
    ran.stdin.write(b"o\ne\0two\0")
    ran.stdin.close()
    said = ran.stderr.read().decode()
    told = re.fullmatch(r"(far_uniq: \d+ s: 1 lines came, 0 were printed, 4 bytes\n)?far_uniq: \d+ s: 3 lines came, 1 were printed, 12 bytes\nfar_uniq: 3 lines came, 2 were new\nfar_uniq: far side: .*\n", said)
    expect("lines that end in NUL are told", ran.wait(LONGEST) == 0 and told is not None, (ran.returncode, b"", said))


def asked_for(program: str, library: str, lines: int, *words: str) -> int:
    """How often a run asks for memory that has so many different lines."""
    text = b"".join(b"%d\n" % line for line in range(lines))
    run(program, *words, "-m", "4M", text=text, LD_PRELOAD=library, COUNT_ALLOC="count")
    with open("count", encoding="ascii") as file:
        return int(file.read())


def growths(program: str, library: str) -> None:
    """All memory is asked for before the first line. Each growth refused in turn: the run is whole, or says that there was no memory."""
    for words in ((), ("-c",)):
        few, many = asked_for(program, library, 9, *words), asked_for(program, library, 16_000, *words)
        if few != many:
            wrong.append(f"fail_uniq: growths of few lines and of many {words}: {few}, {many}")
    for nth in range(1, 20):
        came = run(program, "-m", "4M", text=TEXT, LD_PRELOAD=library, FAIL_ALLOC=str(nth), TMPDIR="none")
        expect(f"a growth where TMPDIR isn't there, {nth}", came[:2] == (1, b"") and REFUSED.fullmatch(came[2]) is not None, came)
    text = b"".join(b"%d\n" % (line % 70) for line in range(200)) + b"last"
    for words, right in (((), firsts(text)), (("-c",), counts(text))):
        asked = asked_for(program, library, 70, *words)
        endings = set()
        for nth in range(1, asked + 1):
            came = run(program, *words, "-m", "4M", text=text, LD_PRELOAD=library, FAIL_ALLOC=str(nth))
            whole = came == (0, right, "")
            refused = came[0] == 1 and right.startswith(came[1]) and REFUSED.fullmatch(came[2]) is not None
            expect(f"growth {nth} of {asked} {words}", whole or refused, came)
            endings.add(whole)
        if not {False} <= endings:
            wrong.append(f"fail_uniq: of {asked} growths none was refused {words}")


def main() -> int:
    if len(sys.argv) != 2 or sys.argv[1] == "--help":
        print(__doc__.strip(), file=sys.stderr)
        return 2
    program = os.path.abspath(sys.argv[1])
    with tempfile.TemporaryDirectory() as folder:
        os.chdir(folder)
        libraries = {}
        for name in ("fail_file", "fail_malloc"):
            libraries[name] = os.path.join(folder, f"{name}.so")
            subprocess.run(["cc", "-O2", "-shared", "-fPIC", "-o", libraries[name], f"{HERE}/{name}.c", "-ldl"], check=True)
        options(program)
        memory(program)
        counted_memory(program)
        most_lines(program)
        faults(program, libraries["fail_file"])
        counted_faults(program, libraries["fail_file"])
        pipes(program)
        names(program)
        growths(program, libraries["fail_malloc"])
        left = [name for name in os.listdir(".") if name.startswith("far_uniq.")]
        if left:
            wrong.append(f"fail_uniq: left {left}")
        os.chdir("/")
    for line in wrong:
        print(line, file=sys.stderr)
    return 1 if wrong else 0


if __name__ == "__main__":
    sys.exit(main())
