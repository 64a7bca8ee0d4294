#!/usr/bin/env python3
"""Runs soak_far_heap over a file that fails: one that may grow to so many bytes only, one of which one read or write fails, or does half, or each write from one
on, one whose calls are interrupted, one that gives other bytes, and one that can't be made, or keeps its name; where standard streams are closed; where threads can't
be made; and with words that it must refuse. Then tells_file, which says by name what each of three devices over one such file met.

usage: fail_file.py SOAK TELLS     a built soak_far_heap and tells_file
A read or a write that does half of what was asked is gone on with. What fails is told, and so are other bytes, whichever byte of an object it is: the soak counts
a wrong answer, as of any device that isn't to fail, and ends with status 1; no read that the heap grants gives a wrong byte. The file of a run that is killed is
gone; it stands for none of the standard streams, and nobody but its owner may read it. Prints only what is wrong.
"""
import errno
import os
import re
import resource
import signal
import subprocess
import sys
import tempfile
import time

HERE = os.path.dirname(os.path.abspath(__file__))
# Slots begin at 16,384: the file ends before the first, within it, or some behind it. From then on each round fails, so these runs are short.
LIMITS = (0, 16_384, 16_400, 20_123)
# A full disk, a quota, a medium that fails, a server whose file is gone.
ERRORS = (errno.ENOSPC, errno.EDQUOT, errno.EIO, errno.ESTALE)
# A place that can't be written, a folder without the right to, a system without descriptors.
UNMADE = (errno.EROFS, errno.EACCES, errno.EMFILE)
CALLS = (1, 2, 3, 9, 40, 200)
# The first byte of an object, the last of the shortest, and some behind it.
FLIPPED = (1, 2, 9, 64)
ASKED = ("600", "1", "tell", "2", "4", "0", "file")
FEW = ("150", *ASKED[1:])
# More turns than can be waited for.
ENDLESS = (str(2**64 - 1), *ASKED[1:])
WORDS = ("60", "1", "tell", "2", "8", "2", "memory")
FILE = "soak_far_heap.far"
USAGE = "usage: soak_far_heap TURNS SEED [tell [MUTATORS [LOGS [COPIERS [DEVICE]]]]]\n"
KEEPS = f"soak_far_heap: {FILE} keeps its name: Operation not permitted (os error 1)\n"
THERE = f"soak_far_heap: {FILE}: File exists (os error 17)\n"
# The file's descriptor and its mode, once it has lost its name.
OWN = r"([3-9]|[1-9]\d+) 600"
LONGEST = 300
# What the devices of tells_file met: each writes eight objects, and reads all that it has after each.
FINE = (0, 0, "no fault")
ROOM = "the storage failed: there was no room for the bytes"
MEDIUM = "the storage failed: the medium failed, or the server that has it"
FAILED = "the storage failed: the system failed"
SHORT = "the storage failed: there were fewer bytes than were asked for"
AGAIN = "the storage failed: calls of the system were interrupted again and again"
OTHER = "other bytes came back than were written"
NAMES = {errno.ENOSPC: ROOM, errno.EDQUOT: ROOM, errno.EFBIG: ROOM, errno.EIO: MEDIUM, errno.ESTALE: FAILED, errno.EBADF: FAILED}
NO_FILE = {os.mkfifo: "what has the name is no file of bytes at positions", os.mkdir: "Is a directory (os error 21)"}
wrong = []


def begins(limit: int, dies: bool, closed: tuple):
    """What a run begins with: passing so many bytes kills it, or not; streams are closed; all may be read by others."""

    def begun() -> None:
        signal.signal(signal.SIGXFSZ, signal.SIG_DFL if dies else signal.SIG_IGN)
        resource.setrlimit(resource.RLIMIT_FSIZE, (limit, limit))
        resource.setrlimit(resource.RLIMIT_CORE, (0, 0))
        os.umask(0)
        for stream in closed:
            os.close(stream)

    return begun


def run(program: str, *words: str, limit: int = resource.RLIM_INFINITY, dies: bool = False, **fails: str) -> tuple:
    """Status, output and errors of a run."""
    env = {**os.environ, **fails}
    try:
        ran = subprocess.run([program, *words], capture_output=True, text=True, timeout=LONGEST, check=False, env=env, preexec_fn=begins(limit, dies, ()))
    except subprocess.TimeoutExpired as why:
        return f"none, ended by this script: {why}", "", ""
    return ran.returncode, ran.stdout, ran.stderr


def expect(what: str, holds: bool, came: tuple) -> None:
    if not holds:
        wrong.append(f"fail_file: {what}: status {came[0]}, stdout '{came[1][:200]}', stderr '{came[2][:200]}'")


def is_whole(came: tuple) -> bool:
    return came[0] == 0 and came[1].startswith("wrong 0\n") and came[2] == ""


def is_told(came: tuple) -> bool:
    """Whether something was refused, and all bytes that were read are right."""
    told = re.fullmatch(r"wrong [1-9]\d*\n.* wrong_reads: 0, .* wrong_answers: [1-9]\d*, .* wrong_audits: 0, .*\n", came[1])
    return came[0] == 1 and told is not None and came[2] == ""


def run_each(what: str, runs: dict) -> None:
    """Runs of which each tells a fault, or is whole since none came: that depends on the order of the threads' steps. Some must tell one."""
    for name, came in runs.items():
        expect(f"{what} {name}", is_told(came) or is_whole(came), came)
    if all(is_whole(came) for came in runs.values()):
        wrong.append(f"fail_file: {what}: none was told")


def fails(program: str, library: str) -> None:
    """Calls that fail, do half, give other bytes, or for which there is no room."""
    run_each("at most so many bytes:", {limit: run(program, *FEW, limit=limit) for limit in LIMITS})
    run_each("call", {nth: run(program, *ASKED, LD_PRELOAD=library, FAIL_CALL=str(nth)) for nth in CALLS})
    run_each("another byte", {byte: run(program, *ASKED, LD_PRELOAD=library, FAIL_FLIP=str(byte)) for byte in FLIPPED})
    for why in ERRORS:
        full = {nth: run(program, *FEW, LD_PRELOAD=library, FAIL_FULL=str(nth), FAIL_WITH=str(why)) for nth in (1, 9)}
        run_each(f"error {why} of each write from", full)
    came = run(program, *ASKED, LD_PRELOAD=library, FAIL_INTERRUPT="99")
    expect("calls that are interrupted 99 times", is_whole(came), came)
    # Twice as often as one is tried again.
    came = run(program, *ASKED, LD_PRELOAD=library, FAIL_INTERRUPT="20000")
    expect("calls that are interrupted too often", is_told(came), came)
    for nth in CALLS:
        came = run(program, *ASKED, LD_PRELOAD=library, FAIL_CALL=str(nth), FAIL_SHORT="1")
        expect(f"call {nth} does half", is_whole(came), came)


def far_of(pid: int) -> str:
    """The descriptor and mode of a run's file; nothing if it isn't open yet."""
    for number in os.listdir(f"/proc/{pid}/fd"):
        file = f"/proc/{pid}/fd/{number}"
        if os.readlink(file).endswith(f"/{FILE} (deleted)"):
            return f"{number} {os.stat(file).st_mode & 0o777:o}"
    return ""


def found(program: str, closed: tuple) -> str:
    """The same of an endless run where these streams are closed."""
    with subprocess.Popen([program, *ENDLESS], stdout=subprocess.DEVNULL, stderr=subprocess.DEVNULL, preexec_fn=begins(resource.RLIM_INFINITY, False, closed)) as ran:
        far = ""
        for _ in range(200):
            try:
                far = far_of(ran.pid)
            except OSError:  # it has just closed one, or has ended
                pass
            if far:
                break
            time.sleep(0.05)
        ran.kill()
    return far


def opens(program: str, library: str) -> None:
    """Files that lose their name, that keep it, and that can't be made."""
    for closed in ((0,), (1,), (2,), (0, 1, 2)):
        far = found(program, closed)
        expect(f"streams {closed} closed", re.fullmatch(OWN, far) is not None, ("of the file", far, ""))
    came = run(program, *ASKED, limit=1, dies=True)
    expect("a run that is killed", came[0] == -signal.SIGXFSZ and not os.path.exists(FILE), came)
    came = run(program, *ASKED, LD_PRELOAD=library, FAIL_UNLINK="1")
    expect("a file that keeps its name", came == (2, "", KEEPS) and os.path.getsize(FILE) == 0, came)
    came = run(program, *ASKED)
    expect("a file that is there", came == (2, "", THERE), came)
    os.remove(FILE)
    for what, makes in (("a directory", os.mkdir), ("a pipe", os.mkfifo)):
        makes(FILE)
        came = run(program, *ASKED)
        expect(f"{what} that is there", came == (2, "", THERE), came)
        (os.rmdir if what == "a directory" else os.remove)(FILE)
    for why in UNMADE:
        came = run(program, *ASKED, LD_PRELOAD=library, FAIL_OPEN=str(why))
        expect(f"a file that can't be made for {why}", came == (2, "", f"soak_far_heap: {FILE}: {os.strerror(why)} (os error {why})\n"), came)


def refuses(program: str, library: str) -> None:
    """A soak without threads, and words that it must refuse."""
    came = run(program, *WORDS, LD_PRELOAD=library, FAIL_THREAD="1")
    expect("a soak without threads", is_whole(came), came)
    for at in range(len(WORDS)):
        came = run(program, *WORDS[:at], "x", *WORDS[at + 1 :])
        expect(f"a soak whose word {at + 1} is 'x'", came == (2, "", USAGE), came)


def met(*devices: tuple) -> str:
    """What tells_file prints of devices of which each has writes that were refused, reads that failed, and the last fault."""
    return "".join(f"device {it}: {refused} writes refused, {failed} reads failed, 0 wrong, {why}\n" for it, (refused, failed, why) in enumerate(devices))


def calls() -> list:
    """Of each call of the system that tells_file makes over a file, in order: which device makes it, and what it has met if that alone fails."""
    made = []
    for turn in range(8):
        made += [(device, (1, 0, MEDIUM)) for device in range(3)]
        made += [(device, (0, 1, MEDIUM)) for device in range(3) for _ in range(turn + 1)]
    return made


def tells(program: str, library: str) -> None:
    """What goes wrong with three devices of one file, by name."""

    def row(what: str, wanted: str, limit: int = resource.RLIM_INFINITY, **variables: str) -> None:
        came = run(program, limit=limit, LD_PRELOAD=library, **variables)
        expect(what, came == (0, wanted, ""), came)

    row("all is well", met(FINE, FINE, FINE))
    for why, name in NAMES.items():
        row(f"error {why} of each write", met(*[(8, 0, name)] * 3), FAIL_FULL="1", FAIL_WITH=str(why))
        # Each device has three objects then, and one has four.
        row(f"error {why} of each write from 11", met((4, 0, name), (5, 0, name), (5, 0, name)), FAIL_FULL="11", FAIL_WITH=str(why))
        row(f"error {why} of a write", met(FINE, (1, 0, name), FINE), FAIL_CALL="2", FAIL_WITH=str(why))
        row(f"error {why} of a read", met((0, 1, name), FINE, FINE), FAIL_CALL="4", FAIL_WITH=str(why))
    for nth, (device, met_there) in enumerate(calls(), 1):
        row(f"call {nth} fails", met(*[met_there if it == device else FINE for it in range(3)]), FAIL_CALL=str(nth))
    # The first extent lies below the limit: the two objects of one device that have slots of 64 bytes.
    row("a file of 32 KiB at most", met((6, 0, ROOM), (8, 0, ROOM), (8, 0, ROOM)), limit=32_768)
    row("calls that are interrupted 99 times", met(FINE, FINE, FINE), FAIL_INTERRUPT="99")
    row("calls that are interrupted without end", met(*[(8, 0, AGAIN)] * 3), FAIL_INTERRUPT="1000000")
    # Before the reads after the last turn.
    row("a file that is cut", met(*[(0, 8, SHORT)] * 3), FAIL_CUT="85")
    row("a write that is torn", met((0, 8, OTHER), FINE, FINE), FAIL_TORN="1")
    for makes, why in NO_FILE.items():
        makes("there")
        came = run(program, "there", "replacing")
        expect(f"no file, by {makes.__name__}", came == (3, "", f"tells_file: there: {why}\n"), came)
        if os.path.exists("there"):  # else it was taken for a file
            (os.rmdir if makes is os.mkdir else os.remove)("there")


def main() -> int:
    if len(sys.argv) != 3:
        print(__doc__.strip(), file=sys.stderr)
        return 2
    program, teller = map(os.path.abspath, sys.argv[1:])
    with tempfile.TemporaryDirectory() as folder:
        os.chdir(folder)
        library = os.path.join(folder, "fail_file.so")
        subprocess.run(["cc", "-O2", "-shared", "-fPIC", "-o", library, f"{HERE}/fail_file.c", "-ldl"], check=True)
        for rows in (fails, opens, refuses):
            rows(program, library)
        tells(teller, library)
        os.chdir("/")
    for line in wrong:
        print(line, file=sys.stderr)
    return 1 if wrong else 0


if __name__ == "__main__":
    sys.exit(main())
