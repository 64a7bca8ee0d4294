#!/usr/bin/env python3
"""What far_uniq costs beside what one would take in its place, in runs in turn.

usage: uniq.py [-c] FAR_UNIQ FOLDER INPUT MEBIBYTES RUNS     FOLDER: for the rivals, which are built there, and for all files
       -c: lines are counted, and printed at the end

Of each: seconds of a processor, and by the wall, in all and to far_uniq's; resident MiB at most; MiB written to files. A rival that can't be built is left
out. All are given as much memory as far_uniq where they can be given any.
"""
import os
import pathlib
import subprocess
import sys
import time

HERE = pathlib.Path(__file__).resolve().parent
BUILT = {
    "uniq_hash": ["rustc", "-O", "uniq_hash.rs", "-o"],
    "uniq_sqlite": ["cc", "-O2", "uniq_sqlite.c", "-lsqlite3", "-o"],
    "uniq_lmdb": ["cc", "-O2", "uniq_lmdb.c", "-llmdb", "-o"],
}
COUNTING = "!n[$0]++ { l[++k] = $0 } END { for (i = 1; i <= k; i++) printf \"%7d %s\\n\", n[l[i]], l[i] }"


def built(folder: pathlib.Path) -> set:
    """The rivals that could be built there."""
    made = set()
    for name, words in BUILT.items():
        try:
            ran = subprocess.run([*words, str(folder / name)], cwd=HERE, stderr=subprocess.DEVNULL)
        except FileNotFoundError:
            continue
        if ran.returncode == 0:
            made.add(name)
    return made


def programs(far: str, folder: pathlib.Path, source: str, memory: str, counts: bool) -> dict:
    """The words of each program."""
    own = [far, "-m", f"{memory}M", "-d", str(folder)]
    if counts:
        return {
            "far_uniq -c": [*own, "-c"],
            "mawk": ["mawk", COUNTING],
            "sort | uniq -c": ["bash", "-c", f"sort -S {memory}M -T {folder} | uniq -c"],
        }
    found = {"far_uniq": own, "mawk": ["mawk", "!seen[$0]++"], "sort -u": ["sort", "-u", "-S", f"{memory}M", "-T", str(folder)]}
    there, kib = built(folder), str(int(memory) * 1024)
    rivals = {
        "HashSet": ("uniq_hash", []),
        "SQLite": ("uniq_sqlite", [str(folder / "sqlite"), kib]),
        "LMDB": ("uniq_lmdb", [str(folder / "lmdb"), str(2 * os.path.getsize(source) // 1_048_576 + 64)]),
    }
    return found | {name: [str(folder / file), *words] for name, (file, words) in rivals.items() if file in there}


def run(words: list, source: str) -> tuple:
    """Seconds of a processor and by the wall, resident KiB at most, blocks of 512 bytes written."""
    begun = time.monotonic()
    with open(source, "rb") as text:
        process = subprocess.Popen(words, stdin=text, stdout=subprocess.DEVNULL, env={**os.environ, "LC_ALL": "C"})
        _, status, use = os.wait4(process.pid, 0)
    if status:
        sys.exit(f"uniq.py: {words[0]} ended with {status}")
    return use.ru_utime + use.ru_stime, time.monotonic() - begun, use.ru_maxrss, use.ru_oublock


def main() -> int:
    words = [word for word in sys.argv[1:] if word != "-c"]
    if len(words) != 5:
        print(__doc__.strip(), file=sys.stderr)
        return 2
    far, folder, source, memory, runs = words
    all_of = programs(far, pathlib.Path(folder), source, memory, "-c" in sys.argv[1:])
    rows = {name: [] for name in all_of}
    for _ in range(int(runs)):
        for name, call in all_of.items():
            rows[name].append(run(call, source))
    processor, wall = (sum(row[at] for row in next(iter(rows.values()))) for at in (0, 1))
    print(f"{'':14} processor     wall        resident   written")
    for name, had in rows.items():
        took, passed = sum(row[0] for row in had), sum(row[1] for row in had)
        most, written = max(row[2] for row in had) / 1024, max(row[3] for row in had) / 2048
        print(f"{name:14} {took:6.2f} {took / processor:5.2f} {passed:6.2f} {passed / wall:5.2f} {most:7.1f} MiB {written:7.1f} MiB")
    return 0


if __name__ == "__main__":
    sys.exit(main())
