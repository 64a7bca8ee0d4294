"""A worker's and a FarDict's calls at random beside dicts of bytes.

    beside_dict.py [CALLS]"""
import ctypes
import errno
import os
import pathlib
import random
import re
import subprocess
import sys
import tempfile

import foxglovepeg as far


def refused(kind, call, *words) -> None:
    try:
        call(*words)
    except kind:
        return
    raise AssertionError(f"{call.__name__}{words} was not refused {kind.__name__}")


def camel(name: str) -> str:
    return "".join(word.capitalize() for word in name.split("_"))


def same_as_header() -> None:
    """Statuses and structs of Python and of Rust are those of the header."""
    home = pathlib.Path(__file__).resolve().parent.parent
    header, rust = (home / "include/foxglovepeg.h").read_text(), (home / "rust/foxglovepeg.rs").read_text()
    statuses = {int(number): camel(name) for name, number in re.findall(r"^    FAR_(\w+) = (\d+)[, ]", header, re.M)}
    statuses.pop(0)
    names = {number: name.replace("OutOfMemory", "Memory") for number, (name, _) in far.STATUSES.items()}
    assert names == statuses and all(getattr(far, name).status == number for number, (name, _) in far.STATUSES.items())
    theirs = {int(number): name for name, number in re.findall(r"^    (\w+) = (\d+), \"", rust, re.M)}
    theirs |= {int(number): camel(name) for name, number in re.findall(r"^const (\w+): i32 = (\d+);", rust, re.M)}
    assert theirs == statuses
    for name, fields, of_rust in (("far_statistics", far.Statistics._fields_, "Statistics"), ("far_map_plan", far._MapPlan._fields_, "Plan")):
        body = re.search(rf"^struct {name} {{(.*?)^}};", header, re.M | re.S)[1]
        mine = re.findall(r"^    uint(\d+)_t (\w+);", body, re.M)
        assert [(field, ctypes.sizeof(kind) * 8) for field, kind in fields] == [(field, int(bits)) for bits, field in mine]
        body = re.search(rf"^ *pub struct {of_rust} {{(.*?)^ *}}", rust, re.M | re.S)[1]
        body = body.replace("pub seed: [u64; 2]", "pub seed: u64,\npub more_seed: u64")
        assert re.findall(r"pub (\w+): u(\d+)", body) == [(field, bits) for bits, field in mine]


def play(calls: int, **place) -> None:
    chance = random.Random(5)
    with far.Worker(1 << 18, 3000, 64, **place) as worker:
        kept, stale = {}, []
        for _ in range(calls):
            what = chance.random()
            if what < 0.3 and len(kept) < 2500 or not kept:
                data = chance.randbytes(chance.randint(1, 300))
                kept[worker.alloc(data)] = data
                continue
            handle = chance.choice(list(kept)) if what < 0.31 else next(iter(kept))
            data = kept.pop(handle)
            assert worker.read(handle) == data and handle in worker and worker.length(handle) == len(data)
            if what < 0.5:
                worker.drop(handle)
                stale.append(handle)
                refused(far.NotHeld, worker.read, handle, 0, 1)
                continue
            at = chance.randrange(len(data))
            assert worker.read(handle, at) == data[at:] and worker.read(handle, at, 1) == data[at : at + 1]
            part = chance.randbytes(len(data) - at)
            if what < 0.75:
                worker.write(handle, at, part)
            else:
                assert worker.exchange(handle, at, part) == data[at:]
                worker.trim()
            kept[handle] = data[:at] + part
            refused(far.Range, worker.write, handle, at + 1, part)
        assert not any(handle in worker for handle in stale if handle not in kept)
        told = worker.statistics()
        assert told.near_objects + told.far_objects == len(kept) and told.device_faults == 0
        assert told.accesses > calls // 2 and told.heaps == 2
        refused(far.Length, worker.alloc, b"")
        for _ in range(4096 - len(kept)):
            worker.alloc(b"x")
        refused(far.NoPointer, worker.alloc, b"x")
        worker.add_heap()
        worker.alloc(b"x")
    refused(far.Closed, worker.alloc, b"x")
    refused(far.Closed, worker.__contains__, 0)
    refused(far.Closed, worker.close)


def play_dict(calls: int, **place) -> None:
    chance = random.Random(7)
    with far.FarDict(1 << 18, 3000, 64, long_parts=1000, **place) as told:
        kept = {}
        for _ in range(calls):
            key, what = b"%d" % chance.randrange(2500), chance.random()
            if what < 0.35:
                told[key] = kept[key] = chance.randbytes(chance.choice((0, 20, 300, 300, 9000 if what < 0.01 else 40)))
            elif what < 0.8:
                assert told.get(key) == kept.get(key) and (key in told) == (key in kept)
            elif key in kept:
                assert told[key] == kept.pop(key)
                del told[key]
            else:
                refused(KeyError, told.__delitem__, key)
                refused(KeyError, told.__getitem__, key)
        assert len(told) == len(kept) and all(told[key] == value for key, value in kept.items())
        assert sorted(told.items()) == sorted(kept.items()) and sorted(told) == sorted(kept)
        assert dict(told) == kept and sorted(told.keys()) == sorted(kept) and sorted(told.values()) == sorted(kept.values())
        assert all(told[key] == kept[key] and key in told and len(told) == len(kept) for key in told)
        for change in (lambda: told.__setitem__(b"one more", b""), lambda: told.__delitem__(b"one more"), lambda: next(told.items()), told.clear):
            walk = told.items()
            next(walk)
            change()
            refused(RuntimeError, walk.__next__)
        assert told.get(b"none") is None and told.get(b"none", b"default") == b"default" and told.get(b"none", 7) == 7
        refused(far.Length, told.__setitem__, bytes(4087), b"")
        told.clear()
        assert len(told) == 0 and told.statistics()[0].near_objects == 0
    refused(far.Closed, told.get, b"x")


def drawn() -> None:
    """The hash of keys is seeded by the system's random bytes."""
    plans, real = [], far._lib.far_map_open_memory
    far._lib.far_map_open_memory = lambda held, plan: plans.append((plan._obj.seed, plan._obj.more_seed)) or real(held, plan)
    random_bytes, os.urandom = os.urandom, lambda size: bytes(range(size))
    far.FarDict(1 << 18, 100, 64)
    os.urandom = random_bytes
    for _ in range(2):
        far.FarDict(1 << 18, 100, 64)
    far._lib.far_map_open_memory = real
    assert plans[0] == (0x0706050403020100, 0x0F0E0D0C0B0A0908) and len({word for plan in plans for word in plan}) == 6


def mapped() -> int:
    return pathlib.Path("/proc/self/maps").read_text().count(" rw-s ")


def goes() -> None:
    """What nobody holds is closed, and what memory has of a file is given back."""
    folder = tempfile.gettempdir()
    before = mapped()
    worker = far.Worker(1 << 17, 2048, 64, folder, 1 << 22)
    words = far.FarDict(1 << 17, 2048, 64, folder=folder, far=1 << 22, long_far=1 << 20)
    assert mapped() == before + 2
    for number in range(2048):
        worker.alloc(bytes(1000))
        words[b"%d" % number] = bytes(1000)
    for held in worker, words:
        most = resident()
        held.trim()
        assert most - resident() > 1 << 20
    del held, worker, words
    assert mapped() == before
    try:
        far.Worker(1 << 18, 3000, 64, "/no/such/folder", 1 << 26)
    except far.File as why:
        assert os.strerror(errno.ENOENT) in str(why)
    assert isinstance(far._lib, ctypes.PyDLL)
    other = {**os.environ, "FOXGLOVEPEG": "/no/such/library.so"}
    assert other["FOXGLOVEPEG"] in subprocess.run([sys.executable, "-c", "import foxglovepeg"], env=other, stderr=subprocess.PIPE, text=True, check=False).stderr


def cut() -> None:
    """A number that C has no room for is refused, where ctypes would cut it to one that is right, and a folder that C would cut."""
    size, all_ = 1 << 18, 1 << 64
    with far.Worker(size, 3000, 64) as worker:
        handle = worker.alloc(b"hello", 255)
        for number in handle + all_, handle - all_, -1:
            calls = (worker.read,), (worker.read, 0, 1), (worker.write, 0, b"J"), (worker.exchange, 0, b"J"), (worker.drop,), (worker.length,)
            for call, *words in calls:
                refused(OverflowError, call, number, *words)
            assert number not in worker
        for start in all_, all_ + 1, 1 - all_, -1:
            for call, word in (worker.read, 1), (worker.write, b"J"), (worker.exchange, b"J"):
                refused(OverflowError, call, handle, start, word)
        for structure in -1, 256:
            refused(OverflowError, worker.alloc, b"x", structure)
        refused(far.Range, worker.read, handle, all_ - 1, 1)
        refused(far.NotHeld, worker.length, all_ - 1)
        assert worker.read(handle) == b"hello" and worker.statistics().near_objects == 1
    for words in (size + all_, 3000, 64), (size, 3000 - all_, 64), (size, 3000, 64 + (1 << 16)), (size, 3000, 64, tempfile.gettempdir(), all_ + (1 << 26)):
        refused(OverflowError, far.Worker, *words)
    for words in (all_ + 3000, 64), (3000, 64 - (1 << 16)):
        refused(OverflowError, far.least_near, *words)
    place = {"folder": tempfile.gettempdir(), "far": 1 << 26}
    for word, number in ("near", size), ("entries", 3000), ("long_parts", 1000), ("long_near", size), ("far", 1 << 26), ("long_far", 1 << 24):
        words = {"near": size, "entries": 3000, "typical": 64} | place | {word: number + all_}
        refused(OverflowError, lambda: far.FarDict(**words))
    refused(OverflowError, far.FarDict, size, 3000, 64 + (1 << 16))
    place["folder"] += "\0"
    for kind in far.Worker, far.FarDict:
        refused(ValueError, lambda: kind(size, 3000, 64, **place))


def resident() -> int:
    """Bytes of files that are in memory, and mapped to be written."""
    blocks = re.findall(r"^[0-9a-f]+-[0-9a-f]+ rw-s .*?^Rss: +(\d+) kB", pathlib.Path("/proc/self/smaps").read_text(), re.M | re.S)
    return sum(map(int, blocks)) * 1024


def main() -> None:
    same_as_header()
    drawn()
    goes()
    cut()
    calls = int(sys.argv[1]) if len(sys.argv) > 1 else 100_000
    refused(far.Near, far.Worker, far.least_near(3000, 64) - 1, 3000, 64)
    refused(far.File, far.Worker, 1 << 18, 3000, 64, "/no/such/folder", 1 << 26)
    refused(far.Far, far.Worker, 1 << 18, 3000, 64, tempfile.gettempdir(), 1)
    for place in {}, {"folder": tempfile.gettempdir(), "far": 1 << 26}:
        play(calls, **place)
        play_dict(calls, **place)


main()
