"""Foxglovepeg for Python: objects of 1 to 4,088 bytes behind handles that no stale copy can misuse, and dicts of bytes, some near, the others packed in memory, or in a file.

    with Worker(near=1 << 26, objects=1_000_000, typical=64) as worker:
        handle = worker.alloc(b"hello")
        worker.write(handle, 0, b"J")
        assert worker.read(handle) == b"Jello"
        worker.drop(handle)

    with FarDict(near=1 << 26, entries=1_000_000, typical=64) as words:
        words[b"fig"] = b"a fruit"
        assert b"fig" in words and len(words) == 1
        del words[b"fig"]

With folder="/var/tmp", far=1 << 30 the others lie in a file there, of so many bytes, which has no name; foxglovepeg.h tells how many it takes, and what then holds.

A worker or a dict is one thread's. libfoxglovepeg.so lies beside this file, or where FOXGLOVEPEG says. PyDLL, not CDLL: no other thread runs during a call.
"""
import ctypes as c
import os
import pathlib
import typing


class Refused(Exception):
    """A call was refused, and changed nothing. Each status has a class of its own; `status` is its number. A number that C has no room for is refused OverflowError."""

    status = 0


STATUSES = {
    1: ("OutOfMemory", "out of memory"),
    2: ("NoRoom", "nothing near can leave: memory is refused, or the far side is full"),
    3: ("NoPointer", "each heap has its 2,048 objects"),
    4: ("Length", "an object has 1 to 4,088 bytes; a key at most 4,086"),
    7: ("NotHeld", "there is no such object"),
    8: ("Range", "no byte was asked for, or they pass the object's end"),
    10: ("Device", "a far object is lost"),
    11: ("Damaged", "a far object has another length"),
    13: ("EpochsSpent", "2^62 rounds were made"),
    20: ("Closed", "it is not open"),
    21: ("Open", "it is open already"),
    22: ("Objects", "a worker has at most 2^32 objects"),
    23: ("Near", "too few bytes near for so many objects"),
    24: ("NoKey", "there is no such key"),
    25: ("Short", "a buffer has too little room"),
    26: ("End", "no entry is left to be told"),
    27: ("File", "the system refused the file"),
    28: ("Far", "too few bytes far for so many heaps"),
}
BY_STATUS = {status: type(name, (Refused,), {"status": status, "__doc__": words}) for status, (name, words) in STATUSES.items()}
globals().update({kind.__name__: kind for kind in BY_STATUS.values()})


class _Worker(c.Structure):
    _fields_ = [("live", c.c_bool), ("at", c.c_void_p)]


class _Map(c.Structure):
    _fields_ = [("live", c.c_bool), ("at", c.c_void_p)]


class _MapPlan(c.Structure):
    WORDS = "near_bytes entries long_near_bytes long_parts seed more_seed".split()
    _fields_ = [(word, c.c_uint64) for word in WORDS] + [("typical", c.c_uint16)]


class Statistics(c.Structure):
    """What a worker has, and what it has done since it was opened."""

    WORDS = "near_objects far_objects live dead unused far_bytes accesses fetches looks evictions writes_spared moves rounds device_faults".split()
    _fields_ = [(word, c.c_uint64) for word in WORDS] + [("heaps", c.c_uint32)]

    def __repr__(self) -> str:
        return "Statistics(" + ", ".join(f"{word}={getattr(self, word)}" for word, _ in self._fields_) + ")"


_lib = c.PyDLL(os.environ.get("FOXGLOVEPEG") or str(pathlib.Path(__file__).resolve().parent / "libfoxglovepeg.so"), use_errno=True)
_WORKER, _MAP, _U64, _SIZE = c.POINTER(_Worker), c.POINTER(_Map), c.POINTER(c.c_uint64), c.POINTER(c.c_size_t)
_ARGUMENTS = {
    "far_open_memory": [_WORKER, c.c_uint64, c.c_uint64, c.c_uint16],
    "far_open_folder": [_WORKER, c.c_uint64, c.c_uint64, c.c_uint16, c.c_char_p, c.c_uint64],
    "far_trim": [_WORKER],
    "far_close": [_WORKER],
    "far_least_near": [c.c_uint64, c.c_uint16, _U64],
    "far_alloc": [_WORKER, c.c_char_p, c.c_size_t, c.c_uint8, _U64],
    "far_read": [_WORKER, c.c_uint64, c.c_size_t, c.c_char_p, c.c_size_t],
    "far_write": [_WORKER, c.c_uint64, c.c_size_t, c.c_char_p, c.c_size_t],
    "far_exchange": [_WORKER, c.c_uint64, c.c_size_t, c.c_char_p, c.c_size_t],
    "far_drop": [_WORKER, c.c_uint64],
    "far_length": [_WORKER, c.c_uint64, c.POINTER(c.c_uint16)],
    "far_holds": [_WORKER, c.c_uint64],
    "far_add_heap": [_WORKER],
    "far_statistics": [_WORKER, c.POINTER(Statistics)],
    "far_map_open_memory": [_MAP, c.POINTER(_MapPlan)],
    "far_map_open_folder": [_MAP, c.POINTER(_MapPlan), c.c_char_p, c.c_uint64, c.c_uint64],
    "far_map_trim": [_MAP],
    "far_map_close": [_MAP],
    "far_map_put": [_MAP, c.c_char_p, c.c_size_t, c.c_char_p, c.c_size_t],
    "far_map_get": [_MAP, c.c_char_p, c.c_size_t, c.c_char_p, c.c_size_t, _SIZE],
    "far_map_remove": [_MAP, c.c_char_p, c.c_size_t],
    "far_map_holds": [_MAP, c.c_char_p, c.c_size_t],
    "far_map_length": [_MAP, _SIZE],
    "far_map_clear": [_MAP],
    "far_map_begin": [_MAP],
    "far_map_next": [_MAP, c.c_char_p, c.c_size_t, _SIZE, c.c_char_p, c.c_size_t, _SIZE],
    "far_map_statistics": [_MAP, c.POINTER(Statistics), c.POINTER(Statistics)],
}
for _name, _arguments in _ARGUMENTS.items():
    getattr(_lib, _name).argtypes = _arguments
    getattr(_lib, _name).restype = c.c_int32
_lib.far_worker_size.restype = _lib.far_map_size.restype = c.c_size_t
if _lib.far_worker_size() != c.sizeof(_Worker) or _lib.far_map_size() != c.sizeof(_Map):
    raise ImportError("libfoxglovepeg.so has other structs")

_alloc, _read, _write, _drop, _length = _lib.far_alloc, _lib.far_read, _lib.far_write, _lib.far_drop, _lib.far_length
_put, _get, _remove, _next = _lib.far_map_put, _lib.far_map_get, _lib.far_map_remove, _lib.far_map_next


def _done(status: int) -> None:
    if status == 27:
        raise BY_STATUS[27](f"{BY_STATUS[27].__doc__}: {os.strerror(c.get_errno())}")
    if status:
        raise BY_STATUS[status](BY_STATUS[status].__doc__)


def _fit(bits: int, *numbers: int) -> None:
    """Refuses a number that C has no room for, which ctypes would cut to another. Shifted by so many bits only one that fits is 0."""
    for number in numbers:
        if number >> bits:
            raise OverflowError(f"{number} is not within 0 and {(1 << bits) - 1}")


def _path(folder: "str | os.PathLike") -> bytes:
    """A folder as C has it, which ends a name at a byte 0."""
    path = os.fsencode(folder)
    if 0 in path:
        raise ValueError("embedded null byte")
    return path


def least_near(objects: int, typical: int) -> int:
    """The fewest bytes near with which a worker can be opened."""
    _fit(64, objects)
    _fit(16, typical)
    told = c.c_uint64()
    _done(_lib.far_least_near(objects, typical, c.byref(told)))
    return told.value


class _Held:
    """What is open until it is closed, at the end of a `with`, or where it goes."""

    _close = _trim = None

    def __enter__(self):
        return self

    def __exit__(self, *_) -> None:
        if self._held.live:
            self.close()

    def __del__(self) -> None:
        if getattr(self, "_held", None) is not None and self._held.live:
            self.close()

    def close(self) -> None:
        """All that it has is gone, and the memory is given back."""
        _done(self._close(self._at))

    def trim(self) -> None:
        """Gives back memory that has what a file has too: to be called now and then."""
        _done(self._trim(self._at))


class Worker(_Held):
    """Objects of 1 to 4,088 bytes by handle: `near` bytes of them as they are, the others packed, or in a file of `far` bytes in `folder`.

    `objects` is how many there will be, up to 2**32; `typical`, how many bytes most of them have."""

    _close, _trim = _lib.far_close, _lib.far_trim

    def __init__(self, near: int, objects: int, typical: int, folder: "str | os.PathLike | None" = None, far: int = 0):
        _fit(64, near, objects, far)
        _fit(16, typical)
        self._held = _Worker()
        self._at = c.byref(self._held)
        self._buffer = c.create_string_buffer(4088)
        self._number, self._short = c.c_uint64(), c.c_uint16()
        self._number_at, self._short_at = c.byref(self._number), c.byref(self._short)
        if folder is None:
            _done(_lib.far_open_memory(self._at, near, objects, typical))
        else:
            _done(_lib.far_open_folder(self._at, near, objects, typical, _path(folder), far))

    def alloc(self, data: bytes, structure: int = 0) -> int:
        """A new object of these bytes: its handle. `structure` is a number of the program's own choice, 0 to 255."""
        if structure >> 8:
            _fit(8, structure)
        status = _alloc(self._at, data, len(data), structure, self._number_at)
        if status:
            _done(status)
        return self._number.value

    def read(self, handle: int, start: int = 0, size: "int | None" = None) -> bytes:
        """Bytes of an object from `start` on: `size` of them, or all that there are."""
        if handle >> 64 or start >> 64:
            _fit(64, handle, start)
        if size is None:
            size = self.length(handle) - start
        if size < 0 or size > 4088:
            raise BY_STATUS[8](BY_STATUS[8].__doc__)
        status = _read(self._at, handle, start, self._buffer, size)
        if status:
            _done(status)
        return self._buffer[:size]

    def write(self, handle: int, start: int, data: bytes) -> None:
        """Writes bytes over those of an object, from `start` on."""
        if handle >> 64 or start >> 64:
            _fit(64, handle, start)
        status = _write(self._at, handle, start, data, len(data))
        if status:
            _done(status)

    def exchange(self, handle: int, start: int, data: bytes) -> bytes:
        """Writes bytes over those of an object, from `start` on, and gives back those that were there."""
        if handle >> 64 or start >> 64:
            _fit(64, handle, start)
        other = c.create_string_buffer(data, len(data) or 1)
        status = _lib.far_exchange(self._at, handle, start, other, len(data))
        if status:
            _done(status)
        return other.raw

    def drop(self, handle: int) -> None:
        """The object is gone, and its handle is refused from then on."""
        if handle >> 64:
            _fit(64, handle)
        status = _drop(self._at, handle)
        if status:
            _done(status)

    def length(self, handle: int) -> int:
        """How many bytes an object has."""
        if handle >> 64:
            _fit(64, handle)
        status = _length(self._at, handle, self._short_at)
        if status:
            _done(status)
        return self._short.value

    def __contains__(self, handle: int) -> bool:
        if handle >> 64:
            return False
        status = _lib.far_holds(self._at, handle)
        if status not in (0, 7):
            _done(status)
        return status == 0

    def add_heap(self) -> None:
        """Room for 2,048 objects more."""
        _done(_lib.far_add_heap(self._at))

    def statistics(self) -> Statistics:
        all_ = Statistics()
        _done(_lib.far_statistics(self._at, c.byref(all_)))
        return all_


class FarDict(_Held):
    """A dict from bytes to bytes: `near` bytes of its entries as they are, the others packed, or in a file in `folder`: `far` bytes of it, and `long_far` for parts of long values. A key has at
    most 4,086 bytes.

    `entries` is how many of at most 4,086 bytes there will be, key and value together; `typical`, how many bytes most of them have. Values of longer ones are
    cut into parts of 4,088 bytes: `long_parts` of them, `long_near` bytes of which lie near, or as few as will do."""

    _close, _trim = _lib.far_map_close, _lib.far_map_trim

    def __init__(
        self,
        near: int,
        entries: int,
        typical: int,
        long_parts: int = 2048,
        long_near: "int | None" = None,
        folder: "str | os.PathLike | None" = None,
        far: int = 0,
        long_far: int = 1 << 24,
    ):
        _fit(64, near, entries, long_parts, long_near or 0, far, long_far)
        _fit(16, typical)
        self._held = _Map()
        self._at = c.byref(self._held)
        self._buffer, self._key = c.create_string_buffer(4088), c.create_string_buffer(4086)
        self._size, self._key_size = c.c_size_t(), c.c_size_t()
        self._size_at, self._key_size_at = c.byref(self._size), c.byref(self._key_size)
        self._walks = 0
        seed = os.urandom(16)
        words = near, entries, least_near(long_parts, 4088) if long_near is None else long_near, long_parts
        plan = _MapPlan(*words, int.from_bytes(seed[:8], "little"), int.from_bytes(seed[8:], "little"), typical)
        if folder is None:
            _done(_lib.far_map_open_memory(self._at, c.byref(plan)))
        else:
            _done(_lib.far_map_open_folder(self._at, c.byref(plan), _path(folder), far, long_far))

    def get(self, key: bytes, default: "bytes | None" = None) -> "bytes | None":
        """The value of a key, or `default`."""
        status = _get(self._at, key, len(key), self._buffer, len(self._buffer), self._size_at)
        while status == 25:
            self._buffer = c.create_string_buffer(2 * self._size.value)
            status = _get(self._at, key, len(key), self._buffer, len(self._buffer), self._size_at)
        if status == 24:
            return default
        if status:
            _done(status)
        return self._buffer[: self._size.value]

    def __getitem__(self, key: bytes) -> bytes:
        value = self.get(key)
        if value is None:
            raise KeyError(key)
        return value

    def __setitem__(self, key: bytes, value: bytes) -> None:
        self._walks += 1
        status = _put(self._at, key, len(key), value, len(value))
        if status:
            _done(status)

    def __delitem__(self, key: bytes) -> None:
        self._walks += 1
        status = _remove(self._at, key, len(key))
        if status == 24:
            raise KeyError(key)
        if status:
            _done(status)

    def __contains__(self, key: bytes) -> bool:
        status = _lib.far_map_holds(self._at, key, len(key))
        if status not in (0, 24):
            _done(status)
        return status == 0

    def __len__(self) -> int:
        _done(_lib.far_map_length(self._at, self._size_at))
        return self._size.value

    def clear(self) -> None:
        """Drops all entries."""
        self._walks += 1
        _done(_lib.far_map_clear(self._at))

    def items(self) -> "typing.Iterator[tuple[bytes, bytes]]":
        """Each key with its value, once. Where the dict is changed or gone over anew before the end, this one raises RuntimeError."""
        self._walks += 1
        walk = self._walks
        _done(_lib.far_map_begin(self._at))
        while True:
            if walk != self._walks:
                raise RuntimeError("the FarDict was changed, or gone over anew, while it was gone over")
            status = _next(self._at, self._key, len(self._key), self._key_size_at, self._buffer, len(self._buffer), self._size_at)
            if status == 25:
                self._buffer = c.create_string_buffer(2 * self._size.value)
            elif status == 26:
                return
            elif status:
                _done(status)
            else:
                yield self._key[: self._key_size.value], self._buffer[: self._size.value]

    def __iter__(self) -> "typing.Iterator[bytes]":
        return (key for key, _ in self.items())

    def keys(self) -> "typing.Iterator[bytes]":
        """Each key once, as items() has it. By this dict(..) of one is its copy."""
        return iter(self)

    def values(self) -> "typing.Iterator[bytes]":
        """The value of each key, as items() has it."""
        return (value for _, value in self.items())

    def statistics(self) -> "tuple[Statistics, Statistics]":
        """Of entries of at most 4,086 bytes, and of the parts of longer values."""
        entries, parts = Statistics(), Statistics()
        _done(_lib.far_map_statistics(self._at, c.byref(entries), c.byref(parts)))
        return entries, parts
