#!/usr/bin/env python3
"""Holds far_trace against a second, plain interpreter of the trace language, on random traces.

usage: differ.py PROGRAM SEED TRACES
Prints nothing and ends with 0 where output and status always agree; else prints the first difference and ends with 1.
"""
import random
import re
import subprocess
import sys

TEXT_LIMIT, LINE_LIMIT, LOG_BYTES, CELLS, MOST = 1_048_576, 16_384, 4_096, 256, 4_088
LAST_EPOCH, LAST_NUMBER = 2**62 - 1, 2**64 - 1
NUMBER = re.compile(rb"0|[1-9][0-9]{0,19}")
HEX = re.compile(rb"([0-9a-fA-F]{2})+")
COMMANDS = {b"heap": "nn", b"new": "nnn", b"open": "n", b"close": "n", b"read": "nnnn", b"write": "nnnh", b"where": "nn", b"drop": "nn", b"view": "nn", b"try": "nn"}
COMMANDS |= {b"logs": "", b"log": "n", b"audit": "", b"epoch": "n"}
COMMANDS |= {b"device": "fn"}
COMMANDS |= {b"select": "pm", b"mark": "n", b"wait": "", b"evacuate": "n", b"abort": "", b"round": "pmn"}
LARGEST = {"n": LAST_NUMBER, "m": 64, "l": 255}
POLICIES = {"p": (b"oldest", b"leastlive"), "s": (b"script",), "f": (b"fail", b"short", b"flip")}
MARKS, DIRTY = {"h": 62, "e": 61, "m": 60}, 57  # (the bits of the marks that `where` prints, and of the one that it doesn't)


def operand(kind: str, word: bytes):
    """A number, a name or a run of bytes; None where the word is none of its kind."""
    if kind == "h":
        return bytes.fromhex(word.decode()) if HEX.fullmatch(word) else None
    if kind in POLICIES:
        return word.decode() if word in POLICIES[kind] else None
    return int(word) if NUMBER.fullmatch(word) and int(word) <= LARGEST[kind] else None


def operand_kinds(name: bytes, words: list):
    """The kinds of the words that may stand here after a command's name; None where there is no such command."""
    if name == b"heap" and len(words) == 3:
        return "nnn"
    if name == b"select" and words[:1] == [b"script"]:
        return "sm" + "l" * max(1, len(words) - 2)
    return COMMANDS.get(name)


def command(line: bytes):
    """A line as a name and its operands; None where the line is off the grammar."""
    name, *words = line.split(b" ")
    kinds = operand_kinds(name, words)
    if kinds is None or len(kinds) != len(words):
        return None
    operands = [operand(kind, word) for kind, word in zip(kinds, words)]
    return None if None in operands else (name.decode(), operands)


def parse(text: bytes, may_stand=lambda found, made: True):
    """The commands of a text, or the number of its first line off the grammar, 0 for a text that is too long.

    A command that may not stand after those before it is off the grammar too.
    """
    found, lines = [], text.split(b"\n")
    if len(text) > TEXT_LIMIT:
        return 0
    for number, line in enumerate(lines, 1):
        if len(line) > LINE_LIMIT or not line.isascii():
            return number
        if line and not line.startswith(b"#"):
            made = command(line)
            if made is None or (made[0] == "heap") == bool(found) or (made[0] == "device" and len(found) != 1):
                return number
            if not may_stand(found, made):
                return number
            found.append(made)
    return found


def taken(length: int) -> int:
    """The bytes that an object of this length takes of its log."""
    return 8 * (1 + (length + 7) // 8)


class Thing:
    """An object: its bytes, its data structure, the letters of its marks, its log and the word in it; far it has no log.

    It is dirty from `new` or a write on, until it is far: the device holds other bytes than these, or none.
    """

    def __init__(self, length: int, ds: int):
        self.bytes, self.ds, self.marks, self.log, self.word = bytearray(length), ds, set(), None, 0
        self.is_dirty, self.stored = True, b""

    def lies(self, log, word: int = 0):
        """It lies there from now on, without marks."""
        self.marks, self.log, self.word = set(), log, word

    def cell(self) -> int:
        """The word of its cell."""
        at = (self.word << 24 | self.log << 34 | 1 << 63) if self.log is not None else 0
        return at | 1 << 58 | self.is_dirty << DIRTY | self.ds << 16 | len(self.bytes) | sum(1 << MARKS[mark] for mark in self.marks)


class Heap:
    """Objects by their cells, logs as the number of bytes placed in them. What no object takes of those is dead."""

    def __init__(self, logs: int, mutators: int, epoch: int = 0):
        self.now = epoch
        self.placed, self.newest, self.sealed = [0] + [None] * (logs - 1), 0, []
        self.objects, self.scopes, self.told = [{} for _ in range(mutators)], [None] * mutators, [None] * mutators
        self.views = [set() for _ in range(mutators)]
        self.phase, self.collection, self.clear = "idle", [], set()
        self.flaw, self.call, self.calls, self.spared, self.failed, self.counts = "fail", 0, 0, 0, False, (0, 0, 0)

    def device(self, flaw: str, call: int) -> str:
        """Of its writes and reads this one fails, counted from 1; or of its reads alone this one is a lie."""
        self.flaw, self.call = flaw, call
        return "ok"

    def is_flawed(self, is_read: bool) -> bool:
        """Counts a read, or a write of a device that is to fail; whether it is the one."""
        if not is_read and self.flaw != "fail":
            return False
        self.calls += 1
        return self.calls == self.call

    def has_room(self, found: Thing, kept: int) -> bool:
        """Whether it can be placed where more than so many logs are free."""
        return self.placed[self.newest] + taken(len(found.bytes)) <= LOG_BYTES or self.placed.count(None) > kept

    def place(self, found: Thing, kept: int) -> bool:
        """Places it after what was placed last, or in a new log where more than so many are free; answers whether it could."""
        size = taken(len(found.bytes))
        if not self.has_room(found, kept):
            return False
        if self.placed[self.newest] + size > LOG_BYTES:
            self.sealed.append(self.newest)
            self.newest = self.placed.index(None)
            self.placed[self.newest] = 0
        found.lies(self.newest, self.placed[self.newest] // 8)
        self.placed[self.newest] += size
        return True

    def send(self, found: Thing) -> bool:
        """Sends it far: one that is dirty by a write of the device; answers whether that came off."""
        if found.is_dirty:
            if self.is_flawed(False):
                return False
            found.stored, found.is_dirty = bytes(found.bytes), False
        else:
            self.spared += 1
        found.lies(None)
        return True

    def fetch(self, found: Thing) -> str:
        """Reads its bytes from the device, which keeps them, and places it; or the refusal."""
        if not self.has_room(found, 1):
            return "refused 2"
        flawed = self.is_flawed(True)
        if flawed and self.flaw != "flip":
            return "refused 10" if self.flaw == "fail" else "refused 11"
        found.bytes = bytearray(255 - byte if flawed else byte for byte in found.stored)
        self.place(found, 1)
        return "ok"

    def new(self, m: int, length: int, ds: int) -> str:
        if m >= len(self.scopes) or ds > 255:
            return "refused 8"
        if not 1 <= length <= MOST:
            return "refused 4"
        if len(self.objects[m]) == CELLS:
            return "refused 3"
        if not self.place(found := Thing(length, ds), 1):
            return "refused 2"
        cell = next(cell for cell in range(CELLS) if cell not in self.objects[m])
        self.objects[m][cell] = found
        return f"pointer {CELLS * m + cell}"

    def scope(self, m: int, wanted: bool) -> str:
        """Asks for a scope that is open, or closed."""
        if m >= len(self.scopes):
            return "refused 8"
        if (self.scopes[m] is not None) != wanted:
            return "refused 5" if wanted else "refused 6"
        return "ok"

    def open(self, m: int) -> str:
        """Opens a scope at the epoch that its mutator was told, or else at the heap's."""
        if (said := self.scope(m, False)) == "ok":
            self.scopes[m] = self.now if self.told[m] is None else self.told[m]
        return said

    def close(self, m: int) -> str:
        if (said := self.scope(m, True)) == "ok":
            self.scopes[m] = self.told[m] = None
            self.views[m].clear()
        return said

    def epoch(self, m: int) -> str:
        if (said := self.scope(m, False)) != "ok":
            return said
        self.told[m] = self.now
        return f"epoch {self.now}"

    def find(self, m: int, p: int):
        """The object of a mutator's pointer, or the refusal."""
        if m >= len(self.scopes):
            return "refused 8"
        found = self.objects[m].get(p % CELLS) if p // CELLS == m else None
        return "refused 7" if found is None else found

    def find_open(self, m: int, p: int):
        """The same, of a mutator whose scope is open."""
        said = self.scope(m, True)
        return self.find(m, p) if said == "ok" else said

    def reach(self, m: int, p: int, found: Thing) -> str:
        """Views an object: one that is far is fetched, one that is to be evacuated is moved."""
        if p in self.views[m]:
            return "ok"
        found.marks.add("h")
        if "e" in found.marks:
            found.marks.add("m")
        if found.log is None:
            if (said := self.fetch(found)) != "ok":
                return said
        elif "e" in found.marks and not self.place(found, 0):
            return "refused 2"
        found.marks = {"h"}
        self.views[m].add(p)
        return "ok"

    def access(self, m: int, p: int, start: int, data) -> str:
        """A write of bytes, or a read of so many."""
        if isinstance(found := self.find_open(m, p), str):
            return found
        end = start + (data if isinstance(data, int) else len(data))
        if end == start or end > len(found.bytes):
            return "refused 8"
        if (said := self.reach(m, p, found)) != "ok":
            return said
        if isinstance(data, int):
            return "data " + found.bytes[start:end].hex()
        found.bytes[start:end], found.is_dirty = data, True
        return "ok"

    def where(self, m: int, p: int) -> str:
        if isinstance(found := self.find(m, p), str):
            return found
        at = "far" if found.log is None else f"near {found.log} {found.word}"
        return f"{at} {''.join(mark for mark in MARKS if mark in found.marks) or '-'}"

    def view(self, m: int, p: int) -> str:
        found = self.find_open(m, p)
        return found if isinstance(found, str) else self.reach(m, p, found)

    def pin(self, m: int, p: int) -> str:
        """Views an object only if it needs neither fetch nor move nor a mark taken away; tells its cell as it was before."""
        if isinstance(found := self.find_open(m, p), str):
            return found
        if p not in self.views[m] and (found.log is None or found.marks & {"e", "m"}):
            said = f"refused 14 {found.cell():016x}"
            found.marks.add("h")
            return said
        return self.reach(m, p, found)

    def drop(self, m: int, p: int) -> str:
        if isinstance(found := self.find(m, p), str):
            return found
        if p in self.views[m]:
            return "refused 9"
        del self.objects[m][p % CELLS]
        return "ok"

    def things(self) -> list:
        return [found for own in self.objects for found in own.values()]

    def log(self, log: int) -> str:
        if log >= len(self.placed):
            return "refused 8"
        used, live = self.placed[log] or 0, self.live(log)
        kind = "chosen" if log in self.collection else "sealed" if log in self.sealed else "open" if log == self.newest else "free"
        return f"log {log} {kind} live {live} dead {used - live} unused {LOG_BYTES - used}"

    def live(self, log: int) -> int:
        return sum(taken(len(found.bytes)) for found in self.things() if found.log == log)

    def logs(self) -> str:
        return "\n".join(self.log(log) for log in range(len(self.placed)))

    def audit(self) -> str:
        sizes = [taken(len(found.bytes)) for found in self.things() if found.log is not None]
        return f"audit near {len(sizes)} far {len(self.things()) - len(sizes)} live {sum(sizes)}"

    def select(self, policy: str, most: int, *named: int) -> str:
        """Begins a round of sealed logs; those that it still holds, in their order, are the chosen ones."""
        if self.phase != "idle":
            return "refused 12"
        if self.now == LAST_EPOCH:
            return "refused 13"
        for at, log in enumerate(named):
            if log not in self.sealed or log in named[:at] or at >= most:
                return f"refused 17 {log}"
        ages = self.sealed if policy == "oldest" else sorted(self.sealed, key=lambda log: (self.live(log), log))
        self.collection = [*(named or ages[:most])]
        if self.collection:
            self.phase = "marking"
        return "selected " + (" ".join(map(str, self.collection)) or "none")

    def residents(self) -> list:
        """What lives in the logs that the round holds, in the order in which the round comes to it."""
        found = [found for found in self.things() if found.log in self.collection]
        return sorted(found, key=lambda found: (self.collection.index(found.log), found.word))

    def mark(self, most: int) -> str:
        if self.phase != "marking":
            return "refused 12"
        left = [found for found in self.residents() if "e" not in found.marks]
        for found in left[:most]:
            found.marks.add("e")
        if len(left) > most:
            return f"marked {most}"
        self.now += 1
        self.phase, self.clear = "waiting", set()
        return f"marked {len(left)} waiting {self.now}"

    def wait(self) -> str:
        if self.phase != "waiting":
            return "refused 12"
        for m, epoch in enumerate(self.scopes):
            if m not in self.clear and epoch is not None and epoch < self.now:
                return f"refused 18 {m} {epoch}"
            self.clear.add(m)
        self.phase = "evacuating"
        return "clear"

    def deal(self, most: int):
        """Deals with so many objects, or as far as the device fails; gives how many were moved and sent far and how many logs were given back."""
        moved, far, freed = 0, 0, 0
        while self.collection:
            for found in (found for found in self.residents() if found.log == self.collection[0]):
                if moved + far == most:
                    return moved, far, freed
                if "h" in found.marks and self.place(found, 0):
                    moved += 1
                elif self.send(found):
                    far += 1
                else:
                    self.failed = True
                    return moved, far, freed
            self.placed[self.collection[0]] = None
            self.sealed.remove(self.collection.pop(0))
            freed += 1
        self.phase = "idle"
        return moved, far, freed

    def evacuate(self, most: int) -> str:
        if self.phase != "evacuating":
            return "refused 12"
        return self.dealt(self.deal(most)) or "evacuated moved %d far %d dropped 0 freed %d" % self.counts + (" done" if self.phase == "idle" else "")

    def dealt(self, counts) -> str:
        """What is said of so many objects where the device failed at the next one; nothing where it didn't."""
        self.counts, failed, self.failed = tuple(counts), self.failed, False
        return "refused 10 moved %d far %d dropped 0 freed %d" % self.counts if failed else ""

    def abort(self) -> str:
        if self.phase == "idle":
            return "refused 12"
        for found in self.residents():
            found.marks.discard("e")
        self.phase, self.collection = "idle", []
        return "ok"

    def round(self, policy: str, most: int, turns: int) -> str:
        """A whole round, or so many turns of it; a wait that isn't over leaves it where it is, whatever turns are left."""
        if not (said := self.select(policy, most)).startswith("selected") or self.phase == "idle":
            return said.replace("selected", "round")
        counts = [0, 0, 0]
        for _ in range(turns):
            if self.phase == "marking":
                self.mark(16)
            elif self.phase == "waiting":
                if self.wait() != "clear":
                    break
            else:
                counts = [sum(pair) for pair in zip(counts, self.deal(16))]
                if said := self.dealt(counts):
                    return said
                if self.phase == "idle":
                    return "round done moved %d far %d dropped 0 freed %d" % tuple(counts)
        return f"round limit {self.phase}"

    def answer(self, name: str, operands: list) -> str:
        return getattr(self, {"read": "access", "write": "access", "try": "pin"}.get(name, name))(*operands)


def is_shape(logs: int, mutators: int, epoch: int = 0) -> bool:
    return 2 <= logs <= 64 and 1 <= mutators <= 8 and epoch <= LAST_EPOCH


def interpret(text: bytes) -> tuple[int, bytes]:
    """The status and the output that a text must have."""
    commands = parse(text)
    if isinstance(commands, int):
        return 2, b"refused 16 %d\n" % commands
    if not commands:
        return 0, b""
    if not is_shape(*commands[0][1]):
        return 2, b"refused 15\n"
    heap = Heap(*commands[0][1])
    return 0, "\n".join(["ok", *(heap.answer(*made) for made in commands[1:]), ""]).encode()


class Writer:
    """Makes one random trace; most of its numbers are good, as a heap of its own tells it."""

    def __init__(self, seed: str):
        self.choice = random.Random(seed)
        self.shape = (self.choice.choice((2, 3, 3, 4, 5, 9, 64)), self.choice.choice((1, 2, self.choice.randint(1, 8))))
        if self.choice.random() < 0.4:
            self.shape += (self.choice.choice((0, 9, LAST_EPOCH - 9, LAST_EPOCH - 1, LAST_EPOCH - 1, LAST_EPOCH)),)
        self.heap = Heap(*self.shape)
        if self.choice.random() < 0.02:
            self.shape = (*self.shape[:2], self.choice.choice((LAST_EPOCH + 1, LAST_NUMBER)))
        elif self.choice.random() < 0.05:
            self.shape = (self.choice.choice((0, 1, 2, 64, 65, LAST_NUMBER)), self.choice.choice((0, 1, 8, 9, 2**32 + 1)))
        self.largest, self.rounds = self.choice.choice((1, 9, 160, 1_200, MOST, MOST)), self.choice.choice((0, 4, 20, 20))
        # How often an access is a write, how many objects of a mutator are in use, and how often all others are sent far.
        self.writes, self.few, self.sweeps = self.choice.choice((0.5, 0.1)), self.choice.choice((3, CELLS, CELLS)), self.choice.choice((0, 0, 6))
        self.is_unsettled, self.news = False, self.choice.choice((10, 10, 40))

    def odd(self, good: int) -> int:
        """The number, or now and then one that is seldom good."""
        return good if self.choice.random() > 0.04 else self.choice.choice((0, 8, 255, 256, MOST, MOST + 1, 2**32, 2**63, LAST_NUMBER))

    def pointer(self, m: int, most: int = CELLS) -> int:
        """A pointer of the mutator's, most often of one of its first objects."""
        found = self.heap.objects[m]
        used = sorted(found)[:most]
        asking = [cell for cell in used if "m" in found[cell].marks or found[cell].log is None]
        return CELLS * m + self.choice.choice([*used, *asking * 4, min(len(found), CELLS - 1)])

    def access(self, m: int) -> str:
        pointer = self.pointer(m, self.few)
        found = self.heap.objects[m].get(pointer % CELLS)
        length = 9 if found is None else len(found.bytes)
        start = self.choice.randint(0, length)
        rest = length - start
        size = self.choice.choice((0, 1, 8, rest, rest, rest, rest + 1, self.choice.randrange(20)))
        place = f"{self.odd(m)} {self.odd(pointer)} {self.odd(start)}"
        if self.choice.random() > self.writes:
            return f"read {place} {self.odd(size)}"
        return f"write {place} " + "".join(self.choice.choice("0123456789abcdefABCDEF") for _ in range(2 * max(size, 1)))

    def policy(self, kind: str) -> str:
        """A policy, how many logs it may name, and those of a script: sealed ones, most often."""
        most, sealed = self.choice.choice((0, 1, 1, 2, 3, 5, 64)), self.heap.sealed or [0]
        if kind != "script":
            return f"{kind} {most}"
        named = self.choice.sample(sealed, self.choice.randint(1, min(len(sealed), 4)))
        if self.choice.random() < 0.8:
            most = max(most, len(named))
        else:
            most = self.choice.choice((most, 64))
            named += self.choice.choices([*named * 4, *range(self.choice.choice((5, 64, 256)))], k=self.choice.choice((1, 2, 64)))
        return " ".join(map(str, ["script", most, *named]))

    def turn(self, m: int) -> str:
        """A command of rounds, most often one that the phase asks for; often a new object where no round can begin, an abort where an object has MOVE."""
        if (not self.heap.sealed or self.heap.now == LAST_EPOCH) and self.heap.phase == "idle" and self.choice.random() < 0.8:
            return self.operands("new", m)
        if self.heap.phase != "idle" and any("m" in found.marks for found in self.heap.things()) and self.choice.random() < 0.5:
            return "abort"
        due = {"idle": ("select", "round"), "marking": ("mark",), "waiting": ("wait",), "evacuating": ("evacuate",)}[self.heap.phase]
        kind = self.choice.choice(due if self.choice.random() < 0.8 else ("select", "mark", "wait", "evacuate", "abort", "abort", "round"))
        number = self.choice.choice((0, 1, 1, 2, 3, 5, 9, 17, LAST_NUMBER))
        if kind in ("select", "round"):
            policy = self.policy(self.choice.choice(("oldest", "leastlive", "script" if kind == "select" else "oldest")))
            return f"select {policy}" if kind == "select" else f"round {policy} {number}"
        return kind if kind in ("wait", "abort") else f"{kind} {number}"

    def sweep(self, m: int) -> list:
        """Lines that seal a log and, while no scope is open, send far all in sealed logs that wasn't in use since it was placed there.

        Once a write was spared it may be settled before them that a call of the device which comes soon is the flawed one.
        """
        if self.is_unsettled and self.heap.spared and self.choice.random() < 0.5:
            self.heap.call, self.is_unsettled = self.heap.calls + self.choice.choice((1, 1, 2, 3, 5)), False
        scopes = [other for other, epoch in enumerate(self.heap.scopes) if epoch is not None]
        lines = [f"close {other}" for other in scopes] + ["abort"] * (self.heap.phase != "idle")
        return [*lines, f"new {m} {MOST} 0", f"round oldest 64 {LAST_NUMBER}", *(f"open {other}" for other in scopes)]

    def operands(self, kind: str, m: int) -> str:
        """A command with operands, by its name."""
        if kind == "access":
            return self.access(m)
        if kind == "turn":
            return self.turn(m)
        if kind == "log":
            return f"log {self.odd(self.choice.randrange(self.shape[0] or 1))}"
        if kind in ("where", "drop", "view", "try"):
            return f"{kind} {self.odd(m)} {self.odd(self.pointer(m, self.few if kind in ('view', 'try') else CELLS))}"
        if kind == "new":
            length = self.choice.choice((self.largest, self.choice.randint(1, self.largest)))
            return f"new {self.odd(m)} {self.odd(length)} {self.odd(self.choice.randrange(256))}"
        return f"{kind} {self.odd(m)}"

    def line(self) -> str:
        m = self.choice.randrange(len(self.heap.scopes))
        kinds = ("new", "access", "open", "close", "where", "drop", "view", "try", "epoch", "log", "logs", "audit", "", "# words", "turn", "sweep")
        kind = self.choice.choices(kinds, (self.news, 30, 8, 2, 4, 4, 3, 3, 4, 2, 1, 1, 1, 1, self.rounds, self.sweeps))[0]
        if kind in ("", "# words"):
            return kind
        made = self.sweep(m) if kind == "sweep" else [kind if kind in ("logs", "audit") else self.operands(kind, m)]
        if kind == "turn" and self.choice.random() < 0.3:
            made = [f"close {other}" for other, epoch in enumerate(self.heap.scopes) if epoch is not None] + made
        for line in made:
            self.heap.answer(*command(line.encode()))
        return "\n".join(made)

    def spoiled(self, text: bytes) -> bytes:
        """The text with one line changed as a person or a fault may change it."""
        lines = text.split(b"\n")
        at = self.choice.randrange(len(lines))
        line, wide, byte = lines[at], LINE_LIMIT + self.choice.randrange(2), bytes([self.choice.randrange(256)])
        signs = [line.replace(b" ", sign, 1) for sign in (b"  ", b"\t", b" 0", b" +", b" -", b" 0x")]
        ends = [line + end for end in (b" ", b"\r", b"0", b" 1", b"\t", byte)]
        others = b"heap 4 1|heap 4 1 0 0|view 0|epoch|# \xc3\xa9|#\0\t\r|\0|write 0 0 0 0g|write 0 0 0 |open %d|open %d" % (2**64, 10**20)
        others += b"|select oldest 65|select leastlive|select oldest 1 0|select script 1|select script 1 256|select script 65 0|select newest 1|select 1|select"
        others += b"|round script 1 9|round script 1 0 9|round oldest 65 1|round oldest 1|round oldest 1 1 1|round leastlive 1 %d|round 1 9|round" % 2**64
        others += b"|mark|mark 1 1|mark -1|wait 0|evacuate|evacuate 0 0|evacuate done|abort 0|device fail 1"
        others += b"|device fail|device|device 1|device fail 1 1|device fail -1|device short|device flips 1|device fail %d" % 2**64
        long = [b"#" * wide, (b"write 0 0 0 " + b"ab" * LINE_LIMIT)[: wide + self.choice.randrange(2)]]
        lines[at] = self.choice.choice([b" " + line, byte + line, line[:-1], line.upper(), *signs, *ends, *others.split(b"|"), *long])
        return b"\n".join(lines)

    def flaw(self):
        """Gives the heap a device that is flawed, most often soon, or at a call that is settled later; rounds are to send it objects."""
        self.rounds, self.few, self.sweeps = self.choice.choice(((20, CELLS, 0), (20, 3, 6), (0, 3, 12)))
        self.largest, self.is_unsettled = self.choice.choice((160, 1_200, MOST)), self.sweeps > 0 and self.choice.random() < 0.7
        soon, late = self.choice.randint(1, 30), self.choice.randint(1, 300)
        if self.is_unsettled:
            self.writes, self.few = self.choice.choice((0.1, 0.1, 0.5)), 2
        call = 0 if self.is_unsettled else self.choice.choice((0, 1, 1, 2, 3, soon, soon, late, LAST_NUMBER))
        self.heap.device(self.choice.choice(("fail", "short", "flip")), call)

    def text(self) -> bytes:
        lines = [*self.choice.choice(([], [], ["# first", ""])), " ".join(["heap", *map(str, self.shape)])]
        if flawed := self.choice.random() < 0.4:
            self.flaw()
        made = [self.line() for _ in range(self.choice.choice((4, 40, 200, 1_000)[flawed:]))]
        if flawed:
            lines += self.choice.choice(([], [], ["# its device", ""])) + [f"device {self.heap.flaw} {self.heap.call}"]
        lines += made
        text = ("\n".join(lines) + self.choice.choice(("\n", "\n", "", "\n\n"))).encode()
        if self.choice.random() < 0.02:
            text += b"\n" * (TEXT_LIMIT - len(text) + self.choice.randrange(2))
        return self.spoiled(text) if self.choice.random() < 0.4 else text


def main() -> int:
    if len(sys.argv) != 4:
        print(__doc__.strip(), file=sys.stderr)
        return 2
    program, seed, count = sys.argv[1], sys.argv[2], int(sys.argv[3])
    for number in range(count):
        text = Writer(f"{seed} {number}").text()
        ran = subprocess.run([program], input=text, capture_output=True, timeout=60, check=False)
        expected = (*interpret(text), b"")
        if (got := (ran.returncode, ran.stdout, ran.stderr)) != expected:
            print(f"trace {number} of seed {seed}:\n{text!r}\nexpected: {expected!r}\ngot:      {got!r}")
            return 1
    return 0


if __name__ == "__main__":
    sys.exit(main())
