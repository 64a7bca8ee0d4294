#!/usr/bin/env python3
"""Holds `far_trace split` against the interpreter of differ.py, on random split traces.

usage: differ_split.py PROGRAM SEED TRACES
Each mutator's replies must follow from its own lines, whatever other threads do: only where there is no room for an object
that it doesn't view, or `try` finds it far or marked, may a line be refused that else is served. Of a device that fails or
gives too few bytes one line may be refused besides; of one that inverts bytes one object may come back so, once; if it isn't
written, it is as it was when it comes again. The word that `try` tells has DIRTY where the lines say so. What the book is told
must be true of some heap. Where one thread has all the lines, each reply is the plain program's.
Prints nothing and ends with 0 where that always holds; else prints the first reply that is wrong and ends with 1.
"""
import re
import subprocess
import sys
from typing import NamedTuple

sys.dont_write_bytecode = True
from differ import CELLS, DIRTY, LAST_EPOCH, LAST_NUMBER, LOG_BYTES, MARKS, MOST, Heap, Thing, Writer, command, is_shape, parse, taken  # noqa: E402

OWN = ("new", "open", "close", "read", "write", "drop", "view", "try")
BOOK = ("round", "log", "logs", "audit")
LOG = re.compile(r"log (\d+) (free|open|sealed|chosen) live (\d+) dead (\d+) unused (\d+)")
AUDIT = re.compile(r"audit near (\d+) far (\d+) live (\d+)")
DONE = re.compile(r"round done moved (\d+) far (\d+) dropped (\d+) freed (\d+)")
HALTED = re.compile(r"refused (1|10) moved (\d+) far (\d+) dropped (\d+) freed (\d+)")
LIMIT = re.compile(r"round limit (marking|waiting|evacuating)")


def has_thread(found: list, made: tuple) -> bool:
    """Whether a command is the heap's, its device's, the book's, or that of a mutator which the heap has."""
    name, operands = made
    return name in ("heap", "device") or name in BOOK or (name in OWN and operands[0] < found[0][1][1])


def is_slow(word: int, found: Thing, logs: int) -> bool:
    """Whether a cell's word names this object, but no place that a scope may view at once."""
    marks = {mark for mark, bit in MARKS.items() if word >> bit & 1}
    at, log, is_near = word >> 24 & 0x3FF, word >> 34 & 0xFF, word >> 63
    if word & 0xFFFF != len(found.bytes) or word >> 16 & 0xFF != found.ds or (word & ~(1 << DIRTY)) >> 42 & 0x3FFFF != 1 << 16:
        return False
    if is_near:
        return bool(marks & {"e", "m"}) and log < logs and 8 * at + taken(len(found.bytes)) <= LOG_BYTES
    return "e" not in marks and (at, log) == (0, 0)


class Flaw:
    """What is wrong in one call of the device, whichever thread makes it, and of which pointer's object it told inverted bytes."""

    def __init__(self, flaw: str = "fail", call: int = 0):
        self.flaw, self.refused = flaw, {"fail": ("refused 10",), "short": ("refused 11",)}.get(flaw, ()) if call else ()
        self.may_invert, self.inverted = flaw == "flip" and call > 0, None


class State(NamedTuple):
    """What an object may be: its bytes, those that it has once it comes back from far, whether it is near and dirty, and whether it came back inverted."""

    bytes: bytes
    back: bytes
    is_near: bool = True
    is_dirty: bool = True
    was_inverted: bool = False


def gone(states: set) -> set:
    """Those states once the object went far."""
    return {state._replace(bytes=state.back, is_near=False, is_dirty=False) for state in states}


class Alone(Heap):
    """A mutator as its own lines tell it. Room is what others leave: a reply tells whether there was any, or whether the device failed or lied."""

    def __init__(self, logs: int, mutators: int, flaw: Flaw = Flaw()):
        super().__init__(logs, mutators)
        self.logs, self.reply, self.lacks = logs, "", ()
        self.flaw_of, self.near = flaw, {}  # (the states of each object that was asked for, if it didn't go far since)

    def place(self, found: Thing, kept: int) -> bool:
        return self.reply not in self.lacks

    def states(self, p: int, found: Thing) -> set:
        """The states of an object, as far as the replies tell."""
        zeros = bytes(len(found.bytes))
        known = self.near.get(p, {State(zeros, zeros)})
        return {state for state in known if not state.was_inverted or self.flaw_of.inverted in (None, p)}

    def fetched(self, p: int, states: set) -> set:
        """The states in which an object that is far in these comes back."""
        back = {state._replace(bytes=state.back, is_near=True, is_dirty=False) for state in states}
        if not self.flaw_of.may_invert or self.flaw_of.inverted not in (None, p):
            return back
        return back | {state._replace(bytes=bytes(255 - byte for byte in state.back), was_inverted=True) for state in back if not state.was_inverted}

    def is_told(self, p: int, states: set) -> bool:
        """Keeps the states that a reply leaves of an object; whether there are any."""
        if states:
            self.near[p] = states
            if all(state.was_inverted for state in states):
                self.flaw_of.inverted = p
        return bool(states)

    def pin(self, m: int, p: int) -> str:
        if isinstance(found := self.find_open(m, p), str):
            return found
        slow, near = re.fullmatch("refused 14 ([0-9a-f]{16})", self.reply), {state for state in self.states(p, found) if state.is_near}
        if p not in self.views[m] and slow and is_slow(word := int(slow[1], 16), found, self.logs):
            marks = bool(word >> 63), bool(word >> DIRTY & 1)
            if self.is_told(p, {state for state in self.states(p, found) | gone(near) if (state.is_near, state.is_dirty) == marks}):
                return self.reply
        if p in self.views[m] or self.is_told(p, near):
            self.views[m].add(p)
            return "ok"
        return "refused 14"

    def reach(self, m: int, p: int, found: Thing) -> str:
        if p in self.views[m]:
            return "ok"
        if not self.place(found, 0):
            return "refused 2"
        states = self.states(p, found)
        near = {state for state in states if state.is_near}
        self.is_told(p, near | self.fetched(p, states - near | gone(near)))
        self.views[m].add(p)
        return "ok"

    def access(self, m: int, p: int, start: int, data) -> str:
        said = super().access(m, p, start, data)
        if said.startswith("data "):
            states = self.states(p, self.objects[m][p % CELLS])
            if self.is_told(p, {state for state in states if self.reply == "data " + state.bytes[start : start + data].hex()}):
                return self.reply
            return f"data {min(states).bytes[start : start + data].hex()}"
        if said == "ok":
            states = self.states(p, self.objects[m][p % CELLS])
            written = {state._replace(bytes=state.bytes[:start] + data + state.bytes[start + len(data) :], is_dirty=True) for state in states}
            self.near[p] = {state._replace(back=state.bytes) for state in written}
        return said

    def drop(self, m: int, p: int) -> str:
        if (said := super().drop(m, p)) == "ok":
            self.near.pop(p, None)
        return said

    def expected(self, name: str, operands: list, reply: str) -> str:
        """The reply, where it may come; else one that may."""
        self.reply, self.lacks = reply, ("refused 2",) + (self.flaw_of.refused if name != "new" else ())
        said = self.answer(name, operands)
        return reply if said == "refused 2" and reply in self.lacks else said


class Told:
    """What the book's thread is told, as far as it hangs on that thread alone."""

    def __init__(self, is_short: bool, fails: bool, logs: int, mutators: int, epoch: int = 0):
        self.is_short, self.logs, self.mutators, self.epoch, self.is_idle = is_short, logs, mutators, epoch, True
        self.halts = ("1",) * is_short + ("10",) * fails

    def is_log(self, line: str, number: int) -> bool:
        if not (found := LOG.fullmatch(line)):
            return False
        live, dead, unused = map(int, found.groups()[2:])
        is_free = found[2] != "free" or unused == LOG_BYTES
        return int(found[1]) == number and live + dead + unused == LOG_BYTES and live % 8 == dead % 8 == 0 and is_free

    def is_log_answered(self, lines: list, log: int) -> bool:
        return lines == ["refused 8"] if log >= self.logs else self.is_log(lines[0], log)

    def are_logs_answered(self, lines: list) -> bool:
        return all(self.is_log(line, log) for log, line in enumerate(lines)) and sum(" open " in line for line in lines) == 1

    def is_audit_answered(self, lines: list) -> bool:
        if not (found := AUDIT.fullmatch(lines[0])):
            return self.is_short and lines == ["refused 1"]
        near, far, live = map(int, found.groups())  # (a dropped object lives in its log until its owner gets the lock)
        return near + far <= CELLS * self.mutators and 16 * near <= live <= LOG_BYTES * self.logs and live % 8 == 0

    def is_round_answered(self, lines: list, policy: str, most: int, turns: int) -> bool:
        if not self.is_idle or self.epoch == LAST_EPOCH:
            return lines == ["refused 12" if not self.is_idle else "refused 13"]
        if lines == ["round none"]:
            return True
        if (halted := HALTED.fullmatch(lines[0])) and halted[1] in self.halts:
            self.is_idle = False
            return True
        if limit := LIMIT.fullmatch(lines[0]):
            self.is_idle = False
            self.epoch += limit[1] != "marking"
            return most > 0
        self.epoch += 1
        return bool(done := DONE.fullmatch(lines[0])) and 1 <= int(done[4]) <= most and turns >= 3

    def is_answered(self, name: str, operands: list, lines: list) -> bool:
        if name == "logs":
            return self.are_logs_answered(lines)
        return {"log": self.is_log_answered, "audit": self.is_audit_answered, "round": self.is_round_answered}[name](lines, *operands)


def wrong_reply(shape: list, commands: list, output: str, is_short: bool):
    """The first reply that mustn't come, and what was asked, after commands whose shape is none out of range."""
    lines = iter(output.split("\n"))
    own = [[made for made in commands if made[0] in OWN and made[1][0] == m] for m in range(shape[1])]
    asked = [made for made in commands if made[0] in BOOK]
    device = next((operands for name, operands in commands if name == "device"), ["fail", 0])
    flaw = Flaw(*device)
    for refused in ("refused 10", "refused 11"):
        if output.count(refused) > (refused in flaw.refused):
            return refused, device
    plain = Heap(*shape) if sum(map(bool, [*own, asked])) == 1 and not is_short else None
    if plain:
        plain.device(*device)
    for m, mine in enumerate(own):
        if (line := next(lines, None)) != f"mutator {m}":
            return line, f"mutator {m}"
        alone = Alone(*shape[:2], flaw)
        for made in mine:
            line = next(lines, "")
            if line != (plain.answer(*made) if plain else alone.expected(*made, line)):
                return line, made
    if (line := next(lines, None)) != "book":
        return line, "book"
    told = Told(is_short, "refused 10" in flaw.refused, *shape)
    for made in asked:
        found = [next(lines, "") for _ in range(shape[0] if made[0] == "logs" else 1)]
        if not told.is_answered(*made, found) or (plain and "\n".join(found) != plain.answer(*made)):
            return found, made
    return None if [*lines] == [""] else ([*lines], "the end")


def wrong(text: bytes, status: int, output: bytes, is_short: bool = False):
    """What is wrong with the status and the output of a text, where memory may be short or not; None where nothing is."""
    commands = parse(text, has_thread)
    due = None
    if isinstance(commands, int):
        due = 2, b"refused 16 %d\n" % commands
    elif not commands:
        due = 0, b"book\n"
    elif not is_shape(*commands[0][1]):
        due = 2, b"refused 15\n"
    if due:
        return None if (status, output) == due else (status, output[:200], due)
    return wrong_reply(commands[0][1], commands[1:], output.decode(), is_short) if status == 0 else status


class SplitWriter(Writer):
    """Makes one random split trace; most of its numbers are good where there is room for all objects."""

    WEIGHTS = {"new": 9, "access": 40, "open": 8, "close": 5, "drop": 5, "view": 4, "try": 8, "round": 8, "log": 2, "logs": 1, "audit": 3, "": 1, "# words": 1}

    def __init__(self, seed: str):
        super().__init__(seed)
        shape = self.choice.choice((2, 3, 4, 5, 9, 16, 64, 64)), self.choice.choice((1, 2, 3, 4, 8))
        weights, self.pause, self.largest = self.WEIGHTS, 0, self.choice.choice((1, 9, 160, 400, 1_200, MOST))
        if self.choice.random() < 0.4:  # so that what is brought goes far again before it is in use again
            shape = self.choice.choice((3, 4, 5, 9)), self.choice.choice((1, 1, 2, 3))
            self.largest, self.few, self.pause = MOST, 3, self.choice.choice((2, 4, 8))
            weights = weights | {"new": 15, "access": 15, "close": 10, "drop": 10, "try": 3, "round": 20}
        self.heap = Alone(*shape)
        if self.choice.random() > 0.03:
            self.shape = (*shape, *self.shape[2:])
        asked = self.choice.choices(((), BOOK, ("round",), ("audit", "logs", "log"), ("all",)), (60, 15, 10, 10, 5))[0]
        self.weights = {kind: weight for kind, weight in weights.items() if kind not in asked}
        if asked == ("all",):
            self.weights = {kind: self.WEIGHTS[kind] for kind in BOOK}

    def round(self) -> str:
        policy = self.policy(self.choice.choice(("oldest", "leastlive")))
        turns = 20_000 if self.pause else 1_000  # (each lets other threads run)
        if self.choice.random() < (0.002 if self.pause else 0.02):
            turns = self.choice.choice((0, 1, 2, 3, 4, 9, 100))
        return "\n".join([f"round {policy} {turns}", *["audit"] * self.pause])  # (they take the book's thread a while, in which the others go on)

    def line(self) -> str:
        m = self.choice.randrange(len(self.heap.scopes))
        kind = self.choice.choices([*self.weights], [*self.weights.values()])[0]
        if kind in ("", "# words"):
            return kind
        made = self.round() if kind == "round" else kind if kind in ("logs", "audit") else self.operands(kind, m)
        if kind not in BOOK:
            name, _, *rest = made.split(" ")
            made = " ".join([name, str(m), *rest])
            self.heap.answer(*command(made.encode()))
        return made

    def spoiled(self, text: bytes) -> bytes:
        """The text with a line changed, or with one more that no thread runs."""
        if self.choice.random() < 0.5:
            return super().spoiled(text)
        m = self.choice.choice((len(self.heap.scopes), 8, 255, LAST_NUMBER))
        others = f"open {m}|new {m} 8 1|try {m} 0|epoch 0|where 0 0|select oldest 1|mark 1|wait|evacuate 1|abort|select script 1 0|device fail 1|device short 1|device flip 1"
        lines = text.split(b"\n")
        lines.insert(self.choice.randrange(1, len(lines) + 1), self.choice.choice(others.split("|")).encode())
        return b"\n".join(lines)

    def text(self) -> bytes:
        lines = [*self.choice.choice(([], [], ["# first", ""])), " ".join(["heap", *map(str, self.shape)])]
        if self.choice.random() < 0.2:
            flaw = self.choice.choice(("fail", "short", "flip"))
            lines.append(f"device {flaw} {self.choice.choice((0, 1, 2, 3, 9, 40))}")
        if "audit" in self.weights:  # so that the book's thread doesn't run ahead of all others
            lines += ["audit"] * self.choice.choice((0, 20, 100))
        lines += [self.line() for _ in range(self.choice.choice((4, 40, 400, 2_000)))]
        if "close" in self.weights and self.choice.random() < 0.9:
            lines += [f"close {m}" for m in range(len(self.heap.scopes))]
        text = ("\n".join(lines) + self.choice.choice(("\n", "\n", "", "\n\n"))).encode()
        return self.spoiled(text) if self.choice.random() < 0.12 else text


def main() -> int:
    if len(sys.argv) != 4:
        print(__doc__.strip(), file=sys.stderr)
        return 2
    program, seed, count = sys.argv[1], sys.argv[2], int(sys.argv[3])
    for number in range(count):
        text = SplitWriter(f"{seed} {number}").text()
        ran = subprocess.run([program, "split"], input=text, capture_output=True, timeout=60, check=False)
        if ran.stderr or (found := wrong(text, ran.returncode, ran.stdout)):
            print(f"trace {number} of seed {seed}:\n{text!r}\nwrong: {ran.stderr or found!r}")
            return 1
    return 0


if __name__ == "__main__":
    sys.exit(main())
