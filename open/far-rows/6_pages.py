#!/usr/bin/env python3
"""Pages of far_rows and far_forms. usage: 6_pages.py ROOT (last)"""
import pathlib
import sys

ROOT = pathlib.Path(sys.argv[1]).resolve()


def change(path: str, *pairs: tuple) -> None:
    file = ROOT / path
    now = file.read_text()
    for old, new in pairs:
        assert now.count(old) == 1, (path, now.count(old), old)
        now = now.replace(old, new)
    file.write_text(now)


change("crates/far_events/README.md",
    ("- [src/event.rt](src/event.rt): each event's guard and replies; specs/events: its rule.\n", "- far_forms [src/event.rt](../far_forms/src/event.rt): each event's guard; specs/events: its rule.\n"),
)
change("docs/ARCHITECTURE.md",
    ("each atomic step on it. [far_core]", "each atomic step on it, over [far_rows](../crates/far_rows), [far_forms](../crates/far_forms). [far_core]"),
)
change("CONTRIBUTING.md",
    ("1. **src/event.rt**: variant, guard, effect, reply; a new `Reply` only if none fits", "1. far_forms **src/event.rt**: variant, guard, effect, reply; a new `Reply` only if none fits"),
    ("its arms in far_events src/naming.rt and src/memory/book.rt;", "its arms in far_forms src/naming.rt, specs/Namings, far_events src/memory/book.rt;"),
    ("five rows in specs/events/Naming, two in proofs/NamingTests", "two rows in specs/events/Naming, two in proofs/NamingTests"),
)
