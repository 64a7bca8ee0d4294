#!/usr/bin/env python3
"""Takes the rows of which a memory is made out of crates/far_events, into crates/far_rows below it. usage: 1_rows.py ROOT

It moves files and lemmas by the lists below, and rewrites each `use` of a path that moved in all crates, name by name. It is to be run on a clean tree.
"""
import pathlib
import re
import sys

ROOT = pathlib.Path(sys.argv[1]).resolve()
CRATES = ROOT / "crates"
OLD, NEW = CRATES / "far_events", CRATES / "far_rows"
ROWS = ("bits", "jobs", "stored", "stored_rows", "words")
WHOLE_SPECS = ("Bits", "CopierRows", "Rows", "Stored", "StoredRows", "Words")
WHOLE_PROOFS = ("Bits", "CopierRows", "Items", "KeptRows", "Put", "Rows", "Stored")
SPLIT = {
    "specs/state/State.antt": [("specs/state/Put.antt", "-- A function changed at one place.", ["put"]), ("specs/state/Copying.antt", "-- The jobs and the copiers, by what their rows say.", ["Copying"])],
    "specs/state/Memory.antt": [("specs/state/Copying.antt", None, ["copying_of"])],
    "specs/state/Opening.antt": [("specs/state/Copying.antt", None, ["no_copying"])],
    "specs/events/Ranges.antt": [("specs/state/Ranges.antt", "-- Words along a row.", ["with_copy", "with_row"])],
    "proofs/Begins.antt": [("proofs/Begins.antt", "-- What rows have at the start.", ["row_of", "same", "masked_row"])],
    "proofs/Ends.antt": [("proofs/Ends.antt", "-- What jobs and copiers have past their ends.", ["no_jobs"])],
    "proofs/Words.antt": [("proofs/WordRows.antt", "-- The words that bytes make.", "all but part_noted")],
}

USE = re.compile(r"^(\s*)((?:pub )?(?:ghost )?use )(Rattle\.[\w.\-]+|mathlib\.[\w.\-]+|[\w.\-]+)\.\{(.*)\}(;?)\s*$")
USE_AS = re.compile(r"^(\s*)((?:pub )?(?:ghost )?use )([\w.\-#]+)( as [^\s;]+)?(;?)\s*$")
WORDS = ("abbrev", "unfoldable", "pub", "record", "data")


def paragraphs(text: str) -> tuple:
    """The head (first comment lines), the uses, and the paragraphs at column 0, each with the comments above it."""
    lines = text.rstrip("\n").split("\n")
    head, uses, i = [], [], 0
    while i < len(lines) and lines[i].startswith("--"):
        head.append(lines[i]); i += 1
    while i < len(lines) and (not lines[i].strip() or re.match(r"(pub )?use ", lines[i])):
        if lines[i].strip():
            uses.append(lines[i])
        i += 1
    found, now = [], []
    for line in lines[i:]:
        if line.strip() and not line[0].isspace() and now and not now[-1].strip():
            found.append(now); now = []
        now.append(line)
    if now:
        found.append(now)
    return head, uses, ["\n".join(it).rstrip() for it in found]


def names_of(paragraph: str) -> list:
    """What a paragraph declares: itself, and what stands in it if it is a module, and constructors."""
    found = []
    module = any(re.match(r"(pub )?module ", line) for line in paragraph.split("\n"))
    data = False
    for line in paragraph.split("\n"):
        if line.startswith("--") or line.strip().startswith("--"):
            continue
        bare = line.strip()
        deep = len(line) - len(line.lstrip())
        if deep == 0 or (module and deep in (2, 4)) or (data and deep == 2):
            words = bare.split()
            k = 0
            while k < len(words) and words[k] in WORDS:
                k += 1
            if deep == 0 and "data" in words[:k]:
                data = True
            if k < len(words) and words[k] not in ("module", "unfolding") and words[k][0] not in "({" and " :" in bare:
                found.append(words[k])
    return list(dict.fromkeys(found))


def used(name: str, text: str) -> bool:
    """Whether a name that is imported is used in a text."""
    name = name.split(" as ")[-1].strip()
    for part in [it for it in name.split("◌") if it]:
        if not re.search(r"(?<![\w\-'◌])" + re.escape(part) + r"(?![\w\-'◌])", text) if re.match(r"[\w]", part) else part not in text:
            return False
    return True


def kept_uses(uses: list, text: str) -> list:
    found, text = [], "\n".join(line for line in text.split("\n") if not line.strip().startswith("--"))
    for line in uses:
        m = USE.match(line)
        if m:
            names = [it.strip() for it in m[4].split(",")]
            mine = [it for it in names if used(it, text)]
            if mine:
                found.append(f"{m[2]}{m[3]}.{{{', '.join(mine)}}}")
            continue
        m = USE_AS.match(line)
        short = (m[4] or m[3].split(".")[-1]).replace(" as ", "").strip()
        if short + "." in text:
            found.append(line)
    return found


def dotted(path: str) -> str:
    """specs/events/Pin.antt -> specs.events.Pin"""
    return path.removesuffix(".antt").replace("/", ".")


HOME = {}      # a module of far_events that moved whole -> its new path
NAMED = {}     # (a module of far_events, a name) -> its new module


RENAMED = {f"proofs/{old}.antt": f"proofs/{new}.antt" for old, new in (("Bits", "BitRows"), ("Stored", "StoredLists"))}  # rattle makes modules of the old names


def move(path: str) -> None:
    target = NEW / RENAMED.get(path, path)
    target.parent.mkdir(parents=True, exist_ok=True)
    (OLD / path).rename(target)


def move_whole() -> None:
    moved = [f"src/memory/{it}.rt" for it in ROWS] + ["src/memory/jobs/rows.rt"]
    moved += [str(it.relative_to(OLD)) for row in ROWS for it in sorted((OLD / "proofs/memory" / row).rglob("*")) if it.is_file()]
    moved += [f"specs/state/{it}.antt" for it in WHOLE_SPECS] + [f"proofs/{it}.antt" for it in WHOLE_PROOFS]
    for path in moved:
        move(path)
        if path.endswith(".antt"):
            HOME[dotted(path)] = "Rattle.far_rows." + dotted(RENAMED.get(path, path))


def split_one(path: str, target: str, first, names) -> None:
    head, uses, all_of = paragraphs((OLD / path).read_text())
    if isinstance(names, str):
        stay = set(names.removeprefix("all but ").split())
        chosen = [it for it in all_of if not stay & set(names_of(it))]
    else:
        wanted = set(names)
        chosen = [it for it in all_of if wanted & set(names_of(it))]
        missing = wanted - {n for it in chosen for n in names_of(it)}
        if missing:
            print(f"split: {path} has no {', '.join(sorted(missing))}")
    rest = [it for it in all_of if it not in chosen]
    moved = [n for it in chosen for n in names_of(it)]
    for name in moved:
        NAMED[(dotted(path), name)] = "Rattle.far_rows." + dotted(target)
    body = "\n\n".join(chosen)
    mine = kept_uses(uses, body)
    file = NEW / target
    if file.exists():
        old_head, old_uses, old = paragraphs(file.read_text())
        file.write_text("\n".join(old_head + list(dict.fromkeys(old_uses + mine))) + "\n\n" + "\n\n".join(old + chosen) + "\n")
    else:
        file.parent.mkdir(parents=True, exist_ok=True)
        file.write_text("\n".join([first or head[0], *mine]) + "\n\n" + body + "\n")
    text = "\n\n".join(rest)
    needs = [n for n in moved if used(n, text) and n not in ("same", "rest", "past")]
    left = kept_uses(uses, text) + ([f"use Rattle.far_events.{dotted(path)}.{{{', '.join(needs)}}}"] if needs else [])
    (OLD / path).write_text("\n".join(head + left) + "\n\n" + text + "\n")


def split() -> None:
    for path, parts in SPLIT.items():
        for target, first, names in parts:
            split_one(path, target, first, names)


def new_module(module: str, name: str, here: str) -> str:
    """Where a name stands that far_events' `module` had."""
    if (module, name) in NAMED:
        return NAMED[(module, name)]
    if module in HOME:
        return HOME[module]
    if module == "specs.declared.event.Task":
        return "Rattle.far_rows.specs.declared.task.Task"
    for row in ROWS:
        for top in (f"specs.declared.memory.{row}", f"specs.contracts.memory.{row}", f"proofs.memory.{row}"):
            if module == top or module.startswith(top + "."):
                return "Rattle.far_rows." + module
    return "Rattle.far_events." + module


def rewrite(file: pathlib.Path) -> None:
    text = file.read_text()
    if "Rattle.far_events." not in text:
        return
    made = []
    for line in text.split("\n"):
        m = USE.match(line)
        if m and m[3].startswith("Rattle.far_events."):
            module, homes = m[3].removeprefix("Rattle.far_events."), {}
            for name in [it.strip() for it in m[4].split(",")]:
                homes.setdefault(new_module(module, name.split(" as ")[0], str(file)), []).append(name)
            made += [f"{m[1]}{m[2]}{home}.{{{', '.join(names)}}}{m[5]}" for home, names in homes.items()]
            continue
        m = USE_AS.match(line)
        if m and m[3].startswith("Rattle.far_events."):
            module = m[3].removeprefix("Rattle.far_events.")
            made.append(f"{m[1]}{m[2]}{new_module(module, '', str(file))}{m[4] or ''}{m[5]}")
            continue
        made.append(line)
    mine = "Rattle." + str(file.relative_to(CRATES).with_suffix("")).replace("/", ".") if file.is_relative_to(CRATES) else ""
    made, at, lines = [], {}, made
    for line in lines:
        m = USE.match(line)
        if m and not m[1] and m[3].startswith("Rattle."):
            if m[3] == mine:
                continue
            key = (m[2], m[3])
            if key in at:
                first = USE.match(made[at[key]])
                names = [it.strip() for it in first[4].split(",")]
                names += [it.strip() for it in m[4].split(",") if it.strip() not in names]
                made[at[key]] = f"{m[2]}{m[3]}.{{{', '.join(names)}}}{m[5]}"
                continue
            at[key] = len(made)
        made.append(line)
    new = "\n".join(made)
    if new != text:
        file.write_text(new)


def libs() -> None:
    for folder in sorted((it for it in OLD.rglob("*") if it.is_dir()), reverse=True):
        if not any(folder.iterdir()):
            folder.rmdir()
    (NEW / "specs/Lib.antt").write_text("pub mod state\n")
    for crate in (NEW, OLD):
        for folder in ("specs/events", "specs/state", "proofs/events"):
            if (crate / folder).is_dir():
                names = sorted({it.stem for it in (crate / folder).iterdir() if it.suffix == ".antt"})
                (crate / (folder + ".antt")).write_text("\n".join(f"pub mod {it}" for it in names) + "\n")
        tops = sorted(it.stem for it in (crate / "proofs").iterdir() if it.suffix == ".antt" and it.stem != "Lib")
        (crate / "proofs/Lib.antt").write_text("\n".join(f"pub mod {it}" for it in sorted(tops, key=lambda n: (n[0].islower(), n))) + "\n")


def publish(path: str, *names: str) -> None:
    """What far_events asks for of a file's own lemmas."""
    file = NEW / path
    now = file.read_text()
    for it in names:
        now, n = re.subn(rf"^(\s*){it} : ", rf"\1pub {it} : ", now, count=1, flags=re.M)
        assert n == 1, (path, it)
    file.write_text(now)


def change(path: pathlib.Path, *pairs: tuple) -> None:
    now = path.read_text()
    for old, new in pairs:
        assert now.count(old) == 1, (path, now.count(old), old)
        now = now.replace(old, new)
    path.write_text(now)


def code() -> None:
    (NEW / "src/lib.rt").write_text("""//! The rows of which a memory is made: of words, of bits, of jobs and copiers, of what is stored. What a row says is a function, and each call
//! changes it at one place, or along one row.
#![tactic(auto)]

mod memory;
mod task;

pub use memory::bits::Bits;
pub use memory::jobs::Jobs;
pub use memory::stored::Stored;
pub use memory::stored_rows::StoredRows;
pub use memory::words::Words;
pub use task::Task;
""")
    (NEW / "src/memory.rt").write_text("//! The rows of a memory.\n\n" + "".join(f"pub(crate) mod {it};\n" for it in ROWS))
    event = OLD / "src/event.rt"
    now = event.read_text()
    at = now.index("/// A job that a copier has")
    end = now.index("/// What an event answers.")
    task = now[at:end].rstrip()
    event.write_text(now[:at] + now[end:])
    change(event, ("use far_word::{Job, Mark, Place};", "use far_word::{Mark, Place};"))
    (NEW / "src/task.rt").write_text("//! The job of a copier.\n\nuse far_word::Job;\n\n" + task + "\n")
    for file in sorted((NEW / "src/memory").rglob("*.rt")):
        now = file.read_text()
        now = re.sub(r"pub\(crate\) (fn|struct|ghost items)", r"pub \1", now)
        for field in ("bytes: Vec<u8>", "words: Vec<u64>,\n}", "read: Vec<Option<u64>>", "written: Vec<bool>", "row_of: Vec<Row>") :
            now = now.replace(f"pub(crate) {field}", f"pub {field}")
        now = now.replace("use crate::event::Task;", "use crate::task::Task;").replace("crate::specs::state::Memory::copying_of", "crate::specs::state::Copying::copying_of")
        now = now.replace("pub(crate) struct Row {", "pub struct Row {")
        file.write_text(now)
    change(OLD / "src/lib.rt", ("pub use event::{Event, Kind, Reply, Task};\n", "pub use event::{Event, Kind, Reply};\npub use far_rows::{StoredRows, Task};\n"), ("pub use memory::stored_rows::StoredRows;\n", ""))
    for file in sorted((OLD / "src").rglob("*.rt")):
        now = file.read_text()
        for module, name in (("bits", "Bits"), ("jobs", "Jobs"), ("stored", "Stored"), ("stored_rows", "StoredRows"), ("words", "Words")):
            now = now.replace(f"use crate::memory::{module}::{name};\n", f"use far_rows::{name};\n")
            now = re.sub(rf"^(pub\(crate\) )?mod {module};\n", "", now, flags=re.M) if file.name == "memory.rt" else now
        now = re.sub(r"use crate::event::\{([^}]*)\};", task_apart, now)
        now = now.replace("use crate::event::Task;\n", "use far_rows::Task;\n")
        names = sorted(re.findall(r"^use far_rows::(\w+);\n", now, re.M))
        if len(names) > 1:
            now = re.sub(r"^use far_rows::\w+;\n", "", now, flags=re.M)
            found = re.search(r"^use (crate|far_word|std)[^\n]*;\n(?!use crate)", now, re.M)
            now = now[: found.end()] + f"use far_rows::{{{', '.join(names)}}};\n" + now[found.end() :]
        file.write_text(now)


def task_apart(found) -> str:
    names = [it.strip() for it in found[1].split(",")]
    if "Task" not in names:
        return found[0]
    rest = [it for it in names if it != "Task"]
    one = rest[0] if len(rest) == 1 else "{" + ", ".join(rest) + "}"
    return f"use crate::event::{one};\nuse far_rows::Task;"


def listed() -> None:
    made = []
    for line in (ROOT / "crates.txt").read_text().split("\n"):
        crate = line.partition(":")[0].split(" ")[0]
        folder = CRATES / crate
        if crate == "far_events":
            made += ["far_rows: far_word byteorder", "far_events: far_word far_log far_rows"]
            continue
        if crate and folder.is_dir() and any("Rattle.far_rows." in it.read_text() for it in folder.rglob("*") if it.suffix in (".rt", ".antt") and "out" not in it.parts):
            line = line.replace(" far_events", " far_rows far_events", 1)
            if " far_rows" not in line:
                line = line.replace(" far_core", " far_rows far_core", 1)
            print(crate)
        made.append(line)
    (ROOT / "crates.txt").write_text("\n".join(made))
    programs, made = ROOT / "bench/programs", []
    for line in (programs / "crates.in").read_text().split("\n"):
        folder = programs / line.partition(":")[0].split(" ")[0]
        if line and folder.is_dir() and any("Rattle.far_rows." in it.read_text() for it in folder.rglob("*.in") if it.is_file()):
            line = line.replace(" far_core", " far_rows far_core", 1) if " far_events" not in line else line.replace(" far_events", " far_rows far_events", 1)
            print(folder.name)
        made.append(line)
    (programs / "crates.in").write_text("\n".join(made))


def main() -> None:
    move_whole()
    split()
    publish("proofs/Ends.antt", "no_jobs", "no_tasks", "no_copies")
    libs()
    code()
    for crate in sorted(CRATES.iterdir()):
        for file in sorted(crate.rglob("*")):
            if file.suffix in (".antt", ".rt") and "out" not in file.relative_to(crate).parts:
                rewrite(file)
    for file in sorted((ROOT / "bench/programs").rglob("*")):
        if file.name.endswith((".antt.in", ".rt.in")):
            rewrite(file)
    listed()


main()
