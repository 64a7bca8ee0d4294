#!/usr/bin/env python3
"""Takes what needs no memory out of crates/far_events, into crates/far_forms below it: events, replies, shapes, forms of naming, and what a word says by
itself. usage: 4_forms.py ROOT (after 3_more_edits.py)

It moves files, functions and definitions by the lists below, and rewrites each `use` of a path that moved in all crates, name by name. It is to be run on
a clean tree.
"""
import pathlib
import re
import sys

ROOT = pathlib.Path(sys.argv[1]).resolve()
CRATES = ROOT / "crates"
OLD, NEW = CRATES / "far_events", CRATES / "far_forms"
# ---- functions by the file that they go to, and what that says at its head
FUNCTIONS = {
    "cells": ("//! What a pointer's word says.", ["place_to_view", "near_len", "in_use", "is_near", "names_place", "is_marked_among", "words_stored", "made_word"]),
    "job_words": ("//! What a job's word says.", ["job_in", "is_copied_at", "offered_in", "is_loose", "says_copied"]),
    "places": ("//! Of places, logs and other words.", ["place_in", "first_word", "is_place", "goes_at", "is_past", "is_sealed", "is_among", "shows_clear", "is_request", "keeps_padding"]),
}
# ---- definitions, in the order of what they need: the file that they go to
SPLIT = [
    ("specs/state/State.antt", "specs/Places.antt", ["addr"]),
    ("specs/state/Memory.antt", "specs/Places.antt", ["place_in"]),
    ("specs/events/Copied.antt", "specs/Places.antt", ["is_place"]),
    ("specs/events/NewSpans.antt", "specs/Places.antt", ["goes_at"]),
    ("specs/events/Put.antt", "specs/Places.antt", ["is_past"]),
    ("specs/events/Mark.antt", "specs/Places.antt", ["is_sealed"]),
    ("specs/events/Advance.antt", "specs/Places.antt", ["is_among"]),
    ("specs/events/Look.antt", "specs/Places.antt", ["shows_clear"]),
    ("specs/events/Ask.antt", "specs/Places.antt", ["is_request"]),
    ("specs/events/Owners.antt", "specs/Places.antt", ["keeps_padding"]),
    ("specs/events/Naming.antt", "specs/Namings.antt", ["unmarked", "is_unmarked", "is_dropped", "is_kept", "is_stay", "near_form", "naming_of", "IsNaming", "IsOnLayout"]),
    ("specs/state/Law.antt", "specs/Cells.antt", ["in_use"]),
    ("specs/events/Owners.antt", "specs/Cells.antt", ["near_len"]),
    ("specs/events/Pin.antt", "specs/Cells.antt", ["place_to_view"]),
    ("specs/events/Clear.antt", "specs/Cells.antt", ["is_near"]),
    ("specs/state/Spans.antt", "specs/Cells.antt", ["names_place"]),
    ("specs/events/Advance.antt", "specs/Cells.antt", ["is_marked_among"]),
    ("specs/events/namings/Fetches.antt", "specs/Cells.antt", ["words_stored"]),
    ("specs/events/NewObjects.antt", "specs/Cells.antt", ["made_word"]),
    ("specs/state/Jobs.antt", "specs/JobWords.antt", ["job_said"]),
    ("specs/events/Get.antt", "specs/JobWords.antt", ["is_copied_at"]),
    ("specs/events/Claim.antt", "specs/JobWords.antt", ["offered_in"]),
    ("specs/events/Collect.antt", "specs/JobWords.antt", ["is_loose"]),
    ("specs/events/Copied.antt", "specs/JobWords.antt", ["says_copied"]),
    ("proofs/Bounds.antt", "proofs/Shifts.antt", ["shifted_out", "all_fit"]),
]
HEADS = {
    "specs/Places.antt": "-- Of places, logs and other words.",
    "specs/Namings.antt": "-- The forms of a naming, by what the old and the new word say.",
    "specs/Cells.antt": "-- What a pointer's word says.",
    "specs/JobWords.antt": "-- What a job's word says.",
    "proofs/Shifts.antt": "-- Words that are shifted out.",
}
TYPES = {"Event": "event", "Kind": "event", "Reply": "event", "Naming": "naming", "Shape": "shape"}

USE = re.compile(r"^(\s*)((?:pub )?(?:ghost )?use )(Rattle\.[\w.\-]+|mathlib\.[\w.\-]+|[\w.\-]+)\.\{(.*)\}(;?)\s*$")
USE_AS = re.compile(r"^(\s*)((?:pub )?(?:ghost )?use )([\w.\-#]+)( as [^\s;]+)?(;?)\s*$")
WORDS = ("abbrev", "unfoldable", "pub", "record", "data")


def paragraphs(text: str) -> tuple:
    """The head (first comment lines), the uses, and the paragraphs at column 0, each with the comments above it."""
    lines = text.rstrip("\n").split("\n")
    head, uses, i = [], [], 0
    while i < len(lines) and lines[i].startswith("--"):
        head.append(lines[i]); i += 1
    while i < len(lines) and (not lines[i].strip() or re.match(r"(pub )?use ", lines[i])):
        if lines[i].strip():
            uses.append(lines[i])
        i += 1
    found, now = [], []
    for line in lines[i:]:
        if line.strip() and not line[0].isspace() and now and not now[-1].strip():
            found.append(now); now = []
        now.append(line)
    if now:
        found.append(now)
    return head, uses, ["\n".join(it).rstrip() for it in found]


def names_of(paragraph: str) -> list:
    """What a paragraph declares: itself, and what stands in it if it is a module, and constructors."""
    found = []
    module = any(re.match(r"(pub )?module ", line) for line in paragraph.split("\n"))
    data = False
    for line in paragraph.split("\n"):
        if line.startswith("--") or line.strip().startswith("--"):
            continue
        bare = line.strip()
        deep = len(line) - len(line.lstrip())
        if deep == 0 or (module and deep in (2, 4)) or (data and deep == 2):
            words = bare.split()
            k = 0
            while k < len(words) and words[k] in WORDS:
                k += 1
            if deep == 0 and "data" in words[:k]:
                data = True
            if k < len(words) and words[k] not in ("module", "unfolding") and words[k][0] not in "({" and " :" in bare:
                found.append(words[k])
    return list(dict.fromkeys(found))


def used(name: str, text: str) -> bool:
    """Whether a name that is imported is used in a text."""
    name = name.split(" as ")[-1].strip()
    for part in [it for it in name.split("◌") if it]:
        if not re.search(r"(?<![\w\-'◌])" + re.escape(part) + r"(?![\w\-'◌])", text) if re.match(r"[\w]", part) else part not in text:
            return False
    return True


def kept_uses(uses: list, text: str) -> list:
    found, text = [], "\n".join(line for line in text.split("\n") if not line.strip().startswith("--"))
    for line in uses:
        m = USE.match(line)
        if m:
            names = [it.strip() for it in m[4].split(",")]
            mine = [it for it in names if used(it, text)]
            if mine:
                found.append(f"{m[2]}{m[3]}.{{{', '.join(mine)}}}")
            continue
        m = USE_AS.match(line)
        short = (m[4] or m[3].split(".")[-1]).replace(" as ", "").strip()
        if short + "." in text:
            found.append(line)
    return found


def dotted(path: str) -> str:
    """specs/events/Pin.antt -> specs.events.Pin"""
    return path.removesuffix(".antt").replace("/", ".")


HOME = {}      # a module of far_events that moved whole -> its new path
NAMED = {("specs.events.Naming", "no_marks"): "Rattle.far_word.specs.Rows"}     # (a module of far_events, a name) -> its new module


def move(path: str, to: str = "") -> None:
    target = NEW / (to or path)
    target.parent.mkdir(parents=True, exist_ok=True)
    (OLD / path).rename(target)
    if path.endswith(".antt"):
        HOME[dotted(path)] = "Rattle.far_forms." + dotted(to or path)


def move_whole() -> None:
    for name in ("event", "naming", "shape"):
        move(f"src/{name}.rt")
    for it in sorted((OLD / "proofs/naming").rglob("*.antt")):
        move(str(it.relative_to(OLD)))
    for it in sorted((OLD / "proofs/memory/owner/keeps_padding").rglob("*.antt")):
        path = str(it.relative_to(OLD))
        move(path, path.replace("memory/owner", "places"))
    move("specs/state/Shape.antt", "specs/Shapes.antt")
    move("proofs/Namings.antt", "proofs/NamingForms.antt")


def split() -> None:
    for path, target, names in SPLIT:
        file = OLD / path
        head, uses, all_of = paragraphs(file.read_text())
        chosen = [it for it in all_of if set(names) & set(names_of(it))]
        missing = set(names) - {n for it in chosen for n in names_of(it)}
        if missing:
            print(f"split: {path} has no {', '.join(sorted(missing))}")
        rest = [it for it in all_of if it not in chosen]
        for name in [n for it in chosen for n in names_of(it)]:
            NAMED[(dotted(path), name)] = "Rattle.far_forms." + dotted(target)
        body = "\n\n".join(chosen)
        # what it takes from what went before it out of the same file
        mine = kept_uses(uses + [f"use {home}.{{{name}}}" for (module, name), home in NAMED.items() if module == dotted(path) and name not in names and home.startswith("Rattle.far_forms.")], body)
        mine = [it.removeprefix("pub ").replace("Rattle.far_word.specs.declared.pointer.PtrWord.TheVariants.{Free}", "") if target == "specs/Places.antt" else it.removeprefix("pub ") for it in mine]
        mine = [it for it in mine if not it.startswith("use ") or "." in it]
        mine = [it for it in mine if not (target == "specs/Cells.antt" and "event.Kind" in it)]
        there = NEW / target
        if there.exists():
            old_head, old_uses, old = paragraphs(there.read_text())
            there.write_text("\n".join(old_head + list(dict.fromkeys(old_uses + mine))) + "\n\n" + "\n\n".join(old + chosen) + "\n")
        else:
            there.parent.mkdir(parents=True, exist_ok=True)
            there.write_text("\n".join([HEADS[target], *mine]) + "\n\n" + body + "\n")
        text = "\n\n".join(rest)
        needs = [n for n in names if used(n, "\n".join(line for line in text.split("\n") if not line.strip().startswith("--")))]
        given = [it for it in uses if it.startswith("pub use ") and "no_marks" not in it]
        left = list(dict.fromkeys(given + kept_uses([it for it in uses if it not in given], text))) + ([f"use Rattle.far_events.{dotted(path)}.{{{', '.join(needs)}}}"] if needs else [])
        if "no_marks" in "\n".join(uses) and used("no_marks", text):
            left = [it.replace("pub use Rattle.far_word.specs.Rows", "use Rattle.far_word.specs.Rows") for it in left]
        file.write_text("\n".join(head + left) + "\n\n" + text + "\n")


HANDED_ON = {}  # (a module of far_events, a name that it hands on) -> the module that has it
for it in sorted((OLD / "specs").rglob("*.antt")):
    for line in it.read_text().splitlines():
        m = re.match(r"pub use Rattle\.far_events\.([\w.]+)\.\{(.*)\}", line)
        for name in m[2].split(",") if m else ():
            HANDED_ON[(dotted(str(it.relative_to(OLD))), name.strip())] = m[1]


def new_module(module: str, name: str, here: str) -> str:
    """Where a name stands that far_events' `module` had."""
    if (HANDED_ON.get((module, name)), name) in NAMED:
        return NAMED[(HANDED_ON[(module, name)], name)]
    if (module, name) in NAMED:
        return NAMED[(module, name)]
    if module in HOME:
        return HOME[module]
    for top in ("specs.declared.event", "specs.declared.naming", "specs.declared.shape", "proofs.naming", "specs.contracts.naming"):
        if module == top or module.startswith(top + "."):
            return "Rattle.far_forms." + module
    if module.startswith("proofs.memory.owner.keeps_padding"):
        return "Rattle.far_forms." + module.replace("memory.owner", "places")
    return "Rattle.far_events." + module


def rewrite(file: pathlib.Path) -> None:
    text = file.read_text()
    if "Rattle.far_events." not in text:
        return
    made = []
    for line in text.split("\n"):
        m = USE.match(line)
        if m and m[3].startswith("Rattle.far_events."):
            module, homes = m[3].removeprefix("Rattle.far_events."), {}
            for name in [it.strip() for it in m[4].split(",")]:
                homes.setdefault(new_module(module, name.split(" as ")[0], str(file)), []).append(name)
            made += [f"{m[1]}{m[2]}{home}.{{{', '.join(names)}}}{m[5]}" for home, names in homes.items()]
            continue
        m = USE_AS.match(line)
        if m and m[3].startswith("Rattle.far_events."):
            module = m[3].removeprefix("Rattle.far_events.")
            made.append(f"{m[1]}{m[2]}{new_module(module, '', str(file))}{m[4] or ''}{m[5]}")
            continue
        made.append(line)
    mine = "Rattle." + str(file.relative_to(CRATES).with_suffix("")).replace("/", ".") if file.is_relative_to(CRATES) else ""
    made, at, lines = [], {}, made
    for line in lines:
        m = USE.match(line)
        if m and not m[1] and m[3].startswith("Rattle."):
            if m[3] == mine:
                continue
            key = (m[2], m[3])
            if key in at:
                first = USE.match(made[at[key]])
                names = [it.strip() for it in first[4].split(",")]
                names += [it.strip() for it in m[4].split(",") if it.strip() not in names]
                made[at[key]] = f"{m[2]}{m[3]}.{{{', '.join(names)}}}{m[5]}"
                continue
            at[key] = len(made)
        made.append(line)
    new = "\n".join(made)
    if new != text:
        file.write_text(new)


def function(text: str, name: str):
    """Where a function at column 0 stands, with the comments above it."""
    return re.search(rf"^(?:(?:///|#\[)[^\n]*\n)*(?:pub(?:\(crate\))? )?fn {name}\(.*?^\}}\n", text, re.M | re.S)


def code() -> None:
    ghosts = {}
    for file in sorted((OLD / "src").rglob("*.rt")):
        for line in file.read_text().split("\n"):
            m = USE.match(line)
            if m and m[2] == "ghost use " and not m[1]:
                for name in m[4].split(","):
                    ghosts.setdefault(name.strip(), m[3])
    moved = {name: module for module, (_, names) in FUNCTIONS.items() for name in names}
    for module, (head, names) in FUNCTIONS.items():
        bodies = []
        for name in names:
            for file in sorted((OLD / "src").rglob("*.rt")):
                text = file.read_text()
                m = function(text, name)
                if m:
                    bodies.append(re.sub(r"^(pub(\(crate\))? )?fn ", "pub fn ", m[0], count=1, flags=re.M))
                    file.write_text((text[: m.start()].rstrip("\n") + "\n\n" + text[m.end() :].lstrip("\n")).rstrip("\n") + "\n")
                    break
            else:
                print("no function", name)
        body = "\n".join(bodies)
        clauses = "\n".join(line for line in body.split("\n") if re.match(r"\s+(requires|ensures)", line))
        homes = {}
        for name, home in ghosts.items():
            if used(name, clauses):
                homes.setdefault(home, []).append(name)
        plain = "\n".join(line for line in body.split("\n") if not re.match(r"\s+(requires|ensures)|///", line))
        words = sorted(it for it in ("Job", "JobWord", "HeadWord", "Mark", "Marks", "Place", "PtrWord", "ScopeWord", "LOG_WORDS", "MOST_LOGS", "resting_place", "words_for") if re.search(rf"\b{it}\b", plain))
        others = sorted(it for it in moved if moved[it] != module and re.search(rf"\b{it}\(", plain))
        own = [f"use crate::event::Kind;"] if re.search(r"\bKind\b", plain) else []
        own += [f"use crate::{moved[it]}::{it};" for it in others]
        text = head + "\n\n" + "".join(f"ghost use {home}.{{{', '.join(names)}}};\n" for home, names in homes.items()) + "\n" + "\n".join(own + [f"use far_word::{{{', '.join(words)}}};"]) + "\n\n" + body
        (NEW / f"src/{module}.rt").write_text(text)
    (NEW / "src/lib.rt").write_text("""//! What needs no memory: events, replies, shapes and forms of naming as plain data, and what a word says by itself.
#![tactic(auto)]

mod cells;
mod event;
mod job_words;
mod naming;
mod places;
mod shape;

""" + "".join(f"pub use {module}::{{{', '.join(sorted(names))}}};\n" for module, (_, names) in sorted(FUNCTIONS.items())) + """pub use event::{Event, Kind, Reply};
pub use naming::Naming;
pub use shape::Shape;
""")
    lib = OLD / "src/lib.rt"
    now = lib.read_text()
    for line in ("mod event;\n", "mod naming;\n", "mod shape;\n", "pub use event::{Event, Kind, Reply};\n", "pub use memory::reading::first_word;\n", "pub use naming::Naming;\n", "pub use shape::Shape;\n"):
        assert line in now, line
        now = now.replace(line, "")
    now = now.replace("pub use far_rows::", "pub use far_forms::{Event, Kind, Naming, Reply, Shape, first_word, in_use, names_place};\npub use far_rows::").replace("pub use memory::{Memory, in_use, names_place};", "pub use memory::Memory;")
    lib.write_text(now)
    memory = OLD / "src/memory.rt"
    memory.write_text(memory.read_text().replace("pub use book::names_place;\n", "").replace("pub use reading::in_use;\n", ""))
    for file in sorted((OLD / "src").rglob("*.rt")):
        if file.name == "lib.rt":
            continue
        now = file.read_text()
        wanted = set()

        def keep(m) -> str:
            names = [it.strip() for it in (m[2] if m[2] is not None else m[3]).split(",")]
            stay = [it for it in names if it not in moved and it not in TYPES]
            if not stay:
                return ""
            return f"use crate::{m[1]}::" + (stay[0] if len(stay) == 1 else "{" + ", ".join(stay) + "}") + ";\n"

        now = re.sub(r"^use crate::([\w:]+)::(?:\{([^}]*)\}|(\w+));\n", keep, now, flags=re.M)
        plain = "\n".join(line for line in now.split("\n") if not re.match(r"\s*(requires|ensures|ghost|//)", line))
        wanted |= {it for it in moved if re.search(rf"(?<![\w.])(?<!fn ){it}\(", plain)}
        wanted |= {it for it in TYPES if re.search(rf"\b{it}\b", plain)}
        if wanted:
            line = f"use far_forms::{{{', '.join(sorted(wanted))}}};\n"
            at = [m.end() for m in re.finditer(r"^use crate[^\n]*;\n", now, re.M)]
            at = at[-1] if at else re.search(r"^use ", now, re.M).start()
            now = now[:at] + line + now[at:]
        body = "\n".join(it for it in now.split("\n") if not it.startswith("ghost use"))
        lines = []
        for it in now.split("\n"):
            m = USE.match(it)
            if m and m[2] == "ghost use " and not m[1]:
                names = [n.strip() for n in m[4].split(",") if used(n.strip(), body)]
                if not names:
                    continue
                it = f"ghost use {m[3]}.{{{', '.join(names)}}};"
            m = re.match(r"use far_word::\{([^}]*)\};$", it)
            if m:
                rest = "\n".join(x for x in body.split("\n") if not x.startswith("use ") and not re.match(r"\s*(requires|ensures|ghost|//)", x))
                names = [n.strip() for n in m[1].split(",") if re.search(rf"\b{n.strip()}\b", rest)]
                if not names:
                    continue
                it = f"use far_word::{{{', '.join(names)}}};"
            lines.append(it)
        # a clause may have had a name by code alone
        clauses = "\n".join(it for it in body.split("\n") if re.match(r"\s*(requires|ensures)", it))
        brought = " ".join(m[0] for m in re.finditer(r"^(?:ghost )?use [^;]*;", "\n".join(lines), re.M))
        for name, home in (("LOG_WORDS", "sizes.TheConstants"), ("CELLS", "sizes.TheConstants"), ("PtrWord", "pointer.PtrWord")):
            if re.search(rf"(?<![\w.]){name}\b", clauses) and not re.search(rf"\b{name}[,}}]", brought):
                at = [i for i, it in enumerate(lines) if it.startswith("ghost use")][-1]
                lines.insert(at + 1, f"ghost use Rattle.far_word.specs.declared.{home}.{{{name}}};")
        file.write_text("\n".join(lines))


def libs() -> None:
    for folder in sorted((it for it in OLD.rglob("*") if it.is_dir()), reverse=True):
        if not any(folder.iterdir()):
            folder.rmdir()
    (NEW / "specs/Lib.antt").write_text("".join(f"pub mod {it}\n" for it in ("Cells", "JobWords", "Namings", "Places", "Shapes")))
    for crate in (NEW, OLD):
        for folder in ("specs/events", "specs/state", "proofs/events"):
            if (crate / folder).is_dir():
                names = sorted({it.stem for it in (crate / folder).iterdir() if it.suffix == ".antt"})
                (crate / (folder + ".antt")).write_text("\n".join(f"pub mod {it}" for it in names) + "\n")
        tops = sorted(it.stem for it in (crate / "proofs").iterdir() if it.suffix == ".antt" and it.stem != "Lib")
        (crate / "proofs/Lib.antt").write_text("\n".join(f"pub mod {it}" for it in sorted(tops, key=lambda n: (n[0].islower(), n))) + "\n")


def listed() -> None:
    made = []
    for line in (ROOT / "crates.txt").read_text().split("\n"):
        crate = line.partition(":")[0].split(" ")[0]
        folder = CRATES / crate
        if crate == "far_events":
            made += ["far_forms: far_word", line.replace(" far_rows", " far_rows far_forms", 1)]
            continue
        if crate and folder.is_dir() and any("Rattle.far_forms." in it.read_text() for it in folder.rglob("*") if it.suffix in (".rt", ".antt") and "out" not in it.parts):
            for it in (" far_events", " far_core"):
                if " far_forms" not in line:
                    line = line.replace(it, " far_forms" + it, 1)
            print(crate)
        made.append(line)
    (ROOT / "crates.txt").write_text("\n".join(made))
    programs, made = ROOT / "bench/programs", []
    for line in (programs / "crates.in").read_text().split("\n"):
        folder = programs / line.partition(":")[0].split(" ")[0]
        if line and folder.is_dir() and any("Rattle.far_forms." in it.read_text() for it in folder.rglob("*.in") if it.is_file()):
            for it in (" far_events", " far_core"):
                if " far_forms" not in line:
                    line = line.replace(it, " far_forms" + it, 1)
            print(folder.name)
        made.append(line)
    (programs / "crates.in").write_text("\n".join(made))


def main() -> None:
    move_whole()
    split()
    libs()
    code()
    for crate in sorted(CRATES.iterdir()):
        for file in sorted(crate.rglob("*")):
            if file.suffix in (".antt", ".rt") and "out" not in file.relative_to(crate).parts:
                rewrite(file)
    for file in sorted((ROOT / "bench/programs").rglob("*")):
        if file.name.endswith((".antt.in", ".rt.in")):
            rewrite(file)
    listed()


main()
