#!/usr/bin/env python3
"""Prints what a program may name of the crates that it uses, each with its comment and its contract, as a page.

usage: api.py [CRATE..] >FILE     as in api.py far_map far_policy; without one those of CRATES. scripts/vendor.py writes such a page beside what it copies
"""
import pathlib
import re
import sys

TOP = pathlib.Path(__file__).resolve().parent.parent
CRATES = ("far_pool", "far_map", "far_dict", "far_array", "far_large", "far_private", "far_heap", "far_file", "far_objects")
HEAD = """# What a program may call

Of each crate the types, calls and clauses that another crate sees, made from the sources by scripts/api.py. A name is imported from the crate
under whose heading it stands: `use far_map::Map;`. `ensures` says what holds after a call, `requires` what has to hold before it; `OnOk`,
`OnErr`, `IfOk`, `IfErr` begin what is said of one outcome, `x.old` and `x.new` are a value before and after. How to read a contract: docs/PROVED.md.
"""
TYPE = re.compile(r"pub (?:struct|enum|trait|const|type) (\w+)")
CALL = re.compile(r"(?:pub )?(?:const )?fn (\w+)")
BLOCK = re.compile(r"(?:impl|pub trait)\b")


def exported(crate: pathlib.Path) -> list:
    """The names that the crate's root makes public, in its order."""
    root = (crate / "src" / "lib.rt").read_text()
    uses = re.findall(r"pub use (?:[\w:]+::)(\{[^}]*\}|\w+);", root)
    return [name.split(" as ")[-1].strip() for names in uses for name in names.strip("{}").split(",") if name.strip()]


def subject(header: str) -> str:
    """The type whose calls a block has; nothing where it is a trait's implementation."""
    text = header
    while (shorter := re.sub(r"<[^<>]*>", "", text)) != text:
        text = shorter
    words = text.replace("{", " ").split()
    return "" if "for" in words else words[2] if words[0] == "pub" else words[1]


def head_of(lines: list, at: int) -> list:
    """An item's lines from its first to the one that its body follows."""
    taken = []
    for line in lines[at:]:
        if line.strip() in ("{", "}", "{}"):
            break
        taken.append(line)
        if line.rstrip().endswith((";", "{}")) or (len(taken) == 1 and line.rstrip().endswith("{")):
            break
    return taken


def fields(lines: list, at: int) -> list:
    """A type's lines to its end, without what is private."""
    taken = [lines[at]]
    if " trait " in lines[at]:
        return [lines[at].rstrip(" {") + " { .. }"]
    if not lines[at].rstrip().endswith("{"):
        return taken
    is_enum, comment = " enum " in lines[at], []
    for line in lines[at + 1 :]:
        if line == "}":
            return [*taken, line] if len(taken) > 1 else [lines[at].rstrip(" {") + " { .. }"]
        if line.strip().startswith("///"):
            comment.append(line)
        elif is_enum or line.strip().startswith("pub "):
            taken, comment = [*taken, *comment, line], []
        else:
            comment = []
    return taken


def items(path: pathlib.Path) -> list:
    """What a file makes public: of what, its name, its lines, its comment."""
    lines, found, comment, block, in_trait = path.read_text().splitlines(), [], [], None, False
    for at, line in enumerate(lines):
        word = line.strip()
        if word.startswith("///"):
            comment.append(word[3:].strip())
            continue
        if BLOCK.match(line):
            block, in_trait = subject(line), line.startswith("pub trait")
        elif line == "}":
            block = None
        if (it := TYPE.match(line)) and not line.startswith("pub(crate)"):
            found.append((it[1], "", fields(lines, at), comment))
        elif (it := CALL.match(word)) and (word.startswith("pub ") or (block and in_trait and comment)):
            depth = len(line) - len(line.lstrip())
            if depth == 0 or block:
                found.append((block if depth else it[1], it[1] if depth else "", [row[depth:] for row in head_of(lines, at)], comment))
        if not word.startswith(("#[", "//")):
            comment = []
    return found


def section(crate: pathlib.Path) -> str:
    """The page's part for one crate."""
    of = {name: [] for name in exported(crate)}
    for path in sorted(crate.glob("src/**/*.rt")):
        for name, call, head, comment in items(path):
            if name in of:
                of[name].append((call, head, comment))
    text = f"\n## {crate.name}\n\nIts page: crates/{crate.name}/README.md.\n"
    for name, rows in ((name, rows) for name, rows in of.items() if rows):
        rows.sort(key=lambda row: row[0] != "")
        text += f"\n### {name}\n"
        for _, head, comment in rows:
            head[-1] = re.sub(r" \{$", "", head[-1].rstrip())
            text += ("\n" + "\n".join(comment) + "\n" if comment else "") + "\n```rust\n" + "\n".join(head) + "\n```\n"
    return text


def page(crates: list) -> str:
    """What may be called of these crates."""
    return HEAD + "".join(section(TOP / "crates" / name) for name in crates)


def main() -> int:
    if "--help" in sys.argv:
        print(__doc__.strip())
        return 0
    unknown = [name for name in sys.argv[1:] if not (TOP / "crates" / name / "src" / "lib.rt").exists()]
    if unknown:
        print(f"api: no library here is named {', '.join(unknown)}", file=sys.stderr)
        return 2
    print(page(sys.argv[1:] or CRATES), end="")
    return 0


if __name__ == "__main__":
    sys.exit(main())
