#!/usr/bin/env python3
"""Whether the pages are true of the repository: prints only what is wrong, and then ends with 1.

usage: pages.py [--readme] [PROGRAM]     PROGRAM: a built far_trace; without it crates/far_trace/out/far_trace

- A relative link leads to a file or folder that is there, and to a heading that is there.
- What stands in backquotes and looks like a file or folder of the repository is one; so is each path from crates/, docs/, scripts/, bench/ or .ci/ on.
- A name with an underscore in backquotes stands in some file of the repository that is no page, or is such a file's or folder's; but one of ABROAD,
  or one with a part of a single letter, which stands for others.
- A command after `$ ` in a block that calls far_trace, or draws, is run at the top: the lines beneath it are its output, all of them. The built
  program is run in the place of scripts/far_trace and scripts/try. A command that calls anything but PLAIN, or writes a file, isn't run.
- A row of a trace in backquotes, with ` / ` for a newline, gives the replies that stand after it, behind 'prints' or 'at last'.
- The pages, CONTRIBUTING.md and CHANGELOG.md not counted, have at most 28,000 words, a crate's page at most 70 lines. With --readme: README.md at most 130 lines and 1,400 words, and no line above
  200 characters outside blocks and the second rows of tables.
"""
import fnmatch
import os
import pathlib
import re
import shlex
import subprocess
import sys

TOP = pathlib.Path(__file__).resolve().parent.parent
MOST_WORDS, MOST_CRATE_LINES = 28_000, 70
README_LINES, README_WORDS, README_LINE = 130, 1_400, 200
PLAIN = {"printf", "echo", "cat", "head", "tail", "scripts/far_trace", "scripts/try", "scripts/draw"}
LINK = re.compile(r"\[[^\]]*\]\(([^)\s]+)\)")
SPAN = re.compile(r"`([^`\n]+)`")
NAME = re.compile(r"[A-Za-z]\w*_\w+")
FROM_TOP = re.compile(r"(?<![\w/.*-])(?:crates|docs|scripts|bench|\.ci)/[\w./*-]*[\w/*]")
NAMED = re.compile(r"[\w.*-]+(?:/[\w.*-]*)*")
SUFFIXES = (".rt", ".antt", ".md", ".py", ".sh", ".c", ".trace", ".svg", ".txt", ".edit", ".edits")
ROW = re.compile(r"`(heap [^`]*)`(?:,? and)?\s+prints\s+`([^`]*)`|`(heap [^`]*)`: at last\s+`([^`]*)`")
ABROAD = {"try_lock"}  # of std, called nowhere here
wrong = []


def fail(page: pathlib.Path, what: str) -> None:
    wrong.append(f"pages: {page.relative_to(TOP)}: {what}")


def parts(text: str) -> tuple:
    """The text outside fenced and indented blocks, and the blocks, each a list of lines."""
    prose, blocks, block, fence, blank = [], [], None, None, True
    for line in text.splitlines():
        mark = re.match(r"```|~~~", line)
        if fence:
            if mark and mark[0] == fence:
                fence, block = None, None
            else:
                block.append(line)
        elif mark:
            fence, block = mark[0], []
            blocks.append(block)
        elif line.startswith("    ") and (blank or block is not None):
            if block is None:
                block = []
                blocks.append(block)
            block.append(line[4:])
        else:
            block = None
            prose.append(line)
        blank = not line.strip()
    return "\n".join(prose), blocks


def headings(path: pathlib.Path) -> set:
    """The anchors of a page's headings."""
    found = set()
    for title in re.findall(r"^#+ +(.*?) *$", parts(path.read_text())[0], re.M):
        anchor = re.sub(r"[^\w\- ]", "", LINK.sub(lambda link: link[0][1 : link[0].index("]")], title).lower()).replace(" ", "-")
        again = 0
        while (anchor if not again else f"{anchor}-{again}") in found:
            again += 1
        found.add(anchor if not again else f"{anchor}-{again}")
    return found


def check_links(page: pathlib.Path, prose: str) -> None:
    for link in LINK.findall(SPAN.sub("", prose)):
        if re.match(r"[a-z]+:", link):
            continue
        path, _, anchor = link.partition("#")
        target = (page.parent / path).resolve() if path else page
        if not target.exists() or not target.is_relative_to(TOP):
            fail(page, f"the link {link} leads nowhere")
        elif anchor and (target.suffix != ".md" or anchor not in headings(target)):
            fail(page, f"the link {link} leads to no heading")


def tree() -> list:
    """All files and folders from the top on, but for git's own and what rt makes."""
    found = []
    for folder, below, files in os.walk(TOP):
        below[:] = [name for name in below if name not in (".git", "out")]
        found += [os.path.relpath(os.path.join(folder, name), TOP) for name in below + files]
    return found


def is_there(page: pathlib.Path, name: str, known: list) -> bool:
    """Whether a file or folder has this name, seen from the top or from the page, or from scripts/, or from any folder if it names one itself; else from
    those of the crate."""
    near = os.path.relpath(page.parent / name, TOP)
    inside = page.parent.relative_to(TOP).as_posix() if page.parent.parent.name == "crates" and "/" not in name else "*"
    return any(fnmatch.fnmatchcase(path, wanted) for wanted in (name, near, f"scripts/{name}", f"{inside}/{name}", f"{inside}/*/{name}") for path in known)


def is_made_or_meant(name: str) -> bool:
    """Whether a name is of what rt makes, of a folder above, or has a word in capitals in the place of a name."""
    return bool(re.search(r"(^|/)(out|\.\.)(/|$)", name)) or any(re.fullmatch(r"[A-Z_]{1,}", part) and part != "HANDLES" for part in re.split(r"[/.]", name) if part != "README")


def check_paths(page: pathlib.Path, prose: str, known: list) -> None:
    named = set(FROM_TOP.findall(prose))
    for span in SPAN.findall(prose):
        is_file = span.endswith(SUFFIXES) and span not in SUFFIXES
        if NAMED.fullmatch(span) and (is_file or span.endswith("/") or span == "HANDLES"):
            named.add(span)
    for name in sorted(named):
        if not is_made_or_meant(name) and not is_there(page, name.rstrip("/"), known) and not is_there(page, f"{name}.md", known):
            fail(page, f"{name} isn't there")


def names_in(known: list) -> set:
    """All names that stand in a file, a page excepted, or in a path."""
    found = {name for path in known for name in NAME.findall(path)}
    for path in known:
        if path.endswith((".rt", ".antt", ".py", ".sh", ".edit", ".edits")):
            found.update(NAME.findall((TOP / path).read_text()))
    return found


def check_names(page: pathlib.Path, prose: str, named: set) -> None:
    for name in sorted({name for span in SPAN.findall(prose) for name in NAME.findall(span)} - named - ABROAD):
        if all(len(part) != 1 for part in name.split("_")):
            fail(page, f"`{name}` stands nowhere else")


def may_run(command: str) -> bool:
    lexer = shlex.shlex(command, posix=True, punctuation_chars="|&;()<>")
    lexer.whitespace_split = True
    first, calls = True, []
    for word in lexer:
        if word in (">", ">>"):
            return False
        if first and not re.fullmatch(r"[()]+", word):
            calls.append(word)
        first = bool(re.fullmatch(r"[|&;()]+", word))
    return all(word in PLAIN for word in calls) and any("/" in word for word in calls)


def check_commands(page: pathlib.Path, block: list, program: str) -> None:
    starts = [i for i, line in enumerate(block) if line.startswith("$ ")] + [len(block)]
    for start, end in zip(starts, starts[1:]):
        command = block[start][2:]
        if not may_run(command):
            continue
        real = re.sub(r"scripts/draw +(\S+)", lambda call: f"scripts/draw {call[1]} {shlex.quote(program)}", command)
        real = re.sub(r"scripts/(?:far_trace|try)\b", lambda _: shlex.quote(program), real)
        ran = subprocess.run(["bash", "-c", real], cwd=TOP, stdout=subprocess.PIPE, stderr=subprocess.PIPE, text=True)
        shown = "\n".join(block[start + 1 : end]).rstrip()
        if shown and ran.stdout.rstrip() != shown or not shown and ran.returncode:
            fail(page, f"'{command}' gives (status {ran.returncode}):\n{ran.stdout}{ran.stderr}")


def check_rows(page: pathlib.Path, prose: str, program: str) -> None:
    for text, replies, last_text, last in ROW.findall(prose):
        words = [program, "split"] if replies.startswith("mutator ") else [program]
        given = (text or last_text).replace(" / ", "\n")
        told = subprocess.run(words, input=given, stdout=subprocess.PIPE, text=True).stdout.rstrip("\n").split("\n")
        if text and " / ".join(told) != replies or last and told[-1] != last:
            fail(page, f"`{text or last_text}` prints `{' / '.join(told)}`")


def check_readme(page: pathlib.Path) -> None:
    text = page.read_text()
    prose, _ = parts(text)
    lines, words = len(text.splitlines()), len(text.split())
    if lines > README_LINES or words > README_WORDS:
        fail(page, f"{lines} lines of {README_LINES}, {words} words of {README_WORDS}")
    for line in prose.splitlines():
        if len(line) > README_LINE and not re.fullmatch(r"[|:\- ]+", line):
            fail(page, f"a line of {len(line)} characters: {line[:60]}..")


def main() -> int:
    words = sys.argv[1:]
    if "--help" in words:
        print(__doc__.strip())
        return 0
    readme_too = "--readme" in words
    given = [word for word in words if word != "--readme"]
    program = str(pathlib.Path(given[0]).resolve()) if given else str(TOP / "crates/far_trace/out/far_trace")
    if not os.path.exists(program):
        sys.exit(f"pages: there is no {program}, by which traces in pages are run: `scripts/far_trace </dev/null` proves and builds it, or name another")
    pages = [TOP / "README.md", TOP / "bench/README.md", *sorted(TOP.glob("docs/*.md")), *sorted(TOP.glob("crates/*/README.md"))]
    others = [TOP / "CONTRIBUTING.md"]
    known = tree()
    named = names_in(known)
    for page in [*pages, *others]:
        text = page.read_text()
        prose, blocks = parts(text)
        check_links(page, prose)
        check_paths(page, prose, known)
        check_names(page, prose, named)
        check_rows(page, prose, program)
        for block in blocks:
            check_paths(page, "\n".join(block), known)
            check_commands(page, block, program)
        if page.parent.parent.name == "crates" and len(text.splitlines()) > MOST_CRATE_LINES:
            fail(page, f"{len(text.splitlines())} lines of {MOST_CRATE_LINES}")
    total = sum(len(page.read_text().split()) for page in pages)
    if total > MOST_WORDS:
        wrong.append(f"pages: {total} words in all, of {MOST_WORDS}")
    if readme_too:
        check_readme(TOP / "README.md")
    print("\n".join(wrong), file=sys.stderr, end="\n" if wrong else "")
    return int(bool(wrong))


if __name__ == "__main__":
    sys.exit(main())
