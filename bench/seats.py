#!/usr/bin/env python3
"""What a call of a seat, an owner's, a copier's or the book's, costs beside the same atomic operation on a bare table: instructions, by callgrind.

    bench/seats.py PROGRAM     PROGRAM: a built bench_far_table (bench/lay_out.sh)

Each work is done N and 2N times, so that the difference is N turns, without the start. A turn is a call through a table of methods and the loop
round it, the same for all works; within it the operation is inline. All is counted twice, and must come to the same. A scope is read_epoch, open and
close. A pin can't be made again before its scope is closed: what a scope with a pin costs more, and an empty turn, make its turn. Nor can a naming, by which
an object stays where it lies, before its owner has asked for a move and the book has seen that (`ask`): what the three cost more than those two, and an
empty turn, make its turn. The bare table lies in an Arc too, as threads share it.

A job is of 8 words, so copy_word is done 4 and 8 times. An offer, a claim, a finish and a collect are done once: what a run with one turn costs more than one
with none, and an empty turn for what the same of the empty work costs, make the turn. Before a collect the book sees that the job may be emptied (`await`):
what both cost more than that, and an empty turn, make its turn. A claim looks at each job before the one that is offered: what such a look costs is told below
the table. Beside a copier's calls and the book's offer stands the same work by hand, with the same answers (bench/programs/bench_far_table/src, by_hand.rt.in, offers.rt.in):
a word of a job is made of its parts or taken apart by shifts and masks, and stored, loaded or exchanged in the bare table.
"""
import re
import subprocess
import sys
import tempfile

TURNS = 10_000
POINTER, INDEX = 5, 3
WORDS = 8


def counted(program, work, turns, index=INDEX):
    """Instructions of a run."""
    with tempfile.TemporaryDirectory() as folder:
        run = subprocess.run(
            ["valgrind", "--tool=callgrind", f"--callgrind-out-file={folder}/out", program, work, str(turns), str(POINTER), str(index)],
            capture_output=True, text=True)
    if run.returncode != 0:
        sys.exit(f"seats: {work}: status {run.returncode}: {run.stderr[-400:]}")
    return int(re.search(r"Collected : (\d+)", run.stderr).group(1))


def a_turn(program, work, turns=TURNS):
    """Instructions of one turn."""
    more = counted(program, work, 2 * turns) - counted(program, work, turns)
    if more % turns:
        print(f"seats: {work}: {more} for {turns} turns isn't even", file=sys.stderr)
    return more / turns


def once(program, work, index=0):
    """Instructions by which a run with one turn exceeds one with none; of a job it is that with the number `index` which is offered."""
    return counted(program, work, 1, index) - counted(program, work, 0, index)


def measured(program):
    works = ["read_epoch", "scope", "pin", "place", "load", "store"]
    works += ["see", "mark", "clear", "get", "put", "ask", "name", "advance", "look", "see_job", "await"]
    works += ["empty"] + [f"bare_{step}" for step in ("load", "store", "or", "and", "exchange", "scope", "pin")]
    cost = {work: a_turn(program, work) for work in works}
    none = once(program, "empty")
    for work in ("copy_word", "bare_copy_word"):
        cost[work] = a_turn(program, work, WORDS // 2)
    for work in ("offer", "bare_offer", "claim", "bare_claim", "finish", "bare_finish", "collect"):
        cost[work] = once(program, work) - none + cost["empty"]
    for work in ("claim", "bare_claim"):
        cost[f"a look of {work}"] = (once(program, work, INDEX) - once(program, work)) / INDEX
    return cost


def main():
    if len(sys.argv) != 2:
        sys.exit(__doc__)
    program = sys.argv[1]
    cost = measured(program)
    again = measured(program)
    for work, turn in cost.items():
        if again[work] != turn:
            print(f"seats: {work}: {turn} and then {again[work]}", file=sys.stderr)
    empty = cost["empty"]
    rows = [
        ("read_epoch", cost["read_epoch"], cost["bare_load"]),
        ("read_epoch, open and close", cost["scope"], cost["bare_scope"]),
        ("pin, which tells whether it holds", cost["pin"] - cost["scope"] + empty, cost["bare_or"]),
        ("pin, which tells the place", cost["place"] - cost["scope"] + empty, cost["bare_or"]),
        ("read_epoch, open, pin and close", cost["pin"], cost["bare_pin"]),
        ("load", cost["load"], cost["bare_load"]),
        ("store", cost["store"], cost["bare_store"]),
        ("the book's see", cost["see"], cost["bare_load"]),
        ("mark", cost["mark"], cost["bare_or"]),
        ("clear", cost["clear"], cost["bare_and"]),
        ("get", cost["get"], cost["bare_load"]),
        ("put", cost["put"], cost["bare_store"]),
        ("name", cost["name"] - cost["ask"] + empty, cost["bare_exchange"]),
        ("advance", cost["advance"], cost["bare_exchange"]),
        ("look", cost["look"], cost["bare_load"]),
        ("offer", cost["offer"], cost["bare_offer"]),
        ("see_job", cost["see_job"], cost["bare_load"]),
        ("collect", cost["collect"] - cost["await"] + empty, cost["bare_exchange"]),
        ("a copier's claim of job 0", cost["claim"], cost["bare_claim"]),
        ("copy_word", cost["copy_word"], cost["bare_copy_word"]),
        ("finish", cost["finish"], cost["bare_finish"]),
    ]
    print(f"Instructions a turn, {TURNS:,} turns; an empty turn has {empty:g}:\n")
    print("| Turn | A seat's | Bare | Ratio |")
    print("|---|---|---|---|")
    for name, turn, bare in rows:
        print(f"| {name} | {turn:g} | {bare:g} | {turn / bare:.2f} |")
    print(f"\nA claim looks at a job that is empty: {cost['a look of claim']:g}; by hand: {cost['a look of bare_claim']:g}.")


if __name__ == "__main__":
    main()
