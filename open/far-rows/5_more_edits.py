#!/usr/bin/env python3
"""Wrong edits of what became public in far_forms. usage: 5_more_edits.py ROOT (after 4_forms.py and 2_edits.py)"""
import pathlib
import sys

ROOT = pathlib.Path(sys.argv[1]).resolve()
EDITS = {
    "cells": [
        ("the_length_of_a_far_cell_is_said", "PtrWord::Near { len, .. } => len,", "PtrWord::Near { len, .. } => len / 2,"),
        ("what_is_far_is_near", "matches!(PtrWord::known(cell), PtrWord::Near { .. })", "!matches!(PtrWord::known(cell), PtrWord::Free)"),
        ("a_cell_in_a_set_may_lack_evac", "PtrWord::Near { place, marks, .. } => !is_among(logs, place.log) || marks.evac,", "PtrWord::Near { place, marks, .. } => !is_among(logs, place.log) || marks.evac || marks.dropped,"),
        ("a_made_word_is_clean", "dirty: true,", "dirty: false,"),
    ],
    "job_words": [
        ("a_job_is_said_to_stay_where_it_goes", "        ) => Some(job),", "        ) => Some(Job { pointer: job.pointer, from: job.to, to: job.to }),"),
    ],
    "places": [
        ("a_numbers_place_is_in_the_first_log", "log: (number / LOG_WORDS) as u8,", "log: (number / LOG_WORDS) as u8 / 2,"),
        ("places_in_one_log_are_one", "one.log == other.log && one.at == other.at", "one.log == other.log && (one.at == other.at || one.at == 0)"),
        ("a_sealed_log_takes_spans", "Kind::Sealed => true,", "Kind::Sealed => false,"),
        ("a_log_past_the_last_is_in_a_set", "log < MOST_LOGS && (logs >> log) & 1 == 1", "log < MOST_LOGS && (logs >> log) & 1 == 1 || log == 63"),
        ("padding_of_a_whole_word_is_lost", "left >= 8 || word >> (8 * left) == 0", "left >= 7 || word >> (8 * left) == 0"),
    ],
}

for name, edits in EDITS.items():
    file = f"src/{name}.rt"
    source = (ROOT / "crates/far_forms" / file).read_text()
    shelf = ROOT / f"crates/far_forms/planted/{name}.edits"
    found = {}
    for text in ("\n" + shelf.read_text() if shelf.exists() else "").split("\nedit: ")[1:]:
        found[text.split("\n", 1)[0]] = "edit: " + text.strip("\n") + "\n"
    for edit, old, new in edits:
        if source.count(old) != 1 or edit in found:
            print("not made:", edit, source.count(old))
            continue
        found[edit] = f"edit: {edit}\nfile: {file}\nold: {old}\nnew: {new}\n"
    shelf.write_text("\n".join(found[edit] for edit in sorted(found)))
