#!/usr/bin/env python3
"""Wrong edits of what became public in far_rows. usage: 3_more_edits.py ROOT (after 2_edits.py)"""
import pathlib
import sys

ROOT = pathlib.Path(sys.argv[1]).resolve()
EDITS = {
    "bits": [
        ("half_the_bits_have_room", "words: vec![in alloc; 0; words]?,", "words: vec![in alloc; 0; words / 2]?,"),
        ("a_bit_is_that_of_the_next_word", "let found = self.word_at(bit / 64);", "let found = self.word_at(bit / 64 + 1);"),
    ],
    "jobs.rows": [
        ("rows_say_copiers_never", "        self.has_copiers\n", "        self.has_copiers && false\n"),
        ("a_jobs_word_is_another_jobs", "self.words.get(job as usize).copied().unwrap_or(0)", "self.words.get(job as usize / 2).copied().unwrap_or(0)"),
        ("a_jobs_word_is_set_to_half", "self.words[job as usize] = word;", "self.words[job as usize] = word / 2;"),
        ("a_job_is_of_the_round_before", "self.since.get(job as usize).copied().unwrap_or(0)", "self.since.get(job as usize).copied().unwrap_or(0) / 2"),
        ("a_jobs_round_is_set_for_another", "self.since[job as usize] = epoch;", "self.since[job as usize / 2] = epoch;"),
        ("a_job_is_always_named", "self.named[job as usize] = named;", "self.named[job as usize] = named || true;"),
        ("a_copier_has_no_task", "self.tasks[copier as usize].is_some()", "self.tasks[copier as usize].is_some() && false"),
        ("a_task_is_another_copiers", "self.tasks.get(copier as usize).copied().flatten()", "self.tasks.get(copier as usize / 2).copied().flatten()"),
        ("what_was_not_written_was", ".unwrap_or(false)", ".unwrap_or(true)"),
        ("a_word_past_a_log_was_read", "if index >= LOG_WORDS {", "if index > LOG_WORDS {"),
        ("rows_of_words_written_stay_short", "        self.reach_written(copier);\n", "        self.reach_read(copier);\n"),
        ("no_word_is_noted_as_read", "self.read[copier as usize * LOG_WORDS as usize + index as usize] = word;", "let _word = word; self.read[copier as usize * LOG_WORDS as usize + index as usize] = None;"),
        ("no_word_is_noted_as_written", "self.written[copier as usize * LOG_WORDS as usize + index as usize] = true;", "self.written[copier as usize * LOG_WORDS as usize + index as usize] = false;"),
        ("a_task_is_taken_away", "self.tasks[copier as usize] = task;", "let _task = task; self.tasks[copier as usize] = None;"),
        ("a_length_is_taken_away", "self.lengths[copier as usize] = length;", "let _length = length; self.lengths[copier as usize] = None;"),
    ],
    "stored_rows": [
        ("a_row_is_written_past_its_room", "if count <= self.row(pointer).room {", "if count <= self.row(pointer).room + 1 {"),
    ],
    "words": [
        ("half_the_words_have_room", "bytes: zero_bytes(alloc, 8 * count)?,", "bytes: zero_bytes(alloc, 4 * count)?,"),
        ("bytes_are_read_from_the_first_on", "bytes.copy_from_slice(&self.bytes[from..from + bytes.len()]);", "bytes.copy_from_slice(&self.bytes[..bytes.len()]);"),
        ("bytes_are_written_from_the_first_on", "self.bytes[from..from + bytes.len()].copy_from_slice(bytes);", "self.bytes[..bytes.len()].copy_from_slice(bytes);"),
        ("words_are_put_from_the_first_on", "self.bytes[8 * from..8 * (from + count)].copy_from_slice(bytes);", "self.bytes[..8 * count].copy_from_slice(bytes);"),
        ("many_words_are_carried_back", "self.carry_many(source, target, count);", "self.carry_many(target, source, count);"),
        ("words_are_loaded_from_the_first_on", "pack_bytes(&self.bytes[8 * from..8 * (from + words.len())], words);", "pack_bytes(&self.bytes[..8 * words.len()], words);"),
        ("words_are_stored_from_the_first_on", "unpack_bytes(words, &mut self.bytes[8 * from..8 * (from + words.len())]);", "unpack_bytes(words, &mut self.bytes[..8 * words.len()]);"),
    ],
}

for name, edits in EDITS.items():
    file = f"src/memory/{name.replace('.', '/')}.rt"
    source = (ROOT / "crates/far_rows" / file).read_text()
    shelf = ROOT / f"crates/far_rows/planted/memory.{name}.edits"
    found = {}
    for text in ("\n" + shelf.read_text() if shelf.exists() else "").split("\nedit: ")[1:]:
        found[text.split("\n", 1)[0]] = "edit: " + text.strip("\n") + "\n"
    for edit, old, new in edits:
        old, new = old.rstrip("\n"), new.rstrip("\n")
        assert source.count(old) == 1, (file, old, source.count(old))
        assert edit not in found, edit
        found[edit] = f"edit: {edit}\nfile: {file}\nold: {old}\nnew: {new}\n"
    shelf.write_text("\n".join(found[edit] for edit in sorted(found)))
