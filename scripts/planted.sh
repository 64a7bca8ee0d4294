#!/usr/bin/env bash
# Tries the edits of crates/CRATE/planted, each of which the prover must refuse, in a copy of the repository. Run it when
# a contract of the crate changed.
#
#     scripts/planted.sh CRATE [SHARE]     SHARE as 2/3: the second third of the edits, so that several run side by side
#
# Prints what became of each edit, and at the end the names of those that were not refused; the status is then 1. The
# copy lies below /tmp and is removed at the end. An edit with a line `test:` is left out: it is proved, and the test or script that the line names refuses it.
set -euo pipefail
crate="${1:?scripts/planted.sh CRATE [SHARE]}"
share="${2:-1/1}"
root="$(cd "$(dirname "${BASH_SOURCE[0]}")/.." && pwd)"
[[ -d "$root/crates/$crate/planted" ]] || { echo "planted: crates/$crate/planted isn't there" >&2 && exit 2; }
work="$(mktemp -d /tmp/planted.XXXXXX)"
trap 'rm -rf "$work"' EXIT

# what was checked lies in out/, and is copied too
cp -a "$root/." "$work"
cd "$work"
rm -rf "crates/$crate/must-fail"
mkdir "crates/$crate/must-fail"
# (those that begin in a crate below are planted_together.py's)
scripts/edits.py "$crate" "crates/$crate/must-fail" "$share"
[[ -n "$(ls "crates/$crate/must-fail")" ]] || exit 0
rt must-fail "$crate" 2>&1 | tee "$work/said" || true

missed=0
for edit in "crates/$crate/must-fail/"*.edit; do
    name="${edit##*/}"
    if ! grep -qF "must-fail $crate/$name: refused, as it must be" "$work/said"; then
        echo "not refused: $name"
        missed=1
    fi
done
exit "$missed"
