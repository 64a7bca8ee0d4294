#!/usr/bin/env bash
# Lays out a copy of the repository in which the programs that measure are crates too. Here they aren't (each file has `.in` behind
# its name): the gate would prove them anew each time, and no figure is a proof. A file with `.same` behind its
# name has the text of another, whose path from bench/programs it tells.
#
#     bench/lay_out.sh FOLDER     a folder that isn't there yet
#
# Then `rt run -- slow 1` in FOLDER/crates/bench_far_heap proves, builds and runs that program.
set -euo pipefail
root="$(cd "$(dirname "${BASH_SOURCE[0]}")/.." && pwd)"
to="${1:?bench/lay_out.sh FOLDER}"
mkdir "$to"
to="$(cd "$to" && pwd)"
(cd "$root" && git ls-files -z --cached --others --exclude-standard | xargs -0 cp --parents -t "$to")
programs="$to/bench/programs"
while IFS= read -r file; do
    at="$to/crates/${file#"$programs/"}"
    mkdir -p "$(dirname "$at")"
    case "$file" in
    *.same) cp "$root/bench/programs/$(cat "$file")" "${at%.same}" ;;
    *) mv "$file" "${at%.in}" ;;
    esac
done < <(find "$programs" -mindepth 2 -type f)
cat "$programs/crates.in" >>"$to/crates.txt"
rm -r "$programs"
