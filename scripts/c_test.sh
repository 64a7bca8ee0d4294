#!/usr/bin/env bash
# Builds the library for C, and tries it from C, C++, Python and, where rustc is there, Rust. Where all is well it writes one line: how many tests passed.
#
#     scripts/c_test.sh [CALLS]     calls at random beside a model, of a worker and of a map each
set -euo pipefail
calls="${1:-300000}"
root="$(cd "$(dirname "${BASH_SOURCE[0]}")/.." && pwd)"
folder="$(mktemp -d)"
trap 'rm -rf "$folder"' EXIT
log="$folder/log"
passed=0

# runs a command, and shows what it wrote only where it failed
quiet() {
    "$@" >"$log" 2>&1 || {
        cat "$log" >&2
        echo "c_test.sh: failed: $*" >&2
        exit 1
    }
}

# runs a test
passes() {
    quiet "$@"
    passed=$((passed + 1))
}

quiet "$root/scripts/c_library" "$folder"
words=(-O1 -g -Wall -Wextra -Werror -pedantic -I "$folder/include")
library="$folder/lib/libfoxglovepeg.a"
cd "$folder"
mkdir files
for name in model map fuzz; do
    quiet cc -std=gnu99 "${words[@]}" -fsanitize=address,undefined "$root/c_api/test/$name.c" "$library" -o "$name"
    number="$calls"
    for place in memory files reserved file; do
        passes "./$name" "$number" "$place"
        number="$((calls / 6))"
    done
done
quiet cc -std=gnu99 "${words[@]}" -fsanitize=address,undefined "$root/c_api/test/full.c" "$library" -o full
mkdir small
if mount -t tmpfs -o size=2m none small 2>/dev/null; then
    trap 'umount "$folder/small"; rm -rf "$folder"' EXIT
    passes ./full files small
else
    passes ./full files
fi
quiet cc -std=gnu11 "${words[@]}" -fsanitize=address,undefined "$root/c_api/test/refused.c" "$root/crates/far_c/out/libfar_c.a" -o refused
passes ./refused
quiet cc -std=gnu11 "${words[@]}" -fsanitize=thread "$root/c_api/test/threads.c" "$root/c_api/support.c" "$root/crates/far_c/out/libfar_c.a" -pthread -o threads
passes ./threads files
if command -v valgrind >/dev/null; then
    for name in model map; do
        quiet cc -std=gnu99 "${words[@]}" "$root/c_api/test/$name.c" "$library" -o "$name-plain"
        passes valgrind --quiet --leak-check=full --error-exitcode=1 "./$name-plain" "$((calls / 30))" files
    done
fi
quiet cc -std=c99 "${words[@]}" -x c -c "$folder/include/foxglovepeg.h" -o header.o
quiet c++ -std=c++17 "${words[@]}" "$root/c_api/test/header.cpp" "$library" -o header
passes ./header
quiet cc -std=c99 -D_POSIX_C_SOURCE=200809L "${words[@]}" "$root/c_api/example/cache.c" -L "$folder/lib" -lfoxglovepeg -o cache
LD_LIBRARY_PATH="$folder/lib" passes ./cache 20000 1048576
LD_LIBRARY_PATH="$folder/lib" passes ./cache 20000 1048576 files
PYTHONPATH="$folder/python" passes python3 "$root/c_api/test/beside_dict.py" 20000
if command -v rustc >/dev/null; then
    rust=(rustc --edition 2021 -O -D warnings -L "$folder/lib" -L .)
    quiet "${rust[@]}" --crate-type rlib -l static=foxglovepeg "$folder/rust/foxglovepeg.rs"
    quiet "${rust[@]}" --extern foxglovepeg=libfoxglovepeg.rlib "$root/c_api/rust/words.rs"
    passes ./words
fi
echo "c_test.sh: $passed passed"
