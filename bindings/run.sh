#!/usr/bin/env bash
# Builds and runs what C and Rust callers have: the examples, their tests, and the recorded queries through the C header.
# Needs cc and cargo, and the archive that `tools/staticlib.sh exports` makes. BIVELONDRY_ARCHIVE names another folder that has it.
set -eu
cd "$(dirname "$0")"
archive="${BIVELONDRY_ARCHIVE:-$PWD/../target/staticlib}/libexports.a"
export BIVELONDRY_ARCHIVE="$(dirname "$archive")"
if [ ! -e "$archive" ]; then
    echo "bindings: $archive is missing: run \`tools/staticlib.sh exports\` in the repository" >&2
    exit 1
fi
for tool in cc cargo; do
    command -v $tool > /dev/null || { echo "bindings: $tool is not installed" >&2; exit 1; }
done
built=$PWD/../target/bindings
mkdir -p "$built"

echo "-- C: example, tests, recorded queries"
for name in case_a forecast test replay; do
    cc -std=c11 -pedantic -Wall -Wextra -Werror -O2 -I../include "c/$name.c" "$archive" -lm -o "$built/$name"
done
for name in case_a forecast; do
    "$built/$name" | tee "$built/$name.c.txt"
done
"$built/test"
"$built/replay" ../crates/replay/stdin

echo "-- Rust: tests, examples"
(cd rust && cargo test --offline --quiet --target-dir "$built/rust")
for name in case_a forecast; do
    (cd rust && cargo run --offline --quiet --target-dir "$built/rust" --example "$name") > "$built/$name.rust.txt"
    diff "$built/$name.c.txt" "$built/$name.rust.txt" || { echo "bindings: the Rust example prints something else than the C example" >&2; exit 1; }
done

echo "bindings: C and Rust answer as they must"
