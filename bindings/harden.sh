#!/usr/bin/env bash
# Runs the tests of C and Rust and the recorded queries under AddressSanitizer and valgrind, and fuzzes packet reader and query for so many seconds
# each. What was seen is in docs/HARDENING.md.
#
#     bindings/harden.sh [SECONDS]        60 unless said
#
# Needs clang with its runtime libraries, and valgrind (apt-get install clang valgrind), and the archive of `tools/staticlib.sh exports`.
set -euo pipefail
cd "$(dirname "$0")"
seconds="${1:-60}"
archive="${BIVELONDRY_ARCHIVE:-$PWD/../target/staticlib}/libexports.a"
export BIVELONDRY_ARCHIVE="$(dirname "$archive")"
if [ ! -e "$archive" ]; then
    echo "bindings: $archive is missing: run \`tools/staticlib.sh exports\` in the repository" >&2
    exit 1
fi
for tool in cc clang valgrind cargo; do
    command -v $tool > /dev/null || { echo "bindings: $tool is not installed" >&2; exit 1; }
done
built=$PWD/../target/bindings
mkdir -p "$built/corpus/packet" "$built/corpus/query" "$built/found"

echo "-- AddressSanitizer and UndefinedBehaviorSanitizer"
for name in case_a forecast test replay; do
    cc -std=c11 -pedantic -Wall -Wextra -Werror -g -O1 -fsanitize=address,undefined -fno-sanitize-recover=all -I../include "c/$name.c" "$archive" -lm -o "$built/$name.asan"
done
"$built/case_a.asan" > /dev/null
"$built/forecast.asan" > /dev/null
"$built/test.asan"
"$built/replay.asan" ../crates/replay/stdin "$built/corpus/query" "$built/corpus/packet"
# a stable compiler has the sanitizer, but lets only this variable turn it on
(cd rust && RUSTC_BOOTSTRAP=1 RUSTFLAGS=-Zsanitizer=address cargo test --offline --quiet --tests --target x86_64-unknown-linux-gnu --target-dir "$built/rust-asan" | grep "^test result: ok. [1-9]")

echo "-- valgrind"
for name in test replay; do
    cc -std=c11 -Wall -Wextra -Werror -g -O1 -I../include "c/$name.c" "$archive" -lm -o "$built/$name.plain"
done
valgrind --quiet --error-exitcode=1 --leak-check=full "$built/test.plain"
valgrind --quiet --error-exitcode=1 --leak-check=full "$built/replay.plain" ../crates/replay/stdin
(cd rust && CARGO_TARGET_X86_64_UNKNOWN_LINUX_GNU_RUNNER="valgrind --quiet --error-exitcode=1" cargo test --offline --quiet --tests --target-dir "$built/rust" | grep "^test result: ok. [1-9]")

for name in packet query; do
    echo "-- fuzzing the $name for $seconds s"
    clang -std=c11 -D_GNU_SOURCE -Wall -Wextra -Werror -g -O1 -fsanitize=fuzzer,address,undefined -fno-sanitize-recover=all -I../include "fuzz/$name.c" "$archive" -lm -o "$built/fuzz_$name"
    "$built/fuzz_$name" -max_total_time="$seconds" -timeout=20 -rss_limit_mb=2048 -max_len=65536 -print_final_stats=1 -artifact_prefix="$built/found/" "$built/corpus/$name" > "$built/fuzz_$name.txt" 2>&1 || {
        tail -n 30 "$built/fuzz_$name.txt" >&2
        echo "bindings: fuzzing the $name found something: its input is in $built/found" >&2
        exit 1
    }
    grep -E "^answers|^Done" "$built/fuzz_$name.txt"
done
echo "bindings: nothing found"
