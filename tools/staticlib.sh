#!/usr/bin/env bash
# Proves and builds the static library crates/NAME by `rt lib`, and copies its archive to target/staticlib/libNAME.a, where bindings/, reference/ and
# tools/install.sh find it.
#
#     tools/staticlib.sh NAME        exports, which C and Rust callers link, or stages, which reference/ links
set -eu
[ $# = 1 ] || { echo "staticlib: say which: tools/staticlib.sh exports, or tools/staticlib.sh stages" >&2; exit 1; }
cd "$(dirname "$0")/.."
made=crates/$1/out/lib$1.a
grep -q "^$1 staticlib\b" crates.txt || { echo "staticlib: $1 is no static library of crates.txt" >&2; exit 1; }
(cd "crates/$1" && rt lib)
mkdir -p target/staticlib
cp "$made" "target/staticlib/lib$1.a"
