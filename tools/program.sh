#!/usr/bin/env bash
# Proves, builds and runs the program crates/NAME by `rt run`, and copies it to target/bin/NAME. That run is given crates/NAME/stdin, if there is one, and no
# arguments, and its output is not shown; what the proof and the build say is, on standard error.
#
#     tools/program.sh NAME        such as booth
set -eu
[ $# = 1 ] || { echo "program: say which: tools/program.sh NAME, such as booth" >&2; exit 1; }
cd "$(dirname "$0")/.."
[ -e "crates/$1/src/main.rt" ] || { echo "program: $1 is no program of crates/" >&2; exit 1; }
input=$PWD/crates/$1/stdin
[ -e "$input" ] || input=/dev/null
(cd "crates/$1" && rt run < "$input" > /dev/null)
mkdir -p target/bin
cp "crates/$1/out/$1" "target/bin/$1"
