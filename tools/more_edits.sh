#!/usr/bin/env bash
# Tries the must-fail edits that the gate leaves out for its time, crates/NAME/more-edits/*.edit: all of them, or those of the crates named.
# It works on a copy outside the checkout, proves there first what the edits need, and ends as `rt must-fail` does. All of them take half an hour and more.
set -eu -o pipefail
cd "$(dirname "$0")/.."
copy=$(mktemp -d)
trap 'rm -rf "$copy"' EXIT
tar -c --exclude='crates/*/out' crates crates.txt | tar -x -C "$copy"
cd "$copy"
rm -rf crates/*/must-fail
if [ $# -eq 0 ]; then
    set -- $(for more in crates/*/more-edits; do basename "$(dirname "$more")"; done)
fi
for crate in "$@"; do
    mv "crates/$crate/more-edits" "crates/$crate/must-fail"
done
rt must-fail "$@"
