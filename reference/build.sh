#!/usr/bin/env bash
# Builds everything beside the port: patches the published Rust, proves and archives what the port exports, builds the programs.
# Needs the Rattle toolchain (rt), python3 and cargo; no crate from outside.
set -eu -o pipefail
cd "$(dirname "$0")"
python3 patch.py
for crate in exports stages; do
    (cd .. && tools/staticlib.sh "$crate" | tail -n 1)
done
cargo build --release --offline
