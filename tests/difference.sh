#!/usr/bin/env bash
# The differential test: the proved library beside the second implementation.
# tests/difference.sh [SEED [COUNT]]; without arguments, the seed and count of the gate.
set -euo pipefail
cd "$(dirname "${BASH_SOURCE[0]}")/.."

# The folder of libyardbook.a, and a target folder of its own.
export YARDBOOK_LIBRARY=$PWD/target/staticlib
export CARGO_TARGET_DIR=$PWD/difference/target

log=$(mktemp)
trap 'rm -f "$log"' EXIT
tools/archive >"$log" 2>&1 || { cat "$log" >&2; exit 1; }
cargo build --manifest-path difference/Cargo.toml --release --offline --locked --quiet
if [ $# -eq 0 ]; then
    cargo test --manifest-path difference/Cargo.toml --release --offline --locked --quiet
fi
"$CARGO_TARGET_DIR/release/difference" "$@"
