#!/bin/sh
# Compares the built programs with a search in plain Rust, on all small evenings and on random ones (10,000, or as many as the
# argument says). Wants rustc, and says so where there is none.
set -eu
cd "$(dirname "$0")/.."
if ! command -v rustc > /dev/null; then
    echo "tests/random.sh: not run, since there is no rustc"
    exit 0
fi
rustc --edition 2021 -O -o target/slow tests/slow/slow.rs
# in memory, where that can be had
if [ -w /dev/shm ]; then files=$(mktemp -d -p /dev/shm); else files=$(mktemp -d); fi
trap 'rm -rf "$files"' EXIT
target/slow target/bin "${1:-10000}" "$files"
