#!/bin/sh
# fuzz.sh [COUNT [SECONDS [SEED [SAMPLE]]]]: gives random and spoiled inputs to the built programs, a million or as many as
# SECONDS (1,800) allow, and SAMPLE (60) of them also under valgrind, where it is there. Another seed gives other inputs; by
# default it is taken from the clock. Wants rustc, and says so where there is none.
set -eu
cd "$(dirname "$0")/.."
if ! command -v rustc > /dev/null; then
    echo "tests/fuzz.sh: not run, since there is no rustc"
    exit 0
fi
count=${1:-1000000}
seconds=${2:-1800}
seed=${3:-$(date +%s)}
sample=${4:-60}
rustc --edition 2021 -O -o target/fuzz tests/fuzz/fuzz.rs
# in memory, where that can be had
if [ -w /dev/shm ]; then files=$(mktemp -d -p /dev/shm); else files=$(mktemp -d); fi
trap 'rm -rf "$files"' EXIT
target/fuzz target/bin "$count" "$seconds" "$seed" "$files"
if [ "$sample" -gt 0 ] && command -v valgrind > /dev/null; then
    echo "under valgrind:"
    target/fuzz target/bin "$sample" "$seconds" "$seed" "$files" valgrind -q --error-exitcode=99 --leak-check=full
fi
