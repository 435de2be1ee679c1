#!/bin/sh
# build.sh PROGRAM..: proves and builds programs, each into target/bin.
set -eu
cd "$(dirname "$0")/.."
mkdir -p target/bin
for program in "$@"; do
    log=target/build-$program.log
    if ! (cd "crates/$program" && rt run -- --help) > "$log" 2>&1; then
        cat "$log"
        exit 1
    fi
    cp "crates/$program/out/$program" target/bin/
done
