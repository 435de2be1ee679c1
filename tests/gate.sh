#!/bin/sh
# The gate: rt ci, and then the programs as users run them, beside a search in plain Rust and on spoiled inputs. Its last line
# is the last line of rt ci.
set -eu
cd "$(dirname "$0")/.."
status=$(mktemp)
log=$(mktemp)
trap 'rm -f "$status" "$log"' EXIT
{ rt ci 2>&1 || echo failed > "$status"; } | tee "$log"
[ ! -s "$status" ] || exit 1
# an edit that is no longer an edit of what stands there is refused by nobody
if grep '^rt: ok' "$log" | grep -q ', [0-9]* bad'; then
    echo "tests/gate.sh: an edit that must be refused is bad" >&2
    exit 1
fi
sh tests/cli.sh
sh tests/letters.sh
sh tests/random.sh
sh tests/fuzz.sh 8000 15 1 9
tail -n 1 "$log"
