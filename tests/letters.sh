#!/bin/sh
# Runs check_letter as a user would: what it prints, and with which status it ends. Ends with status 1 at the first difference.
set -eu
here=$(cd "$(dirname "$0")" && pwd)
cd "$here/.."
. tests/bytes.sh

letter=$(mktemp)
got=$(mktemp)
trap 'rm -f "$letter" "$got"' EXIT
sh tests/build.sh check_letter
check_letter=$PWD/target/bin/check_letter
cases=0

fail() {
    echo "tests/letters.sh: $1" >&2
    cat "$got" >&2
    exit 1
}

# line SORT CENTS TRADED PRICE BID ASK NEXT_BID NEXT_ASK TIE: a line of kind 0
line() { b1 0; b1 "$1"; b4 "$2"; b1 "$3"; b4 "$4"; b4 "$5"; b4 "$6"; b4 "$7"; b4 "$8"; b1 "$9"; }

# judged STATUS TEXT NAME: what is said of the letter
judged() {
    status=0
    "$check_letter" "$letter" > "$got" 2> /dev/null || status=$?
    [ "$status" = "$1" ] || fail "$3: status $status and not $1"
    [ "$(cat "$got")" = "$2" ] || fail "$3: it wrote something else than '$2'"
    cases=$((cases + 1))
}

# bids 9 7 5, asks 4 5 8: two pairs, both at 13 half cents
first() { line 1 9 1 13 7 5 5 8 0; }
last() { line 1 7 1 13 7 5 5 8 2; }

{ b2 0; b1 0; } > "$letter";                                    judged 0 accepted "no line"
{ b2 0; b1 2; first; last; } > "$letter";                       judged 0 accepted "two lines"
{ b2 0; b1 3; first; last; line 2 8 0 0 7 5 5 8 0; } > "$letter"; judged 0 accepted "a seller who does not trade"
{ b2 0; b1 3; first; last; line 1 7 1 12 7 5 5 8 2; } > "$letter"; judged 1 "refused 14 at 2" "half a cent less"
{ b2 0; b1 2; line 1 7 0 0 7 5 5 8 2; last; } > "$letter";      judged 1 "refused 14 at 0" "no trade in the last pair"
{ b2 0; b1 2; first; line 1 7 1 13 7 5 5 8 0; } > "$letter";    judged 1 "refused 14 at 1" "a tie that is not told"
{ b2 0; b1 1; line 3 7 1 13 7 5 5 8 2; } > "$letter";           judged 1 "refused 14 at 0" "no such sort"
{ b2 0; b1 1; line 1 9 1 13 7 5 6 6 0; } > "$letter";           judged 1 "refused 14 at 0" "next numbers that are a pair"
: > "$letter";                                                  judged 1 "refused 13 at 0" "no bytes"
{ b2 0; b1 2; first; } > "$letter";                             judged 1 "refused 13 at 31" "a line too few"
{ b2 0; b1 1; first; b1 0; } > "$letter";                       judged 1 "refused 13 at 31" "a byte too many"
{ b2 0; b1 2; line 1 9 1 12 7 5 5 8 0; } > "$letter";           judged 1 "refused 14 at 0" "a wrong line before the end"

# the command line
status=0
"$check_letter" --help > "$got" || status=$?
[ "$status" = 0 ] && grep -q 'check_letter FILE' "$got" || fail "--help"
for arguments in "" "$letter $letter" "$letter.none"; do
    status=0
    # shellcheck disable=SC2086
    "$check_letter" $arguments > /dev/null 2> "$got" || status=$?
    [ "$status" = 1 ] && grep -q '^check_letter: ' "$got" || fail "arguments '$arguments'"
    cases=$((cases + 1))
done
echo "tests/letters.sh: $cases cases as they should be"
