#!/bin/sh
# Runs the built programs as a user would: what they print, and with which status they end. Ends with status 1 at the
# first difference.
set -eu
here=$(cd "$(dirname "$0")" && pwd)
cd "$here/.."
. tests/bytes.sh

log=$(mktemp)
sh tests/build.sh evening
evening=$PWD/target/bin/evening
got=$(mktemp)
trap 'rm -f "$log" "$got"' EXIT
cases=0

fail() {
    echo "tests/cli.sh: $1" >&2
    cat "$got" >&2
    exit 1
}

# expect STATUS TEXT NAME: the last run ended so, and wrote this
expect() {
    [ "$status" = "$1" ] || fail "$3: status $status and not $1"
    [ "$(cat "$got")" = "$2" ] || fail "$3: it wrote something else than '$2'"
    cases=$((cases + 1))
}


# header KINDS MEMBERS FUND
header() { b1 "$1"; b2 "$2"; b8 "$3"; }

tests/sample.sh | cmp -s - crates/evening/stdin || fail "crates/evening/stdin is not what tests/sample.sh writes"

# the evening of three bids and three asks
{
    header 1 6 0
    repeat 6 b4 100
    b1 0; b1 0; b1 0; b1 1; b1 1; b1 1
    message 0 1 0 1 9; message 1 1 0 1 7; message 2 1 0 1 5
    message 3 1 0 2 4; message 4 1 0 2 5; message 5 1 0 2 8
} > "$log"
status=0
"$evening" < "$log" > "$got" || status=$?
expect 0 "kind 0 pairs 2 trades 2 buyers 13 sellers 13 fund 0
member 0 buys 13
member 1 buys 13
member 3 sells 13
member 4 sells 13
fund 0" "three bids and three asks"

# refused NUMBER PLACE NAME: the bytes in $log do not open
refused() {
    status=0
    "$evening" < "$log" > "$got" 2> /dev/null || status=$?
    expect 1 "refused $1 at $2" "$3"
}

: > "$log";                                                          refused 9 0 "no bytes"
b1 0 > "$log";                                                       refused 9 0 "no kind"
b1 65 > "$log";                                                      refused 9 0 "too many kinds"
b1 1 > "$log";                                                       refused 9 1 "kinds alone"
{ b1 1; b1 1; } > "$log";                                            refused 9 1 "half of the members"
{ b1 1; b2 0; } > "$log";                                            refused 9 1 "no member"
{ b1 1; b2 2001; } > "$log";                                         refused 9 1 "too many members"
{ b1 255; b2 65535; } > "$log";                                      refused 9 0 "too much of both"
{ b1 1; b2 1; } > "$log";                                            refused 10 2000 "no fund"
{ b1 1; b2 1; b4 0; b2 0; b1 0; } > "$log";                          refused 10 2000 "a fund cut short"
{ header 1 1 1000000000000001; b4 0; b1 0; } > "$log";               refused 10 2000 "too much in the fund"
{ header 1 2 0; b4 0; b4 1000000001; b2 0; } > "$log";               refused 10 1 "too much in an account"
{ header 1 2 1000000000000001; b4 0; b4 1000000001; } > "$log";      refused 10 1 "an account before the fund"
{ header 1 2 1000000000000001; b4 0; b2 0; } > "$log";               refused 10 2000 "a fund before an account cut short"
{ header 1 2 0; b4 1000000001; } > "$log";                           refused 10 0 "an account that is there, and one that is not"
{ header 1 2 0; b4 1000000000; } > "$log";                           refused 11 1 "an account that is not there"
{ header 1 2 0; b4 0; b4 0; b1 0; } > "$log";                        refused 11 2 "a berth that is not there"

# the bounds themselves are taken
{ header 1 1 1000000000000000; b4 1000000000; b1 0; } > "$log"
status=0
"$evening" < "$log" > "$got" || status=$?
expect 0 "kind 0 pairs 0 trades 0 buyers 0 sellers 0 fund 0
fund 1000000000000000" "the bounds"

# the command line
status=0
"$evening" --help > "$got" < /dev/null || status=$?
[ "$status" = 0 ] && grep -q 'evening < INPUT' "$got" || fail "--help"
cases=$((cases + 1))
status=0
"$evening" --what > "$got" 2> "$log" < /dev/null || status=$?
expect 1 "" "an unknown argument"
grep -q -- '--what' "$log" || fail "an unknown argument is not said on standard error"

# misused TEXT ARGUMENTS..: evening takes them for a mistake, and TEXT is on standard error
misused() {
    text=$1
    shift
    status=0
    "$evening" "$@" > "$got" 2> "$log" < crates/evening/stdin || status=$?
    expect 1 "" "evening $*"
    grep -q -- "^evening: $text; evening --help says how it is used" "$log" || fail "evening $*: '$text' is not said"
}

misused 'unknown argument --what' --what
misused 'unknown argument --what' --what --out "$log.none"
misused 'no directory after --out' --out
misused 'an empty name after --out' --out ''
misused 'unknown argument more' --out "$log.none" more
[ ! -e "$log.none" ] || fail "a wrong command makes its directory"

# check_sheet
sh tests/build.sh check_sheet
check_sheet=$PWD/target/bin/check_sheet
files=$(mktemp -d)
trap 'rm -rf "$log" "$got" "$files"' EXIT
for file in entries sheet; do
    tests/sheet_sample.sh "$file" > "$files/$file"
    cmp -s "$files/$file" "crates/check_sheet/data/$file.bin" || fail "check_sheet's $file.bin is not what tests/sheet_sample.sh writes"
done

# checked STATUS TEXT NAME: what check_sheet says of the two files
checked() {
    status=0
    "$check_sheet" "$files/entries" "$files/sheet" > "$got" 2> /dev/null || status=$?
    expect "$1" "$2" "$3"
}

checked 0 accepted "the sample's sheet"
b1 0 >> "$files/sheet";                                              checked 1 "refused 13 at 92" "a sheet that goes on"
tests/sheet_sample.sh sheet | head -c 91 > "$files/sheet";           checked 1 "refused 13 at 91" "a sheet cut short"
: > "$files/sheet";                                                  checked 1 "refused 13 at 0" "no sheet"
{ tests/sheet_sample.sh sheet | head -c 52; b1 3; } > "$files/sheet"
checked 1 "refused 12 at 8" "a field that differs, and is cut short"
{ tests/sheet_sample.sh sheet | head -c 91; b1 1; } > "$files/sheet"
checked 1 "refused 12 at 15" "the last byte of the last row"
tests/sheet_sample.sh sheet > "$files/sheet"
b1 0 >> "$files/entries";                                            checked 1 "refused 13 at 51" "entries that go on"
tests/sheet_sample.sh entries | head -c 50 > "$files/entries";       checked 1 "refused 11 at 0" "entries cut short"
: > "$files/entries";                                                checked 1 "refused 9 at 0" "no entries"
b1 2 > "$files/entries";                                             checked 1 "refused 9 at 1" "kinds alone"
{ b1 65; b2 2000; } > "$files/entries";                              checked 1 "refused 9 at 0" "too many kinds"
{ b1 64; b2 2001; } > "$files/entries";                              checked 1 "refused 9 at 1" "too many members"
{ b1 2; b2 1; b4 0; b4 1; } > "$files/entries";                      checked 1 "refused 7 at 1" "an entry that is none"

status=0
"$check_sheet" --help > "$got" || status=$?
[ "$status" = 0 ] && grep -q 'check_sheet ENTRIES SHEET' "$got" || fail "check_sheet --help"
cases=$((cases + 1))
for words in "" "$files/entries" "$files/entries $files/sheet $files/sheet"; do
    status=0
    "$check_sheet" $words > "$got" 2> "$log" || status=$?
    expect 1 "" "check_sheet with wrong arguments"
    grep -q -- '--help' "$log" || fail "wrong arguments are not said on standard error"
done
status=0
"$check_sheet" "$files/none" "$files/sheet" > "$got" 2> "$log" || status=$?
expect 1 "" "a file that is not there"
grep -q "$files/none" "$log" || fail "a file that is not there is not said on standard error"

status=0
"$check_sheet" "$files/entries" "$files/none" > "$got" 2> "$log" || status=$?
expect 1 "" "a sheet that is not there"
grep -q "$files/none" "$log" || fail "a sheet that is not there is not said on standard error"

# evening --out
sample=crates/evening

# written STATUS DIR NAME: the sample with its files in DIR prints its whole result; what is said beside it is in $log
written() {
    status=0
    "$evening" --out "$2" < "$sample/stdin" > "$got" 2> "$log" || status=$?
    expect "$1" "$(cat "$sample/stdout")" "$3"
}

# said TEXT NAME: this is all that was said on standard error
said() {
    [ "$(grep -c '' "$log")" = 1 ] && grep -q "^evening: $1" "$log" || fail "$2: '$1' is not what standard error has"
}

# all_files DIR NAME: in DIR are the files of the sample, in which members 8 and 9 have no entry, and no others
letters="letter-0.bin letter-1.bin letter-2.bin letter-3.bin letter-4.bin letter-5.bin letter-6.bin letter-7.bin"
all_files() {
    ls "$1" > "$got"
    [ "$(paste -s -d ' ' "$got")" = "accounts.bin berths.bin entries.bin $letters sheet.bin" ] || fail "$2: other files"
    cases=$((cases + 1))
}

out=$files/out
written 0 "$out" "a directory that is to be made"
[ ! -s "$log" ] || fail "something is said where all is written"
all_files "$out" "a directory that is to be made"
written 0 "$files/a/b/c" "a directory in others that are to be made"
all_files "$files/a/b/c" "a directory in others that are to be made"
written 0 "$out" "a directory that is there"
diff -r "$out" "$files/a/b/c" > "$got" || fail "the same evening has other files"
for name in entries.bin sheet.bin letter-3.bin; do
    mkdir -p "$files/$name.is/$name"
    written 1 "$files/$name.is" "$name is a directory"
    said "$files/$name.is/$name can't be written" "$name is a directory"
    all_files "$files/$name.is" "$name is a directory"
done
cmp -s "$out/letter-7.bin" "$files/sheet.bin.is/letter-7.bin" || fail "a letter is not whole without its sheet"
written 1 "$out/sheet.bin/below" "a directory below a file"
said "$out/sheet.bin/below can't be made" "a directory below a file"
written 1 "$out/sheet.bin" "a file for a directory"
said "$out/sheet.bin" "a file for a directory"

status=0
b1 1 | "$evening" --out "$files/closed" > "$got" 2> /dev/null || status=$?
expect 1 "refused 9 at 1" "an evening that does not open"
[ ! -e "$files/closed" ] || fail "an evening that does not open makes its directory"

# the checkers on these files
sh tests/build.sh check_letter
check_letter=$PWD/target/bin/check_letter

# changed FILE PLACE BYTE: FILE with another byte at PLACE
changed() {
    head -c "$2" "$1"
    b1 "$3"
    tail -c "+$(($2 + 2))" "$1"
}

cp "$out/entries.bin" "$files/entries"
cp "$out/sheet.bin" "$files/sheet"
checked 0 accepted "the sheet of an evening"
changed "$out/sheet.bin" 0 4 > "$files/sheet";                       checked 1 "refused 12 at 0" "other pairs"
changed "$out/sheet.bin" 4 13 > "$files/sheet";                      checked 1 "refused 12 at 2" "another price"
changed "$out/sheet.bin" 373 1 > "$files/sheet";                     checked 1 "refused 12 at 63" "another last byte"
cp "$out/sheet.bin" "$files/sheet"
changed "$out/entries.bin" 3 11 > "$files/entries";                  checked 1 "refused 12 at 5" "another bid"
changed "$out/entries.bin" 6 3 > "$files/entries";                   checked 1 "refused 7 at 0" "an entry of no sort"

# judged STATUS TEXT NAME: what check_letter says of the letter
judged() {
    status=0
    "$check_letter" "$files/letter" > "$got" 2> /dev/null || status=$?
    expect "$1" "$2" "$3"
}

for member in 0 1 2 3 4 5 6 7; do
    cp "$out/letter-$member.bin" "$files/letter"
    judged 0 accepted "the letter of member $member"
done
letter=$out/letter-0.bin
changed "$letter" 10 13 > "$files/letter";                           judged 1 "refused 14 at 0" "another price in a letter"
changed "$letter" 65 1 > "$files/letter";                            judged 1 "refused 14 at 2" "a trade that was none"
changed "$letter" 172 3 > "$files/letter";                           judged 1 "refused 14 at 6" "an unknown sort in the last line"
changed "$letter" 2 6 > "$files/letter";                             judged 1 "refused 13 at 171" "a letter of a line less"
changed "$letter" 2 8 > "$files/letter";                             judged 1 "refused 13 at 199" "a letter of a line more"

# mistaken TEXT ARGUMENTS..: check_letter takes them for a mistake, and TEXT is on standard error
mistaken() {
    text=$1
    shift
    status=0
    "$check_letter" "$@" > "$got" 2> "$log" || status=$?
    expect 1 "" "check_letter $*"
    grep -q -- "^check_letter: .*$text" "$log" || fail "check_letter $*: '$text' is not said on standard error"
}

mistaken '--help'
mistaken '--help' "$letter" "$letter"
mistaken "$files/none" "$files/none"
mistaken "$files" "$files"

echo "tests/cli.sh: $cases cases as they should be"
