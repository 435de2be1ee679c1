#!/bin/sh
# Writes the sample of check_sheet, byte by byte: 'entries' or 'sheet', of two kinds and six members. In kind 0 three bids and
# three asks trade at one price, in kind 1 two pairs trade as one, at two prices.
set -eu
. "$(dirname "$0")/bytes.sh"

bid() { b4 $((16777216 + $1)); }
ask() { b4 $((33554432 + $1)); }

# listed MEMBER CENTS
listed() { b2 "$1"; b4 "$2"; }

case $1 in
entries)
    b1 2; b2 6
    bid 9; bid 7; bid 5; ask 4; ask 5; ask 8
    bid 10; bid 8; b4 0; ask 3; ask 7; b4 0
    ;;
sheet)
    b2 2; b2 2; b4 13; b4 13
    b2 3; listed 0 9; listed 1 7; listed 2 5
    b2 3; listed 3 4; listed 4 5; listed 5 8
    b2 2; b2 1; b4 16; b4 14
    b2 2; listed 0 10; listed 1 8
    b2 2; listed 3 3; listed 4 7
    ;;
esac
