#!/bin/sh
# Writes the sample evening: eight kinds, each with the bids of members 0 to 3 and the asks of members 4 to 7, and among
# them a message for each way of being refused. Member 8 owns 255 berths of kind 0, and member 9 has no money.
set -eu
. "$(dirname "$0")/bytes.sh"

b1 8
b2 10
b8 1000
for member in 0 1 2 3 4 5 6 7 8; do b4 100; done
b4 0
for member in 0 1 2 3; do repeat 8 b1 0; done
for member in 4 5 6 7; do repeat 8 b1 1; done
b1 255; repeat 7 b1 0
repeat 8 b1 0

# kind SORT FIRST-MEMBER NUMBERS..: one message for each number
row() {
    kind=$1 sort=$2 member=$3
    shift 3
    for cents; do
        message "$member" $((kind + 1)) "$kind" "$sort" "$cents"
        member=$((member + 1))
    done
}

row 0 1 0 10 8 6 3;  row 0 2 4 2 4 5 9
row 1 1 0 9 7 5;     row 1 2 4 4 5 8
message 10 1 0 1 5          # no such member
message 0 2 0 1 5           # the number of its last message
row 2 1 0 5;         row 2 2 4 5
message 0 4 8 1 5           # no such kind
message 0 4 0 3 5           # no such sort
row 3 1 0 9 9 9;     row 3 2 4 1 1 1
message 8 1 1 1 0           # a bid of nothing
message 8 1 1 1 10000001    # a bid of too much
message 8 1 1 0 1           # nothing, for a cent
row 4 1 0 7 4;       row 4 2 4 5 6
message 8 1 1 1 101         # more than its account
message 8 1 0 1 1           # a 256th berth
message 8 1 1 2 1           # an ask without a berth
message 9 1 1 1 1           # a bid without money
                     row 5 2 4 3
row 6 1 0 10 7 6 5;  row 6 2 4 3 5 6 7
row 7 1 0 8 8 3;     row 7 2 4 2 8 9
message 8 5 1 1 60          # taken, and then given up
message 8 6 2 1 41          # both together are more than its account
message 8 7 1 0 0
b1 7; b1 0; b1 1            # the beginning of a message
