# Integers as bytes, the lowest first: b1, b2, b4 and b8 write one each, and message writes a message.
b1() { printf "\\$(printf %03o "$1")"; }
b2() { b1 $(($1 & 255)); b1 $(($1 >> 8 & 255)); }
b4() { b2 $(($1 & 65535)); b2 $(($1 >> 16 & 65535)); }
b8() { b4 $(($1 & 4294967295)); b4 $(($1 >> 32 & 4294967295)); }

# message MEMBER NUMBER KIND SORT CENTS
message() { b2 "$1"; b4 "$2"; b1 "$3"; b1 "$4"; b4 "$5"; }

# repeat COUNT COMMAND..
repeat() {
    count=$1
    shift
    while [ "$count" -gt 0 ]; do
        "$@"
        count=$((count - 1))
    done
}
