#!/bin/bash
# Makes the traces of this folder anew: bash examples/trace.sh. It needs Valgrind and a C compiler.
#
# A program is built without position independence, so that the addresses of its code and of its
# static data are the same at each run (those of its stack depend on the environment), and traced by
# lackey. Of the trace the lines between the two stores to `mark` are kept: without them it would
# begin with the accesses of the program's start, about a hundred thousand.
set -eu
cd "$(dirname "$0")"
work=$(mktemp -d)
trap 'rm -rf "$work"' EXIT

# traced NAME WORD..: the kept lines of the lackey trace of NAME.c, run with these words
traced() {
    ${CC:-cc} -O1 -static -no-pie -o "$work/$1" "$1.c"
    local mark
    mark=$(nm "$work/$1" | awk '$3 == "mark" { print $1 }' | sed 's/^0*//')
    valgrind --tool=lackey --trace-mem=yes --log-file="$work/log" "$work/$1" "${@:2}"
    awk -v mark="$mark" '
        $1 == "S" { split($2, part, ","); at = tolower(part[1]); sub(/^0+/, "", at) }
        $1 == "S" && at == mark { inside = !inside; next }
        inside' "$work/log"
}

# din: the same as din lines. A modify is a read and then a write.
din() {
    awk '{ split($2, part, ","); at = part[1]; sub(/^0+/, "", at); if (at == "") at = 0 }
        $1 == "I" { print "2 " at }
        $1 == "L" || $1 == "M" { print "0 " at }
        $1 == "S" || $1 == "M" { print "1 " at }'
}

traced transpose > transpose.lackey
traced transpose blocks | grep -v "^I" > blocks.lackey
traced sort | din > sort.din
wc -lc ./*.lackey ./*.din
