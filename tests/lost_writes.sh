#!/usr/bin/env bash
# Each write of a program to standard output is made to fail, one in each run: what it had is lost, and nothing else. The programs are those
# that `rt ci` made.
set -eu
cd "$(dirname "$0")"
. ./needs.sh
need gcc gcc
made=../target/lost_writes
mkdir -p $made
gcc -std=c11 -O2 -Wall -Wextra -Wpedantic -Werror -shared -fPIC -o $made/fail_write.so c/fail_write.c

fail() {
    echo "$*" >&2
    exit 1
}

# the bytes of the whole output without LENGTH of them after the first START
without() { # START LENGTH
    head -c "$1" $made/whole
    tail -c +$(($1 + $2 + 1)) $made/whole
}

lost_alone() { # PROGRAM [ARGUMENT]
    local name=${*##*/} start=0 length writes=0
    "$@" >$made/whole || fail "$name: status $?"
    while :; do
        FAIL_WRITE=$((writes + 1)) LD_PRELOAD=$made/fail_write.so "$@" >$made/written 2>$made/lost ||
            fail "$name: status $? where write $((writes + 1)) fails"
        length=$(stat -c %s $made/lost)
        without $start "$length" | cmp - $made/written || fail "$name: write $((writes + 1)) is not lost alone"
        [ "$length" -gt 0 ] || break
        start=$((start + length))
        writes=$((writes + 1))
    done
    [ $start -eq "$(stat -c %s $made/whole)" ] || fail "$name: $start bytes in $writes writes, and others elsewhere"
    echo "$name: $writes writes, each made to fail: no other byte of its $start is lost"
}

lost_alone ../crates/isin_vectors/out/isin_vectors
lost_alone ../crates/allocate/out/allocate
lost_alone ../crates/allocate/out/allocate cases/records.day
