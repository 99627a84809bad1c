#!/usr/bin/env bash
# The library against the fast reference: time on this machine, and instructions by callgrind. Prints two tables, and fails where the library
# has more instructions: these are the same on every run, where times are not.
set -eu
cd "$(dirname "$0")"
. ./needs.sh
need cargo cargo
need valgrind valgrind
archive
cargo build --offline --profile measured --quiet --bin bench
bench=target/measured/bench

echo "$(grep -m 1 '^model name' /proc/cpuinfo | cut -d: -f2 | xargs), $(rustc --version | cut -d' ' -f1,2), release build"
echo
$bench

# instructions from entering the call to leaving it
count() { # CASE SIDE FUNCTION
    valgrind --tool=callgrind --callgrind-out-file=/dev/null --toggle-collect="$3" $bench "$1" "$2" 2>&1 | sed -n 's/.*Collected : //p'
}

echo
echo "| Call | Library, instructions | Fast reference, instructions | Ratio |"
echo "|---|---|---|---|"
$bench names | while IFS=: read -r call name; do
    library=$(count "$name" library "allocation_$call")
    fast=$(count "$name" fast "*::Fast::$call")
    echo "| $name | $library | $fast | $(awk "BEGIN { printf \"%.2f\", $library / $fast }") |"
    [ "$library" -le "$fast" ] || { echo "$name: more instructions than the fast reference" >&2; exit 1; }
done
