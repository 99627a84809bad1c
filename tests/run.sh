#!/usr/bin/env bash
# Evidence from outside the proofs: the C interface, the library held to a reference that was written from document 01 alone, and the
# programs where their output fails.
# A line for each part; any difference, fault or missing part ends it with a failure. SEED=n sets the seed of what is random.
set -eu
cd "$(dirname "$0")"
. ./needs.sh
need gcc gcc
need cargo cargo
need valgrind valgrind
seed=${SEED:-1}

archive
mkdir -p ../target
gcc -std=c11 -O2 -Wall -Wextra -Wpedantic -Werror -I ../include c/day.c ../crates/c_api/out/libc_api.a -o ../target/day
../target/day
./lost_writes.sh

cargo build --offline --release --quiet
built=target/release
$built/stored_days ../crates/allocate
$built/stored_calls cases/calls.txt
$built/named_places
$built/convert_days ../crates/allocate/data/*.day
# the random days on one core, the rest on the other
$built/random_days "$seed" 20000 >../target/random_days 2>&1 &
days=$!
$built/random_memory "$seed" 1000000
echo "under valgrind:"
valgrind --quiet --error-exitcode=1 ../target/day
valgrind --quiet --error-exitcode=1 $built/stored_calls cases/calls.txt
valgrind --quiet --error-exitcode=1 $built/random_memory "$((seed + 1))" 20000
$built/soak "$seed" 250
./performance.sh
ended=0
wait "$days" || ended=$?
cat ../target/random_days
exit "$ended"
