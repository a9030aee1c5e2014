#!/bin/sh
# Builds the proved operations as a static library and times them beside C++ in one run. CXX: clang++ where it is there.
set -e
cd "$(dirname "$0")"
root=$(cd ../.. && pwd)
CXX=${CXX:-$(command -v clang++ || command -v g++)}
(cd "$root/crates/bit_rows_bench" && rt lib >/dev/null)
mkdir -p "$root/target/bench"
for f in peer run; do "$CXX" -std=c++17 -O3 $FLAGS -c $f.cpp -o "$root/target/bench/$f.o"; done
"$CXX" "$root/target/bench/peer.o" "$root/target/bench/run.o" "$root/crates/bit_rows_bench/out/libbit_rows_bench.a" -o "$root/target/bench/bit_rows"
"$root/target/bench/bit_rows"
