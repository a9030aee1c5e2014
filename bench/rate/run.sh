#!/bin/sh
# Times the rate of the static library beside C++ in one run. CXX: clang++ where it is there. BEFORE: the libmasuvelior.a of another commit, which then
# takes part as 'before'; its answers are not looked at.
set -e
cd "$(dirname "$0")"
root=$(cd ../.. && pwd)
CXX=${CXX:-$(command -v clang++ || command -v g++)}
out=$root/target/bench
(cd "$root/crates/masuvelior" && rt lib >/dev/null)
mkdir -p "$out"
if [ -n "$BEFORE" ]; then ../before.sh "$BEFORE" "$out"; fi
for f in peer run; do "$CXX" -std=c++17 -O3 ${BEFORE:+-DBEFORE} -I"$root/bindings/c" -c $f.cpp -o "$out/rate_$f.o"; done
"$CXX" "$out/rate_peer.o" "$out/rate_run.o" "$root/crates/masuvelior/out/libmasuvelior.a" ${BEFORE:+"$out/before.a"} -o "$out/rate"
"$out/rate"
